//! Made-up texts of day files: lines of every kind, good and bad, and a book to
//! number their records from.

mod cases;
pub mod said;

use super::froms::{From, Held};
use crate::make::rng::Rng;
use crate::model::*;
pub use cases::{all, Case};
use said::{dressed, filled, padded};

pub struct Line {
    pub kind: &'static str,
    /// What it must be told with, or 0.
    pub fault: u8,
    pub bytes: Vec<u8>,
}

pub struct Text {
    pub lines: Vec<Line>,
    /// With it the last line says nothing.
    pub ends_with_newline: bool,
    /// A text that isn't there is named all the same.
    pub is_there: bool,
    pub from: From,
    /// Whether the running serial comes to 0 again.
    pub wraps: bool,
}

impl Text {
    pub fn bytes(&self) -> Vec<u8> {
        let lines: Vec<&[u8]> = self
            .lines
            .iter()
            .map(|line| line.bytes.as_slice())
            .collect();
        let mut bytes = lines.join(&b'\n');
        if self.ends_with_newline {
            bytes.push(b'\n');
        }
        bytes
    }
}

/// So many texts go over all that they are made for, though some have no FROM
/// that is a book, or aren't there.
pub fn whole_round() -> u64 {
    3 * all().len() as u64
}

/// Texts with seeds that follow one another go round the kinds of lines.
pub fn make(seed: u64) -> Text {
    let mut rng = Rng::new(seed, 0x7E57);
    let all = all();
    let good = all.iter().copied().filter(Case::is_short_and_good);
    let good: Vec<Case> = good.collect();
    let case = all[(seed % all.len() as u64) as usize];
    let before = match seed % 11 {
        0 => 3_000,
        1 => 0,
        _ => rng.between(1, 12),
    };
    let (from, running) = start(seed, before, &mut rng);
    let mut lines = Lines::from(running);
    for _ in 0..before {
        lines.add(rng.pick(&good), &mut rng);
    }
    lines.add(case, &mut rng);
    let after = if case.fault == 0 { good } else { all };
    for _ in 0..rng.below(4) {
        lines.add(rng.pick(&after), &mut rng);
    }
    Text {
        lines: lines.all,
        ends_with_newline: rng.one_in(2),
        is_there: seed % 41 != 0,
        from,
        wraps: lines.wraps,
    }
}

/// FROM and its serial, which more often than not comes to 65,535 within the
/// text.
fn start(seed: u64, many: u64, rng: &mut Rng) -> (From, u16) {
    let drawn = rng.next() as u16;
    let near = 0u16.wrapping_sub(rng.between(1, many / 3 + 1) as u16);
    let serial = rng.pick(&[drawn, near, near]);
    let held = match seed % 13 {
        0 | 1 => return (From::Nowhere, 0),
        2 | 3 => return (From::Dash, 0),
        4 => Held::Unsound,
        5 => Held::First,
        6 => Held::NoBook,
        _ => Held::Sound,
    };
    (From::file(held, serial, rng), serial)
}

struct Lines {
    all: Vec<Line>,
    running: u16,
    wraps: bool,
}

impl Lines {
    fn from(running: u16) -> Lines {
        Lines {
            all: Vec::new(),
            running,
            wraps: false,
        }
    }

    fn add(&mut self, case: Case, rng: &mut Rng) {
        let Case { kind, fault, .. } = case;
        let said = filled(rng.pick(&case.ways()), self.running, rng);
        let bytes = match case.length {
            Some(length) => padded(&said, length, rng),
            None => dressed(&said, rng),
        };
        let record = text::line_bytes(&bytes, self.running).unwrap_or_default();
        let after = text::moved_on(self.running, &record);
        self.wraps |= after < self.running;
        self.running = after;
        self.all.push(Line { kind, fault, bytes });
    }
}
