//! Made-up calls from outside. A round of aims goes over every call, every
//! refusal of it and every single way in which a book isn't sound; inputs with
//! seeds that follow one another go on where the last one stopped.

mod aims;
mod archives;
mod books;
mod breaches;
pub mod desk;
mod endings;
pub mod figures;
mod given;
mod lists;
mod most;
pub mod numbers;
mod overs;
mod pieces;
mod records;
pub mod statements;

use crate::listed;
use crate::make::maker::Maker;
use crate::make::mixed::any_step;
use crate::make::rng::Rng;
use crate::model::calls::{Call, LIST_MOST};
use crate::model::*;
use crate::tally::names;
pub use endings::ENDINGS;

/// How many calls an input has before its ending.
pub const CALLS: usize = 80;

/// The calls of one input, one after the other, and its ending: one of
/// `ENDINGS`, the first of which is none at all.
pub struct Asked {
    pub bytes: Vec<u8>,
    pub ending: &'static str,
    /// How many of its books are of version 1.
    pub first_versions: u64,
}

pub fn make(seed: u64) -> Asked {
    let mut rng = Rng::new(seed, 0xA5CED);
    let aims = aims::round();
    let start = (seed as usize).wrapping_mul(CALLS);
    let mut bytes = Vec::new();
    let mut first_versions = 0;
    for place in 0..CALLS {
        let call = aims[start.wrapping_add(place) % aims.len()](&mut rng);
        let first = call.book().and_then(bookfile::first_bytes);
        let first = first.filter(|_| rng.one_in(4));
        first_versions += u64::from(first.is_some());
        match first {
            Some(book) => call.lay_over(&mut bytes, &book),
            None => call.lay(&mut bytes),
        }
    }
    let all: Vec<&str> = names(ENDINGS).collect();
    let ending = all[seed as usize % all.len()];
    endings::put(ending, &mut bytes, &mut rng);
    Asked {
        bytes,
        ending,
        first_versions,
    }
}

/// How many inputs it takes to go over all aims and all endings.
pub fn whole_round() -> usize {
    let inputs = (aims::round().len() + CALLS - 1) / CALLS;
    inputs.max(names(ENDINGS).count())
}

listed! {
    /// A room beside the length wanted.
    Room: Exact, OneLess, OneMore, ThreeMore, Nothing, Most
}

impl Room {
    fn of(self, wanted: usize) -> usize {
        match self {
            Room::Exact => wanted,
            Room::OneLess => wanted.saturating_sub(1),
            Room::OneMore => wanted + 1,
            Room::ThreeMore => wanted + 3,
            Room::Nothing => 0,
            Room::Most => LIST_MOST,
        }
    }
}

/// A sound book of any kind.
pub fn any_sound(rng: &mut Rng) -> Table {
    books::sound(rng)
}

/// A book with this fault alone by this rule.
pub fn unsound(fault: Fault, rule: Rule, rng: &mut Rng) -> Table {
    breaches::with(fault, rule, rng)
}

/// A book to be taken over, or not.
pub fn to_take_over(place: u64, rng: &mut Rng) -> Table {
    overs::book(overs::OVERS[place as usize % overs::OVERS.len()], rng)
}

/// A sound book that is to be archived, a kind of it for each place.
pub fn to_archive(place: u64, rng: &mut Rng) -> Table {
    let retired = archives::Retired::ALL[place as usize % archives::Retired::ALL.len()];
    let gaps = numbers::Gaps::ALL[place as usize % numbers::Gaps::ALL.len()];
    archives::with_retired(retired, gaps, rng)
}

/// A record that no 4, 5 or 6 is given for.
pub fn good_record(rng: &mut Rng) -> Values {
    records::good_values(rng)
}

/// A piece for this book.
pub fn with_steps(book: &Table, rng: &mut Rng) -> Vec<u8> {
    let many = rng.below(60);
    pieces::steps(book, many, rng)
}

/// A piece for this book that leaves retired accounts, where it can.
pub fn with_retirings(book: &Table, rng: &mut Rng) -> Vec<u8> {
    let book = match book.book() {
        Some(book) => book,
        None => return Vec::new(),
    };
    let mut maker = Maker::over(book, rng.next());
    for _ in 0..rng.below(40) {
        any_step(&mut maker);
    }
    for code in [OPEN_TM, OPEN_CP] {
        let before = maker.book.count;
        let opened = maker.opened(code, 0);
        if maker.book.count > before {
            maker.say(OPEN_CLIENT, 0, opened, &[]);
            maker.say(RETIRE, 0, opened + 1, &[]);
            maker.say(RETIRE, 0, opened, &[]);
        }
    }
    maker.bytes
}

/// Any call on any book.
fn any_call(rng: &mut Rng) -> Call {
    let aims = aims::round();
    let aim = rng.below(aims.len() as u64) as usize;
    aims[aim](rng)
}
