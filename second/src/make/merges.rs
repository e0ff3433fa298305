//! Made-up mergings: two counters' files, and a book to number them from.

use super::asked::good_record;
use super::froms::{From, Held};
use crate::listed;
use crate::make::rng::Rng;
use crate::model::programs::MERGE_MOST;
use crate::model::*;

/// Files of A and B, None for one that isn't there, and FROM.
pub struct Merging {
    pub files: [Option<Vec<u8>>; 2],
    pub from: From,
}

/// Where the first record at fault stands.
#[derive(Clone, Copy)]
enum Spot {
    First,
    Between,
    Last,
}

listed! {
    /// What is wrong with a record: 2, 4, 5, and 6 for an amount above the ceiling or
    /// for one of 0.
    Bad: Cut, Code, Mark, Above, Nothing
}

#[derive(Clone, Copy)]
enum Sheet {
    Empty,
    Good,
    /// Its first fault.
    Fault(Bad, Spot),
    /// As long as it may be, and longer.
    Longest,
    TooLong,
    Missing,
}

/// The book that the serials go on from.
#[derive(Clone, Copy)]
enum Start {
    Nowhere,
    Dash,
    Sound,
    Unsound,
    /// Of version 1.
    First,
    /// "The serial after 65,535 is 0": within A, with B's first, within B.
    WrapsInA,
    WrapsBetween,
    WrapsInB,
    NoBook,
}

type Case = ([Sheet; 2], Start);

const STARTS: [Start; 8] = [
    Start::Nowhere,
    Start::Dash,
    Start::Sound,
    Start::Unsound,
    Start::First,
    Start::WrapsInA,
    Start::WrapsBetween,
    Start::WrapsInB,
];

/// So many mergings go over all that they are made for.
pub fn whole_round() -> u64 {
    round().len() as u64
}

fn round() -> Vec<Case> {
    let good = Sheet::Good;
    let mut cases: Vec<Case> = STARTS.map(|start| ([good, good], start)).to_vec();
    let mut starts = STARTS[..5].iter().copied().cycle();
    let mut put = |files| cases.extend(starts.next().map(|start| (files, start)));
    for bad in Bad::ALL {
        for spot in [Spot::First, Spot::Between, Spot::Last] {
            let fault = Sheet::Fault(bad, spot);
            put([fault, good]);
            put([good, fault]);
        }
    }
    let last = Bad::ALL.map(|bad| Sheet::Fault(bad, Spot::Last));
    for (place, first) in last.into_iter().enumerate() {
        put([first, last[(place + 1) % last.len()]]);
    }
    let (empty, too_long, missing) = (Sheet::Empty, Sheet::TooLong, Sheet::Missing);
    put([empty, good]);
    put([good, empty]);
    put([empty, empty]);
    put([empty, last[0]]);
    put([last[1], empty]);
    put([Sheet::Longest, good]);
    put([good, Sheet::Longest]);
    put([too_long, good]);
    put([good, too_long]);
    // Files are told before refusals, A before B, and FROM after both.
    put([last[2], too_long]);
    put([too_long, missing]);
    put([missing, too_long]);
    put([last[3], missing]);
    cases.extend([good, last[1], missing].map(|file| ([file, good], Start::NoBook)));
    cases
}

/// Mergings with seeds that follow one another go round.
pub fn make(seed: u64) -> Merging {
    let mut rng = Rng::new(seed, 0x3E26E);
    let cases = round();
    let (sheets, start) = cases[(seed % cases.len() as u64) as usize];
    let many = [rng.between(3, 24), rng.between(3, 24)];
    let files = [0, 1].map(|file| bytes(sheets[file], many[file], &mut rng));
    let from = from(start, many, &mut rng);
    Merging { files, from }
}

fn bytes(sheet: Sheet, many: u64, rng: &mut Rng) -> Option<Vec<u8>> {
    match sheet {
        Sheet::Missing => None,
        Sheet::Empty => Some(Vec::new()),
        Sheet::Good => Some(good(many, rng).concat()),
        Sheet::Fault(bad, spot) => Some(with_fault(bad, spot, many, rng)),
        Sheet::Longest => Some(longest(rng)),
        Sheet::TooLong => Some([longest(rng), longer(rng)].concat()),
    }
}

/// A byte more, or a good record more.
fn longer(rng: &mut Rng) -> Vec<u8> {
    match rng.below(2) {
        0 => vec![0],
        _ => laid(&good_record(rng)),
    }
}

/// Records of any accounts and any serials: "Serials aren't looked at".
fn good(many: u64, rng: &mut Rng) -> Vec<Vec<u8>> {
    (0..many).map(|_| laid(&good_record(rng))).collect()
}

fn laid(record: &Values) -> Vec<u8> {
    let mut bytes = Vec::new();
    record.lay(&mut bytes);
    bytes
}

/// Behind the first record at fault there may be another. One that is cut is the
/// last of its file.
fn with_fault(bad: Bad, spot: Spot, many: u64, rng: &mut Rng) -> Vec<u8> {
    let mut records = good(many, rng);
    let last = records.len() - 1;
    let place = match spot {
        Spot::First => 0,
        Spot::Between => rng.between(1, last as u64 - 1) as usize,
        Spot::Last => last,
    };
    if rng.one_in(2) {
        let other = rng.pick(&Bad::ALL);
        records[last] = faulty(other, rng);
    }
    if bad == Bad::Cut {
        records.truncate(place + 1);
    }
    records[place] = faulty(bad, rng);
    records.concat()
}

/// With 4 and 5 amounts may be out of range too.
fn faulty(bad: Bad, rng: &mut Rng) -> Vec<u8> {
    match bad {
        Bad::Cut => cut(rng),
        Bad::Code => {
            let code = rng.pick(&[0, 14, 14, 15, 128, 255]);
            any_amounts(code, rng.byte(), rng)
        }
        Bad::Mark => loop {
            let code = rng.between(1, u64::from(LAST_CODE)) as u8;
            let mark = rng.byte();
            if suits(code, mark) == Some(false) {
                return any_amounts(code, mark, rng);
            }
        },
        Bad::Above => {
            let amount = rng.pick(&[CEILING + 1, CEILING + 1, u64::MAX]);
            with_amount(amount, rng)
        }
        Bad::Nothing => with_amount(0, rng),
    }
}

fn any_amounts(code: u8, mark: u8, rng: &mut Rng) -> Vec<u8> {
    let amounts: Vec<u64> = (0..mark.count_ones()).map(|_| rng.next()).collect();
    let mut bytes = Vec::new();
    lay(&mut bytes, code, mark, rng.next() as u16, 0, &amounts);
    bytes
}

/// Its last byte missing, all but its first, or any number of them.
fn cut(rng: &mut Rng) -> Vec<u8> {
    let mut bytes = match rng.below(3) {
        0 => any_amounts(RECEIVE, 0xFF, rng),
        _ => laid(&good_record(rng)),
    };
    let whole = bytes.len() as u64;
    let kept = rng.between(1, whole - 1);
    bytes.truncate(rng.pick(&[1, HEAD as u64 - 1, whole - 1, kept]) as usize);
    bytes
}

/// A record whose only fault is this amount.
fn with_amount(amount: u64, rng: &mut Rng) -> Vec<u8> {
    loop {
        let mut record = good_record(rng);
        let named = (0..6).find(|bit| record.mark & (1 << bit) != 0);
        if let Some(bit) = named {
            record.amounts[bit] = amount;
        }
        if record.fault().is_some() {
            return laid(&record);
        }
    }
}

/// Filled up with records of fourteen bytes, and of six.
fn longest(rng: &mut Rng) -> Vec<u8> {
    let some = good(200, rng).concat();
    let mut bytes = Vec::new();
    while bytes.len() + some.len() < MERGE_MOST {
        bytes.extend_from_slice(&some);
    }
    let (retire, margin) = (any_amounts(RETIRE, 0, rng), laid(&no_margin()));
    while (MERGE_MOST - bytes.len()) % retire.len() != 0 {
        bytes.extend_from_slice(&margin);
    }
    while bytes.len() < MERGE_MOST {
        bytes.extend_from_slice(&retire);
    }
    bytes
}

fn no_margin() -> Values {
    Values {
        code: SET_MARGIN,
        mark: 1 << MARGIN,
        ..Values::default()
    }
}

fn from(start: Start, [a, b]: [u64; 2], rng: &mut Rng) -> From {
    let left = match start {
        Start::WrapsInA => rng.between(1, a - 1),
        Start::WrapsBetween => a,
        Start::WrapsInB => a + rng.between(1, b - 1),
        _ => rng.below(65_536),
    };
    let serial = 0u16.wrapping_sub(left as u16);
    match start {
        Start::Nowhere => From::Nowhere,
        Start::Dash => From::Dash,
        Start::Unsound => From::file(Held::Unsound, serial, rng),
        Start::First => From::file(Held::First, serial, rng),
        Start::NoBook => From::file(Held::NoBook, serial, rng),
        _ => From::file(Held::Sound, serial, rng),
    }
}
