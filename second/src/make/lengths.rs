//! Days that are cut, go round the serials or reach a million records.

use super::maker::Maker;
use super::steer::{any_good_record, begin, busy, step};
use crate::model::*;

/// A good day cut short: at a length near its start that goes on with the
/// seed, within its last record, or anywhere. 211 is a prime, so seeds in
/// steps meet every length too.
pub fn cuts(maker: &mut Maker) {
    busy(maker);
    let whole = maker.bytes.len() as u64;
    let kept = match maker.rng.below(4) {
        0 | 1 => maker.seed % 211,
        2 => whole - maker.rng.below(whole.min(LONGEST as u64) + 1),
        _ => maker.rng.below(whole + 1),
    };
    maker.bytes.truncate(kept as usize);
}

const WRAP: usize = 65_536;

pub fn serials(maker: &mut Maker) {
    let goes_round = maker.rng.one_in(5) && maker.room > WRAP * LONGEST;
    begin(maker);
    if goes_round {
        go_round(maker);
    }
    for _ in 0..maker.rng.between(10, 200) {
        if maker.rng.one_in(3) {
            wrong_serial(maker);
        } else {
            step(maker);
        }
    }
}

/// Small records up to just before the serial after 65,535.
fn go_round(maker: &mut Maker) {
    while maker.book.serial < 65_480 {
        match maker.rng.below(8) {
            0 => maker.say_margin(0, 0),
            1 => maker.say(OPEN_TM, 0, 1, &[]),
            2 => maker.say(LAST_CODE + 1, 0, 3, &[]),
            _ => maker.say(RETIRE, 0, 0, &[]),
        };
    }
}

pub fn wrong_serial(maker: &mut Maker) {
    let next = maker.book.serial;
    let serial = match maker.rng.below(7) {
        0 => next.wrapping_add(1),
        1 => next.wrapping_sub(1),
        2 => next.swap_bytes(),
        3 => next ^ 0x8000,
        4 => 0,
        5 => u16::MAX,
        _ => maker.rng.next() as u16,
    };
    let account = maker.live();
    match maker.rng.below(4) {
        0 => maker.put(OPEN_TM, 0, serial, 0, &[]),
        1 => maker.put(SET_MARGIN, 1 << MARGIN, serial, account, &[0]),
        2 => maker.put(0, 0xFF, serial, account, &[0; 8]),
        _ => maker.put(PLEDGE, 1 << PLEDGED, serial, account, &[u64::MAX]),
    };
}

/// How many records, and how many bytes of a cut one follow.
const MILLIONS: [(usize, usize); 9] = [
    (MILLION, 0),
    (MILLION + 1, 0),
    (MILLION, 1),
    (MILLION - 1, 5),
    (MILLION - 1, 0),
    (MILLION, 5),
    (MILLION + 2, 13),
    (MILLION - 2, 1),
    (MILLION, 13),
];

/// Just below, exactly and just above a million records, with and without a
/// cut record behind.
pub fn million(maker: &mut Maker) {
    let is_busy = maker.rng.one_in(2);
    maker.wanted = maker.rng.between(5, MOST_ACCOUNTS as u64) as usize;
    let (wanted, tail) = MILLIONS[maker.seed as usize % MILLIONS.len()];
    let mut starts = vec![0];
    begin(maker);
    while note_starts(maker, &mut starts) < wanted {
        if is_busy {
            step(maker);
        } else {
            small_step(maker);
        }
    }
    maker.bytes.truncate(starts[wanted]);
    let cut = [RECEIVE, 1, 0, 0, 0, 0, 0, 0, 0, 0, 0, 0, 0];
    maker.bytes.extend_from_slice(&cut[..tail]);
}

/// Follows the records laid down since; gives how many there are now.
fn note_starts(maker: &Maker, starts: &mut Vec<usize>) -> usize {
    let mut place = starts[starts.len() - 1];
    while place < maker.bytes.len() {
        place += length(maker.bytes[place + 1]);
        starts.push(place);
    }
    starts.len() - 1
}

fn small_step(maker: &mut Maker) {
    match maker.rng.below(6) {
        0 => any_good_record(maker, 0),
        1 => wrong_serial(maker),
        2 => {
            maker.say(LAST_CODE + 1, 0, 0, &[]);
        }
        _ => {
            maker.say(RETIRE, 0, 0, &[]);
        }
    }
}
