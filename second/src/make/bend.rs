//! Days of bytes without sense, bent records and amounts at the edges.

use super::maker::Maker;
use super::steer::{begin, busy, open_any, step};
use crate::model::*;

/// Amounts at the edges of a range, a word or a sign.
const EDGES: [u64; 14] = [
    0,
    1,
    2,
    CEILING / 2,
    CEILING - 1,
    CEILING,
    CEILING + 1,
    2 * CEILING,
    u32::MAX as u64,
    u32::MAX as u64 + 1,
    i64::MAX as u64,
    i64::MAX as u64 + 1,
    u64::MAX - 1,
    u64::MAX,
];

const ODD_CODES: [u8; 10] = [0, 14, 14, 15, 16, 20, 127, 128, 254, 255];

const ODD_MARKS: [u8; 16] = [
    0, 0x01, 0x0F, 0x10, 0x11, 0x1F, 0x20, 0x21, 0x30, 0x40, 0x41, 0x80, 0x81, 0xC0, 0xF0, 0xFF,
];

pub fn random_bytes(maker: &mut Maker, many: u64) {
    for _ in 0..many {
        if maker.full() {
            return;
        }
        let byte = maker.rng.byte();
        maker.bytes.push(byte);
    }
}

/// Bytes without sense; in two days of three shaped like records, or else
/// refusal 3 would hide what lies behind it.
pub fn hostile(maker: &mut Maker) {
    if maker.rng.one_in(3) {
        let many = maker.rng.below(700);
        return random_bytes(maker, many);
    }
    for _ in 0..maker.rng.between(1, 120) {
        let code = maker.rng.below(16) as u8;
        let mark = if maker.rng.one_in(3) {
            maker.rng.byte()
        } else {
            suited(maker, code)
        };
        let account = maker.rng.below(4) as u16;
        let amounts: Vec<u64> = (0..mark.count_ones())
            .map(|_| maker.rng.next() >> maker.rng.between(0, 63))
            .collect();
        maker.say(code, mark, account, &amounts);
        if maker.rng.one_in(40) && !maker.full() {
            let many = maker.rng.between(1, 80);
            maker.put_garbage(many);
        }
    }
}

/// Good days with bytes flipped: either afterwards, where the lengths may go
/// astray, or record by record with the model in step.
pub fn bent(maker: &mut Maker) {
    if maker.rng.one_in(3) {
        busy(maker);
        for _ in 0..maker.rng.between(1, 8) {
            let place = maker.rng.below(maker.bytes.len() as u64) as usize;
            if let Some(byte) = maker.bytes.get_mut(place) {
                *byte ^= 1 << maker.rng.below(8);
            }
        }
        return;
    }
    begin(maker);
    for _ in 0..maker.usual_length() {
        if maker.rng.one_in(3) {
            bent_record(maker);
        } else {
            step(maker);
        }
    }
}

/// Refusals 4, 5 and 6, now and then with something else wrong too.
pub fn bent_record(maker: &mut Maker) {
    let known = maker.rng.between(1, u64::from(LAST_CODE)) as u8;
    let code = if maker.rng.one_in(3) {
        maker.rng.pick(&ODD_CODES)
    } else {
        known
    };
    let mark = match maker.rng.below(4) {
        0 => maker.rng.pick(&ODD_MARKS),
        1 => maker.rng.byte(),
        2 => suited(maker, code) ^ (1 << maker.rng.below(8)),
        _ => suited(maker, code),
    };
    let account = match maker.rng.below(6) {
        0 => maker.rng.next() as u16,
        _ => maker.live(),
    };
    let serial = match maker.rng.below(12) {
        0 => maker.book.serial ^ (1 << maker.rng.below(16)),
        _ => maker.book.serial,
    };
    let amounts: Vec<u64> = (0..mark.count_ones()).map(|_| odd_amount(maker)).collect();
    maker.put(code, mark, serial, account, &amounts);
    if maker.rng.one_in(60) && !maker.full() {
        let many = maker.rng.between(1, 9);
        maker.put_garbage(many);
    }
}

fn suited(maker: &mut Maker, code: u8) -> u8 {
    match code {
        RECEIVE..=RELEASE => maker.rng.between(1, 15) as u8,
        PLEDGE | UNPLEDGE | REVALUE => 1 << PLEDGED,
        SET_MARGIN | REVISE => 1 << MARGIN,
        _ => 0,
    }
}

fn odd_amount(maker: &mut Maker) -> u64 {
    if maker.rng.one_in(3) {
        maker.rng.pick(&EDGES)
    } else {
        maker.amount()
    }
}

/// Few accounts and amounts at the edges, so that ceilings are reached.
pub fn bounds(maker: &mut Maker) {
    if maker.rng.one_in(2) {
        maker.scale = CEILING;
    }
    for _ in 0..maker.rng.below(8) {
        open_any(maker);
    }
    for _ in 0..maker.usual_length() {
        match maker.rng.below(12) {
            0 => fill(maker),
            1..=4 => step(maker),
            _ => edge_record(maker),
        }
    }
}

pub fn edge_record(maker: &mut Maker) {
    let code = maker.rng.pick(&[4, 5, 6, 7, 8, 9, 10, REVALUE, REVISE]);
    let mark = suited(maker, code);
    let account = maker.live();
    let in_range = !maker.rng.one_in(3);
    let amounts: Vec<u64> = (0..mark.count_ones())
        .map(|_| edge(maker, in_range))
        .collect();
    maker.say(code, mark, account, &amounts);
}

/// One amount out of range makes a record of four useless, so most records
/// keep within.
fn edge(maker: &mut Maker, in_range: bool) -> u64 {
    loop {
        let amount = maker.rng.pick(&EDGES);
        if !in_range || (1..=CEILING).contains(&amount) {
            return amount;
        }
    }
}

/// Everything of one account up to the ceiling, and its margin as well.
fn fill(maker: &mut Maker) {
    let account = maker.live();
    let row = maker.row(account);
    maker.say_kinds(
        RECEIVE,
        account,
        row.received.map(|received| CEILING - received),
    );
    maker.say_kinds(
        ALLOCATE,
        account,
        row.allocated.map(|allocated| CEILING - allocated),
    );
    if row.pledged < CEILING {
        maker.say_pledge(PLEDGE, account, CEILING - row.pledged);
    }
    maker.say_margin(account, CEILING);
}
