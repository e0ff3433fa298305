//! Records for a book that are refused by a paisa, and what is refused with one
//! amount otherwise: for the program that explains it.

use super::maker::Maker;
use crate::kinds::most::{bits, CODES};
use crate::model::most::most;
use crate::model::*;

/// Codes without an amount, and some that there aren't.
const STRANGE: [u8; 7] = [0, OPEN_TM, OPEN_CLIENT, OPEN_CP, RETIRE, LAST_CODE + 1, 255];

/// A piece that goes on with this book.
pub fn records(book: &Book, seed: u64) -> Vec<u8> {
    let mut maker = Maker::over(book.clone(), seed);
    for code in CODES {
        for bit in bits(code) {
            at_the_paisa(&mut maker, code, bit);
        }
    }
    for _ in 0..20 {
        let code = maker.rng.pick(&CODES);
        let bits: Vec<usize> = bits(code).collect();
        let bit = maker.rng.pick(&bits);
        match maker.rng.below(4) {
            0 => otherwise(&mut maker, code, bit),
            _ => at_the_paisa(&mut maker, code, bit),
        }
    }
    (0..8).for_each(|bit| without_answer(&mut maker, bit));
    maker.bytes
}

/// A paisa too much, then now and then just enough, and after that once more
/// the least amount.
fn at_the_paisa(maker: &mut Maker, code: u8, bit: usize) {
    let (row, mark) = (maker.live(), 1 << bit);
    let record = Values {
        code,
        mark,
        account: maker.book.number(usize::from(row)),
        ..Values::default()
    };
    let amount = match most(&maker.book, &record) {
        Ok(amount) => amount,
        Err(_) => {
            maker.say(code, mark, row, &[least(code)]);
            return;
        }
    };
    maker.say(code, mark, row, &[amount + 1]);
    // Codes 12 and 13 would leave nothing to ask about.
    if code <= SET_MARGIN && maker.rng.one_in(2) {
        maker.say(code, mark, row, &[amount]);
        maker.say(code, mark, row, &[least(code)]);
    }
}

/// Refused before its amount is asked about: 3, 6 and 7.
fn otherwise(maker: &mut Maker, code: u8, bit: usize) {
    let (row, mark, next) = (maker.live(), 1 << bit, maker.book.serial);
    let past = maker.book.count as u16;
    maker.put(code, mark, next.wrapping_add(1), row, &[1]);
    maker.say(code, mark, row, &[u64::MAX]);
    maker.say(code, mark, past, &[1]);
}

/// 4 or 5, with one amount; then several of them, and none.
fn without_answer(maker: &mut Maker, bit: usize) {
    let (row, mark) = (maker.live(), 1 << bit);
    let unsuited: Vec<u8> = CODES
        .into_iter()
        .filter(|&code| suits(code, mark) == Some(false))
        .collect();
    let code = maker.rng.pick(&unsuited);
    maker.say(code, mark, row, &[1]);
    let strange = maker.rng.pick(&STRANGE);
    maker.say(strange, mark, row, &[1]);
    maker.say(RELEASE, 3, row, &[u64::MAX, 1]);
    maker.say(RETIRE, 0, 0, &[]);
}
