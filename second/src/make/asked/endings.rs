//! How an input ends: with its last call, or with something that is no call
//! and calls behind it that mustn't be answered.

use super::desk::good;
use super::{any_call, books, figures};
use crate::make::rng::Rng;
use crate::model::bookfile::Version;
use crate::model::calls::{Call, LIST_MOST, PIECE_MOST};
use crate::model::table::{LIVE, MODE};
use crate::model::*;

/// An odd number, so that inputs fed in small pieces (one in four) have every
/// ending.
pub const ENDINGS: &str = "the end|an unknown call|call 1 cut|call 2 cut|call 3 cut|call 4 cut|\
call 5 cut|call 6 cut|call 7 cut|call 8 cut|call 9 cut|call 10 cut|call 11 cut|\
a call of the old rule|call 12 cut|call 13 cut|call 14 cut|call 15 cut|call 16 cut|call 17 cut|\
the number behind the last call's|a book of version 1 cut|a side above 3|\
figures neither two nor four|neither two nor four a client|too many figures|a piece too long|\
a statement too long|a room too long|a list too long|a wrong mark|a wrong version|\
live is neither|a mode is neither|a length of four billion";

/// What is cut is the last of all.
pub fn put(ending: &str, out: &mut Vec<u8>, rng: &mut Rng) {
    if ending == "the end" {
        return;
    }
    out.extend(bytes(ending, rng));
    if !ending.ends_with("cut") {
        for _ in 0..rng.between(1, 3) {
            any_call(rng).lay(out);
        }
    }
}

fn bytes(ending: &str, rng: &mut Rng) -> Vec<u8> {
    let drawn = rng.below(256) as usize;
    let place = rng.pick(&[0, 1, 255, drawn]);
    let at = |word: usize| Version::Two.at(place, word).unwrap_or(0);
    let call = match ending {
        // 0, and what no request has brought yet. All that a call reads stands behind
        // the byte.
        "an unknown call" => {
            let unknown: Vec<u8> = (0..=255).filter(|&byte| !Call::is_known(byte)).collect();
            let drawn = rng.pick(&unknown);
            return with_byte(0, &[unknown[0], unknown[1], drawn, 255], any_call(rng), rng);
        }
        // "K7's old call goes": 21 to 29 are no calls any more.
        "a call of the old rule" => {
            return with_byte(0, &[21, 22, 23, 24, 25, 26, 27, 28, 29], any_call(rng), rng);
        }
        // 18, with a book and a record behind it.
        "the number behind the last call's" => {
            let call = Call::Most(books::sound(rng), Values::default());
            return with_byte(0, &[call.number() + 1], call, rng);
        }
        "a book of version 1 cut" => {
            let book = bookfile::bytes_as(&books::sound(rng), Version::One);
            return [&[1], &book[..book.len() - 1]].concat();
        }
        // The last byte of a position's side; its notional stands behind it.
        "a side above 3" => {
            let positions = (0..rng.between(1, 9)).map(|_| good(rng)).collect();
            let call = Call::Margin(1, 2, 3, positions);
            let side = laid(&call).len() - 9;
            return with_byte(side, &[4, 5, 128, 255], call, rng);
        }
        "a wrong mark" => return no_book(rng.below(3) as usize, &[0, 0x4D, 0xFF], rng),
        "a wrong version" => return no_book(3, &[0, 3, 255], rng),
        "live is neither" => return no_book(at(LIVE), &[2, 3, 128, 255], rng),
        "a mode is neither" => return no_book(at(MODE), &[2, 3, 128, 255], rng),
        "a length of four billion" => return vec![6, rng.pick(&[0x80, 0xFF]), 0, 0, 4],
        "figures neither two nor four" => {
            let many = rng.pick(&[0, 1, 3, 5, 8]);
            let figures = figures::good(many, rng);
            match rng.below(2) {
                0 => Call::Exposure(figures),
                _ => Call::MarginWith(1, 2, 3, vec![good(rng)], figures),
            }
        }
        "neither two nor four a client" => {
            let each = rng.pick(&[0, 1, 3, 5, 255]);
            Call::Exposures(each, figures::good(4, rng), 4)
        }
        "too many figures" => Call::Exposures(rng.pick(&[2, 4]), vec![0; LIST_MOST + 1], 4),
        // With all its bytes behind it.
        "a piece too long" => {
            let piece = vec![1; PIECE_MOST + 1];
            match rng.below(3) {
                0 => Call::ReadAt(piece, 0),
                1 => Call::Day(books::sound(rng), piece, 5),
                _ => Call::CarryOutNext(books::sound(rng), piece, 0),
            }
        }
        "a statement too long" => Call::Statement(books::sound(rng), 1, vec![0; PIECE_MOST + 1]),
        "a room too long" => match rng.below(4) {
            0 => Call::Write(Values::default(), LIST_MOST + 1),
            1 => Call::Needs(books::sound(rng), LIST_MOST + 1),
            2 => Call::Archive(books::sound(rng), LIST_MOST + 1),
            _ => Call::CloseOut(books::sound(rng), Vec::new(), LIST_MOST + 1),
        },
        "a list too long" => match rng.below(2) {
            0 => Call::Margin(1, 2, 3, vec![good(rng); LIST_MOST + 1]),
            _ => Call::CloseOut(books::sound(rng), vec![0; LIST_MOST + 1], 4),
        },
        _ => return cut(ending, rng),
    };
    laid(&call)
}

fn laid(call: &Call) -> Vec<u8> {
    let mut bytes = Vec::new();
    call.lay(&mut bytes);
    bytes
}

/// A call with one of these in the place of a byte.
fn with_byte(at: usize, values: &[u8], call: Call, rng: &mut Rng) -> Vec<u8> {
    let mut bytes = laid(&call);
    bytes[at] = rng.pick(values);
    bytes
}

/// `call 3 cut`: that call, without some of its bytes.
fn cut(ending: &str, rng: &mut Rng) -> Vec<u8> {
    let number = ending.split(' ').nth(1).and_then(|word| word.parse().ok());
    let mut call = any_call(rng);
    while Some(call.number()) != number {
        call = any_call(rng);
    }
    let mut bytes = laid(&call);
    let whole = bytes.len() as u64;
    let kept = match rng.below(4) {
        0 => 1,
        1 => whole - 1,
        2 => whole - rng.between(1, 60.min(whole - 1)),
        _ => rng.between(1, whole - 1),
    };
    bytes.truncate(kept as usize);
    bytes
}

/// A call with one of these in the place of a byte of its book.
fn no_book(at: usize, values: &[u8], rng: &mut Rng) -> Vec<u8> {
    let mut call = any_call(rng);
    while call.book().is_none() {
        call = any_call(rng);
    }
    let mut book = call.book().map(bookfile::bytes).unwrap_or_default();
    book[at] = rng.pick(values);
    let mut bytes = Vec::new();
    call.lay_over(&mut bytes, &book);
    bytes
}
