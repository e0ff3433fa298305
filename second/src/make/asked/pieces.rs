//! Pieces of day files, places in them and stated numbers.

use super::{books, records};
use crate::listed;
use crate::make::maker::Maker;
use crate::make::mixed::any_step;
use crate::make::rng::Rng;
use crate::make::{make, ROUND};
use crate::model::calls::{Call, PIECE_MOST};
use crate::model::*;

listed! {
    /// Where in a piece a record is looked for.
    Spot: Start, Record, Inside,
    /// Within the last record.
    LastBytes, End, PastEnd, Largest, NearLargest,
    /// Far past the end, with a record's start in its lower half.
    Wide, Empty,
    /// In a piece whose last record is cut.
    Cut
}

/// A word of 16, 31, 32 or 63 bits shows nothing of these.
const WIDE: [u64; 5] = [1 << 16, 1 << 31, 1 << 32, 1 << 48, 1 << 63];

listed! {
    /// What a day's piece is like.
    Day: Good, Bent, Cut, Empty, Garbage,
    /// As long as a piece may be.
    Longest
}

listed! {
    /// The stated number beside the records in the piece.
    Number: Zero, One, Few, OneLess, Exact, OneMore, Largest,
    /// Far more, with a small number in its lower half.
    Wide
}

/// Any bytes, most of them a day.
pub fn some_piece(rng: &mut Rng) -> Vec<u8> {
    let kind = rng.pick(&ROUND);
    make(kind, rng.next(), 600)
}

/// Steps on this book, and so records that it answers in every way.
pub fn steps(book: &Table, many: u64, rng: &mut Rng) -> Vec<u8> {
    let book = match book.book() {
        Some(book) => book,
        None => return Vec::new(),
    };
    let mut maker = Maker::over(book, rng.next());
    maker.room = PIECE_MOST - 1_000;
    for _ in 0..many {
        any_step(&mut maker);
    }
    maker.bytes
}

/// Where each whole record starts, and where the last one ends.
fn starts(piece: &[u8]) -> Vec<usize> {
    let mut reader = Reader::new(piece);
    let mut starts = vec![0];
    while let Next::Record(_) = reader.next() {
        starts.push(reader.place());
    }
    starts
}

fn random_bytes(many: u64, rng: &mut Rng) -> Vec<u8> {
    (0..many).map(|_| rng.byte()).collect()
}

/// The record stands behind other bytes and before others.
pub fn next_with(refusal: u8, rng: &mut Rng) -> Call {
    let found = records::seek(rng, |answer| answer.refusal() == refusal);
    let (book, bytes) = found.unwrap_or_else(|| (Table::fresh(), Vec::new()));
    let before = rng.pick(&[0, 0, 6, 14, 100]);
    let after = rng.pick(&[0, 1, 6, 70]);
    let place = before;
    let piece = [random_bytes(before, rng), bytes, random_bytes(after, rng)];
    Call::CarryOutNext(book, piece.concat(), place)
}

/// A piece and a place of it.
fn spotted(book: &Table, spot: Spot, rng: &mut Rng) -> (Vec<u8>, u64) {
    let mut piece = steps(book, rng.pick(&[1, 3, 12]), rng);
    if let Spot::Empty = spot {
        piece.clear();
    }
    let starts = starts(&piece);
    let length = piece.len() as u64;
    let last = *starts.iter().rev().nth(1).unwrap_or(&0) as u64;
    let place = match spot {
        Spot::Start | Spot::Empty => 0,
        Spot::Record => rng.pick(&starts) as u64,
        Spot::Inside => rng.below(length + 1),
        Spot::LastBytes => (last + 1 + rng.below(69)).min(length.max(1) - 1),
        Spot::End => length,
        Spot::PastEnd => length + rng.pick(&[1, 2, 70, 65_536, 1 << 32]),
        Spot::Largest => u64::MAX,
        Spot::NearLargest => u64::MAX - rng.below(80),
        Spot::Wide => rng.pick(&WIDE) + rng.pick(&starts) as u64,
        Spot::Cut => {
            let lost = rng.between(1, length.max(last + 1) - last);
            piece.truncate((length.saturating_sub(lost)) as usize);
            last
        }
    };
    (piece, place)
}

pub fn next_at(spot: Spot, rng: &mut Rng) -> Call {
    let book = books::sound(rng);
    let (piece, place) = spotted(&book, spot, rng);
    Call::CarryOutNext(book, piece, place)
}

pub fn read_at(spot: Spot, rng: &mut Rng) -> Call {
    let (piece, place) = spotted(&books::sound(rng), spot, rng);
    Call::ReadAt(piece, place)
}

/// Looks for a place where the reader gives this.
pub fn read(refusal: u8, rng: &mut Rng) -> Call {
    for _ in 0..200 {
        let piece = some_piece(rng);
        let given = |&start: &usize| match dayfile::next_at(&piece, start as u64) {
            Next::End => false,
            Next::Cut => refusal == 2,
            Next::Record(record) => record.checked().map_or_else(|no| no as u8, |_| 0) == refusal,
        };
        let places: Vec<usize> = starts(&piece).into_iter().filter(given).collect();
        if let Some(place) = rng.any(&places) {
            return Call::ReadAt(piece, place as u64);
        }
    }
    Call::ReadAt(Vec::new(), 0)
}

pub fn day(day: Day, number: Number, rng: &mut Rng) -> Call {
    let book = books::sound(rng);
    let mut piece = match day {
        Day::Empty => Vec::new(),
        Day::Garbage => {
            let many = rng.below(300);
            random_bytes(many, rng)
        }
        Day::Longest => longest(&book, rng),
        _ => steps(&book, rng.pick(&[1, 4, 40]), rng),
    };
    match day {
        Day::Bent => bend(&mut piece, rng),
        Day::Cut => {
            let lost = rng.between(1, 6).min(piece.len() as u64);
            piece.truncate(piece.len() - lost as usize);
        }
        _ => {}
    }
    let records = starts(&piece).len() as u64 - 1;
    let number = match number {
        Number::Zero => 0,
        Number::One => 1,
        Number::Few => rng.below(records + 1),
        Number::OneLess => records.saturating_sub(1),
        Number::Exact => records,
        Number::OneMore => records + 1,
        Number::Largest => u64::MAX,
        Number::Wide => rng.pick(&WIDE) + rng.below(records + 1),
    };
    Call::Day(book, piece, number)
}

fn bend(piece: &mut [u8], rng: &mut Rng) {
    for _ in 0..rng.between(1, 5) {
        let place = rng.below(piece.len() as u64) as usize;
        if let Some(byte) = piece.get_mut(place) {
            *byte ^= 1 << rng.below(8);
        }
    }
}

/// Exactly 65,536 bytes; the last record may be cut by that.
fn longest(book: &Table, rng: &mut Rng) -> Vec<u8> {
    let mut piece = steps(book, rng.pick(&[40, 400, 3_000]), rng);
    let filler = steps(book, 20, rng);
    while !filler.is_empty() && piece.len() < PIECE_MOST {
        piece.extend_from_slice(&filler);
    }
    piece.truncate(PIECE_MOST);
    piece
}
