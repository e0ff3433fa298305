//! The edges of K11 that made-up calls have met, by call.

use super::edges::chosen;
use crate::model::calls::{Call, LIST_MOST};
use crate::model::table::*;
use crate::model::*;
use crate::tally::names;

/// Those that every run must have.
pub const EDGES: [(&str, &str); 12] = [
    ("archive", ARCHIVES),
    ("archive", BOOKS),
    ("archive", ROWS),
    ("is_sound", BOOKS),
    ("standing", STANDINGS),
    ("carry_out", OPENINGS),
    ("carry_out", ARCHIVED),
    ("carry_out_next", OVER),
    ("day", DAYS),
    ("close_out", OVER),
    ("needs", OVER),
    ("take_over", OVER),
];

const ARCHIVES: &str = "\
not sound, and too short: 1|one short: 23|no room: 23|exact room: 0|one more: 0|the most room: 0|\
nobody retired, no room: 0|nobody retired, some room: 0|one short of a single row: 23";
/// Of sound books alone.
const BOOKS: &str = "\
no number missing|numbers missing at the start|numbers missing in the middle|\
numbers missing at the end|next number 65535|next number 65536|number 65535 held";
/// Of books whose rows were moved.
const ROWS: &str = "a TM with its clients|a client of a live TM|all but the CM|some of 256 rows";
const STANDINGS: &str = "a number in the archive: 7|a row elsewhere: 0";
const OPENINGS: &str = "\
an opening after an archiving: 0|the last number there is: 0|every number given, rows free: 9|\
256 rows held, numbers left: 9|a client of a TM whose row is elsewhere: 0|a row elsewhere: 0";
/// By code, of a number in the archive: 7.
const ARCHIVED: &str = "archived, code 1|archived, code 2|archived, code 3|archived, code 4|\
archived, code 5|archived, code 6|archived, code 7|archived, code 8|archived, code 9|\
archived, code 10|archived, code 11|archived, code 12|archived, code 13";
const OVER: &str = "over a book with an archive";
const DAYS: &str = "\
over a book with an archive|a number in the archive|the last number there is, and then 9";

pub fn of_call(call: &Call, word: &str) -> Vec<&'static str> {
    match call {
        Call::Archive(book, room) => of_archive(book, *room, word),
        Call::IsSound(book) if word == "1" => book_edges(book),
        Call::Standing(book, account) => {
            let is_gone = word == "7" && is_archived(book, *account);
            let is_elsewhere = word == "0" && is_elsewhere(book, *account);
            chosen(STANDINGS, &[is_gone, is_elsewhere])
        }
        Call::CarryOut(book, record) => of_record(book, record, word),
        Call::Day(book, piece, _) => of_day(book, piece, word),
        Call::CarryOutNext(book, ..)
        | Call::CloseOut(book, ..)
        | Call::Needs(book, _)
        | Call::TakeOver(book)
            if word == "0" =>
        {
            chosen(OVER, &[has_archive(book)])
        }
        _ => Vec::new(),
    }
}

/// Of a sound book: numbers were given that no row has.
fn has_archive(book: &Table) -> bool {
    book.next != u32::from(book.count)
}

fn place_of(book: &Table, account: u16) -> Option<usize> {
    let number = u64::from(account);
    (0..book.held()).find(|&place| book.places[place][NUMBER] == number)
}

fn is_archived(book: &Table, account: u16) -> bool {
    u32::from(account) < book.next && place_of(book, account).is_none()
}

fn is_elsewhere(book: &Table, account: u16) -> bool {
    place_of(book, account).map_or(false, |place| place != usize::from(account))
}

fn book_edges(book: &Table) -> Vec<&'static str> {
    let held = book.places[..book.held()].iter();
    let numbers: Vec<u64> = held.map(|place| place[NUMBER]).collect();
    let is_gap = |two: &[u64]| two[1] - two[0] > 1;
    let last = numbers[numbers.len() - 1];
    let mut pairs = numbers.windows(2);
    let is = [
        !has_archive(book),
        pairs.next().map_or(false, is_gap),
        pairs.any(is_gap),
        u64::from(book.next) > last + 1,
        book.next == 65_535,
        book.next == 65_536,
        last == 65_535,
    ];
    chosen(BOOKS, &is)
}

fn of_archive(book: &Table, room: usize, word: &str) -> Vec<&'static str> {
    let held = &book.places[..book.held()];
    let wanted = 3 * held.iter().filter(|place| place[LIVE] == 0).count();
    let done = word == "0";
    let is = [
        word == "1" && room < wanted,
        word == "23" && room + 1 == wanted,
        word == "23" && room == 0,
        done && room == wanted && wanted > 0,
        done && room == wanted + 1 && wanted > 0,
        done && room == LIST_MOST && wanted > 0,
        done && wanted == 0 && room == 0,
        done && wanted == 0 && room > 0,
        word == "23" && room == 2 && wanted == 3,
    ];
    let mut edges = chosen(ARCHIVES, &is);
    if done {
        edges.extend(book_edges(book));
        edges.extend(moved_rows(book, wanted / 3));
    }
    edges
}

fn moved_rows(book: &Table, moved: usize) -> Vec<&'static str> {
    let held = &book.places[..book.held()];
    let mut gone = held.iter().filter(|place| place[LIVE] == 0);
    let tm_is = |place: &Place, live: u64| {
        place[SORT] == CLIENT && book.places[place[TM] as usize][LIVE] == live
    };
    let is = [
        gone.clone().any(|place| tm_is(place, 0)),
        gone.any(|place| tm_is(place, 1)),
        moved > 0 && moved + 1 == held.len(),
        moved > 0 && held.len() == 256,
    ];
    chosen(ROWS, &is)
}

fn of_record(book: &Table, record: &Values, word: &str) -> Vec<&'static str> {
    let opens = matches!(record.code, OPEN_TM | OPEN_CLIENT | OPEN_CP);
    let (done, free) = (word == "0", book.count < 256);
    let elsewhere = done && is_elsewhere(book, record.account);
    let is = [
        opens && done && has_archive(book),
        opens && done && book.next == 65_535,
        opens && word == "9" && free,
        opens && word == "9" && book.next < 65_536,
        record.code == OPEN_CLIENT && elsewhere,
        !opens && elsewhere,
    ];
    let mut edges = chosen(OPENINGS, &is);
    if word == "7" && is_archived(book, record.account) {
        edges.extend(names(ARCHIVED).nth(usize::from(record.code) - 1));
    }
    edges
}

fn of_day(book: &Table, piece: &[u8], word: &str) -> Vec<&'static str> {
    let mut sound = match book.book() {
        Some(sound) if word != "1" => sound,
        _ => return Vec::new(),
    };
    let mut answers: Vec<Answer> = Vec::new();
    day::run(&mut sound, piece, usize::MAX, |answer, _| {
        answers.push(*answer);
    });
    let last = answers.iter().position(|answer| answer.opened() == 65_535);
    let behind = last.map_or(&[][..], |last| &answers[last..]);
    let is_gone = |answer: &Answer| answer.refusal() == 7 && is_archived(book, answer.account);
    let is = [
        has_archive(book) && answers.iter().any(|answer| answer.refusal() == 0),
        answers.iter().any(is_gone),
        behind.iter().any(|answer| answer.refusal() == 9),
    ];
    chosen(DAYS, &is)
}
