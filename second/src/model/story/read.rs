//! The bytes of calls back to a story that `write` turns into the same bytes,
//! and one call in short.

use super::*;
use crate::model::calls::Calls;
use crate::model::desk::lines::side_word;
use crate::model::desk::{Position, PRODUCTS};
use crate::model::text::hex;
use crate::model::*;

/// A book and the version that it stands in.
type Standing = (Table, Version);

fn fresh() -> Standing {
    (Table::fresh(), Version::One)
}

/// A story of the whole input; what is no call stands at its end as bytes.
pub fn read(bytes: &[u8]) -> String {
    let mut out = String::new();
    let mut before = fresh();
    let mut calls = Calls::of(bytes);
    loop {
        let left = calls.left();
        let call = match calls.next() {
            Some(call) => call,
            None => break,
        };
        if let Some(book) = call.book() {
            // A book is the first argument of every call that has one.
            let version = bookfile::version(&left[1..]).unwrap_or(Version::Two);
            let now = (book.clone(), version);
            out += &changes(&before, &now);
            before = now;
        }
        out += &call_line(&call, before.0.serial);
        out.push('\n');
    }
    if !calls.left().is_empty() {
        out += &format!("bytes {}\n", hex(calls.left()));
    }
    out
}

/// From the book before or from a fresh one, whichever takes fewer lines.
fn changes(before: &Standing, now: &Standing) -> String {
    let (on, anew) = (changed_words(before, now), changed_words(&fresh(), now));
    if on.len() <= anew.len() {
        on.concat()
    } else {
        format!("fresh\n{}", anew.concat())
    }
}

/// Numbers are said in version 2 alone.
fn changed_words((before, was): &Standing, (now, version): &Standing) -> Vec<String> {
    let mut lines = Vec::new();
    if was != version {
        lines.push(format!("version {}\n", version.byte()));
    }
    if before.count != now.count {
        lines.push(format!("count {}\n", now.count));
    }
    if before.serial != now.serial {
        lines.push(format!("serial {}\n", now.serial));
    }
    if before.next != now.next && *version == Version::Two {
        lines.push(format!("next {}\n", now.next));
    }
    let said = |word: &usize| *word != NUMBER || *version == Version::Two;
    for (number, place) in now.places.iter().enumerate() {
        let was = &before.places[number];
        let words = (0..WORDS.len()).filter(said);
        for word in words.filter(|&word| was[word] != place[word]) {
            lines.push(format!("set {number} {} {}\n", WORDS[word], place[word]));
        }
    }
    lines
}

/// One call as a line of a story, its book aside.
fn call_line(call: &Call, serial: u16) -> String {
    let name = call.name();
    let line = match call {
        Call::IsSound(_) | Call::TakeOver(_) => name.to_string(),
        Call::Standing(_, account) => format!("{name} {account}"),
        Call::CarryOut(_, record) | Call::Most(_, record) => {
            format!("{name} {}", record_words(record, serial))
        }
        Call::CarryOutNext(_, piece, number)
        | Call::Day(_, piece, number)
        | Call::ReadAt(piece, number) => {
            format!("{name} {number} {}", piece_words(piece, serial))
        }
        Call::Write(record, room) => {
            format!("{name} {} room {room}", record_words(record, serial))
        }
        Call::CloseOut(_, losses, room) => {
            let losses: String = losses.iter().map(|loss| format!(" {loss}")).collect();
            format!("{name} room {room} losses{losses}")
        }
        Call::Needs(_, room) | Call::Archive(_, room) => format!("{name} room {room}"),
        Call::Statement(_, tm, statement) => {
            format!("{name} {tm} {}", joined(&statement::text::read(statement)))
        }
        Call::Margin(serial, account, initial, positions) => {
            format!(
                "{name} {serial} {account} {initial} {}",
                position_words(positions)
            )
        }
        Call::MarginWith(serial, account, initial, positions, figures) => {
            let (figures, positions) = (figure_words(figures, ","), position_words(positions));
            format!("{name} {serial} {account} {initial} {figures} {positions}")
        }
        Call::Exposure(figures) => format!("{name} {}", figure_words(figures, ",")),
        Call::Exposures(each, figures, room) => {
            format!("{name} {each} room {room} {}", figure_words(figures, " "))
        }
    };
    line.trim_end().to_string()
}

fn figure_words(figures: &[i64], between: &str) -> String {
    let words: Vec<String> = figures.iter().map(i64::to_string).collect();
    words.join(between)
}

fn position_words(positions: &[Position]) -> String {
    let word = |position: &Position| {
        let Position {
            product, notional, ..
        } = position;
        let known = PRODUCTS.get(usize::from(*product));
        let product = known.map_or(product.to_string(), |(name, ..)| name.to_string());
        format!("{product} {} {notional}", side_word(position.side))
    };
    positions.iter().map(word).collect::<Vec<_>>().join(" ; ")
}

fn piece_words(piece: &[u8], serial: u16) -> String {
    joined(&text::read(piece, serial))
}

/// Lines with `;` between them.
fn joined(lines: &str) -> String {
    lines.trim_end().replace('\n', " ; ")
}

/// In words where its bytes say all of it.
fn record_words(record: &Values, serial: u16) -> String {
    let mut bytes = Vec::new();
    record.lay(&mut bytes);
    match Reader::new(&bytes).next() {
        Next::Record(read) if read.values() == *record => piece_words(&bytes, serial),
        _ => {
            let amounts = record.amounts.map(|amount| amount.to_string()).join(" ");
            let Values {
                serial,
                code,
                mark,
                account,
                ..
            } = record;
            format!("values {serial} {code} {mark} {account} {amounts}")
        }
    }
}

/// How many characters of a call are shown.
const SHORT: usize = 300;

/// A call for a person to follow up: its line, and what its book is like.
pub fn short(call: &Call) -> String {
    let serial = call.book().map_or(0, |book| book.serial);
    let mut line = call_line(call, serial);
    if line.len() > SHORT {
        line.truncate(SHORT);
        line += " ..";
    }
    if let Some(book) = call.book() {
        let mut faults = book.faults_by(call.rule());
        faults.sort();
        faults.dedup();
        faults.truncate(6);
        let on = book.places.iter().filter(|place| place[MODE] != 0).count();
        line += &format!(
            "\n  its book: {} accounts, next serial {}, next number {}, {on} modes on, faults {faults:?}",
            book.count, book.serial, book.next
        );
    }
    line
}
