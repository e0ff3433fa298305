//! What each call answers. "Every line has all its numbers at a refusal too",
//! but for `read_at`, `margin` and `margin_with`.

use super::Call;
use crate::model::day::run;
use crate::model::desk::figures::{exposure, exposures, margin_with};
use crate::model::most::most;
use crate::model::statement::check;
use crate::model::*;
use std::fmt::Display;

/// The line without its newline, and the word in it that tells the outcome: a
/// refusal or 0, `end`, or a closing word.
pub struct Answered {
    pub line: String,
    pub word: String,
}

pub fn answer(call: &Call) -> Answered {
    match call {
        Call::IsSound(book) => told(u8::from(book.is_sound()), &[]),
        Call::Standing(book, account) => standing(book.book(), *account),
        Call::CarryOut(table, record) => carry_out(table, table.book(), record),
        Call::CarryOutNext(table, piece, place) => {
            carry_out_next(table, table.book(), piece, *place)
        }
        Call::Day(table, piece, number) => day(table, table.book(), piece, *number),
        Call::ReadAt(piece, place) => read_at(piece, *place),
        Call::Write(record, room) => write(record, *room),
        Call::CloseOut(book, losses, room) => close_out_call(book.book(), losses, *room),
        Call::Needs(book, room) => needs(book.book(), *room),
        Call::TakeOver(book) => take_over(book),
        Call::Archive(book, room) => archive(book, *room),
        Call::Most(book, record) => most_call(book.book(), record),
        Call::Statement(book, tm, statement) => {
            told(check(book.book().as_ref(), *tm, statement).refusal(), &[])
        }
        Call::Margin(serial, account, initial, positions) => {
            margin_record(*serial, *account, desk::margin(*initial, positions))
        }
        Call::MarginWith(serial, account, initial, positions, figures) => {
            let margin = margin_with(*initial, positions, figures);
            margin_record(*serial, *account, margin)
        }
        Call::Exposure(figures) => match exposure(figures) {
            Ok(amount) => told(0, &[amount]),
            Err(refusal) => told(refusal as u8, &[0]),
        },
        Call::Exposures(each, list, room) => match exposures(usize::from(*each), list, *room) {
            Ok(answers) => told(0, &answers),
            Err(refusal) => told(refusal as u8, &lent(*room)),
        },
    }
}

/// The word first, then the rest of the line.
fn told(word: impl Display, rest: &[u64]) -> Answered {
    let word = word.to_string();
    let line = spaced(word.clone(), rest);
    Answered { line, word }
}

fn spaced(mut line: String, rest: &[u64]) -> String {
    for number in rest {
        line += &format!(" {number}");
    }
    line
}

/// "Refusals 1, 7, and all five figures 0"; a refused one shows off and no
/// shortfall.
fn standing(book: Option<Book>, account: u16) -> Answered {
    let book = match book {
        Some(book) => book,
        None => return told(UNSOUND, &[0; 7]),
    };
    let place = match book.live_place(account) {
        Some(place) => place,
        None => return told(Refusal::NotLive as u8, &[0; 7]),
    };
    let standing = book.standings()[place];
    let figures = [
        standing.collateral,
        standing.need,
        standing.blocked,
        standing.deemed,
        standing.free,
        u64::from(standing.mode == Mode::On),
        standing.shortfall,
    ];
    told(0, &figures)
}

/// `same`, or count, serial, next number, and every place of which a word
/// differs.
fn book_words(before: &Table, after: &Table) -> String {
    if before == after {
        return "same".to_string();
    }
    let mut words = format!("{} {} {}", after.count, after.serial, after.next);
    for (number, place) in after.places.iter().enumerate() {
        if before.places[number] != *place {
            words = spaced(format!("{words} {number}"), place);
        }
    }
    words
}

/// Serial, code, account, refusal or `end`, number given, the place if there
/// is one, and the book.
fn record_line(
    names: [u64; 3],
    word: String,
    given: u16,
    place: Option<u64>,
    book: &str,
) -> Answered {
    let [serial, code, account] = names;
    let place = place.map_or(String::new(), |place| format!(" {place}"));
    Answered {
        line: format!("{serial} {code} {account} {word} {given}{place} {book}"),
        word,
    }
}

/// "With 1, 2 and the end, its serial, code and account are 0", and the book
/// and the place stay.
fn nameless(word: impl Display, place: Option<u64>) -> Answered {
    record_line([0; 3], word.to_string(), 0, place, "same")
}

fn record_answered(answer: &Answer, place: Option<u64>, before: &Table, after: &Table) -> Answered {
    let names = [
        u64::from(answer.serial),
        u64::from(answer.code),
        u64::from(answer.account),
    ];
    let word = answer.refusal().to_string();
    let book = book_words(before, after);
    record_line(names, word, answer.opened(), place, &book)
}

fn carry_out(table: &Table, book: Option<Book>, record: &Values) -> Answered {
    let mut book = match book {
        Some(book) => book,
        None => return nameless(UNSOUND, None),
    };
    let answer = carry_values(&mut book, record);
    record_answered(&answer, None, table, &Table::of(&book))
}

/// "An unsound book gives 1 even at the end."
fn carry_out_next(table: &Table, book: Option<Book>, piece: &[u8], place: u64) -> Answered {
    let mut book = match book {
        Some(book) => book,
        None => return nameless(UNSOUND, Some(place)),
    };
    let record = match next_at(piece, place) {
        Next::End => return nameless("end", Some(place)),
        Next::Cut => return nameless(Refusal::Cut as u8, Some(place)),
        Next::Record(record) => record,
    };
    let answer = carry_values(&mut book, &record.values());
    let past = place + length(record.mark) as u64;
    record_answered(&answer, Some(past), table, &Table::of(&book))
}

/// "An unsound book gives 1 as the closing word, place 0, counts of 0 and the
/// same book."
fn day(table: &Table, book: Option<Book>, piece: &[u8], number: u64) -> Answered {
    let mut book = match book {
        Some(book) => book,
        None => return with_book(told(UNSOUND, &[0; 3]), "same"),
    };
    let most = usize::try_from(number).unwrap_or(usize::MAX);
    let day = run(&mut book, piece, most, |_, _| {});
    let word = match day.closing {
        Closing::End => "end",
        Closing::Cut => "cut",
        Closing::Long => "long",
    };
    let counts = [day.place as u64, day.read as u64, day.carried as u64];
    let after = book_words(table, &Table::of(&book));
    with_book(told(word, &counts), &after)
}

fn with_book(answered: Answered, book: &str) -> Answered {
    Answered {
        line: format!("{} {book}", answered.line),
        ..answered
    }
}

fn read_at(piece: &[u8], place: u64) -> Answered {
    let record = match next_at(piece, place) {
        Next::End => return told("end", &[]),
        Next::Cut => return told(Refusal::Cut as u8, &[]),
        Next::Record(record) => record.values(),
    };
    let mut rest = vec![
        place + length(record.mark) as u64,
        u64::from(record.serial),
        u64::from(record.code),
        u64::from(record.account),
    ];
    if let Some(fault) = record.fault() {
        return told(fault as u8, &rest);
    }
    rest.push(u64::from(record.mark));
    rest.extend(record.amounts);
    told(0, &rest)
}

/// "Place i (from 0) of a lent room holds i + 1 beforehand."
fn lent(room: usize) -> Vec<u64> {
    (1..=room as u64).collect()
}

/// "4, 5, then 6 .., then 15; it then writes nothing. When it writes, the room
/// past the record stays unchanged."
fn write(record: &Values, room: usize) -> Answered {
    let mut bytes = Vec::new();
    record.lay(&mut bytes);
    let refusal = match record.fault() {
        Some(fault) => fault as u8,
        None if room < bytes.len() => Refusal::WrongLength as u8,
        None => 0,
    };
    let written = if refusal == 0 { bytes } else { Vec::new() };
    let mut rest = vec![written.len() as u64];
    let kept = lent(room).into_iter().skip(written.len());
    rest.extend(written.iter().map(|&byte| u64::from(byte)));
    rest.extend(kept.map(|number| number % 256));
    told(refusal, &rest)
}

/// "The checks are 1, 15 (losses, then room), 16. A refusal leaves the room
/// untouched and gives a total of 0."
fn close_out_call(book: Option<Book>, losses: &[u64], room: usize) -> Answered {
    let refused = |refusal: u8| {
        let rest: Vec<u64> = [0].into_iter().chain(lent(room)).collect();
        told(refusal, &rest)
    };
    let book = match book {
        Some(book) => book,
        None => return refused(UNSOUND),
    };
    if losses.len() != book.count || room != 4 * book.count {
        return refused(Refusal::WrongLength as u8);
    }
    match close_out(&book, losses.to_vec()) {
        Err(refusal) => refused(refusal as u8),
        Ok(closed) => {
            let mut rest = vec![closed.total];
            for paid in closed.payments {
                rest.extend([paid.own, paid.tm, paid.cm, paid.uncovered]);
            }
            told(0, &rest)
        }
    }
}

/// "Refusals 1; 15, room not one for each account."
fn needs(book: Option<Book>, room: usize) -> Answered {
    match book {
        None => told(UNSOUND, &lent(room)),
        Some(book) if room != book.count => told(Refusal::WrongLength as u8, &lent(room)),
        Some(book) => told(0, &book.all_needs()),
    }
}

/// "1 and the same book", or the book taken over.
fn take_over(table: &Table) -> Answered {
    match table.taken_over() {
        None => with_book(told(UNSOUND, &[]), "same"),
        Some(after) => with_book(told(0, &[]), &book_words(table, &after)),
    }
}

/// "23, the archive is too short, after 1, nothing moved"; "archive room not
/// needed stays unchanged".
fn archive(table: &Table, room: usize) -> Answered {
    let mut words: Vec<u64> = lent(room).iter().map(|word| word % 65_536).collect();
    let (refusal, archived) = match table.archived() {
        None => (UNSOUND, None),
        Some(archived) if room < 3 * archived.entries.len() => {
            (Refusal::ArchiveTooShort as u8, None)
        }
        Some(archived) => (0, Some(archived)),
    };
    let (entries, after) = match archived {
        None => (Vec::new(), table.clone()),
        Some(archived) => (archived.entries, archived.book),
    };
    for (three, entry) in words.chunks_exact_mut(3).zip(&entries) {
        three.copy_from_slice(&entry.numbers());
    }
    words.insert(0, entries.len() as u64);
    with_book(told(refusal, &words), &book_words(table, &after))
}

/// "A refusal or 0, and an amount": 0 with a refusal.
fn most_call(book: Option<Book>, record: &Values) -> Answered {
    match book.map(|book| most(&book, record)) {
        None => told(UNSOUND, &[0]),
        Some(Err(refusal)) => told(refusal as u8, &[0]),
        Some(Ok(amount)) => told(0, &[amount]),
    }
}

/// The refusal alone, "no record then", or the record.
fn margin_record(serial: u16, account: u16, margin: Result<u64, Refusal>) -> Answered {
    match margin {
        Err(refusal) => told(refusal as u8, &[]),
        Ok(margin) => {
            let record = desk::record(serial, account, margin);
            let mut rest = vec![
                u64::from(record.serial),
                u64::from(record.code),
                u64::from(record.mark),
                u64::from(record.account),
            ];
            rest.extend(record.amounts);
            told(0, &rest)
        }
    }
}
