//! Calls of the archive: which rows are retired, and how long the room is.

use super::books::{self, append, find, row};
use super::numbers::{renumber, Gaps};
use super::Room;
use crate::listed;
use crate::make::rng::Rng;
use crate::model::calls::Call;
use crate::model::table::*;
use crate::model::*;

listed! {
    Retired: Nobody,
    /// One account.
    One,
    /// A client of a live TM at least.
    Client,
    /// A TM and its clients at least.
    Family,
    /// All but the CM.
    All,
    /// Some of 256 rows.
    OfFull
}

pub fn call(retired: Retired, room: Room, gaps: Gaps, rng: &mut Rng) -> Call {
    let book = with_retired(retired, gaps, rng);
    let room = room.of(wanted(&book));
    Call::Archive(book, room)
}

/// A book that isn't sound, with a room that is too short or isn't: 1 comes
/// before 23.
pub fn of_unsound(mut book: Table, rng: &mut Rng) -> Call {
    if wanted(&book) == 0 && rng.one_in(2) {
        let last = book.held().max(1) - 1;
        book.places[last][LIVE] = 0;
    }
    let wanted = wanted(&book);
    let room = rng.pick(&[0, wanted.saturating_sub(1), wanted, wanted + 1]);
    Call::Archive(book, room)
}

/// "Three for each retired row."
pub fn wanted(book: &Table) -> usize {
    let held = &book.places[..book.held()];
    3 * held.iter().filter(|place| place[LIVE] == 0).count()
}

/// A sound one.
pub fn with_retired(retired: Retired, gaps: Gaps, rng: &mut Rng) -> Table {
    let mut book = match retired {
        Retired::All => Table::fresh(),
        _ => roomy(rng),
    };
    match retired {
        Retired::Nobody => book = without_retired(book),
        Retired::One => {
            book = without_retired(book);
            append(&mut book, row(rng.pick(&[TRADING, CP]), 0, 0));
        }
        Retired::Client => {
            let tm = find(&book, TRADING, Some(1), rng);
            let tm = tm.unwrap_or_else(|| append(&mut book, row(TRADING, 1, 0)));
            append(&mut book, row(CLIENT, 0, tm as u64));
        }
        Retired::Family => family(&mut book),
        Retired::All => {
            for _ in 0..rng.between(1, 80) {
                family(&mut book);
            }
        }
        Retired::OfFull => {
            family(&mut book);
            while book.held() < MOST_ACCOUNTS {
                append(&mut book, row(CP, rng.below(2), 0));
            }
        }
    }
    renumber(&mut book, gaps, rng);
    book
}

fn without_retired(book: Table) -> Table {
    let archived = book.archived();
    archived.map_or(book, |archived| archived.book)
}

fn family(book: &mut Table) {
    let tm = append(book, row(TRADING, 0, 0)) as u64;
    append(book, row(CLIENT, 0, tm));
    append(book, row(CLIENT, 0, tm));
}

/// With room for a few rows more.
pub fn roomy(rng: &mut Rng) -> Table {
    loop {
        let book = books::sound(rng);
        if book.held() + 4 < MOST_ACCOUNTS {
            return book;
        }
    }
}

/// With three rows at least, so that there is a middle.
pub fn with_gaps(gaps: Gaps, rng: &mut Rng) -> Table {
    let mut book = roomy(rng);
    while book.held() < 3 {
        append(&mut book, row(CP, 1, 0));
    }
    renumber(&mut book, gaps, rng);
    book
}
