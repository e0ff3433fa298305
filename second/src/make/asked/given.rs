//! Records about numbers: openings while few are left or none, and records that
//! name a number in the archive.

use super::archives::roomy;
use super::books::{self, append, cover, find, row};
use super::numbers::{archived, renumber, Gaps};
use super::pieces;
use super::records::good_of;
use crate::listed;
use crate::make::losses;
use crate::make::rng::Rng;
use crate::model::calls::Call;
use crate::model::table::{CP, NUMBER, TRADING};
use crate::model::*;

/// An opening into a book with rows free, or with none.
pub fn opening(code: u8, gaps: Gaps, is_full: bool, rng: &mut Rng) -> Call {
    let (book, tm) = with_tm(gaps, is_full, rng);
    let account = match code {
        OPEN_CLIENT => tm,
        _ => 0,
    };
    let record = Values {
        serial: book.serial,
        code,
        account,
        ..Values::default()
    };
    Call::CarryOut(book, record)
}

/// The book and the number of a live TM.
fn with_tm(gaps: Gaps, is_full: bool, rng: &mut Rng) -> (Table, u16) {
    let mut book = roomy(rng);
    let tm = find(&book, TRADING, Some(1), rng);
    let tm = tm.unwrap_or_else(|| append(&mut book, row(TRADING, 1, 0)));
    while is_full && book.held() < MOST_ACCOUNTS {
        append(&mut book, row(CP, rng.below(2), 0));
    }
    renumber(&mut book, gaps, rng);
    let number = book.places[tm][NUMBER] as u16;
    (book, number)
}

/// Openings one after the other: with one number left the second gives 9.
pub fn openings(gaps: Gaps, rng: &mut Rng) -> Call {
    let (book, tm) = with_tm(gaps, false, rng);
    let mut piece = Vec::new();
    let first = rng.pick(&[OPEN_TM, OPEN_CLIENT, OPEN_CP]);
    for (more, code) in [first, OPEN_CP, OPEN_CLIENT, OPEN_TM]
        .into_iter()
        .enumerate()
    {
        let account = if code == OPEN_CLIENT { tm } else { 0 };
        let serial = book.serial.wrapping_add(more as u16);
        lay(&mut piece, code, 0, serial, account, &[]);
    }
    Call::Day(book, piece, u64::MAX)
}

/// In range, but for its account.
pub fn of_archived(code: u8, rng: &mut Rng) -> Call {
    let book = with_archive(rng);
    let mut record = good_of(code, rng);
    record.serial = book.serial;
    record.account = gone(&book, rng);
    Call::CarryOut(book, record)
}

/// A sound book with numbers in the archive.
pub fn with_archive(rng: &mut Rng) -> Table {
    let mut book = books::sound(rng);
    let with_rows = rng.pick(&[Gaps::Start, Gaps::End, Gaps::NoneLeft]);
    let gaps = if book.count > 1 { with_rows } else { Gaps::End };
    renumber(&mut book, gaps, rng);
    book
}

/// A number in the archive: mostly one that is the place of a row.
pub fn gone(book: &Table, rng: &mut Rng) -> u16 {
    let gone = archived(book);
    let drawn = rng.pick(&gone);
    rng.pick(&[gone[0], gone[0], drawn, gone[gone.len() - 1]]) as u16
}

listed! {
    /// Calls that go by row, or by number, whatever is missing.
    By: Needs, Losses, Day, Next, Standing, TakeOver
}

pub fn over(by: By, gaps: Gaps, rng: &mut Rng) -> Call {
    let (book, tm) = with_tm(gaps, false, rng);
    let held = book.held();
    match by {
        By::Needs => Call::Needs(book, held),
        By::Losses => {
            let losses = book.book().map(|sound| losses::good(&sound, rng.next()));
            Call::CloseOut(book, losses.unwrap_or_default(), 4 * held)
        }
        By::Day => {
            let piece = pieces::steps(&book, 40, rng);
            Call::Day(book, piece, u64::MAX)
        }
        By::Next => {
            let piece = pieces::steps(&book, 1, rng);
            Call::CarryOutNext(book, piece, 0)
        }
        By::Standing => Call::Standing(book, tm),
        By::TakeOver => Call::TakeOver(covered(book, rng)),
    }
}

/// Sound by the old rule, which asks for cover.
fn covered(mut book: Table, rng: &mut Rng) -> Table {
    cover(&mut book, Rule::Old, rng);
    book.settled(Rule::Old)
}
