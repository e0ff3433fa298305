//! A book word by word, as it may be handed over from outside: sound or not.

mod archive;
mod faults;
mod takeover;

use crate::model::*;
pub use archive::{Archived, Entry};
pub use faults::Fault;

/// The words of a place, in the order of the written form.
pub const WORDS: [&str; 16] = [
    "number",
    "sort",
    "live",
    "tm",
    "received.cash",
    "received.deposits",
    "received.guarantees",
    "received.securities",
    "allocated.cash",
    "allocated.deposits",
    "allocated.guarantees",
    "allocated.securities",
    "pledged",
    "margin",
    "mode",
    "need",
];

/// Where in the list they stand.
pub const NUMBER: usize = 0;
pub const SORT: usize = 1;
pub const LIVE: usize = 2;
/// A client's: the place of its TM's row.
pub const TM: usize = 3;
pub const RECEIVED: usize = 4;
pub const ALLOCATED: usize = 8;
/// Those allocated.
pub const SECURITIES: usize = 11;
pub const PLEDGED: usize = 12;
pub const MARGIN: usize = 13;
pub const MODE: usize = 14;
pub const NEED: usize = 15;

/// How many bytes each word has in the written form.
pub const WIDTHS: [usize; 16] = [2, 1, 1, 2, 8, 8, 8, 8, 8, 8, 8, 8, 8, 8, 1, 8];

/// Sorts: "0 the CM, 1 TM, 2 client, 3 CP; any byte can be read."
pub const CM: u64 = 0;
pub const TRADING: u64 = 1;
pub const CLIENT: u64 = 2;
pub const CP: u64 = 3;

/// Sixteen words, each within its width; live and mode are 0 or 1.
pub type Place = [u64; WORDS.len()];

#[derive(Clone, PartialEq, Eq, Debug)]
pub struct Table {
    pub count: u16,
    pub serial: u16,
    /// The next number to be given.
    pub next: u32,
    pub places: [Place; MOST_ACCOUNTS],
}

impl Table {
    pub fn fresh() -> Table {
        Table::of(&Book::fresh())
    }

    pub fn of(book: &Book) -> Table {
        let mut places = [[0; WORDS.len()]; MOST_ACCOUNTS];
        for (account, place) in places.iter_mut().enumerate() {
            *place = place_of(book, account);
        }
        Table {
            count: book.count as u16,
            serial: book.serial,
            next: book.numbers.next,
            places,
        }
    }

    /// How many of the places the number of rows takes in.
    pub fn held(&self) -> usize {
        usize::from(self.count).min(MOST_ACCOUNTS)
    }

    /// The book to work with, or None where it isn't sound.
    pub fn book(&self) -> Option<Book> {
        if !self.is_sound() {
            return None;
        }
        let count = usize::from(self.count);
        let mut rows = [Row::default(); MOST_ACCOUNTS];
        for (row, place) in rows.iter_mut().zip(&self.places).take(count) {
            *row = row_of(place);
        }
        let mode = |place: &Place| match place[MODE] {
            0 => Mode::Off,
            _ => Mode::On,
        };
        let modes = std::array::from_fn(|account| mode(&self.places[account]));
        let needs = std::array::from_fn(|account| self.places[account][NEED]);
        let numbers = Numbers {
            of_rows: std::array::from_fn(|account| self.places[account][NUMBER] as u16),
            next: self.next,
        };
        let serial = self.serial;
        Some(Book::handed_over(
            rows, count, numbers, serial, modes, needs,
        ))
    }

    /// As a book that says nothing of numbers has them: "numbers equal to places
    /// below the count and 0 from there on, next number the count".
    pub fn number_by_places(&mut self) {
        let held = self.held();
        for (number, place) in self.places.iter_mut().enumerate() {
            place[NUMBER] = if number < held { number as u64 } else { 0 };
        }
        self.next = u32::from(self.count);
    }
}

fn place_of(book: &Book, account: usize) -> Place {
    let row = &book.rows[account];
    let sort = match row.sort {
        Sort::Cm | Sort::Unused => CM,
        Sort::Tm => TRADING,
        Sort::Client => CLIENT,
        Sort::Cp => CP,
    };
    let mut place = [0; WORDS.len()];
    place[NUMBER] = u64::from(book.number(account));
    place[SORT] = sort;
    place[LIVE] = u64::from(row.live);
    place[TM] = u64::from(row.tm);
    place[RECEIVED..][..KINDS].copy_from_slice(&row.received);
    place[ALLOCATED..][..KINDS].copy_from_slice(&row.allocated);
    place[PLEDGED] = row.pledged;
    place[MARGIN] = row.margin;
    place[MODE] = u64::from(book.modes[account] == Mode::On);
    place[NEED] = book.needs[account];
    place
}

/// Of a place within the number of rows of a sound book.
fn row_of(place: &Place) -> Row {
    let sort = match place[SORT] {
        CM => Sort::Cm,
        TRADING => Sort::Tm,
        CLIENT => Sort::Client,
        _ => Sort::Cp,
    };
    Row {
        sort,
        live: place[LIVE] == 1,
        tm: place[TM] as u16,
        received: std::array::from_fn(|kind| place[RECEIVED + kind]),
        allocated: std::array::from_fn(|kind| place[ALLOCATED + kind]),
        pledged: place[PLEDGED],
        margin: place[MARGIN],
    }
}
