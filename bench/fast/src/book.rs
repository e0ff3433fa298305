//! The book: its rows, how many numbers are given, and the next serial.

use crate::record::Record;
use crate::refusal::Refusal;
use crate::row::{Row, Sort};

/// "The ceiling is 10,000,000,000,000 paise."
pub const CEILING: u64 = 10_000_000_000_000;
/// "A book holds at most 256 accounts, numbered from 0."
pub const MOST_ACCOUNTS: usize = 256;

pub struct Book {
    pub rows: [Row; MOST_ACCOUNTS],
    pub count: usize,
    pub serial: u16,
}

impl Book {
    pub fn fresh() -> Book {
        let mut rows = [Row::BLANK; MOST_ACCOUNTS];
        rows[0] = Row::opened(Sort::Cm, 0);
        Book {
            rows,
            count: 1,
            serial: 0,
        }
    }

    /// The number of the live account that a record names.
    pub fn live(&self, record: &Record) -> Result<u8, Refusal> {
        match u8::try_from(record.account()) {
            Ok(number) if self.row(number).sort != Sort::NotLive => Ok(number),
            _ => Err(Refusal::NotLive),
        }
    }

    pub fn row(&self, number: u8) -> &Row {
        &self.rows[usize::from(number)]
    }

    pub fn row_mut(&mut self, number: u8) -> &mut Row {
        &mut self.rows[usize::from(number)]
    }
}
