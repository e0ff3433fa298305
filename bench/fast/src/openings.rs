//! Codes 1 to 3 and 11: accounts opened and retired, refusals 8, 9 and 14.

use crate::book::Book;
use crate::carry::Carried;
use crate::record::Record;
use crate::refusal::Refusal;
use crate::row::{Row, Sort};

impl Book {
    pub fn open(&mut self, record: &Record, sort: Sort, wanted: Sort) -> Carried {
        let named = self.live(record)?;
        if self.row(named).sort != wanted {
            return Err(Refusal::WrongSort);
        }
        let number = u8::try_from(self.count).map_err(|_| Refusal::NoNumberLeft)?;
        *self.row_mut(number) = Row::opened(sort, named);
        self.row_mut(named).clients += u8::from(sort == Sort::Client);
        self.count += 1;
        Ok(number)
    }

    /// A TM without amounts and live clients has no use, so its mode is off.
    pub fn retire(&mut self, record: &Record) -> Carried {
        let number = self.live(record)?;
        if number == 0 {
            return Err(Refusal::WrongSort);
        }
        let row = *self.row(number);
        if !row.is_empty() || row.clients != 0 {
            return Err(Refusal::NotEmpty);
        }
        self.row_mut(row.above).clients -= u8::from(row.sort == Sort::Client);
        self.row_mut(number).sort = Sort::NotLive;
        Ok(0)
    }
}
