//! K2 and K3 of document 02: needs, uses and modes after one row has changed.
//! At an account whose figures stay as they are a look leaves its mode as it
//! is, so only rows that change are looked at.

use crate::book::Book;
use crate::row::{Left, Row};

impl Book {
    /// Changes collateral or margin of one row, and what follows from it.
    pub fn change(&mut self, number: u8, change: impl FnOnce(&mut Row)) {
        let row = self.row_mut(number);
        let was = row.left();
        change(row);
        row.look();
        let (now, above) = (row.left(), row.above);
        if number != 0 && now != was {
            self.carry_up(above, was, now);
        }
    }

    /// At most two steps: a client's TM, then the CM.
    fn carry_up(&mut self, number: u8, was: Left, now: Left) {
        let row = self.row_mut(number);
        let (row_was, above) = (row.left(), row.above);
        row.need = row.need - was.deemed + now.deemed;
        row.used = row.used - was.excess + now.excess;
        row.look();
        let row_now = row.left();
        if number != 0 && row_now != row_was {
            self.carry_up(above, row_was, row_now);
        }
    }

    /// What the CM's need would be if the account's rose by this much.
    pub fn cm_need_with(&self, number: u8, rise: u64) -> u64 {
        let (mut at, mut rise) = (number, rise);
        while at != 0 {
            let row = self.row(at);
            let deemed = (row.need + rise).saturating_sub(row.collateral);
            rise = deemed - row.left().deemed;
            at = row.above;
        }
        self.row(0).need + rise
    }
}
