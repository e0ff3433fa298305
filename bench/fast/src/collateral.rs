//! Codes 4 to 10, 12 and 13: amounts that come and go, refusals 10 to 13 and 17.

use crate::book::{Book, CEILING};
use crate::carry::Carried;
use crate::kinds::Amounts;
use crate::record::Record;
use crate::refusal::Refusal;
use crate::row::{counted, Row};

fn more_than_unallocated(row: &Row, kinds: &impl Amounts) -> bool {
    kinds.any(|kind, amount| amount > row.received[kind] - row.allocated[kind])
}

impl Book {
    pub fn receive(&mut self, record: &Record, kinds: impl Amounts) -> Carried {
        let number = self.live(record)?;
        let row = self.row_mut(number);
        if kinds.any(|kind, amount| row.received[kind] + amount > CEILING) {
            return Err(Refusal::PastCeiling);
        }
        kinds.each(|kind, amount| row.received[kind] += amount);
        Ok(0)
    }

    pub fn hand_back(&mut self, record: &Record, kinds: impl Amounts) -> Carried {
        let number = self.live(record)?;
        let row = self.row_mut(number);
        if more_than_unallocated(row, &kinds) {
            return Err(Refusal::MoreThanThere);
        }
        kinds.each(|kind, amount| row.received[kind] -= amount);
        Ok(0)
    }

    pub fn allocate(&mut self, record: &Record, kinds: impl Amounts) -> Carried {
        let number = self.live(record)?;
        if more_than_unallocated(self.row(number), &kinds) {
            return Err(Refusal::MoreThanThere);
        }
        self.change(number, |row| {
            kinds.each(|kind, amount| row.allocated[kind] += amount);
            row.collateral = counted(&row.allocated, row.pledged);
        });
        Ok(0)
    }

    /// 11 looks at each kind.
    pub fn release(&mut self, record: &Record, kinds: impl Amounts) -> Carried {
        let number = self.live(record)?;
        let row = self.row(number);
        if kinds.any(|kind, amount| amount > row.allocated[kind]) {
            return Err(Refusal::MoreThanThere);
        }
        let mut left = row.allocated;
        kinds.each(|kind, amount| left[kind] -= amount);
        let collateral = counted(&left, row.pledged);
        may_leave(row, collateral)?;
        self.change(number, |row| {
            row.allocated = left;
            row.collateral = collateral;
        });
        Ok(0)
    }

    pub fn pledge(&mut self, record: &Record, amount: u64) -> Carried {
        let number = self.live(record)?;
        if self.row(number).pledged + amount > CEILING {
            return Err(Refusal::PastCeiling);
        }
        self.change(number, |row| {
            row.pledged += amount;
            row.collateral += amount;
        });
        Ok(0)
    }

    pub fn unpledge(&mut self, record: &Record, amount: u64) -> Carried {
        let number = self.live(record)?;
        let row = self.row(number);
        if amount > row.pledged {
            return Err(Refusal::MoreThanThere);
        }
        may_leave(row, row.collateral - amount)?;
        self.change(number, |row| {
            row.pledged -= amount;
            row.collateral -= amount;
        });
        Ok(0)
    }

    /// Only "a rising margin" may meet 13 (K6), under a shortfall too. Without a
    /// branch for it, which is hard to foresee: any other has a rise of 0 here.
    pub fn set_margin(&mut self, record: &Record, margin: u64) -> Carried {
        let number = self.live(record)?;
        let rise = margin.saturating_sub(self.row(number).margin);
        let is_past = self.cm_need_with(number, rise) > self.row(0).collateral;
        if is_past & (rise != 0) {
            return Err(Refusal::MarginUncovered);
        }
        Ok(self.put_margin(number, margin))
    }

    /// K8: it "can't be refused for want of cover", nor can a value.
    pub fn revise(&mut self, record: &Record, margin: u64) -> Carried {
        let number = self.live(record)?;
        Ok(self.put_margin(number, margin))
    }

    pub fn revalue(&mut self, record: &Record, value: u64) -> Carried {
        let number = self.live(record)?;
        self.change(number, |row| {
            row.collateral = row.collateral - row.pledged + value;
            row.pledged = value;
        });
        Ok(0)
    }

    fn put_margin(&mut self, number: u8, margin: u64) -> u8 {
        let was = self.row(number).margin;
        self.change(number, |row| {
            row.need = row.need - was + margin;
            row.used = row.used - 10 * was + 10 * margin;
            row.margin = margin;
        });
        0
    }
}

/// 17, then 12: "the collateral left after a release or unpledge would be below
/// what was blocked".
fn may_leave(row: &Row, collateral: u64) -> Result<(), Refusal> {
    if row.mode {
        return Err(Refusal::KeptIn);
    }
    if collateral < row.blocked() {
        return Err(Refusal::MoreThanFree);
    }
    Ok(())
}
