//! "How much would have passed?": the largest amount with which a record would
//! be carried out. It is found by trying. Every amount is carried out on a copy
//! of the book, so no line of the rules stands here a second time.

use crate::model::*;

/// The first step up from the least amount: with all those after it, each half
/// of the one before, it leads past the ceiling.
const FIRST_STEP: u64 = 1 << 43;

/// What is looked at of a record: "its serial and amounts are not", and its
/// second mark byte names one amount.
#[derive(Clone, Copy)]
pub struct Asked {
    pub code: u8,
    pub bit: usize,
    pub account: u16,
}

impl Asked {
    /// 4 "where the code isn't 4 to 10, 12 or 13", 5 "where the mark doesn't
    /// name exactly one amount that suits the code".
    pub fn of(record: &Values) -> Result<Asked, Refusal> {
        if !matches!(record.code, RECEIVE..=SET_MARGIN | REVALUE | REVISE) {
            return Err(Refusal::UnknownCode);
        }
        let names_one = record.mark.count_ones() == 1;
        if !names_one || suits(record.code, record.mark) != Some(true) {
            return Err(Refusal::UnsuitedMark);
        }
        Ok(Asked {
            code: record.code,
            bit: record.mark.trailing_zeros() as usize,
            account: record.account,
        })
    }

    /// "1; 0 for codes 10, 12, 13."
    pub fn least(&self) -> u64 {
        least(self.code)
    }

    /// "The record with the book's next serial and that amount x, all others 0."
    pub fn record(&self, serial: u16, amount: u64) -> Values {
        let mut amounts = [0; 6];
        amounts[self.bit] = amount;
        Values {
            serial,
            code: self.code,
            mark: 1 << self.bit,
            account: self.account,
            amounts,
        }
    }

    /// Whether that record would be carried out, or what it would be refused
    /// with.
    pub fn tried(&self, book: &Book, amount: u64) -> Result<(), Refusal> {
        let mut copy = book.clone();
        let record = self.record(copy.serial, amount);
        match carry_values(&mut copy, &record).outcome {
            Outcome::Refused(refusal) => Err(refusal),
            _ => Ok(()),
        }
    }
}

/// 4, 5, then what the least amount is refused with: 7 first of all. Otherwise
/// up from there in steps, each taken where what it leads to passes: what
/// passes does so with any lesser amount too, which `letter` looks into.
pub fn most(book: &Book, record: &Values) -> Result<u64, Refusal> {
    let asked = Asked::of(record)?;
    let mut amount = asked.least();
    asked.tried(book, amount)?;
    let mut step = FIRST_STEP;
    while step > 0 {
        let more = amount + step;
        if more <= CEILING && asked.tried(book, more).is_ok() {
            amount = more;
        }
        step /= 2;
    }
    Ok(amount)
}
