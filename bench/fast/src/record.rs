//! The bytes of one record where they lie: its length, its head, its amounts.

use crate::book::CEILING;
use crate::kinds::{Kinds, OneKind};
use crate::refusal::Refusal;
use crate::row::KINDS;

/// Mark, serial and account number.
const HEAD: usize = 6;
const AMOUNT: usize = 8;
/// "The longest record is 70 bytes."
pub const LONGEST: usize = 70;

/// For each second mark byte the record's length: "eight bytes for each one".
const LENGTHS: [u8; 256] = {
    let mut lengths = [0; 256];
    let mut mark = 0;
    while mark < 256 {
        lengths[mark] = (HEAD + AMOUNT * mark.count_ones() as usize) as u8;
        mark += 1;
    }
    lengths
};

/// A record's bytes, and what lies behind a short one.
pub struct Record<'a> {
    pub bytes: &'a [u8; LONGEST],
}

impl Record<'_> {
    pub fn length(&self) -> usize {
        LENGTHS[usize::from(self.mark())].into()
    }

    pub fn has_one_amount(&self) -> bool {
        self.length() == HEAD + AMOUNT
    }

    pub fn code(&self) -> u8 {
        self.bytes[0]
    }

    pub fn mark(&self) -> u8 {
        self.bytes[1]
    }

    pub fn serial(&self) -> u16 {
        u16::from_be_bytes([self.bytes[2], self.bytes[3]])
    }

    pub fn account(&self) -> u16 {
        u16::from_be_bytes([self.bytes[4], self.bytes[5]])
    }

    /// The one amount of a record of codes 8 to 10.
    pub fn amount(&self, bit: u8, least: u64) -> Result<u64, Refusal> {
        if self.mark() != 1 << bit {
            return Err(Refusal::UnsuitedMark);
        }
        let amount = self.number(0);
        if amount.wrapping_sub(least) > CEILING - least {
            return Err(Refusal::OutOfRange);
        }
        Ok(amount)
    }

    /// The amount of a record that names one kind.
    pub fn one_kind(&self) -> Result<OneKind, Refusal> {
        if self.mark() >= 1 << KINDS {
            return Err(Refusal::UnsuitedMark);
        }
        let amount = self.number(0);
        if amount.wrapping_sub(1) >= CEILING {
            return Err(Refusal::OutOfRange);
        }
        let kind = self.mark().trailing_zeros() as usize % KINDS;
        Ok(OneKind { kind, amount })
    }

    /// The amounts of a record that names some kinds, 0 for each not named.
    /// Without a branch for each kind: which are named is hard to foresee.
    pub fn kinds(&self) -> Result<Kinds, Refusal> {
        let mark = self.mark();
        if mark == 0 || mark >= 1 << KINDS {
            return Err(Refusal::UnsuitedMark);
        }
        let (mut amounts, mut place, mut out_of_range) = ([0; KINDS], 0, false);
        for (kind, amount) in amounts.iter_mut().enumerate() {
            let named = mark >> kind & 1;
            let number = self.number(place);
            out_of_range |= (named != 0) & (number.wrapping_sub(1) >= CEILING);
            *amount = number & u64::from(named).wrapping_neg();
            place += usize::from(named);
        }
        if out_of_range {
            return Err(Refusal::OutOfRange);
        }
        Ok(Kinds { amounts })
    }

    /// The amount at a place from 0 to 7.
    fn number(&self, place: usize) -> u64 {
        let start = HEAD + AMOUNT * (place & 7);
        let mut number = [0; AMOUNT];
        number.copy_from_slice(&self.bytes[start..start + AMOUNT]);
        u64::from_be_bytes(number)
    }
}
