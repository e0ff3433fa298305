//! The arguments of calls, one after the other. None stands for what is cut
//! short, past its limit or no book.

use super::{LIST_MOST, PIECE_MOST};
use crate::model::desk::{Position, SIDES};
use crate::model::*;

#[derive(Clone, Copy)]
pub struct Input<'a> {
    left: &'a [u8],
}

impl<'a> Input<'a> {
    pub fn of(bytes: &'a [u8]) -> Input<'a> {
        Input { left: bytes }
    }

    pub fn left(&self) -> &'a [u8] {
        self.left
    }

    fn bytes(&mut self, many: usize) -> Option<&'a [u8]> {
        let taken = self.left.get(..many)?;
        self.left = &self.left[many..];
        Some(taken)
    }

    fn number(&mut self, width: usize) -> Option<u64> {
        let bytes = self.bytes(width)?;
        Some(
            bytes
                .iter()
                .fold(0, |sum, &byte| sum << 8 | u64::from(byte)),
        )
    }

    pub fn byte(&mut self) -> Option<u8> {
        self.number(1).map(|number| number as u8)
    }

    /// An account, or a serial.
    pub fn short(&mut self) -> Option<u16> {
        self.number(2).map(|number| number as u16)
    }

    /// A place, or a number.
    pub fn long(&mut self) -> Option<u64> {
        self.number(8)
    }

    fn length(&mut self, most: usize) -> Option<usize> {
        let length = self.number(4)? as usize;
        (length <= most).then_some(length)
    }

    /// Of either version; its fourth byte tells how long it is.
    pub fn book(&mut self) -> Option<Table> {
        let version = bookfile::version(self.left)?;
        bookfile::table(self.bytes(version.length())?)
    }

    pub fn record(&mut self) -> Option<Values> {
        let (serial, code) = (self.short()?, self.byte()?);
        let (mark, account) = (self.byte()?, self.short()?);
        let mut amounts = [0; 6];
        for amount in &mut amounts {
            *amount = self.long()?;
        }
        Some(Values {
            serial,
            code,
            mark,
            account,
            amounts,
        })
    }

    pub fn piece(&mut self) -> Option<Vec<u8>> {
        let length = self.length(PIECE_MOST)?;
        self.bytes(length).map(<[u8]>::to_vec)
    }

    /// "The length counts elements."
    pub fn list(&mut self) -> Option<Vec<u64>> {
        let length = self.length(LIST_MOST)?;
        (0..length).map(|_| self.long()).collect()
    }

    /// "Length 4 (two or four), then so many two's complement numbers of 8."
    pub fn figures(&mut self) -> Option<Vec<i64>> {
        let figures = self.signed_list()?;
        matches!(figures.len(), 2 | 4).then_some(figures)
    }

    /// "Figures a client 1 (2 or 4)."
    pub fn figures_each(&mut self) -> Option<u8> {
        self.byte().filter(|each| matches!(each, 2 | 4))
    }

    pub fn signed_list(&mut self) -> Option<Vec<i64>> {
        let list = self.list()?.into_iter();
        Some(list.map(|figure| figure as i64).collect())
    }

    /// "Product 1, side 1, notional 8"; a side above 3 is no call.
    pub fn positions(&mut self) -> Option<Vec<Position>> {
        let length = self.length(LIST_MOST)?;
        (0..length).map(|_| self.position()).collect()
    }

    fn position(&mut self) -> Option<Position> {
        let (product, side) = (self.byte()?, self.byte()?);
        let &(_, side) = SIDES.get(usize::from(side))?;
        Some(Position {
            product,
            side,
            notional: self.long()?,
        })
    }

    pub fn room(&mut self) -> Option<usize> {
        self.length(LIST_MOST)
    }
}
