//! The bytes of a day file: where a record ends, what it says, and
//! refusals 2, 4, 5 and 6.

use crate::model::*;

/// Mark, serial and account number.
pub const HEAD: usize = 6;
/// "The longest record is 70 bytes."
pub const LONGEST: usize = 70;

pub const PLEDGED: usize = 4;
pub const MARGIN: usize = 5;

pub const OPEN_TM: u8 = 1;
pub const OPEN_CLIENT: u8 = 2;
pub const OPEN_CP: u8 = 3;
pub const RECEIVE: u8 = 4;
pub const HAND_BACK: u8 = 5;
pub const ALLOCATE: u8 = 6;
pub const RELEASE: u8 = 7;
pub const PLEDGE: u8 = 8;
pub const UNPLEDGE: u8 = 9;
pub const SET_MARGIN: u8 = 10;
pub const RETIRE: u8 = 11;
/// K8: "sets pledged to a new value".
pub const REVALUE: u8 = 12;
/// K8: "sets a margin".
pub const REVISE: u8 = 13;
/// "4 is given for codes outside 1 to 13."
pub const LAST_CODE: u8 = REVISE;

/// A record handed over as values: the second mark byte and six amounts.
#[derive(Clone, Copy, PartialEq, Eq, Default, Debug)]
pub struct Values {
    pub serial: u16,
    pub code: u8,
    pub mark: u8,
    pub account: u16,
    pub amounts: [u64; 6],
}

/// A whole record, its amounts still as bytes: refusals 3, 4 and 5 come
/// before any look at them, and an unsuited mark may name up to eight.
#[derive(Clone, Copy)]
pub struct Record<'a> {
    pub code: u8,
    pub mark: u8,
    pub serial: u16,
    pub account: u16,
    pub amounts: &'a [u8],
}

pub enum Next<'a> {
    End,
    /// Refusal 2.
    Cut,
    Record(Record<'a>),
}

pub struct Reader<'a> {
    piece: &'a [u8],
    place: usize,
}

impl<'a> Reader<'a> {
    pub fn new(piece: &'a [u8]) -> Reader<'a> {
        Reader { piece, place: 0 }
    }

    pub fn place(&self) -> usize {
        self.place
    }

    pub fn left(&self) -> &'a [u8] {
        &self.piece[self.place..]
    }

    /// With the end and with a cut the place stays where it was.
    pub fn next(&mut self) -> Next<'a> {
        let next = first_of(self.left());
        if let Next::Record(record) = &next {
            self.place += length(record.mark);
        }
        next
    }
}

/// What bytes begin with.
fn first_of(left: &[u8]) -> Next<'_> {
    if left.is_empty() {
        return Next::End;
    }
    if left.len() < HEAD || left.len() < length(left[1]) {
        return Next::Cut;
    }
    Next::Record(Record {
        code: left[0],
        mark: left[1],
        serial: u16::from_be_bytes([left[2], left[3]]),
        account: u16::from_be_bytes([left[4], left[5]]),
        amounts: &left[HEAD..length(left[1])],
    })
}

/// What stands at a place. "A place past the piece's end counts as the end",
/// the largest number too.
pub fn next_at(piece: &[u8], place: u64) -> Next<'_> {
    let place = usize::try_from(place).unwrap_or(usize::MAX);
    first_of(piece.get(place..).unwrap_or(&[]))
}

/// "Eight bytes for each one in the second mark byte", whatever the code.
pub fn length(mark: u8) -> usize {
    HEAD + 8 * mark.count_ones() as usize
}

/// The third column of document 01's table of codes; None for an unknown code.
pub fn suits(code: u8, mark: u8) -> Option<bool> {
    match code {
        OPEN_TM | OPEN_CLIENT | OPEN_CP | RETIRE => Some(mark == 0),
        RECEIVE | HAND_BACK | ALLOCATE | RELEASE => Some(mark != 0 && mark & 0xF0 == 0),
        PLEDGE | UNPLEDGE | REVALUE => Some(mark == 1 << PLEDGED),
        SET_MARGIN | REVISE => Some(mark == 1 << MARGIN),
        _ => None,
    }
}

/// "Every amount is 1 to the ceiling, except that a margin may be 0"; codes 12
/// and 13 "both allow 0".
pub fn least(code: u8) -> u64 {
    u64::from(!matches!(code, SET_MARGIN | REVALUE | REVISE))
}

impl Values {
    /// The first of 4, 5, 6 that applies. "An unnamed amount that isn't 0
    /// gives 6."
    pub fn fault(&self) -> Option<Refusal> {
        match suits(self.code, self.mark) {
            None => return Some(Refusal::UnknownCode),
            Some(false) => return Some(Refusal::UnsuitedMark),
            Some(true) => {}
        }
        let least = least(self.code);
        let in_range = self.amounts.iter().enumerate().all(|(bit, amount)| {
            if self.mark & (1 << bit) != 0 {
                (least..=CEILING).contains(amount)
            } else {
                *amount == 0
            }
        });
        (!in_range).then_some(Refusal::OutOfRange)
    }

    /// The bytes of a day file. Amounts that aren't named have none.
    pub fn lay(&self, out: &mut Vec<u8>) {
        let named = (0..6).filter(|bit| self.mark & (1 << bit) != 0);
        let amounts: Vec<u64> = named.map(|bit| self.amounts[bit]).collect();
        lay(
            out,
            self.code,
            self.mark,
            self.serial,
            self.account,
            &amounts,
        );
    }
}

impl Record<'_> {
    /// "A record that has been read holds 0 for each amount it doesn't name."
    /// What bits 6 and 7 name never shows: no code suits them.
    pub fn values(&self) -> Values {
        let mut amounts = [0; 6];
        let mut named = numbers(self.amounts);
        for (bit, amount) in amounts.iter_mut().enumerate() {
            if self.mark & (1 << bit) != 0 {
                *amount = named.next().unwrap_or(0);
            }
        }
        Values {
            serial: self.serial,
            code: self.code,
            mark: self.mark,
            account: self.account,
            amounts,
        }
    }

    /// The six amounts, 0 for each not named, or the first of 4, 5, 6.
    pub fn checked(&self) -> Result<[u64; 6], Refusal> {
        let values = self.values();
        values.fault().map_or(Ok(values.amounts), Err)
    }
}

/// Eight bytes for each number, high byte first.
pub fn numbers(bytes: &[u8]) -> impl Iterator<Item = u64> + '_ {
    bytes.chunks_exact(8).map(|eight| {
        let mut number = [0; 8];
        number.copy_from_slice(eight);
        u64::from_be_bytes(number)
    })
}

/// Lays a record down with no check: bad ones must be writable for comparing.
pub fn lay(out: &mut Vec<u8>, code: u8, mark: u8, serial: u16, account: u16, amounts: &[u64]) {
    out.extend_from_slice(&[code, mark]);
    out.extend_from_slice(&serial.to_be_bytes());
    out.extend_from_slice(&account.to_be_bytes());
    for amount in amounts {
        out.extend_from_slice(&amount.to_be_bytes());
    }
}
