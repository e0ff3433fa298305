//! Records read from the bytes of a day file.

use crate::ffi;
use crate::{Kinds, Record, Refusal};

/// What stands at a place of a piece.
#[derive(Clone, Copy, PartialEq, Eq, Debug)]
pub enum Read {
    /// No byte is left.
    End,
    /// Too few bytes are left for a record: refusal 2.
    Cut,
    /// A good record, and the place behind it.
    Good(Record, usize),
    /// A record that is at fault.
    Bad {
        /// The first of 4, 5 and 6 that applies.
        reason: Refusal,
        /// Its serial.
        serial: u16,
        /// Its code.
        code: u8,
        /// The account named.
        account: u16,
        /// The place behind it.
        next: usize,
    },
}

/// What stands at a place of a piece; a place past the piece is its end.
///
/// ```
/// use loft::{read_record, Read, Record};
///
/// let piece = [1, 0, 0, 5, 0, 0];
/// assert_eq!(read_record(&piece, 0), Read::Good(Record::open_tm(5), 6));
/// assert_eq!(read_record(&piece, 1), Read::Cut);
/// assert_eq!(read_record(&piece, 6), Read::End);
/// ```
pub fn read_record(piece: &[u8], place: usize) -> Read {
    let mut numbers = [0; 11];
    match ffi::read_record(piece, place, &mut numbers) {
        ffi::NO_RECORD => Read::End,
        number => match Refusal::of(number) {
            Ok(()) => good(&numbers),
            Err(Refusal::Cut) => Read::Cut,
            Err(reason) => bad(reason, &numbers),
        },
    }
}

/// The numbers are within their widths: they were read from so many bytes.
fn good(numbers: &[u64; 11]) -> Read {
    let [next, serial, code, account, named, cash, deposits, guarantees, securities, pledged, margin] =
        *numbers;
    let kinds = Kinds {
        cash,
        deposits,
        guarantees,
        securities,
    };
    let record = Record {
        serial: serial as u16,
        code: code as u8,
        named: named as u8,
        account: account as u16,
        kinds,
        pledged,
        margin,
    };
    Read::Good(record, next as usize)
}

fn bad(reason: Refusal, numbers: &[u64; 11]) -> Read {
    Read::Bad {
        reason,
        serial: numbers[1] as u16,
        code: numbers[2] as u8,
        account: numbers[3] as u16,
        next: numbers[0] as usize,
    }
}

/// The records of a day file, one after the other; see [`records`].
#[derive(Clone, Debug)]
pub struct Records<'a> {
    piece: &'a [u8],
    place: usize,
}

/// Goes over the records of a day file, good or bad. A cut end is told as the
/// last; the end itself isn't.
///
/// ```
/// use loft::{records, Read, Record};
///
/// let day = [1, 0, 0, 0, 0, 0, 2, 0, 0, 1, 0, 1, 7];
/// let found: Vec<Read> = records(&day).collect();
/// assert_eq!(found[1], Read::Good(Record::open_client(1, 1), 12));
/// assert_eq!(found[2..], [Read::Cut]);
/// ```
pub fn records(piece: &[u8]) -> Records<'_> {
    Records { piece, place: 0 }
}

impl Iterator for Records<'_> {
    type Item = Read;

    fn next(&mut self) -> Option<Read> {
        let read = read_record(self.piece, self.place);
        self.place = match read {
            Read::End => return None,
            Read::Cut => self.piece.len(),
            Read::Good(_, next) | Read::Bad { next, .. } => next,
        };
        Some(read)
    }
}
