//! A day file by pieces, its records one after another, how the day closes.

use crate::book::Book;
use crate::carry::carry;
use crate::lines::Lines;
use crate::record::{Record, LONGEST};
use std::io::{self, ErrorKind, Read, Write};

const MILLION: u64 = 1_000_000;
/// What is read of the day file goes up to here.
const PIECE: usize = 1 << 16;

struct Day<W: Write> {
    book: Book,
    lines: Lines<W>,
    read: u64,
    carried: u64,
}

pub fn whole(mut from: impl Read, to: impl Write) -> io::Result<()> {
    let mut day = Day {
        book: Book::fresh(),
        lines: Lines::new(to),
        read: 0,
        carried: 0,
    };
    let mut piece = Box::new([0; PIECE + LONGEST]);
    let mut kept = 0;
    let word = loop {
        let more = more_of(&mut from, &mut piece[kept..PIECE])?;
        let filled = kept + more;
        if day.read == MILLION {
            break if filled == 0 { "end" } else { "long" };
        }
        if more == 0 {
            break if filled == 0 { "end" } else { "cut" };
        }
        let place = day.records(&piece, filled)?;
        piece.copy_within(place..filled, 0);
        kept = filled - place;
    };
    let closing = format!("{word} {} {}\n", day.read, day.carried);
    day.lines.close(&closing)
}

fn more_of(from: &mut impl Read, room: &mut [u8]) -> io::Result<usize> {
    loop {
        match from.read(room) {
            Err(error) if error.kind() == ErrorKind::Interrupted => {}
            other => return other,
        }
    }
}

impl<W: Write> Day<W> {
    /// Carries out the piece's whole records, up to a million in all, and gives
    /// the place after the last of them.
    fn records(&mut self, piece: &[u8; PIECE + LONGEST], filled: usize) -> io::Result<usize> {
        let (mut place, mut read, mut carried) = (0, self.read, self.carried);
        while read < MILLION {
            let bytes = piece.get(place..place + LONGEST);
            let bytes = match bytes.and_then(|bytes| bytes.try_into().ok()) {
                Some(bytes) => bytes,
                None => break,
            };
            let record = Record { bytes };
            let behind = place + record.length();
            if behind > filled {
                break;
            }
            let outcome = carry(&mut self.book, &record);
            read += 1;
            carried += u64::from(outcome.is_ok());
            self.lines.put(&record, outcome)?;
            place = behind;
        }
        (self.read, self.carried) = (read, carried);
        Ok(place)
    }
}
