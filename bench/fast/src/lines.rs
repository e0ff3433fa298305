//! Lines laid down without a loop over digits: each text is stored as eight
//! bytes, of which the next one overwrites those past its length.

use crate::carry::Carried;
use crate::record::Record;
use crate::texts;
use std::io::{self, Write};

/// Lines wait for each other up to so many bytes.
const ROOM: usize = 1 << 16;
/// What a line takes at most, and the eight bytes of its last store.
const LINE: usize = 32;

pub struct Lines<W: Write> {
    to: W,
    room: Box<[u8; ROOM]>,
    filled: usize,
}

impl<W: Write> Lines<W> {
    pub fn new(to: W) -> Lines<W> {
        let room = Box::new([0; ROOM]);
        Lines {
            to,
            room,
            filled: 0,
        }
    }

    pub fn put(&mut self, record: &Record, carried: Carried) -> io::Result<()> {
        if self.filled > ROOM - LINE {
            self.hand_over()?;
        }
        let serial = texts::of_number(record.serial());
        let code = texts::of_number(record.code().into());
        let account = texts::of_number(record.account());
        let end = match carried {
            Ok(given) => texts::of_given(given),
            Err(refusal) => texts::of_refusal(refusal as u8),
        };
        let line = &mut self.room[self.filled..self.filled + LINE];
        let mut at = 0;
        for text in [serial, code, account, end] {
            line[at..at + 8].copy_from_slice(&text.to_le_bytes());
            at += texts::length(text);
        }
        self.filled += at;
        Ok(())
    }

    pub fn close(&mut self, closing: &str) -> io::Result<()> {
        self.hand_over()?;
        self.to.write_all(closing.as_bytes())?;
        self.to.flush()
    }

    fn hand_over(&mut self) -> io::Result<()> {
        self.to.write_all(&self.room[..self.filled])?;
        self.filled = 0;
        Ok(())
    }
}
