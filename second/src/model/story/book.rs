//! A story's book in its written form, which need not be a book. It is of
//! version 1, where numbers are the places of rows, until a line speaks of
//! numbers; a fresh one is of version 1 again.

use crate::model::bookfile::Version;
use crate::model::table::{NUMBER, WIDTHS, WORDS};
use crate::model::text::parsed;
use crate::model::*;

type Done = Result<(), String>;

pub struct Written {
    pub bytes: Vec<u8>,
    version: Version,
}

impl Written {
    pub fn fresh() -> Written {
        let version = Version::One;
        Written {
            bytes: bookfile::bytes_as(&Table::fresh(), version),
            version,
        }
    }

    pub fn table(&self) -> Result<Table, String> {
        bookfile::table(&self.bytes).ok_or_else(|| "the book is none".to_string())
    }

    /// This book from now on, in the version that the last one had.
    pub fn keep(&mut self, table: &Table) {
        self.bytes = bookfile::bytes_as(table, self.version);
    }

    /// The book as it is in another version: from 1 to 2 with the places of its
    /// rows as numbers, from 2 to 1 without its numbers.
    pub fn turn(&mut self, version: Version) -> Done {
        if version != self.version {
            let table = self.table()?;
            self.version = version;
            self.keep(&table);
        }
        Ok(())
    }

    pub fn serial(&self) -> u16 {
        u16::from_be_bytes([self.bytes[6], self.bytes[7]])
    }

    pub fn change(&mut self, word: &str, words: &[&str]) -> Done {
        match (word, words) {
            ("fresh", []) => *self = Written::fresh(),
            ("version", [version]) => {
                let version = Version::of(parsed(version, "version")?);
                self.turn(version.ok_or("a book is of version 1 or 2")?)?;
            }
            ("set", [place, word, value]) => self.set(place, word, value)?,
            ("count", [count]) => self.put(4, 2, parsed(count, "number of accounts")?)?,
            ("serial", [serial]) => self.put(6, 2, parsed(serial, "serial")?)?,
            ("next", [next]) => {
                self.turn(Version::Two)?;
                self.put(8, 4, parsed(next, "number")?)?;
            }
            ("byte", [at, value]) => self.put(parsed(at, "place")?, 1, parsed(value, "byte")?)?,
            _ => return Err(format!("`{word}` is said otherwise")),
        }
        Ok(())
    }

    fn set(&mut self, place: &str, word: &str, value: &str) -> Done {
        let place: usize = parsed(place, "place")?;
        if place > 255 {
            return Err("a book has places 0 to 255".to_string());
        }
        let known = WORDS.iter().position(|&known| known == word);
        let word = known.ok_or_else(|| format!("unknown word `{word}`"))?;
        if word == NUMBER {
            self.turn(Version::Two)?;
        }
        let at = self.version.at(place, word).ok_or("no such word")?;
        self.put(at, WIDTHS[word], parsed(value, "value")?)
    }

    /// A number into so many bytes of the written form.
    fn put(&mut self, at: usize, width: usize, value: u64) -> Done {
        if width < 8 && value >> (8 * width) != 0 {
            return Err(format!("`{value}` is too large"));
        }
        let length = self.bytes.len();
        let slot = self.bytes.get_mut(at..at + width);
        let slot = slot.ok_or_else(|| format!("the book has {length} bytes"))?;
        slot.copy_from_slice(&value.to_be_bytes()[8 - width..]);
        Ok(())
    }
}
