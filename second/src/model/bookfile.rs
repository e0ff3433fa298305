//! A book's written form: `LVB`, version 2, count, serial, next number, and
//! sixteen words for each of the 256 places, all high byte first. Version 1 has
//! no numbers: it is read wherever a book is and written by nothing but stories
//! and made-up calls.

use crate::model::table::{LIVE, MODE, NUMBER, WIDTHS, WORDS};
use crate::model::*;
use std::ffi::OsStr;
use std::fs::File;
use std::io::Read;

/// `LVB`, without its version.
pub const MARK: [u8; 3] = [0x4C, 0x56, 0x42];

#[derive(Clone, Copy, PartialEq, Eq, Debug)]
pub enum Version {
    /// "Numbers equal to places below the count and 0 from there on, next
    /// number the count."
    One,
    Two,
}

impl Version {
    pub fn of(byte: u8) -> Option<Version> {
        match byte {
            1 => Some(Version::One),
            2 => Some(Version::Two),
            _ => None,
        }
    }

    pub fn byte(self) -> u8 {
        match self {
            Version::One => 1,
            Version::Two => 2,
        }
    }

    /// Where the places begin.
    const fn places(self) -> usize {
        match self {
            Version::One => 8,
            Version::Two => 12,
        }
    }

    /// The bytes of a place.
    const fn place(self) -> usize {
        match self {
            Version::One => 93,
            Version::Two => 95,
        }
    }

    pub const fn length(self) -> usize {
        self.places() + MOST_ACCOUNTS * self.place()
    }

    /// The first word of a place that it has.
    fn first_word(self) -> usize {
        match self {
            Version::One => NUMBER + 1,
            Version::Two => NUMBER,
        }
    }

    /// Where a word of a place stands; None for one that it hasn't.
    pub fn at(self, place: usize, word: usize) -> Option<usize> {
        let before = WIDTHS.get(self.first_word()..word)?;
        let before: usize = before.iter().sum();
        Some(self.places() + place * self.place() + before)
    }
}

/// "Only version 2 is written."
pub fn bytes(table: &Table) -> Vec<u8> {
    bytes_as(table, Version::Two)
}

/// Of version 1 numbers and next number are left out.
pub fn bytes_as(table: &Table, version: Version) -> Vec<u8> {
    let mut out = Vec::with_capacity(version.length());
    out.extend_from_slice(&MARK);
    out.push(version.byte());
    out.extend_from_slice(&table.count.to_be_bytes());
    out.extend_from_slice(&table.serial.to_be_bytes());
    if version == Version::Two {
        out.extend_from_slice(&table.next.to_be_bytes());
    }
    for place in &table.places {
        for (word, width) in place.iter().zip(WIDTHS).skip(version.first_word()) {
            out.extend_from_slice(&word.to_be_bytes()[8 - width..]);
        }
    }
    out
}

/// A file of version 2 with every mode off.
pub fn without_modes(file: &[u8]) -> Vec<u8> {
    let mut bytes = file.to_vec();
    for at in (0..MOST_ACCOUNTS).filter_map(|place| Version::Two.at(place, MODE)) {
        if let Some(mode) = bytes.get_mut(at) {
            *mode = 0;
        }
    }
    bytes
}

/// In version 1, where that says the same.
pub fn first_bytes(table: &Table) -> Option<Vec<u8>> {
    let mut by_places = table.clone();
    by_places.number_by_places();
    (by_places == *table).then(|| bytes_as(table, Version::One))
}

/// The version that bytes begin with; None where they begin no book.
pub fn version(bytes: &[u8]) -> Option<Version> {
    let head = bytes.get(..4)?;
    Version::of(head[3]).filter(|_| head[..3] == MARK)
}

/// None where the bytes are no book: "live and mode are 0 or 1; anything else
/// is no book."
pub fn table(bytes: &[u8]) -> Option<Table> {
    let version = version(bytes)?;
    if bytes.len() != version.length() {
        return None;
    }
    let mut places = [[0; WORDS.len()]; MOST_ACCOUNTS];
    let rows = bytes[version.places()..].chunks_exact(version.place());
    for (place, bytes) in places.iter_mut().zip(rows) {
        *place = place_of(bytes, version);
    }
    let is_yes_or_no = |place: &Place| place[LIVE] <= 1 && place[MODE] <= 1;
    let mut table = Table {
        count: number(&bytes[4..6]) as u16,
        serial: number(&bytes[6..8]) as u16,
        next: number(&bytes[8..12]) as u32,
        places,
    };
    if version == Version::One {
        table.number_by_places();
    }
    table.places.iter().all(is_yes_or_no).then_some(table)
}

fn place_of(bytes: &[u8], version: Version) -> Place {
    let mut place = [0; WORDS.len()];
    let mut left = bytes;
    let words = place.iter_mut().zip(WIDTHS);
    for (word, width) in words.skip(version.first_word()) {
        let (own, rest) = left.split_at(width);
        *word = number(own);
        left = rest;
    }
    place
}

fn number(bytes: &[u8]) -> u64 {
    bytes
        .iter()
        .fold(0, |sum, &byte| sum << 8 | u64::from(byte))
}

/// The book of a file, or why there is none.
pub fn read_file(path: &OsStr) -> Result<Table, String> {
    let mut bytes = Vec::new();
    let most = Version::Two.length() as u64 + 1;
    File::open(path)
        .and_then(|file| file.take(most).read_to_end(&mut bytes))
        .map_err(|error| error.to_string())?;
    table(&bytes).ok_or_else(|| "it is no book".to_string())
}
