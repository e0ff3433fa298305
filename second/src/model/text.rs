//! A readable form of a day file, one record a line.
//!
//! The running serial is the one a book would wait for: it moves on after a
//! record that bears it, and stays after any other, as after refusal 3.

mod fault;
mod line;
mod scan;

use crate::model::*;
pub use fault::Fault;
pub use line::{any_bytes, line_bytes};
pub use scan::Scan;
use std::str::FromStr;

const KIND_WORDS: [&str; 4] = ["cash", "deposits", "guarantees", "securities"];

/// The words of codes 1 to 13, in that order.
const CODE_WORDS: [&str; 13] = [
    "tm", "client", "cp", "receive", "handback", "allocate", "release", "pledge", "unpledge",
    "margin", "retire", "revalue", "revise",
];

/// A line may have so many bytes, its newline not counted.
pub const LINE_MOST: usize = 4_096;

/// A line that says nothing, counted from 1.
#[derive(Clone, Copy, PartialEq, Eq, Debug)]
pub struct BadLine {
    pub line: usize,
    pub fault: Fault,
}

/// Text to a day file's bytes, numbered from this serial.
pub fn write(text: &[u8], serial: u16) -> Result<Vec<u8>, BadLine> {
    write_within(text, serial, LINE_MOST)
}

/// The same with another room for a line.
pub fn write_within(text: &[u8], serial: u16, room: usize) -> Result<Vec<u8>, BadLine> {
    written(text, serial, |line, running| match line.len() > room {
        true => Err(Fault::TooLong),
        false => line_bytes(line, running),
    })
}

/// The same with another way to read a line at the running serial.
pub fn written(
    text: &[u8],
    serial: u16,
    reading: impl Fn(&[u8], u16) -> Result<Vec<u8>, Fault>,
) -> Result<Vec<u8>, BadLine> {
    let mut out = Vec::new();
    let mut running = serial;
    for (place, line) in text.split(|&byte| byte == b'\n').enumerate() {
        let bytes = reading(line, running).map_err(|fault| BadLine {
            line: place + 1,
            fault,
        })?;
        running = moved_on(running, &bytes);
        out.extend(bytes);
    }
    Ok(out)
}

/// The running serial after a line: it moves "after a line whose bytes 2 and 3
/// are the running serial".
pub fn moved_on(running: u16, bytes: &[u8]) -> u16 {
    let bears_it = bytes.get(2..4) == Some(&running.to_be_bytes());
    running.wrapping_add(u16::from(bears_it))
}

pub fn parsed<T: FromStr>(word: &str, what: &str) -> Result<T, String> {
    // The library's reading lets a plus sign through, the form doesn't.
    let plain = word.bytes().all(|byte| byte.is_ascii_digit());
    let number = if plain { word.parse().ok() } else { None };
    number.ok_or_else(|| format!("`{word}` is no {what}"))
}

pub fn hex_bytes(hex: &str) -> Result<Vec<u8>, String> {
    if hex.is_empty() || hex.len() % 2 != 0 {
        return Err("raw needs two hexadecimal digits for each byte".to_string());
    }
    hex.as_bytes().chunks_exact(2).map(hex_byte).collect()
}

fn hex_byte(pair: &[u8]) -> Result<u8, String> {
    let digit = |byte: u8| char::from(byte).to_digit(16).map(|digit| digit as u8);
    match (digit(pair[0]), digit(pair[1])) {
        (Some(high), Some(low)) => Ok(high << 4 | low),
        _ => Err("raw needs hexadecimal digits".to_string()),
    }
}

pub fn hex(bytes: &[u8]) -> String {
    bytes.iter().map(|byte| format!("{byte:02X}")).collect()
}

/// A day file's bytes to the one text that `write` turns into the same bytes,
/// for a book that waits for this serial.
pub fn read(piece: &[u8], serial: u16) -> String {
    let mut out = String::new();
    let mut reader = Reader::new(piece);
    let mut running = serial;
    loop {
        let start = reader.place();
        let next = reader.next();
        let bytes = match next {
            Next::End => return out,
            Next::Cut => &piece[start..],
            Next::Record(_) => &piece[start..reader.place()],
        };
        match next {
            Next::Record(record) if record.checked().is_ok() => {
                push_words(&mut out, &record, running);
            }
            _ => out.push_str(&format!("raw {}\n", hex(bytes))),
        }
        if let Next::Cut = next {
            return out;
        }
        running = moved_on(running, bytes);
    }
}

/// A good record. `tm` and `cp` stand "without their 0".
fn push_words(out: &mut String, record: &Record, running: u16) {
    if record.serial != running {
        out.push_str(&format!("serial {} ", record.serial));
    }
    out.push_str(CODE_WORDS[usize::from(record.code) - 1]);
    if record.account != 0 || !matches!(record.code, OPEN_TM | OPEN_CP) {
        out.push_str(&format!(" {}", record.account));
    }
    let named = (0..8).filter(|bit| record.mark & (1 << bit) != 0);
    for (bit, amount) in named.zip(numbers(record.amounts)) {
        if let Some(word) = KIND_WORDS.get(bit) {
            out.push_str(&format!(" {word}"));
        }
        out.push_str(&format!(" {amount}"));
    }
    out.push('\n');
}
