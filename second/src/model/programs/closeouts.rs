//! The program `closeouts`, with a file of losses as bytes or as lines.

use super::{start, too_many, Reading};
use crate::model::losses::Loss;
use crate::model::*;
use crate::Output;
use std::ffi::OsString;
use std::fs::File;
use std::io::Read;

enum Losses {
    Bytes(Vec<u8>),
    Lines(Vec<Loss>),
}

/// Where the losses can't be read, that is told and the day stays unread.
pub fn closeouts(words: &[OsString], day_file: Reading) -> Output {
    let as_lines = words.first().map_or(false, |word| word == "--lines");
    let words = &words[usize::from(as_lines)..];
    let path = words
        .first()
        .ok_or_else(|| format!("{}: none is named", print::CANNOT_READ))?;
    if words.len() > 2 {
        return Err(too_many("closeouts"));
    }
    let losses = match as_lines {
        true => Losses::Lines(lines_of(path)?),
        false => Losses::Bytes(bytes_of(path, BYTES_MOST)?),
    };
    let book = match start("closeouts", words.get(1))? {
        Some(book) => book,
        None => return Ok([print::UNSOUND, print::UNSOUND_CLOSE_OUT].concat()),
    };
    let piece = day_file()?;
    Ok(match losses {
        Losses::Bytes(bytes) => print::closeouts_over(book, &piece, &bytes),
        Losses::Lines(lines) => print::closeouts_of(book, &piece, &lines),
    })
}

/// One byte past the most that any book could want is refusal 15 already.
const BYTES_MOST: usize = 8 * MOST_ACCOUNTS + 1;

fn bytes_of(path: &OsString, most: usize) -> Output {
    let mut bytes = Vec::new();
    File::open(path)
        .and_then(|file| file.take(most as u64).read_to_end(&mut bytes))
        .map_err(|error| {
            let path = path.to_string_lossy();
            format!("{}: {path}: {error}", print::CANNOT_READ)
        })?;
    Ok(bytes)
}

fn lines_of(path: &OsString) -> Result<Vec<Loss>, String> {
    let text = bytes_of(path, losses::MOST + 1)?;
    losses::read(&text).map_err(|told| format!("closeouts: {told}"))
}
