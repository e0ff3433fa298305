//! The programs `day`, `standings`, `needs`, `holdings`, `explain` and
//! `closeouts`: over a fresh book, or over the one that FROM holds. A FROM that
//! can't be read, or is no book, is told and nothing is printed; over one that
//! isn't sound the day stays unread. And `take_over` and `archive`, from one book
//! file to another, `merge`, from two day files to one, `write` and `read`, from
//! text to a day file and back, and `statements`, over a book.

mod archive;
mod closeouts;
mod merge;
mod statements;
mod texts;

use crate::model::*;
use crate::usage::usage;
use crate::{put_out, Output};
pub use archive::{archive, with_lines};
pub use closeouts::closeouts;
pub use merge::{merge, MOST as MERGE_MOST};
pub use statements::statements;
use std::ffi::OsString;
use std::path::Path;
pub use texts::{read, write};

/// How the day file is read, if it comes to that.
type Reading<'a> = &'a dyn Fn() -> Output;

/// The book to start from, or None where it isn't sound.
fn start(program: &str, from: Option<&OsString>) -> Result<Option<Book>, String> {
    match from {
        Some(path) if path != "-" => Ok(table_of(program, path)?.book()),
        _ => Ok(Some(Book::fresh())),
    }
}

/// The serial to number from, 0 without a book; nothing else of it is looked at.
fn next_serial(program: &str, from: Option<&OsString>) -> Result<u16, String> {
    match from {
        Some(path) if path != "-" => Ok(table_of(program, path)?.serial),
        _ => Ok(0),
    }
}

fn too_many(program: &str) -> String {
    format!("{program}: too many words")
}

fn table_of(program: &str, path: &OsString) -> Result<Table, String> {
    bookfile::read_file(path).map_err(|error| {
        format!(
            "{program}: cannot read the book: {}: {error}",
            path.to_string_lossy()
        )
    })
}

/// "1 and the same book": then TO stays as it was.
pub fn take_over(words: &[OsString]) -> Output {
    let (from, to) = match words {
        [from, to] => (from, to),
        _ => {
            return Err(
                "take_over: a book to take over and where to keep it are expected".to_string(),
            )
        }
    };
    match table_of("take_over", from)?.taken_over() {
        None => Ok(b"1\n".to_vec()),
        Some(after) => {
            keep("take_over", to, &after)?;
            Ok(b"0\n".to_vec())
        }
    }
}

/// The lines of a day, its closing line and the book after it.
pub type Carried = Result<(Vec<u8>, Vec<u8>, Book), String>;

pub fn day(words: &[OsString], day_file: Reading) -> Output {
    day_by(words, day_file, |book, piece| {
        Ok(print::day_parts(book, piece, |_, _| {}))
    })
}

/// `day` with its records carried out so.
pub fn day_by(
    words: &[OsString],
    day_file: Reading,
    carried: fn(Book, &[u8]) -> Carried,
) -> Output {
    let (from, to) = match words {
        [] => (None, None),
        [from] => (Some(from), None),
        [from, to] => (Some(from), Some(to)),
        _ => return Err(usage()),
    };
    let book = match start("day", from)? {
        Some(book) => book,
        None => return Ok(print::UNSOUND.to_vec()),
    };
    let piece = day_file()?;
    let (lines, closing, after) = carried(book, &piece)?;
    if let Some(to) = to {
        if let Err(error) = keep("day", to, &Table::of(&after)) {
            let _ = put_out(&lines);
            return Err(error);
        }
    }
    Ok([lines, closing].concat())
}

/// The book has its place before the closing line is printed. Where it can't
/// be kept that line is missing.
fn keep(program: &str, to: &OsString, table: &Table) -> Result<(), String> {
    let kept = files::replace(Path::new(to), &bookfile::bytes(table));
    kept.map_err(|error| {
        format!(
            "{program}: cannot keep the book: {}: {error}",
            to.to_string_lossy()
        )
    })
}

/// What a program that takes FROM alone prints.
fn shown(
    program: &str,
    words: &[OsString],
    day_file: Reading,
    text: fn(Book, &[u8]) -> Vec<u8>,
) -> Output {
    if words.len() > 1 {
        return Err(too_many(program));
    }
    match start(program, words.first())? {
        Some(book) => Ok(text(book, &day_file()?)),
        None => Ok(print::UNSOUND.to_vec()),
    }
}

pub fn standings(words: &[OsString], day_file: Reading) -> Output {
    shown("standings", words, day_file, print::standings_over)
}

pub fn needs(words: &[OsString], day_file: Reading) -> Output {
    shown("needs", words, day_file, print::needs_over)
}

pub fn explain(words: &[OsString], day_file: Reading) -> Output {
    shown("explain", words, day_file, explain::over)
}

pub fn holdings(words: &[OsString], day_file: Reading) -> Output {
    shown("holdings", words, day_file, holdings::over)
}
