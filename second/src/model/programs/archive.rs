//! The program `archive`, K11: the retired rows of one book file become lines of
//! a text file, the others another book file.

use super::{keep, table_of};
use crate::model::print::sort_word;
use crate::model::*;
use crate::Output;
use std::ffi::OsString;
use std::fs;
use std::io::{self, ErrorKind};

/// The refusal and how many rows moved. The archive has its place before the
/// book has: a run that is cut off between the two leaves the accounts in both,
/// the other order might leave them in neither.
pub fn archive(words: &[OsString]) -> Output {
    let (from, to, archive) = match words {
        [from, to, archive] => (from, to, archive),
        _ => {
            return Err("archive: a book, where to keep it and an archive are expected".to_string())
        }
    };
    let archived = match table_of("archive", from)?.archived() {
        None => return Ok(b"1 0\n".to_vec()),
        Some(archived) => archived,
    };
    put_lines(archive, &archived.entries).map_err(|error| {
        let name = archive.to_string_lossy();
        format!("archive: cannot keep the archive: {name}: {error}")
    })?;
    keep("archive", to, &archived.book)?;
    Ok(format!("0 {}\n", archived.entries.len()).into_bytes())
}

/// "A file that isn't there is as an empty one; where there is no line to put,
/// it isn't touched."
fn put_lines(archive: &OsString, entries: &[Entry]) -> io::Result<()> {
    if entries.is_empty() {
        return Ok(());
    }
    let before = match fs::read(archive) {
        Err(error) if error.kind() == ErrorKind::NotFound => Vec::new(),
        read => read?,
    };
    match with_lines(&before, entries) {
        None => Ok(()),
        Some(after) => files::replace(archive.as_ref(), &after),
    }
}

/// "The lines that it doesn't have yet are put behind what it has", once its last
/// line is ended. None where it has them all.
pub fn with_lines(before: &[u8], entries: &[Entry]) -> Option<Vec<u8>> {
    let had: Vec<&[u8]> = before.split(|&byte| byte == b'\n').collect();
    let lines = entries.iter().map(line);
    let new: Vec<String> = lines
        .filter(|line| !had.contains(&line.as_bytes()))
        .collect();
    if new.is_empty() {
        return None;
    }
    let mut after = before.to_vec();
    if after.last().map_or(false, |&last| last != b'\n') {
        after.push(b'\n');
    }
    for line in new {
        after.extend_from_slice(line.as_bytes());
        after.push(b'\n');
    }
    Some(after)
}

/// Its number, its sort, its TM's number or 0.
fn line(entry: &Entry) -> String {
    format!("{} {} {}", entry.number, sort_word(entry.sort()), entry.tm)
}
