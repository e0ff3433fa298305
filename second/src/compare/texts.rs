//! The programs `write` and `read` against this one: made-up texts to day files,
//! and made-up days to text and back.

use super::child::{ask, Pace};
use super::difference::settle;
use super::{all_met, ran, Made, Run};
use crate::kinds::texts::{all_kinds, Met};
use crate::make::texts::{make, whole_round, Text};
use crate::model::text::{self, BadLine, Fault};
use std::path::{Path, PathBuf};
use std::process::Output;

pub type Written = Result<Vec<u8>, BadLine>;

pub fn all_texts(run: &Run, program: &str) -> Result<Vec<String>, String> {
    let (seeds, runs) = run.seeds("--text-runs", whole_round())?;
    let mut met = Met::default();
    for (_, seed) in seeds {
        one_text(run, program, seed, &mut met)?;
    }
    all_met(" by texts", runs >= whole_round(), &met.kinds, all_kinds())?;
    run.remove(&["text", "book"]);
    Ok(vec![met.line()])
}

fn one_text(run: &Run, program: &str, seed: u64, met: &mut Met) -> Result<(), String> {
    let made = make(seed);
    let words = laid_down(&made, run)?;
    let (got, said) = ran("write", program, &words, &[], Pace::Whole)?;
    let serial = made.from.serial(&mut met.kinds).filter(|_| made.is_there);
    let text = made.bytes();
    let own = serial.map(|serial| text::write(&text, serial));
    met.count(&made, own.as_ref())?;
    let fits = match &own {
        None => got.stdout.is_empty() && is_told("", &said),
        Some(own) => is_same(own, &got, &said) || has_more_room(own, &text, serial, &got, &said),
    };
    if fits && got.status.code().is_some() {
        return Ok(());
    }
    Err(format!(
        "difference: program write, seed {seed}, words {words:?}\n  second: {}\n  other:  {} bytes and on standard error {said:?}",
        shown(own, &got.stdout),
        got.stdout.len()
    ))
}

/// A line over 4,096 bytes may be within another program's room.
fn has_more_room(
    own: &Written,
    text: &[u8],
    serial: Option<u16>,
    got: &Output,
    said: &str,
) -> bool {
    let is_long = matches!(own, Err(bad) if bad.fault == Fault::TooLong);
    let written = |room: usize| text::write_within(text, serial.unwrap_or(0), room);
    is_long
        && [65_536, usize::MAX]
            .iter()
            .any(|&room| is_same(&written(room), got, said))
}

/// The same bytes, or the same line told with the same fault.
fn is_same(own: &Written, got: &Output, said: &str) -> bool {
    match own {
        Ok(bytes) => got.stdout == *bytes && said.is_empty(),
        Err(BadLine { line, fault }) => {
            let fault = *fault as u8;
            got.stdout.is_empty() && is_told(&format!("line {line}: {fault}, "), said)
        }
    }
}

fn is_told(begin: &str, said: &str) -> bool {
    said.starts_with(&format!("write: {begin}")) && said.lines().count() == 1
}

fn shown(own: Option<Written>, other: &[u8]) -> String {
    match own {
        None => "a file that can't be read".to_string(),
        Some(Ok(bytes)) => {
            let same = bytes
                .iter()
                .zip(other)
                .take_while(|(own, other)| own == other);
            format!("{} bytes, the first {} the same", bytes.len(), same.count())
        }
        Some(Err(bad)) => format!("line {}: {}", bad.line, bad.fault as u8),
    }
}

/// The files, and the words that name them.
fn laid_down(made: &Text, run: &Run) -> Result<Vec<PathBuf>, String> {
    run.remove(&["text"]);
    let text = match made.is_there {
        true => run.put("text", &made.bytes())?,
        false => run.path("text"),
    };
    let from = made.from.laid_down(run)?;
    Ok([text].into_iter().chain(from).collect())
}

/// A day to its text, and the text back to the day, numbered from a book.
pub fn there_and_back(
    run: &Run,
    made: &Made,
    from: Option<&Path>,
    serial: u16,
) -> Result<(), String> {
    let (read, write) = (run.program("--read"), run.program("--write"));
    if read.or(write).is_none() {
        return Ok(());
    }
    let said = text::read(&made.bytes, serial).into_bytes();
    if text::write(&said, serial).as_ref() != Ok(&made.bytes) {
        return Err(format!("own text: kind {} seed {}", made.kind, made.seed));
    }
    if let Some(program) = read {
        let words: Vec<&Path> = from.into_iter().collect();
        let got = ask(program, &words, &made.bytes, made.pace);
        settle(run, made, "read", &said, got)?;
    }
    if let Some(program) = write {
        let path = run.put("text", &said)?;
        let words: Vec<&Path> = [path.as_path()].into_iter().chain(from).collect();
        let got = ask(program, &words, &[], Pace::Whole);
        settle(run, made, "write", &made.bytes, got)?;
        run.remove(&["text"]);
    }
    Ok(())
}
