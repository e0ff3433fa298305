//! The program `merge` against this one, on many made-up pairs of day files: what
//! it writes, and what it tells.

use super::child::Pace;
use super::{all_met, ran, Run};
use crate::kinds::merges::{Met, KINDS};
use crate::make::froms::From;
use crate::make::merges::{make, whole_round, Merging};
use crate::model::merge::records;
use crate::model::*;
use crate::tally::names;
use crate::Output;
use std::ffi::OsString;
use std::path::PathBuf;

/// How many mergings, where it isn't said.
pub const USUAL: u64 = 120;

pub fn all_merges(run: &Run, program: &str) -> Result<Vec<String>, String> {
    let (seeds, merges) = run.seeds("--merges", USUAL)?;
    let mut met = Met::default();
    for (_, seed) in seeds {
        one_merge(run, program, seed, &mut met)?;
    }
    all_met(
        " by mergings",
        merges >= whole_round(),
        &met.kinds,
        names(KINDS),
    )?;
    run.remove(&["a", "b", "book"]);
    Ok(vec![met.line()])
}

fn one_merge(run: &Run, program: &str, seed: u64, met: &mut Met) -> Result<(), String> {
    let merging = make(seed);
    let words = laid_down(&merging, run)?;
    let own: Vec<OsString> = words.iter().map(OsString::from).collect();
    let want = programs::merge(&own);
    let (got, said) = ran("merge", program, &words, &[], Pace::Whole)?;
    let fits = match &want {
        Ok(bytes) => got.stdout == *bytes && said.is_empty(),
        Err(line) => got.stdout.is_empty() && is_told(line, &said),
    };
    met.count(&merging);
    if fits && got.status.code().is_some() {
        return Ok(());
    }
    Err(format!(
        "difference: program merge, seed {seed}, words {words:?}\n  second: {}\n  other:  {} and on standard error {said:?}",
        shown(&want),
        shown(&Ok(got.stdout))
    ))
}

/// The files, and the words that name them.
fn laid_down(merging: &Merging, run: &Run) -> Result<Vec<PathBuf>, String> {
    let mut words = Vec::new();
    for (name, file) in ["a", "b"].into_iter().zip(&merging.files) {
        run.remove(&[name]);
        words.push(match file {
            Some(bytes) => run.put(name, bytes)?,
            None => run.path(name),
        });
    }
    words.extend(merging.from.laid_down(run)?);
    Ok(words)
}

const NO_BOOK: &str = "merge: cannot read the book";

/// Just this line; but how a file of a book is called is free, and so are the
/// system's words for a file that can't be opened, behind the file's name.
fn is_told(line: &str, said: &str) -> bool {
    let begin = if line.starts_with(NO_BOOK) {
        NO_BOOK
    } else if line.contains("(os error") {
        &line[..line.rfind(": ").map_or(line.len(), |place| place + 2)]
    } else {
        return said == format!("{line}\n");
    };
    said.starts_with(begin) && said.ends_with('\n') && said.lines().count() == 1
}

fn shown(answer: &Output) -> String {
    match answer {
        Err(line) => format!("{line:?} on standard error"),
        Ok(bytes) => {
            let many = records(bytes).map_or_else(|(_, many)| many, |records| records.len());
            format!("{} bytes, {many} good records", bytes.len())
        }
    }
}

impl From {
    /// The word for it, if any, with its file where there is one.
    pub fn laid_down(&self, run: &Run) -> Result<Option<PathBuf>, String> {
        match self {
            From::Nowhere => Ok(None),
            From::Dash => Ok(Some(PathBuf::from("-"))),
            From::File(bytes) => run.put("book", bytes).map(Some),
        }
    }
}
