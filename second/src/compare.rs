//! Other programs against this one, byte for byte, on many made-up days,
//! calls and books.

pub mod archives;
mod books;
pub mod calls;
pub mod child;
mod days;
pub mod difference;
pub mod lines;
pub mod margins;
mod merges;
pub mod options;
pub mod orders;
mod refused;
pub mod statements;
pub mod texts;

use crate::tally::{none_missed, Tally};
use child::{ask, Pace};
use options::Options;
use std::fmt::Debug;
use std::fs;
use std::path::{Path, PathBuf};
use std::process::Output;

/// Programs that read a day, and the others.
#[rustfmt::skip]
const OF_DAYS: [&str; 10] = [
    "--day", "--standings", "--closeouts", "--needs", "--explain", "--holdings", "--write", "--read",
    "--take-over", "--archive",
];
const OTHERS: [&str; 4] = ["--margins", "--merge", "--statements", "--calls"];

#[rustfmt::skip]
const VALUES: [&str; 10] = [
    "--text-runs", "--margin-runs", "--merges", "--statement-runs", "--call-inputs", "--without", "--books", "--days",
    "--seed", "--millions",
];

/// A made-up day as a comparison feeds it, and what it was made from.
pub struct Made {
    pub kind: &'static str,
    pub seed: u64,
    pub bytes: Vec<u8>,
    pub pace: Pace,
}

impl Made {
    /// Another piece in its place.
    pub fn with(&self, piece: &[u8]) -> Made {
        let bytes = piece.to_vec();
        Made { bytes, ..*self }
    }
}

/// The programs of one run, and a folder for its files.
pub struct Run<'a> {
    options: Options<'a>,
    folder: PathBuf,
}

impl<'a> Run<'a> {
    /// A program by its option, such as `--day`.
    pub fn program(&self, name: &str) -> Option<&'a str> {
        self.options.value(name)
    }

    fn has_any(&self, names: &[&str]) -> bool {
        names.iter().any(|name| self.options.has(name))
    }

    pub fn path(&self, name: &str) -> PathBuf {
        self.folder.join(name)
    }

    pub fn put(&self, name: &str, bytes: &[u8]) -> Result<PathBuf, String> {
        let path = self.path(name);
        fs::write(&path, bytes).map_err(|error| error.to_string())?;
        Ok(path)
    }

    pub fn remove(&self, names: &[&str]) {
        for name in names {
            let _ = fs::remove_file(self.path(name));
        }
    }

    /// A day in four is fed in small pieces, where that is asked for.
    pub fn pace(&self, place: u64, seed: u64) -> Pace {
        match self.options.has("--trickle") && place % 4 == 1 {
            true => Pace::Trickle(seed),
            false => Pace::Whole,
        }
    }

    /// So many seeds one after the other, each with its place; and how many.
    pub fn seeds(
        &self,
        name: &str,
        usual: u64,
    ) -> Result<(impl Iterator<Item = (u64, u64)>, u64), String> {
        let first = self.options.number("--seed", 1)?;
        let many = self.options.number(name, usual)?;
        Ok((
            (0..many).map(move |place| (place, first.wrapping_add(place))),
            many,
        ))
    }
}

/// Runs a program; its output, and what it says on standard error.
pub fn ran<P: AsRef<Path>>(
    name: &str,
    program: &str,
    words: &[P],
    input: &[u8],
    pace: Pace,
) -> Result<(Output, String), String> {
    let words: Vec<&Path> = words.iter().map(AsRef::as_ref).collect();
    let got = ask(program, &words, input, pace);
    let got = got.map_err(|error| format!("{name}: cannot run: {error}"))?;
    let said = String::from_utf8_lossy(&got.stderr).into_owned();
    Ok((got, said))
}

/// Where a whole round was asked for, all of it must have been met.
pub fn all_met<K: Ord + Copy + Debug>(
    by: &str,
    is_whole: bool,
    met: &Tally<K>,
    all: impl IntoIterator<Item = K>,
) -> Result<(), String> {
    none_missed(by, is_whole, met.missed("", all))
}

/// The closing line on success; a readable account of the first difference
/// otherwise.
pub fn compare(words: &[String]) -> Result<String, String> {
    let valued = [&OF_DAYS[..], &OTHERS, &VALUES].concat();
    let run = Run {
        options: Options::of(words, &valued, &["--trickle"])?,
        folder: std::env::temp_dir().join(format!("second-compare-{}", std::process::id())),
    };
    if !run.has_any(&OF_DAYS) && !run.has_any(&OTHERS) {
        let (last, others) = (OTHERS[3], [&OF_DAYS[..], &OTHERS[..3]].concat().join(", "));
        return Err(format!("compare: name a program with {others} or {last}"));
    }
    fs::create_dir_all(&run.folder).map_err(|error| error.to_string())?;
    let lines = all(&run);
    // A day file kept for a difference leaves the losses with it.
    if lines.is_ok() {
        run.remove(&["losses", "lines"]);
    }
    let _ = fs::remove_dir(&run.folder);
    Ok(lines?.join("\n"))
}

/// Days, then books, then the other programs, each where it is asked for. Beside
/// `--merge` the programs that read days serve it, and days are for `--days`,
/// `--millions` or `--books` to ask for.
fn all(run: &Run) -> Result<Vec<String>, String> {
    let mut lines = Vec::new();
    let asks_days = run.has_any(&["--days", "--millions", "--books"]);
    if run.has_any(&OF_DAYS) && (asks_days || run.program("--merge").is_none()) {
        lines.extend(days::all_days(run)?);
        lines.extend(books::all_books(run)?);
    }
    let others: [(&str, fn(&Run, &str) -> Result<Vec<String>, String>); 6] = [
        ("--write", texts::all_texts),
        ("--margins", margins::all_runs),
        ("--merge", merges::all_merges),
        ("--merge", orders::all_orders),
        ("--statements", statements::all_statements),
        ("--calls", calls::all_inputs),
    ];
    for (name, compared) in others {
        if let Some(program) = run.program(name) {
            lines.extend(compared(run, program)?);
        }
    }
    Ok(lines)
}
