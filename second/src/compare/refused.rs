//! Book files that are no book, or not a sound one, for every program that takes
//! one.

use super::books::Night;
use super::child::{ask, ask_held, Pace};
use super::difference::settle;
use crate::make::asked::unsound;
use crate::make::rng::Rng;
use crate::model::bookfile::Version;
use crate::model::table::{LIVE, MODE};
use crate::model::*;
use std::fs;
use std::path::{Path, PathBuf};

/// Programs that take a book, each with its words.
const RUNS: [(&str, &[&str]); 11] = [
    ("archive", &["book", "to", "archive"]),
    ("take-over", &["book", "to"]),
    ("day", &["book", "to"]),
    ("standings", &["book"]),
    ("needs", &["book"]),
    ("explain", &["book"]),
    ("holdings", &["book"]),
    ("read", &["book"]),
    ("write", &["lines", "book"]),
    ("closeouts", &["losses", "book"]),
    ("closeouts --lines", &["--lines", "lines", "book"]),
];

impl Night<'_> {
    /// The programs there are, with this book and files that are to stay.
    fn runs(
        &self,
        book: &Path,
        losses: &[u8],
    ) -> Result<Vec<(&'static str, &str, Vec<PathBuf>)>, String> {
        for (name, bytes) in [
            ("to", &b"as it was"[..]),
            ("archive", b"as it was"),
            ("losses", losses),
            ("lines", b"0 5"),
        ] {
            self.run.put(name, bytes)?;
        }
        let word = |&word: &&str| match word {
            "book" => book.to_path_buf(),
            "--lines" => PathBuf::from(word),
            _ => self.run.path(word),
        };
        let runs = RUNS.iter().filter_map(|&(name, words)| {
            let option = name.split(' ').next().unwrap_or(name);
            let program = self.run.program(&format!("--{option}"))?;
            Some((name, program, words.iter().map(word).collect()))
        });
        Ok(runs.collect())
    }

    /// "The closing line is `1 0 0`, standard input isn't read": it is held
    /// open, so that a program that waits for it is found out.
    pub fn not_sound(&mut self, place: u64) -> Result<(), String> {
        let faults = Fault::all(Rule::New);
        let table = unsound(
            faults[place as usize % faults.len()],
            Rule::New,
            &mut self.rng,
        );
        let book = self.run.put("book", &bookfile::bytes(&table))?;
        let closed = [print::UNSOUND, print::UNSOUND_CLOSE_OUT].concat();
        for (name, program, words) in self.runs(&book, &vec![0; 8 * table.held()])? {
            let want = match name {
                "closeouts" | "closeouts --lines" => &closed,
                "archive" => &b"1 0\n"[..],
                // It judges by the old rule; a serial alone asks for no soundness.
                "take-over" | "write" | "read" => continue,
                _ => print::UNSOUND,
            };
            let words: Vec<&Path> = words.iter().map(PathBuf::as_path).collect();
            let what = format!("{name} from a book that isn't sound");
            settle(self.run, &self.made, &what, want, ask_held(program, &words))?;
        }
        let made = self.made.bytes.clone();
        self.as_text(&book, table.serial, &made)?;
        self.met.counts.count("not sound");
        self.all_untouched()
    }

    fn all_untouched(&self) -> Result<(), String> {
        ["to", "archive"]
            .iter()
            .try_for_each(|name| self.untouched(&self.run.path(name)))
    }

    pub fn untouched(&self, file: &Path) -> Result<(), String> {
        match fs::read(file) {
            Ok(bytes) if bytes == b"as it was" => Ok(()),
            _ => Err(self.told("a file was kept that should not have been")),
        }
    }

    /// Nothing on standard output, something on standard error.
    pub fn no_book(&mut self, place: u64) -> Result<(), String> {
        self.run.remove(&["book"]);
        let bad = no_book_bytes(place, bookfile::bytes(&Table::fresh()), &mut self.rng);
        let book = match (&bad, place % 2) {
            (Some(bytes), _) => self.run.put("book", bytes)?,
            (None, 0) => self.run.path("book"),
            (None, _) => self.run.folder.clone(),
        };
        for (name, program, words) in self.runs(&book, &[0; 8])? {
            let words: Vec<&Path> = words.iter().map(PathBuf::as_path).collect();
            let got = ask(program, &words, &self.made.bytes, Pace::Whole);
            let silent = got.as_ref().map_or(false, |got| got.stderr.is_empty());
            let what = format!("{name} from what is no book");
            settle(self.run, &self.made, &what, b"", got)?;
            if silent {
                return Err(self.told(&format!("{what} says nothing on standard error")));
            }
        }
        self.met.counts.count("none");
        self.all_untouched()
    }
}

/// None where there is to be no such file.
fn no_book_bytes(place: u64, mut bytes: Vec<u8>, rng: &mut Rng) -> Option<Vec<u8>> {
    let drawn = rng.below(256) as usize;
    let whole = bytes.len();
    let at = |word: usize| Version::Two.at(drawn, word).unwrap_or(0);
    match place % 10 {
        0 => return None,
        1 => bytes.clear(),
        2 => bytes.truncate(whole - 1),
        3 => bytes.push(0),
        4 => bytes[rng.below(3) as usize] ^= 1,
        // Of another version, whose length isn't this.
        5 => bytes[3] = rng.pick(&[0, 1, 3, 255]),
        6 => bytes[at(LIVE)] = 2,
        7 => bytes[at(MODE)] = 255,
        8 => {
            bytes = bookfile::bytes_as(&Table::fresh(), Version::One);
            match rng.below(3) {
                0 => bytes.truncate(bytes.len() - 1),
                1 => bytes.push(0),
                _ => bytes[3] = 2,
            }
        }
        _ => bytes.truncate(rng.below(whole as u64) as usize),
    }
    Some(bytes)
}
