//! The program `archive` against this one: archivings between days, and archives
//! that have some of the lines already.

use super::books::Night;
use super::child::ask_held;
use super::difference::settle;
use crate::make::asked::{to_archive, with_retirings};
use crate::model::programs::with_lines;
use crate::model::*;
use crate::tally::{names, Tally};
use std::fs;
use std::path::Path;

/// What there is of an archive before anything was moved to it.
const FOUND: &str = "\
no file|an empty one|lines of others|a last line that isn't ended|some of the lines|\
all of them but for an end|lines that are nearly those|a long one";
const COUNTS: &str = "rows moved|nothing moved|the same archive again|a night";

pub fn kinds() -> impl Iterator<Item = &'static str> {
    names(COUNTS).chain(names(FOUND))
}

pub fn line(met: &Tally<&'static str>) -> String {
    let each: Vec<u64> = names(COUNTS).map(|kind| met.times(kind)).collect();
    format!(
        "archived: {} runs, {} rows, nothing moved: {}, over the same archive again: {}, in a night: {}; archives, {}",
        met.times("runs"),
        each[0],
        each[1],
        each[2],
        each[3],
        met.line(names(FOUND))
    )
}

impl Night<'_> {
    /// Three archivings with days between them, over one archive.
    pub fn archivings(&mut self, program: &str, place: u64) -> Result<(), String> {
        let mut table = to_archive(place, &mut self.rng);
        self.find_archive(place, &table)?;
        let to = self.run.path("to");
        for turn in 0..3 {
            let from = self.put_book(&table, place + turn)?;
            if turn == 1 {
                fs::copy(&from, &to).map_err(|error| error.to_string())?;
                table = self.archive(program, &table, &to, &to)?;
            } else {
                self.run.put("to", b"as it was")?;
                self.archive(program, &table, &from, &to)?;
                self.met.archives.count("the same archive again");
                table = self.archive(program, &table, &from, &to)?;
            }
            let book = table
                .book()
                .ok_or("an archiving left a book that isn't sound")?;
            let piece = with_retirings(&table, &mut self.rng);
            self.shown(&book, &to, &piece)?;
            let after = self.day(book, &to, &to, &piece)?;
            self.shown(&after, &to, &[])?;
            table = Table::of(&after);
        }
        Ok(())
    }

    /// In the night between the two pieces of a day, over its own file.
    pub fn night_archive(&mut self, table: &Table, book: &Path) -> Result<Table, String> {
        match self.run.program("--archive") {
            None => Ok(table.clone()),
            Some(program) => {
                self.run.remove(&["archive"]);
                self.met.archives.count("a night");
                self.archive(program, table, book, book)
            }
        }
    }

    /// One run: its line, the book that is kept, and the archive's text. Gives
    /// the book that is kept.
    fn archive(
        &mut self,
        program: &str,
        table: &Table,
        from: &Path,
        to: &Path,
    ) -> Result<Table, String> {
        let Archived { entries, book } = table.archived().ok_or("a book isn't sound")?;
        let archive = self.run.path("archive");
        let before = fs::read(&archive).ok();
        let want = format!("0 {}\n", entries.len());
        let got = ask_held(program, &[from, to, &archive]);
        settle(self.run, &self.made, "archive", want.as_bytes(), got)?;
        self.kept(to, &book)?;
        let lines = with_lines(before.as_deref().unwrap_or(b""), &entries);
        let text = lines.or(before);
        if fs::read(&archive).ok() != text {
            let wanted = text.map(|text| String::from_utf8_lossy(&text).into_owned());
            return Err(self.told(&format!("archive: its text is wanted as {wanted:?}")));
        }
        let met = &mut self.met.archives;
        met.count("runs");
        met.count_many("rows moved", entries.len() as u64);
        met.count_if("nothing moved", entries.is_empty());
        Ok(book)
    }

    fn find_archive(&mut self, place: u64, table: &Table) -> Result<(), String> {
        let entries = table.archived().map_or(Vec::new(), |all| all.entries);
        let lines = with_lines(b"", &entries).unwrap_or_default();
        let kind = (place as usize / 2) % names(FOUND).count();
        self.met.archives.count_all(names(FOUND).nth(kind));
        let all: Vec<&[u8]> = lines.split_inclusive(|&byte| byte == b'\n').collect();
        let text: Vec<u8> = match kind {
            0 => {
                self.run.remove(&["archive"]);
                return Ok(());
            }
            1 => Vec::new(),
            2 => b"# 2023\n\n900 cp 0\n901 client 900\n".to_vec(),
            3 => b"900 cp 0".to_vec(),
            4 => all
                .into_iter()
                .rev()
                .step_by(2)
                .collect::<Vec<_>>()
                .concat(),
            5 => lines.strip_suffix(b"\n").unwrap_or(b"").to_vec(),
            6 => nearly(&lines),
            // Twenty thousand accounts that this book never had.
            _ => (100_000..120_000)
                .flat_map(|number| format!("{number} cp 0\n").into_bytes())
                .collect(),
        };
        self.run.put("archive", &text).map(|_| ())
    }
}

/// Each line with something before it, behind it, or without its last word.
fn nearly(lines: &[u8]) -> Vec<u8> {
    let mut text = Vec::new();
    for line in lines.split(|&byte| byte == b'\n') {
        let short = &line[..line.len().saturating_sub(2)];
        for near in [&[b"1", line].concat()[..], &[line, b"0"].concat(), short] {
            text.extend_from_slice(near);
            text.push(b'\n');
        }
    }
    text
}
