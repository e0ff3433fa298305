//! Programs that start from a book file and leave one, against this one: days
//! in two pieces with a night between them, and books that are taken over.

use super::child::{ask, ask_held, Pace};
use super::days::SHOWN;
use super::difference::settle;
use super::{archives, lines, texts, Made, Run};
use crate::kinds::days::Days;
use crate::make::asked::{any_sound, to_take_over, unsound, with_steps};
use crate::make::rng::Rng;
use crate::make::{losses, make, refused, ROUND};
use crate::model::*;
use crate::tally::{none_missed, Tally};
use std::fs;
use std::path::{Path, PathBuf};

/// How much has been compared, by name.
#[derive(Default)]
pub struct Met {
    pub counts: Tally<&'static str>,
    pub archives: Tally<&'static str>,
    /// Losses as lines alone.
    pub lines: Days,
}

impl Met {
    fn line(&self) -> String {
        let many = |name| self.counts.times(name);
        let modes = "books with modes of their own";
        format!(
            "same: {} days in two pieces, {} runs from a book; {}; {}",
            many("days"),
            many("runs"),
            self.counts
                .line([modes, "of version 1", "not sound", "none"]),
            self.counts.line(["taken over", "not taken over"])
        )
    }
}

pub struct Night<'a> {
    pub run: &'a Run<'a>,
    pub made: Made,
    pub rng: Rng,
    pub met: &'a mut Met,
}

/// Days by kind and seed as elsewhere, but shorter.
pub fn all_books(run: &Run) -> Result<Vec<String>, String> {
    let (seeds, many) = run.seeds("--books", 0)?;
    let mut met = Met::default();
    for (place, seed) in seeds {
        let kind = ROUND[place as usize % ROUND.len()];
        let made = Made {
            kind: kind.0,
            seed,
            bytes: make(kind, seed, 30_000),
            pace: Pace::Whole,
        };
        let rng = Rng::new(seed, 0xB00C);
        let met = &mut met;
        met.counts.count("days");
        Night {
            run,
            made,
            rng,
            met,
        }
        .all(place)?;
    }
    run.remove(&["book", "to", "losses", "lines", "archive"]);
    if many == 0 {
        return Ok(Vec::new());
    }
    let mut missed = Vec::new();
    let mut said = vec![met.line()];
    if run.program("--closeouts").is_some() {
        said.push(met.lines.lines_line());
    }
    if run.program("--archive").is_some() {
        missed.extend(met.archives.missed("archived: ", archives::kinds()));
        said.push(archives::line(&met.archives));
    }
    missed.extend(met.counts.missed("a book ", ["of version 1"]));
    none_missed("", many >= 40, missed)?;
    Ok(said)
}

/// A place between two records, at the start or at the end.
fn between_records(piece: &[u8], rng: &mut Rng) -> usize {
    let mut reader = Reader::new(piece);
    let mut places = vec![0];
    while let Next::Record(_) = reader.next() {
        places.push(reader.place());
    }
    rng.pick(&places)
}

impl Night<'_> {
    fn all(&mut self, place: u64) -> Result<(), String> {
        self.two_pieces(place)?;
        self.own_modes(place)?;
        for more in 0..2 {
            self.not_sound(2 * place + more)?;
        }
        self.no_book(place)?;
        if let Some(program) = self.run.program("--take-over") {
            self.take_over(program, place)?;
        }
        match self.run.program("--archive") {
            Some(program) => self.archivings(program, place),
            None => Ok(()),
        }
    }

    /// FROM, every other time in version 1 where that says the same.
    pub fn put_book(&mut self, table: &Table, place: u64) -> Result<PathBuf, String> {
        let first = bookfile::first_bytes(table).filter(|_| place % 2 == 0);
        self.met.counts.count_if("of version 1", first.is_some());
        self.run
            .put("book", &first.unwrap_or_else(|| bookfile::bytes(table)))
    }

    pub fn told(&self, what: &str) -> String {
        let Made { kind, seed, .. } = self.made;
        let folder = self.run.folder.display();
        format!("difference: {what}, kind {kind}, seed {seed}; the book is in {folder}")
    }

    /// Runs a program on a piece and compares what it prints.
    pub fn settled(
        &mut self,
        name: &str,
        program: &str,
        words: &[&Path],
        piece: &[u8],
        want: &[u8],
    ) -> Result<(), String> {
        self.met.counts.count("runs");
        let got = ask(program, words, piece, Pace::Whole);
        settle(self.run, &self.made.with(piece), name, want, got)
    }

    /// Every other time the book is archived in between; records of the second
    /// piece name the same numbers as before.
    fn two_pieces(&mut self, place: u64) -> Result<(), String> {
        let bytes = self.made.bytes.clone();
        let cut = between_records(&bytes, &mut self.rng);
        let (first, second) = bytes.split_at(cut);
        let book = self.run.path("book");
        self.run.remove(&["book"]);
        let after = self.day(Book::fresh(), Path::new("-"), &book, first)?;
        self.shown(&after, &book, second)?;
        let mut after = handed_over(&after);
        if place % 2 == 1 {
            let table = self.night_archive(&Table::of(&after), &book)?;
            after = table.book().unwrap_or(after);
            self.shown(&after, &book, second)?;
        }
        let after = self.day(after, &book, &book, second)?;
        self.shown(&after, &book, &[])
    }

    /// The lines, and the bytes of the book file. Gives the book after it.
    pub fn day(
        &mut self,
        book: Book,
        from: &Path,
        to: &Path,
        piece: &[u8],
    ) -> Result<Book, String> {
        let (lines, closing, after) = print::day_parts(book, piece, |_, _| {});
        let table = Table::of(&after);
        let program = match self.run.program("--day") {
            Some(program) => program,
            None => {
                let kept = fs::write(to, bookfile::bytes(&table));
                return kept.map(|()| after).map_err(|error| error.to_string());
            }
        };
        let want = [lines, closing].concat();
        self.settled("day from a book", program, &[from, to], piece, &want)?;
        self.kept(to, &table)?;
        Ok(after)
    }

    /// Whether a file holds this book.
    pub fn kept(&self, file: &Path, want: &Table) -> Result<(), String> {
        let kept = fs::read(file).unwrap_or_default();
        match kept == bookfile::bytes(want) {
            true => Ok(()),
            false => Err(self.told(&book_difference(&kept, want))),
        }
    }

    /// The programs that show a book, with this piece carried out first.
    pub fn shown(&mut self, book: &Book, path: &Path, piece: &[u8]) -> Result<(), String> {
        for (name, own) in SHOWN
            .into_iter()
            .chain([("explain", explain::over as fn(Book, &[u8]) -> Vec<u8>)])
        {
            if let Some(program) = self.run.program(&format!("--{name}")) {
                let want = own(handed_over(book), piece);
                self.settled(
                    &format!("{name} from a book"),
                    program,
                    &[path],
                    piece,
                    &want,
                )?;
            }
        }
        self.as_text(path, book.serial, piece)?;
        self.closed_out(book, path, piece)
    }

    pub fn as_text(&mut self, path: &Path, serial: u16, piece: &[u8]) -> Result<(), String> {
        let programs = ["--read", "--write"].map(|name| self.run.program(name));
        let many = programs.iter().flatten().count() as u64;
        self.met.counts.count_many("runs", many);
        texts::there_and_back(self.run, &self.made.with(piece), Some(path), serial)
    }

    fn closed_out(&mut self, book: &Book, path: &Path, piece: &[u8]) -> Result<(), String> {
        let program = match self.run.program("--closeouts") {
            Some(program) => program,
            None => return Ok(()),
        };
        let losses = losses::make(book, self.rng.next());
        let file = self.run.put("losses", &losses)?;
        let want = print::closeouts_over(handed_over(book), piece, &losses);
        self.settled(
            "closeouts from a book",
            program,
            &[&file, path],
            piece,
            &want,
        )?;
        let asked = lines::Asked {
            made: &self.made.with(piece),
            from: Some(path),
            start: handed_over(book),
            aimed: book,
        };
        self.met.counts.count("runs");
        lines::one(self.run, program, asked, &mut self.met.lines)
    }

    /// A sound book whose modes need not fit its figures.
    fn own_modes(&mut self, place: u64) -> Result<(), String> {
        let table = any_sound(&mut self.rng);
        let piece = with_steps(&table, &mut self.rng);
        let book = self.put_book(&table, place)?;
        let sound = table.book().ok_or("a book was made that isn't sound")?;
        let to = self.run.path("to");
        self.run.remove(&["to"]);
        self.shown(&sound, &book, &piece)?;
        if let Some(program) = self.run.program("--explain") {
            // Records that are refused by a paisa.
            let piece = refused::records(&sound, self.rng.next());
            let want = explain::over(sound.clone(), &piece);
            self.settled("explain from a book", program, &[&book], &piece, &want)?;
        }
        let after = self.day(sound, &book, &to, &piece)?;
        self.met.counts.count("books with modes of their own");
        self.shown(&after, &to, &[])
    }

    /// The refusal alone, standard input unread, and TO: the book taken over,
    /// or as it was.
    fn take_over(&mut self, program: &str, place: u64) -> Result<(), String> {
        let faults = Fault::all(Rule::Old);
        let fault = faults[place as usize / 3 * 13 % faults.len()];
        let table = match place % 3 {
            0 => unsound(fault, Rule::Old, &mut self.rng),
            _ => to_take_over(place, &mut self.rng),
        };
        let book = self.run.put("book", &bookfile::bytes(&table))?;
        let to = self.run.put("to", b"as it was")?;
        let after = table.taken_over();
        let want: &[u8] = if after.is_some() { b"0\n" } else { b"1\n" };
        let got = ask_held(program, &[&book, &to]);
        settle(self.run, &self.made, "take_over", want, got)?;
        self.met
            .counts
            .count(["taken over", "not taken over"][usize::from(after.is_none())]);
        match after {
            None => self.untouched(&to),
            Some(after) => self.kept(&to, &after),
        }
    }
}

/// As a program finds it in a file.
pub fn handed_over(book: &Book) -> Book {
    Table::of(book).book().unwrap_or_else(|| book.clone())
}

fn book_difference(kept: &[u8], want: &Table) -> String {
    let got = match bookfile::table(kept) {
        Some(got) => got,
        None => return "what was kept is no book".to_string(),
    };
    let place = (0..want.places.len()).find(|&place| got.places[place] != want.places[place]);
    match place {
        Some(place) => format!(
            "another book was kept at place {place}: second {:?}, other {:?}",
            want.places[place], got.places[place]
        ),
        None => format!(
            "another book was kept: second has {} accounts, serial {} and next number {}, other {}, {} and {}",
            want.count, want.serial, want.next, got.count, got.serial, got.next
        ),
    }
}
