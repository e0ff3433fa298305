//! What the tests share: days and stories from their readable form, and rows of
//! cases.
#![allow(dead_code, unused_imports)]

pub use second::kinds::days::Kind as Met;
use second::kinds::seen::Seen;
pub use second::make::bundle::ROOM;
pub use second::make::rng::Rng;
pub use second::make::{kind_named, make, NO_LIMIT, ROUND};
pub use second::model::*;
pub use second::tally::Tally;
pub use std::ffi::OsString;
pub use std::fs;
use std::ops::Range;
use std::path::PathBuf;

/// A day from its readable form, with `;` for the end of a line; its words may say
/// bad records too.
pub fn piece(said: &str) -> Vec<u8> {
    let said = said.replace(';', "\n");
    text::written(said.as_bytes(), 0, text::any_bytes).unwrap()
}

pub fn book_after(said: &str) -> Book {
    let (book, _) = run_fresh(&piece(said));
    assert!(book.is_sound() && book.uses_agree());
    book
}

pub fn utf(bytes: Vec<u8>) -> String {
    String::from_utf8(bytes).unwrap()
}

/// What `day` prints.
pub fn printed(said: &str) -> String {
    utf(print::day(&piece(said)))
}

/// The refusal, or 0, of each record.
pub fn refusals(said: &str) -> Vec<u8> {
    refusals_of(&piece(said))
}

pub fn refusals_of(piece: &[u8]) -> Vec<u8> {
    let mut list = Vec::new();
    print::day_seen(piece, |answer, _| list.push(answer.refusal()));
    list
}

/// The refusal, or 0, of the last record.
pub fn last(said: &str) -> u8 {
    *refusals(said).last().unwrap()
}

/// The last record of `tail` after a day that must be carried out whole.
pub fn after(start: &str, tail: &str) -> u8 {
    let before = refusals(start);
    assert!(before.iter().all(|&refusal| refusal == 0), "{before:?}");
    last(&format!("{start}\n{tail}"))
}

/// Rows `WANTED: CASE|CASE..`, each case with what is wanted of it.
pub fn rows(table: &str) -> Vec<(&str, &str)> {
    let mut all = Vec::new();
    for row in table.lines() {
        let (wanted, cases) = row.split_once(": ").unwrap_or_else(|| panic!("{row}"));
        all.extend(cases.split('|').map(|case| (wanted, case)));
    }
    all
}

/// Rows of records with their refusals, each after the same start.
pub fn refused(start: &str, table: &str) {
    for (wanted, said) in rows(table) {
        assert_eq!(after(start, said).to_string(), wanted, "{start}: {said}");
    }
}

/// The lines that a story's calls are answered with; ` / ` ends a line.
pub fn answers(said: &str) -> Vec<String> {
    let bytes = story::write(said.replace(" / ", "\n").as_bytes()).unwrap();
    let text = utf(calls::answered(&bytes));
    assert!(text.is_empty() || text.ends_with('\n'));
    text.lines().map(str::to_string).collect()
}

/// Rows `STORY => ANSWER`: what the last call is answered, each behind this start.
pub fn answered_so(start: &str, table: &str) {
    for row in table.lines() {
        let (said, want) = row.split_once(" => ").unwrap_or_else(|| panic!("{row}"));
        let given = answers(&format!("{start}{said}")).pop().unwrap();
        assert_eq!(given, want, "{said}");
    }
}

/// Made-up days of every kind.
pub fn each_day(seeds: Range<u64>, room: usize, mut test: impl FnMut(&[u8], &str)) {
    for kind in ROUND {
        for seed in seeds.clone() {
            test(
                &make(kind, seed, room),
                &format!("kind {} seed {seed}", kind.0),
            );
        }
    }
}

/// Those of one kind.
pub fn days_of(name: &str, seeds: Range<u64>, room: usize) -> impl Iterator<Item = Vec<u8>> {
    let kind = kind_named(name).unwrap();
    seeds.map(move |seed| make(kind, seed, room))
}

/// What a day meets; all that it is held against must agree.
pub fn seen(bytes: &[u8]) -> Tally<Met> {
    let mut seen = Seen::from(&Book::fresh(), bytes);
    print::day_seen(bytes, |answer, book| assert!(seen.after(answer, book)));
    seen.met
}

/// A folder of its own for each test; it goes with the test.
pub struct Folder(pub PathBuf);

impl Folder {
    pub fn new(name: &str) -> Folder {
        let name = format!("second-tests-{}-{name}", std::process::id());
        let path = std::env::temp_dir().join(name);
        fs::create_dir_all(&path).unwrap();
        Folder(path)
    }

    pub fn word(&self, name: &str) -> OsString {
        self.0.join(name).into_os_string()
    }

    pub fn put(&self, name: &str, bytes: impl AsRef<[u8]>) -> OsString {
        fs::write(self.0.join(name), bytes).unwrap();
        self.word(name)
    }

    pub fn has(&self, name: &str) -> bool {
        self.0.join(name).exists()
    }
}

impl Drop for Folder {
    fn drop(&mut self) {
        let _ = fs::remove_dir_all(&self.0);
    }
}

/// Losses as a file has them.
pub fn bytes_of(losses: &[u64]) -> Vec<u8> {
    losses.iter().flat_map(|loss| loss.to_be_bytes()).collect()
}
