//! The program `statements` against this one, on many made-up statements.

use super::{ran, Run};
use crate::kinds::statements;
use crate::make::asked::statements::{Asked, Case};
use crate::make::rng::Rng;
use crate::model::statement::check;
use crate::model::*;
use crate::tally::{none_missed, Tally};
use std::path::PathBuf;

const FROM: [&str; 3] = ["a book of version 1", "a book of version 2", "FROM -"];

/// How much has been compared.
#[derive(Default)]
pub struct Met {
    runs: u64,
    statements: statements::Met,
    from: Tally<&'static str>,
}

impl Met {
    pub fn missed(&self) -> Vec<String> {
        let from = self.from.missed("a statement: ", FROM);
        self.statements.missed().into_iter().chain(from).collect()
    }
}

/// Statements with seeds that follow one another go round the cases.
pub fn all_statements(run: &Run, program: &str) -> Result<Vec<String>, String> {
    let (seeds, runs) = run.seeds("--statement-runs", 600)?;
    let cases = Case::all();
    let mut met = Met::default();
    for (place, seed) in seeds {
        let case = cases[(seed % cases.len() as u64) as usize];
        one_statement(run, program, case, [place, seed], &mut met)?;
    }
    none_missed("", runs >= cases.len() as u64, met.missed())?;
    run.remove(&["book"]);
    let [first, second, fresh] = FROM.map(|kind| met.from.times(kind));
    Ok(vec![format!(
        "same: {} statements, books of version 1: {first}, of version 2: {second}, -: {fresh}; {}",
        met.runs,
        met.statements.line()
    )])
}

fn one_statement(
    run: &Run,
    program: &str,
    case: Case,
    [place, seed]: [u64; 2],
    met: &mut Met,
) -> Result<(), String> {
    let mut rng = Rng::new(seed, 0x57A7E);
    let Asked {
        book,
        tm,
        statement,
    } = case.asked(&mut rng);
    let from = put_book(run, &book, &mut rng, met)?;
    let sound = book.book();
    let checked = check(sound.as_ref(), tm, &statement);
    let want = format!("{}\n", checked.line());
    let zeros = rng.pick(&["", "", "0", "000000000000000000000000"]);
    let words = [PathBuf::from(format!("{zeros}{tm}")), from];
    let (got, said) = ran(
        "statements",
        program,
        &words,
        &statement,
        run.pace(place, seed),
    )?;
    met.runs += 1;
    met.statements
        .count(sound.as_ref(), tm, &statement, &checked);
    let is_same = got.stdout == want.as_bytes() && said.is_empty();
    if is_same && got.status.code().is_some() {
        return Ok(());
    }
    let kept = run.put(&format!("statement-{seed}"), &statement);
    let kept = kept.map_or("not kept".to_string(), |path| path.display().to_string());
    Err(format!(
        "difference: program statements, seed {seed}, words {words:?}, statement {kept}\n  second: {want:?}\n  other:  {:?} and on standard error {said:?}",
        String::from_utf8_lossy(&got.stdout)
    ))
}

/// FROM: `-` for a fresh book, and of the others every other one in version 1 where
/// that says the same.
fn put_book(run: &Run, book: &Table, rng: &mut Rng, met: &mut Met) -> Result<PathBuf, String> {
    if *book == Table::fresh() {
        met.from.count(FROM[2]);
        return Ok(PathBuf::from("-"));
    }
    let first = bookfile::first_bytes(book).filter(|_| rng.one_in(2));
    met.from.count(FROM[usize::from(first.is_none())]);
    run.put("book", &first.unwrap_or_else(|| bookfile::bytes(book)))
}
