//! The program `closeouts` with losses as lines, against this one.

use super::child::ask;
use super::difference::settle;
use super::{Made, Run};
use crate::kinds::days::{Days, Kind};
use crate::make::loss_lines::make;
use crate::model::*;
use std::path::Path;

/// A day over a book, and the book that losses are made up for.
pub struct Asked<'a> {
    pub made: &'a Made,
    pub from: Option<&'a Path>,
    pub start: Book,
    pub aimed: &'a Book,
}

/// Runs go round the kinds.
pub fn one(run: &Run, program: &str, asked: Asked, met: &mut Days) -> Result<(), String> {
    let (case, text) = make(asked.aimed, met.lines, asked.made.seed);
    let path = run.put("lines", &text)?;
    let words = [Path::new("--lines"), &path].into_iter().chain(asked.from);
    let words: Vec<&Path> = words.collect();
    let got = ask(program, &words, &asked.made.bytes, asked.made.pace);
    let said = got.as_ref().map_or(Vec::new(), |got| got.stderr.clone());
    let said = String::from_utf8_lossy(&said).into_owned();
    let (want, told) = match losses::read(&text) {
        Ok(losses) => (
            print::closeouts_of(asked.start, &asked.made.bytes, &losses),
            None,
        ),
        Err(told) => (Vec::new(), Some(told)),
    };
    settle(run, asked.made, "closeouts --lines", &want, got)?;
    if !is_told(told.as_deref(), &said) {
        let (path, kind) = (path.display(), case.kind);
        return Err(format!(
            "difference: closeouts --lines {path}, {kind}: second tells {told:?}, other {said:?}"
        ));
    }
    met.lines += 1;
    let is_so = comes_to(&want, told.as_deref()) == case.comes_to;
    met.met.count_if(Kind::Lines(case.kind), is_so);
    Ok(())
}

/// The close-out's last line, or what is told of the line at fault.
pub fn comes_to(want: &[u8], told: Option<&str>) -> String {
    let text = String::from_utf8_lossy(want);
    match (told, text.lines().last()) {
        (Some(told), _) => told.rsplit(": ").next().unwrap_or("").to_string(),
        (None, Some(last)) if last.starts_with("refused") => last.to_string(),
        _ => "paid".to_string(),
    }
}

/// The form of what is told about a line is free.
fn is_told(told: Option<&str>, said: &str) -> bool {
    match told.map(|told| (told, told.rsplit_once(": "))) {
        None => said.is_empty(),
        Some((_, Some((line, _)))) => {
            said.starts_with(&format!("closeouts: {line}: ")) && said.lines().count() == 1
        }
        Some((told, None)) => said == format!("closeouts: {told}\n"),
    }
}
