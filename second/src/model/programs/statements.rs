//! The program `statements`, K13: a broker's statement from standard input, held
//! against the book in FROM.

use super::{start, Reading};
use crate::model::desk::lines::short;
use crate::model::statement::check;
use crate::Output;
use std::ffi::OsString;

/// One line: the refusal or 0 and, with 24 to 29, where.
pub fn statements(words: &[OsString], statement: Reading) -> Output {
    let (tm, from) = match words {
        [tm, from] => (tm, from),
        _ => return Err("statements: a TM's number and a book are expected".to_string()),
    };
    let number = short(tm);
    let number = number.ok_or_else(|| {
        let word = tm.to_string_lossy();
        format!("statements: `{word}` is no account's number")
    })?;
    let book = start("statements", Some(from))?;
    let checked = check(book.as_ref(), number, &statement()?);
    Ok(format!("{}\n", checked.line()).into_bytes())
}
