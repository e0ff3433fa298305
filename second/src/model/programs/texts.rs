//! The programs `write` and `read`: a day file from its text, and back.

use super::{next_serial, too_many, Reading};
use crate::model::*;
use crate::Output;
use std::ffi::OsString;
use std::fs;

/// TEXT is read first, then FROM, and what says nothing is told after that.
/// Without words the text comes from standard input.
pub fn write(words: &[OsString], input: Reading) -> Output {
    let (said, from) = match words {
        [] => (input()?, None),
        [name] => (text_of(name)?, None),
        [name, from] => (text_of(name)?, Some(from)),
        _ => return Err(too_many("write")),
    };
    let serial = next_serial("write", from)?;
    text::write(&said, serial).map_err(|bad| {
        let (line, fault) = (bad.line, bad.fault);
        format!("write: line {line}: {}, {}", fault as u8, fault.words())
    })
}

fn text_of(name: &OsString) -> Output {
    fs::read(name).map_err(|error| {
        let name = name.to_string_lossy();
        format!("write: cannot read the text: {name}: {error}")
    })
}

pub fn read(words: &[OsString], input: Reading) -> Output {
    if words.len() > 1 {
        return Err(too_many("read"));
    }
    let serial = next_serial("read", words.first())?;
    Ok(text::read(&input()?, serial).into_bytes())
}
