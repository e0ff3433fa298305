//! The program `merge`, K14: two counters' day files become one.

use super::next_serial;
use crate::model::merge::merged;
use crate::Output;
use std::ffi::OsString;
use std::fs::File;
use std::io::Read;

/// "Each file may have 1,048,576 bytes."
pub const MOST: usize = 1_048_576;

/// Numbered from the next serial of the book in FROM, "from 0 where no FROM is
/// named or it is `-`". Files are read A first, then B, then FROM, and refusals
/// come after that.
pub fn merge(words: &[OsString]) -> Output {
    let (names, from) = match words {
        [a, b] => ([a, b], None),
        [a, b, from] => ([a, b], Some(from)),
        _ => return Err("merge: two day files, and a book if wanted, are expected".to_string()),
    };
    let (a, b) = (counters_file(names[0])?, counters_file(names[1])?);
    let serial = next_serial("merge", from)?;
    merged([&a, &b], serial).map_err(|fault| {
        let name = names[fault.file].to_string_lossy();
        let (refusal, record) = (fault.refusal as u8, fault.record);
        format!("merge: {name}: {refusal} at record {record}")
    })
}

/// "A longer one is told to be too long."
fn counters_file(name: &OsString) -> Output {
    let told = |reason: String| {
        let name = name.to_string_lossy();
        format!("merge: cannot read the day file: {name}: {reason}")
    };
    let mut bytes = Vec::new();
    File::open(name)
        .and_then(|file| file.take(MOST as u64 + 1).read_to_end(&mut bytes))
        .map_err(|error| told(error.to_string()))?;
    if bytes.len() > MOST {
        return Err(told("it is too long".to_string()));
    }
    Ok(bytes)
}
