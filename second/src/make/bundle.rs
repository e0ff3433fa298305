//! Many small days in one file, and the answers to all of them in another.

use crate::compare::options::Options;
use crate::make::{make, ROUND};
use crate::model::*;

/// The most bytes a day in a bundle has.
pub const ROOM: usize = 3_000;

/// For each day four bytes of length, high byte first, then its bytes.
pub fn bundle(words: &[String]) -> Result<Vec<u8>, String> {
    let options = Options::of(words, &["--days", "--seed"], &[])?;
    let seed = options.number("--seed", 1)?;
    let mut out = Vec::new();
    for place in 0..options.number("--days", 60)? {
        let kind = ROUND[place as usize % ROUND.len()];
        let day = make(kind, seed.wrapping_add(place), ROOM);
        out.extend_from_slice(&(day.len() as u32).to_be_bytes());
        out.extend(day);
    }
    Ok(out)
}

/// For each day the output of `day`, then that of `standings` without its
/// closing line.
pub fn bundled(bundle: &[u8]) -> Result<Vec<u8>, String> {
    let mut out = Vec::new();
    for day in days(bundle)? {
        let (lines, book, _) = print::day_seen(day, |_, _| {});
        out.extend(lines);
        out.extend(print::standing_lines(&book));
    }
    Ok(out)
}

fn days(bundle: &[u8]) -> Result<Vec<&[u8]>, String> {
    let mut days = Vec::new();
    let mut left = bundle;
    while !left.is_empty() {
        let cut = || format!("bundle: day {} is cut short", days.len() + 1);
        let length = left.get(..4).and_then(|four| four.try_into().ok());
        let length = u32::from_be_bytes(length.ok_or_else(cut)?) as usize;
        let day = left[4..].get(..length).ok_or_else(cut)?;
        days.push(day);
        left = &left[4 + length..];
    }
    Ok(days)
}
