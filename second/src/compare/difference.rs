//! The first difference between two answers, shown so that a person can
//! follow it up.

use super::child::Pace;
use super::{Made, Run};
use crate::model::*;
use std::process::Output;

/// No difference, or an account of it; the day file is then kept.
pub fn settle(
    run: &Run,
    made: &Made,
    name: &str,
    want: &[u8],
    got: std::io::Result<Output>,
) -> Result<(), String> {
    let got = got.map_err(|error| format!("{name}: cannot run: {error}"))?;
    // A program that a signal ended may have printed all its lines before.
    if got.stdout == want && got.status.code().is_some() {
        return Ok(());
    }
    let kept = keep(run, made);
    Err(difference(made, name, want, &got) + &kept)
}

fn keep(run: &Run, made: &Made) -> String {
    match run.put(&format!("{}-{}.day", made.kind, made.seed), &made.bytes) {
        Ok(path) => format!(
            "\n  day file: {} (losses beside it, if any)",
            path.display()
        ),
        Err(error) => format!("\n  the day file could not be kept: {error}"),
    }
}

/// The number, from 0, of the first line that differs, and how it reads here
/// and there. Long lines are shown from shortly before they part.
pub fn first_difference(want: &[u8], got: &[u8]) -> (usize, String, String) {
    let (wanted, given) = (lines(want), lines(got));
    let same = wanted
        .iter()
        .zip(&given)
        .take_while(|(want, got)| want == got)
        .count();
    let (here, there) = (wanted.get(same), given.get(same));
    let parting = match (here, there) {
        (Some(here), Some(there)) => {
            let each = here.iter().zip(there.iter());
            each.take_while(|(here, there)| here == there).count()
        }
        _ => 0,
    };
    let shown =
        |line: Option<&&[u8]>| line.map_or("(nothing)".to_string(), |line| part(line, parting));
    (same, shown(here), shown(there))
}

/// How much of a long line is shown before and after the place of interest.
const BEFORE: usize = 80;
const AFTER: usize = 160;

fn part(line: &[u8], place: usize) -> String {
    let start = if line.len() > BEFORE + AFTER {
        place.saturating_sub(BEFORE)
    } else {
        0
    };
    let end = line.len().min(start + BEFORE + AFTER);
    let shown = String::from_utf8_lossy(&line[start..end]);
    let dots = |is_cut: bool| if is_cut { ".." } else { "" };
    format!(
        "{}{}{}",
        dots(start > 0),
        shown.escape_debug(),
        dots(end < line.len())
    )
}

fn difference(made: &Made, name: &str, want: &[u8], got: &Output) -> String {
    let (same, second, other) = first_difference(want, &got.stdout);
    let mut report = format!(
        "difference: program {name}, kind {}, seed {}, line {}\n  second: {}\n  other:  {}",
        made.kind,
        made.seed,
        same + 1,
        second,
        other
    );
    if name.starts_with("day") || name.starts_with("explain") {
        report += &format!("\n  record: {}", record_hex(&made.bytes, same));
    }
    if matches!(made.pace, Pace::Trickle(_)) {
        report += "\n  the day was fed in small pieces";
    }
    report + "\n  " + &ended(got)
}

/// How a program came to its end, and what it said.
pub fn ended(got: &Output) -> String {
    let said = String::from_utf8_lossy(&got.stderr);
    let (status, said) = (got.status, said.trim_end());
    format!("other ended with {status}; it said: {said}")
}

/// Lines with their newline, since a missing one is a difference too.
fn lines(text: &[u8]) -> Vec<&[u8]> {
    text.split_inclusive(|&byte| byte == b'\n').collect()
}

fn record_hex(piece: &[u8], place: usize) -> String {
    let mut reader = Reader::new(piece);
    for _ in 0..place {
        if !matches!(reader.next(), Next::Record(_)) {
            return "(none)".to_string();
        }
    }
    let start = reader.place();
    match reader.next() {
        Next::Record(_) => text::hex(&piece[start..reader.place()]),
        Next::Cut => format!("{} (cut)", text::hex(&piece[start..])),
        Next::End => "(none)".to_string(),
    }
}
