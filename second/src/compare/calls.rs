//! A program that answers calls, against this one, on many made-up inputs.

use super::difference::{ended, first_difference};
use super::{ran, Run};
use crate::kinds::calls::Met;
use crate::make::asked;
use crate::model::calls::{answered_seen, Call, Calls};
use crate::model::*;
use crate::tally::none_missed;
use std::process::Output;

/// The program asked, and the calls that it hasn't, by number: it answers each of
/// them with an empty line.
struct Other<'a> {
    program: &'a str,
    without: Vec<u8>,
}

pub fn all_inputs(run: &Run, program: &str) -> Result<Vec<String>, String> {
    let without = numbers(run.program("--without").unwrap_or(""))?;
    let other = Other { program, without };
    let (seeds, inputs) = run.seeds("--call-inputs", 40)?;
    let mut met = Met::default();
    for (place, seed) in seeds {
        one_input(run, &other, place, seed, &mut met)?;
    }
    let is_whole = inputs >= asked::whole_round() as u64;
    none_missed(" by calls", is_whole, met.missed())?;
    Ok(met.lines())
}

/// Such as `12,14`.
fn numbers(words: &str) -> Result<Vec<u8>, String> {
    let words = words.split(',').filter(|word| !word.is_empty());
    let number = |word: &str| word.parse().ok().filter(|&byte| Call::is_known(byte));
    words
        .map(|word| number(word).ok_or_else(|| format!("--without: `{word}` is no call")))
        .collect()
}

/// Lines, with nothing in those of the calls left out; `asked` has the calls by
/// number, one for each line but `bad N`.
pub fn emptied(lines: &[u8], asked: &[u8], without: &[u8]) -> Vec<u8> {
    let mut out = Vec::with_capacity(lines.len());
    for (place, line) in lines.split_inclusive(|&byte| byte == b'\n').enumerate() {
        let is_out = asked
            .get(place)
            .map_or(false, |call| without.contains(call));
        out.extend_from_slice(if is_out { b"\n" } else { line });
    }
    out
}

fn one_input(run: &Run, other: &Other, place: u64, seed: u64, met: &mut Met) -> Result<(), String> {
    let asked = asked::make(seed);
    let mut calls = Vec::new();
    let want = answered_seen(&asked.bytes, |call, answered| {
        met.count(call, answered);
        calls.push(call.number());
    });
    let want = emptied(&want, &calls, &other.without);
    let ending = want.split_inclusive(|&byte| byte == b'\n').next_back();
    let is_bad = ending.map_or(false, |line| line.starts_with(b"bad "));
    if is_bad == (asked.ending == "the end") {
        return Err(format!("calls, seed {seed}: made with another ending"));
    }
    met.count_input(&asked);
    if let Some(wrong) = met.wrong.first() {
        return Err(format!("calls, seed {seed}: own answers differ: {wrong}"));
    }
    let (got, _) = ran::<&str>(
        "calls",
        other.program,
        &[],
        &asked.bytes,
        run.pace(place, seed),
    )?;
    match got.stdout == want && got.status.code().is_some() {
        true => Ok(()),
        false => Err(difference(run, seed, &asked.bytes, &want, &got)),
    }
}

/// The first call whose line differs; it is kept.
fn difference(run: &Run, seed: u64, bytes: &[u8], want: &[u8], got: &Output) -> String {
    let (line, second, other) = first_difference(want, &got.stdout);
    let call = Calls::of(bytes).nth(line);
    let asked = match &call {
        Some(call) => story::short(call),
        None => "(none, or none that is whole)".to_string(),
    };
    let number = line + 1;
    let report = [
        format!("difference: program calls, seed {seed}, call {number}"),
        format!("second: {second}"),
        format!("other:  {other}"),
        format!("call: {asked}"),
        ended(got),
        keep(run, &format!("{seed}-{number}"), bytes, call),
    ];
    report.join("\n  ")
}

/// The call alone and its story, or the whole input where it is no call.
fn keep(run: &Run, name: &str, whole: &[u8], call: Option<Call>) -> String {
    let mut bytes = Vec::new();
    match call {
        Some(call) => call.lay(&mut bytes),
        None => bytes.extend_from_slice(whole),
    }
    let story = story::read(&bytes);
    let kept = run.put(&format!("{name}.calls"), &bytes);
    match kept.and_then(|_| run.put(&format!("{name}.story"), story.as_bytes())) {
        Ok(_) => format!(
            "kept: {}.calls, and as a story: .story",
            run.path(name).display()
        ),
        Err(error) => format!("it could not be kept: {error}"),
    }
}
