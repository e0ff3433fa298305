//! An independent second program for the collateral book of one clearing
//! member, written from documents 01 and 02 and the decisions on their open
//! points, and made to be compared with the first.

use second::kinds::seen::checked;
use second::model::*;
use second::usage::usage;
use second::{compare, make, put_out, Output};
use std::ffi::OsString;
use std::io::{self, Read, Write};
use std::process::ExitCode;

/// A million records hold at most this much; one byte more makes it `long`.
const DAY_MOST: u64 = (day::MILLION * dayfile::LONGEST) as u64 + 1;

fn main() -> ExitCode {
    let arguments: Vec<OsString> = std::env::args_os().skip(1).collect();
    let command = arguments
        .first()
        .and_then(|word| word.to_str())
        .unwrap_or("");
    // A path may be any bytes; all other words are plain text.
    let words: Vec<String> = arguments
        .iter()
        .skip(1)
        .map(|word| word.to_string_lossy().into_owned())
        .collect();
    finish(output(command, &arguments, &words))
}

fn output(command: &str, arguments: &[OsString], words: &[String]) -> Output {
    match command {
        "day" if is_checked(arguments) => programs::day_by(&arguments[2..], &day_file, checked),
        "day" => programs::day(&arguments[1..], &day_file),
        "standings" => programs::standings(&arguments[1..], &day_file),
        "needs" => programs::needs(&arguments[1..], &day_file),
        "explain" => programs::explain(&arguments[1..], &day_file),
        "holdings" => programs::holdings(&arguments[1..], &day_file),
        "closeouts" => programs::closeouts(&arguments[1..], &day_file),
        "margins" => desk::lines::margins(&arguments[1..], &|| input(desk::lines::MOST as u64 + 1)),
        "take_over" => programs::take_over(&arguments[1..]),
        "archive" => programs::archive(&arguments[1..]),
        "merge" => programs::merge(&arguments[1..]),
        "statements" => programs::statements(&arguments[1..], &all_input),
        "make" => make_command(words),
        "make-calls" => made_with("make-calls", words, |seed| make::asked::make(seed).bytes),
        "make-text" => made_with("make-text", words, |seed| make::texts::make(seed).bytes()),
        "losses" => losses_command(words),
        "compare" => compare::compare(words).map(|line| (line + "\n").into_bytes()),
        "calls" => all_input().map(|input| calls::answered(&input)),
        "bundle" => make::bundle::bundle(words),
        "bundled" => all_input().and_then(|input| make::bundle::bundled(&input)),
        "write" => programs::write(&arguments[1..], &all_input),
        "write-statement" => all_input().and_then(|input| statement::text::write(&input)),
        "read-statement" => all_input().map(|input| statement::text::read(&input).into_bytes()),
        "write-calls" => all_input().and_then(|input| story::write(&input)),
        "read-calls" => all_input().map(|input| story::read(&input).into_bytes()),
        "read" => programs::read(&arguments[1..], &all_input),
        _ => Err(usage()),
    }
}

fn is_checked(arguments: &[OsString]) -> bool {
    arguments.get(1).map_or(false, |word| word == "--check")
}

fn finish(output: Output) -> ExitCode {
    match output.and_then(|bytes| put_out(&bytes)) {
        Ok(()) => ExitCode::SUCCESS,
        Err(error) => {
            let _ = writeln!(io::stderr(), "{error}");
            ExitCode::FAILURE
        }
    }
}

fn input(most: u64) -> Output {
    let mut bytes = Vec::new();
    let read = io::stdin().lock().take(most).read_to_end(&mut bytes);
    read.map(|_| bytes)
        .map_err(|error| format!("cannot read the input: {error}"))
}

fn all_input() -> Output {
    input(u64::MAX)
}

fn day_file() -> Output {
    input(DAY_MOST)
}

fn seed(word: &str) -> Result<u64, String> {
    word.parse().map_err(|_| format!("`{word}` is no seed"))
}

fn make_command(words: &[String]) -> Output {
    let (kind, number) = match words {
        [kind, number] => (kind, number),
        _ => return Err("make: a kind and a seed are expected".to_string()),
    };
    let kind = make::kind_named(kind).ok_or_else(|| format!("make: unknown kind `{kind}`"))?;
    Ok(make::make(kind, seed(number)?, make::NO_LIMIT))
}

fn made_with(command: &str, words: &[String], make: fn(u64) -> Vec<u8>) -> Output {
    match words {
        [number] => Ok(make(seed(number)?)),
        _ => Err(format!("{command}: a seed is expected")),
    }
}

fn losses_command(words: &[String]) -> Output {
    let (as_lines, number) = match words {
        [number] => (false, number),
        [first, number] if first == "--lines" => (true, number),
        _ => return Err("losses: a seed is expected".to_string()),
    };
    let seed = seed(number)?;
    let (book, _) = day::run_fresh(&day_file()?);
    Ok(match as_lines {
        true => make::loss_lines::make(&book, seed, seed).1,
        false => make::losses::make(&book, seed),
    })
}
