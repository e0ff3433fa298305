//! The program `margins` against this one, on many made-up runs.

use super::child::Pace;
use super::{ran, Run};
use crate::make::sheets::{make, Odd, Sheet};
use crate::model::desk::lines::margins;
use crate::tally::{none_missed, said, Tally};
use crate::Output;
use std::collections::BTreeMap;
use std::ffi::OsString;

/// From so many runs on all of it must have been met.
const WHOLE: u64 = 900;
const ANSWERS: [&str; 8] = ["0", "15", "18", "19", "20", "21", "22", "a record"];

/// How often each oddity and each answer was met.
#[derive(Default)]
pub struct Met {
    runs: u64,
    odds: Tally<Odd>,
    answers: BTreeMap<String, u64>,
}

impl Met {
    pub fn missed(&self) -> Vec<String> {
        let answers = ANSWERS
            .iter()
            .filter(|&&word| !self.answers.contains_key(word));
        let answers = answers.map(|word| format!("a run of margins: {word}"));
        let odds = self.odds.missed("a run of margins: ", Odd::ALL);
        odds.into_iter().chain(answers).collect()
    }
}

pub fn all_runs(run: &Run, program: &str) -> Result<Vec<String>, String> {
    let (seeds, runs) = run.seeds("--margin-runs", 900)?;
    let mut met = Met::default();
    for (_, seed) in seeds {
        one_run(run, program, seed, &mut met)?;
    }
    none_missed("", runs >= WHOLE, met.missed())?;
    Ok(vec![format!(
        "same: {} runs of margins; {}",
        met.runs,
        said(met.answers)
    )])
}

fn one_run(run: &Run, program: &str, seed: u64, met: &mut Met) -> Result<(), String> {
    let Sheet { odd, words, text } = make(seed);
    let own: Vec<OsString> = words.iter().map(OsString::from).collect();
    let want = margins(&own, &|| Ok(text.clone()));
    let (got, said) = ran("margins", program, &words, &text, Pace::Whole)?;
    let fits = match &want {
        Ok(bytes) => got.stdout == *bytes && said.is_empty(),
        Err(line) => got.stdout.is_empty() && is_told(odd, line, &said),
    };
    met.runs += 1;
    met.odds.count(odd);
    *met.answers.entry(answer_word(&want)).or_default() += 1;
    if fits && got.status.code().is_some() {
        return Ok(());
    }
    let kept = run.put(&format!("margins-{seed}.txt"), &text);
    let kept = kept.map_or("not kept".to_string(), |path| path.display().to_string());
    let shown = match &want {
        Ok(bytes) => format!("{:?}", String::from_utf8_lossy(bytes)),
        Err(line) => format!("{line:?} on standard error"),
    };
    Err(format!(
        "difference: program margins, seed {seed}, {odd:?}, words {words:?}, input {kept}\n  second: {shown}\n  other:  {:?} and on standard error {said:?}",
        String::from_utf8_lossy(&got.stdout)
    ))
}

/// The form of what is told about words is free: one line, or two for help.
fn is_told(odd: Odd, line: &str, said: &str) -> bool {
    match odd {
        Odd::Help => said.lines().count() == 2,
        Odd::BadWords => said.lines().count() == 1,
        _ => said == format!("{line}\n"),
    }
}

fn answer_word(answer: &Output) -> String {
    match answer {
        Ok(bytes) if bytes.starts_with(&[10]) => "a record".to_string(),
        Ok(bytes) => {
            let text = String::from_utf8_lossy(bytes);
            text.split(' ').next().unwrap_or("").to_string()
        }
        Err(line) => {
            let words = line
                .split_whitespace()
                .filter(|word| word.parse::<u64>().is_err());
            words.skip(1).take(4).collect::<Vec<_>>().join(" ")
        }
    }
}
