//! Made-up runs of the program `margins`: its words and its lines.

use super::asked::desk::Case;
use super::asked::figures::{good, EDGES};
use crate::listed;
use crate::make::rng::Rng;
use crate::model::desk::lines::{line, MOST};
use crate::tally::names;

listed! {
    /// What a run has besides its positions.
    Odd: Plain,
    /// Comments and empty lines between the others.
    Remarks, NoLastNewline, LeadingZeros,
    /// Numbers of more digits than any word holds.
    Huge,
    /// A line of figures: two, four, out of range, past their type.
    Figures, BadLine,
    /// As long as it may be, and a byte longer.
    Longest, TooLong, BadWords, Help
}

pub struct Sheet {
    pub odd: Odd,
    pub words: Vec<String>,
    pub text: Vec<u8>,
}

/// Lines that are no position.
const BAD_LINES: &str = "\
USDINR|USDINR futures|USDINR futures 5 6| USDINR futures 5|USDINR futures 5 |USDINR  futures 5|\
USDINR futures  5|usdinr futures 5|USDINr futures 5|USDINR Futures 5|USDINR option 5|\
USDINR futures -5|USDINR futures +5|USDINR futures 5x|USDINR futures | |USDINR\tfutures\t5|\
USDINR futures 5\r|US-INR futures 5| # a remark|\0|figures|figures |figures 1|figures 1 2 3|\
figures 1 2 3 4 5|figures +1 2|figures - 2|figures --1 2|figures 1  2|figures 1 2 |Figures 1 2|\
figures 1 2x";

/// Words that are none of the program's.
const BAD_WORDS: &str = "|1|1 2|1 2 3 4|--record|--record 1 2|--record 1 2 3 4|65536 2 3|\
1 65536 3|1 2 -3|1 2 |1x 2 3|1 2 3 --record|99999999999999999999999 2 3";

/// One of a list with `|` between them.
fn one_of(list: &'static str, rng: &mut Rng) -> &'static str {
    let all: Vec<&str> = names(list).collect();
    rng.pick(&all)
}

pub fn make(seed: u64) -> Sheet {
    let mut rng = Rng::new(seed, 0x5EE7);
    let odd = Odd::ALL[seed as usize % Odd::ALL.len()];
    let cases = Case::all();
    // A prime, so that seeds that follow one another go over cases of every kind.
    let case = cases[(seed as usize).wrapping_mul(13) % cases.len()];
    let (initial, mut positions) = case.asked(&mut rng);
    positions.truncate(1_000);
    let mut lines: Vec<Vec<u8>> = positions
        .iter()
        .map(|position| line(position).into_bytes())
        .collect();
    let mut words = vec![word(&mut rng), word(&mut rng), initial.to_string()];
    bend(odd, &mut words, &mut lines, &mut rng);
    if rng.one_in(3) && odd != Odd::BadWords && odd != Odd::Help {
        words.insert(0, "--record".to_string());
    }
    let mut text = lines.join(&b'\n');
    if odd != Odd::NoLastNewline && !lines.is_empty() {
        text.push(b'\n');
    }
    pad(odd, &mut text);
    Sheet { odd, words, text }
}

fn word(rng: &mut Rng) -> String {
    let drawn = rng.below(65_536);
    rng.pick(&[0, 1, 256, 65_535, drawn]).to_string()
}

fn bend(odd: Odd, words: &mut Vec<String>, lines: &mut Vec<Vec<u8>>, rng: &mut Rng) {
    let at = rng.below(lines.len() as u64 + 1) as usize;
    match odd {
        Odd::Remarks => {
            lines.insert(at, b"# USDINR futures 5".to_vec());
            lines.insert(at, Vec::new());
            lines.insert(0, b"#".to_vec());
        }
        Odd::LeadingZeros => {
            words
                .iter_mut()
                .for_each(|word| word.insert_str(0, "00000000000000000000"));
            lines.push(b"USDINR futures 000000000000000000000000010000001".to_vec());
        }
        Odd::Huge => {
            let digits = rng.between(20, 60) as usize;
            let huge = "9".repeat(digits);
            match rng.below(2) {
                0 => words[2] = huge,
                _ => lines.insert(at, format!("USDINR long {huge}").into_bytes()),
            }
        }
        Odd::Figures => {
            let words = figure_words(rng);
            lines.insert(at, format!("figures {words}").into_bytes());
        }
        Odd::BadLine => put_bad_line(at, lines, rng),
        Odd::BadWords => {
            let bad = one_of(BAD_WORDS, rng);
            let split = bad.split(' ').filter(|_| !bad.is_empty());
            *words = split.map(String::from).collect();
        }
        Odd::Help => words.insert(0, "--help".to_string()),
        _ => {}
    }
}

fn bad_line(rng: &mut Rng) -> Vec<u8> {
    match rng.below(34) {
        0 => b"USDINR futures \xFF".to_vec(),
        _ => one_of(BAD_LINES, rng).as_bytes().to_vec(),
    }
}

/// One or two, or figures twice.
fn put_bad_line(at: usize, lines: &mut Vec<Vec<u8>>, rng: &mut Rng) {
    if rng.one_in(8) {
        lines.insert(at, b"figures 1 2".to_vec());
        lines.insert(0, b"figures 1 2".to_vec());
        return;
    }
    lines.insert(at, bad_line(rng));
    if rng.one_in(3) {
        lines.push(bad_line(rng));
    }
}

/// Two or four, one of them at an edge or past its type.
fn figure_words(rng: &mut Rng) -> String {
    let many = rng.pick(&[2, 4]);
    let mut words: Vec<String> = good(many, rng).iter().map(i64::to_string).collect();
    let edge = rng.pick(&EDGES).to_string();
    let huge = [
        "99999999999999999999999",
        "-99999999999999999999999",
        "-007",
    ];
    let drawn = rng.pick(&huge).to_string();
    let place = rng.below(many as u64) as usize;
    match rng.below(4) {
        0 => words[place] = edge,
        1 => words[place] = drawn,
        _ => {}
    }
    words.join(" ")
}

/// A remark at the end fills it up.
fn pad(odd: Odd, text: &mut Vec<u8>) {
    let wanted = match odd {
        Odd::Longest => MOST,
        Odd::TooLong => MOST + 1,
        _ => return,
    };
    text.truncate(text.len().min(wanted));
    if text.len() < wanted {
        text.push(b'#');
    }
    text.resize(wanted, b'.');
}
