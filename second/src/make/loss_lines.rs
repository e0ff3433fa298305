//! Made-up files of losses as text: lines for a book's rows, and what may be odd
//! about them.

use super::losses;
use super::texts::said::dressed;
use crate::make::rng::Rng;
use crate::model::losses::MOST;
use crate::model::*;

#[derive(Clone, Copy)]
pub struct Case {
    pub kind: &'static str,
    /// `paid`, a refusal, or what is told of a line or the file.
    pub comes_to: &'static str,
    /// A line among the others, with `|` between the ways of saying it.
    odd: &'static str,
}

/// What it comes to, kind, and ways. `!` stands for a number that no row held has.
const CASES: &str = "\
paid; rows' losses: |# 5|\t\r
paid; zeros in front: 00000 0000000|0 0000000000000000
paid; nothing at all: |#
paid; as long as may be: |0 0
refused 7; a number not held: ! 0|! 5
refused 7; a number not held beside a loss past the ceiling: ! 10000000000001
refused 16; past the ceiling: 0 10000000000001|0 9999999999999999
no number; no number: x 5|-1 5|+1 5|, 5|\u{b}! 5
no number; 17 digits of a number: 00000000000000001 5|12345678901234567
a number above 65535; number 65536: 65536 5|9999999999999999 0|65536
no amount; no amount: !|! x|! -5|! +5|! # 5
no amount; 17 digits of an amount: ! 00000000000000001|! 12345678901234567 x
something more in the line; more: ! 5 6|! 5x|! 5 -|! 5.0|! 5 \0
the same account twice; an account twice: 0 5|00 5
more than 256 lines that say something; 257 lines: |#
the file of losses is too long; a byte too long: |x";

pub fn all() -> Vec<Case> {
    CASES.split('\n').filter_map(case).collect()
}

fn case(line: &'static str) -> Option<Case> {
    let (comes_to, rest) = line.split_once("; ")?;
    let (kind, odd) = rest.split_once(": ")?;
    Some(Case {
        kind,
        comes_to,
        odd,
    })
}

/// A case in its turn, and a text of it.
pub fn make(book: &Book, turn: u64, seed: u64) -> (Case, Vec<u8>) {
    let cases = all();
    let case = cases[(turn % cases.len() as u64) as usize];
    let text = case.text(book, &mut Rng::new(seed, 0x11E5 + turn));
    (case, text)
}

impl Case {
    fn text(&self, book: &Book, rng: &mut Rng) -> Vec<u8> {
        let ways: Vec<&str> = self.odd.split('|').collect();
        let odd = rng.pick(&ways).replace('!', &not_held(book).to_string());
        let mut lines = match self.kind {
            "nothing at all" => Vec::new(),
            "257 lines" => (0..257).map(|number| format!("{number} 0")).collect(),
            _ => rows_lines(book, rng),
        };
        if self.kind == "an account twice" {
            lines.insert(0, "0 0".to_string());
        }
        let at = rng.below(lines.len() as u64 + 1) as usize;
        lines.insert(at, odd);
        let dressed: Vec<Vec<u8>> = lines.iter().map(|line| dressed(line, rng)).collect();
        let mut text = dressed.join(&b'\n');
        if rng.one_in(2) {
            text.push(b'\n');
        }
        match self.kind {
            "as long as may be" => filled_up(&mut text, MOST),
            "a byte too long" => filled_up(&mut text, MOST + 1),
            _ => {}
        }
        text
    }
}

/// Losses that no book refuses, in any order; none for the CM.
fn rows_lines(book: &Book, rng: &mut Rng) -> Vec<String> {
    let losses = losses::good(book, rng.next());
    let rows = losses.iter().enumerate().skip(1);
    let mut lines: Vec<String> = rows
        .filter(|(_, &loss)| loss > 0 || rng.one_in(3))
        .map(|(row, loss)| format!("{} {loss}", book.number(row)))
        .collect();
    let turn = rng.below(lines.len() as u64 + 1) as usize;
    lines.rotate_left(turn);
    lines
}

fn not_held(book: &Book) -> u16 {
    let mut numbers = (0..=u16::MAX).rev();
    let not_held = numbers.find(|&number| book.place_of(number).is_none());
    not_held.unwrap_or(u16::MAX)
}

/// With empty lines.
fn filled_up(text: &mut Vec<u8>, length: usize) {
    text.resize(length.max(text.len()), b'\n');
}
