//! What made-up calls have met of `most`, and of records that carry as much as
//! passes or a paisa more. Every answer of `most` is held against `carry_out`.

use crate::kinds::most::{CODES, LIMITS};
use crate::model::calls::{answer, Answered, Call};
use crate::model::most::Asked;
use crate::model::*;

/// A record by code and refusal, at the paisa where that begins; past the
/// ceiling it is 6.
#[derive(Clone, Copy, PartialEq, Eq, PartialOrd, Ord, Debug)]
pub enum Edge {
    /// Carried out, and a paisa more is refused so.
    Passes(u8, u8),
    /// Refused so, and a paisa less passes.
    Refused(u8, u8),
}

impl Edge {
    pub fn all() -> Vec<Edge> {
        let at_ceiling = CODES.into_iter().map(|code| (code, 6));
        let both = |(code, refusal)| [Edge::Passes(code, refusal), Edge::Refused(code, refusal)];
        at_ceiling.chain(LIMITS).flat_map(both).collect()
    }
}

/// Whether its answer is followed by two records.
pub fn is_pair(record: &Values) -> bool {
    Asked::of(record).is_ok()
}

/// The amount given is carried out, and a paisa more isn't; where it is
/// refused so is the least amount, and with the same number.
pub fn agrees(table: &Table, record: &Values, answered: &Answered) -> bool {
    let amount = answered.line.split(' ').nth(1);
    let amount = match amount.and_then(|word| word.parse().ok()) {
        Some(amount) => amount,
        None => return false,
    };
    let asked = match Asked::of(record) {
        Ok(asked) => asked,
        Err(refusal) => {
            let word = (refusal as u8).to_string();
            let first = if table.is_sound() { &word } else { "1" };
            return answered.word == first && amount == 0;
        }
    };
    let carried = |amount: u64| {
        let record = asked.record(table.serial, amount);
        answer(&Call::CarryOut(table.clone(), record)).word
    };
    if answered.word != "0" {
        return amount == 0 && carried(least(record.code)) == answered.word;
    }
    let passes = carried(amount) == "0" && carried(amount + 1) != "0";
    passes && (least(record.code)..=CEILING).contains(&amount)
}

/// Of a record that has one amount and comes as far as it.
pub fn edge(book: &Book, record: &Values) -> Option<Edge> {
    let asked = Asked::of(record).ok()?;
    let amount = record.amounts[record.mark.trailing_zeros() as usize];
    if *record != asked.record(book.serial, amount) {
        return None;
    }
    let code = record.code;
    match asked.tried(book, amount) {
        Ok(()) => {
            let next = asked.tried(book, amount + 1).err()?;
            Some(Edge::Passes(code, next as u8))
        }
        Err(refusal) => {
            let less = amount.checked_sub(1)?;
            asked.tried(book, less).ok()?;
            Some(Edge::Refused(code, refusal as u8))
        }
    }
}
