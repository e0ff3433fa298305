//! All that holds a day's answers against the rules by the letter, together, and
//! counts what it meets.

use super::days::Kind;
use super::{holds, looks, margins, moves, shorts, tenths};
use crate::model::*;
use crate::tally::Tally;

/// A record with its answer, and the book before it and after it. A refusal leaves
/// all of the book but its serial.
pub struct Step<'a> {
    pub answer: &'a Answer,
    pub record: Record<'a>,
    /// None where 4, 5 or 6 is given for them.
    pub amounts: Option<[u64; 6]>,
    pub before: &'a Book,
    pub was: &'a [Standing],
    pub after: &'a Book,
    pub now: &'a [Standing],
    /// The row of the account that is named.
    pub place: Option<usize>,
}

impl Step<'_> {
    pub fn is_done(&self) -> bool {
        self.answer.refusal() == 0
    }

    /// The amounts of a record that comes as far as 8.
    pub fn good_amounts(&self) -> Option<[u64; 6]> {
        let is_stopped = (3..=7).contains(&self.answer.refusal());
        self.amounts.filter(|_| !is_stopped)
    }
}

pub struct Seen<'a> {
    /// Follows the day, since an answer doesn't have the amounts.
    reader: Reader<'a>,
    before: Book,
    standings: Vec<Standing>,
    looks: looks::Looks,
    /// The modes that the last record turned, and what that was.
    turned: Vec<(usize, holds::Turner)>,
    pub met: Tally<Kind>,
}

impl<'a> Seen<'a> {
    /// Over the whole day, from its start with this book.
    pub fn from(book: &Book, piece: &'a [u8]) -> Seen<'a> {
        Seen {
            reader: Reader::new(piece),
            before: book.clone(),
            standings: book.standings(),
            looks: looks::Looks::from(book),
            turned: Vec::new(),
            met: Tally::default(),
        }
    }

    /// Whether modes are as a look at all would have them, needs moved as they
    /// can, what was to be taken out got the answer of the rules, 13's old line
    /// agrees, collateral has nine tenths of securities, and the shortfall rose
    /// by codes 12 and 13 alone.
    pub fn after(&mut self, answer: &Answer, book: &Book) -> bool {
        let record = match self.reader.next() {
            Next::Record(record) => record,
            _ => return false,
        };
        let now = book.standings();
        let step = Step {
            answer,
            record,
            amounts: record.checked().ok(),
            before: &self.before,
            was: &self.standings,
            after: book,
            now: &now,
            place: book.place_of(answer.account),
        };
        let met = &mut self.met;
        let agrees = self.looks.after(&step, met) & moves::after(&step, met);
        let agrees = agrees & holds::after(&step, &self.turned, met) & margins::after(&step, met);
        let agrees = agrees & tenths::after(&step, met) & shorts::after(&step, met);
        self.turned = holds::turned(&step);
        if step.is_done() {
            self.before = book.clone();
        }
        self.standings = now;
        agrees
    }
}

/// The lines of a day, with a look after every record whether the book is sound,
/// and at all that `Seen` looks for.
pub fn checked(book: Book, piece: &[u8]) -> programs::Carried {
    let (mut records, mut first_fault) = (0, None);
    let mut seen = Seen::from(&book, piece);
    let parts = print::day_parts(book, piece, |answer, book| {
        records += 1;
        let agrees = seen.after(answer, book);
        let is_sound = book.is_sound() && book.uses_agree() && Table::of(book).is_sound();
        if first_fault.is_none() && !(agrees && is_sound) {
            first_fault = Some(records);
        }
    });
    match first_fault {
        None => Ok(parts),
        Some(record) => Err(format!(
            "record {record} is answered wrongly or leaves a book that is not sound"
        )),
    }
}
