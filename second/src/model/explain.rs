//! The program `explain`: the lines of `day`, and behind each refused record
//! that has one amount what `most` gives for it at the book just before it.

use crate::model::day::run;
use crate::model::most::{most, Asked};
use crate::model::*;

/// A refused record with one amount, the book just before it, and what would
/// have passed.
pub struct Explained<'a> {
    pub before: &'a Book,
    pub record: Record<'a>,
    pub refusal: u8,
    pub given: Result<u64, Refusal>,
}

impl Explained<'_> {
    /// None for a record carried out, and for one without an amount or with
    /// several: its mark's bits are counted, whichever they are.
    fn of<'a>(before: &'a Book, record: Record<'a>, answer: &Answer) -> Option<Explained<'a>> {
        let refusal = answer.refusal();
        (refusal != 0 && record.mark.count_ones() == 1).then(|| Explained {
            before,
            record,
            refusal,
            given: most(before, &record.values()),
        })
    }

    /// The refusal or 0, and the amount or 0.
    pub fn numbers(&self) -> [u64; 2] {
        match self.given {
            Ok(amount) => [0, amount],
            Err(refusal) => [refusal as u64, 0],
        }
    }

    /// Whether it goes with the refusal: 4, 5 and 7 are told again, 4 also of a
    /// code that has no amount; where the record came further it asked for more
    /// than passes, and that is just so much.
    pub fn fits(&self) -> bool {
        let given = self.given.map_err(|refusal| refusal as u8);
        let values = self.record.values();
        let asked = match Asked::of(&values) {
            Ok(asked) => asked,
            Err(refusal) => return given == Err(refusal as u8),
        };
        let amount = values.amounts[self.record.mark.trailing_zeros() as usize];
        let passes = |amount: u64| asked.tried(self.before, amount).is_ok();
        let is_just = match given {
            Ok(most) => passes(most) && !passes(most + 1) && most <= CEILING,
            Err(_) => !passes(asked.least()),
        };
        is_just
            && match self.refusal {
                3 | 6 => true,
                7 => given == Err(7),
                _ => given.map_or(true, |most| amount > most),
            }
    }
}

/// The output of `explain`; `each` sees all that is explained.
pub fn seen(mut book: Book, piece: &[u8], mut each: impl FnMut(&Explained)) -> Vec<u8> {
    let mut out = Vec::with_capacity(piece.len() + 64);
    let mut records = Reader::new(piece);
    let mut before = book.clone();
    let day = run(&mut book, piece, MILLION, |answer, after| {
        let explained = match records.next() {
            Next::Record(record) => Explained::of(&before, record, answer),
            _ => None,
        };
        match explained {
            None => print::push_answer(&mut out, answer),
            Some(explained) => {
                print::push_explained(&mut out, answer, explained.numbers());
                each(&explained);
            }
        }
        before = after.clone();
    });
    print::push_closing(&mut out, &day);
    out
}

pub fn over(book: Book, piece: &[u8]) -> Vec<u8> {
    seen(book, piece, |_| {})
}
