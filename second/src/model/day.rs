//! The records of a day, one after another, and how the day closes.

use crate::model::*;

/// The program's stated number of records.
pub const MILLION: usize = 1_000_000;

#[derive(Clone, Copy, PartialEq, Eq, Debug)]
pub enum Closing {
    End,
    Cut,
    Long,
}

#[derive(Clone, Copy, PartialEq, Eq, Debug)]
pub struct Day {
    pub closing: Closing,
    pub place: usize,
    pub read: usize,
    pub carried: usize,
}

/// Carries out the piece's records, at most the stated number; `each` sees
/// every answer with the book after it.
pub fn run(
    book: &mut Book,
    piece: &[u8],
    most: usize,
    mut each: impl FnMut(&Answer, &Book),
) -> Day {
    let mut reader = Reader::new(piece);
    let (mut read, mut carried) = (0, 0);
    let closing = loop {
        // The last record allowed "followed by nothing is `end`, by anything
        // `long`": a cut one after it too.
        if read == most {
            break if reader.left().is_empty() {
                Closing::End
            } else {
                Closing::Long
            };
        }
        let record = match reader.next() {
            Next::End => break Closing::End,
            Next::Cut => break Closing::Cut,
            Next::Record(record) => record,
        };
        let answer = carry(book, &record);
        read += 1;
        carried += usize::from(!matches!(answer.outcome, Outcome::Refused(_)));
        each(&answer, book);
    };
    Day {
        closing,
        place: reader.place(),
        read,
        carried,
    }
}

/// A whole day over a fresh book, for those who want the book alone.
pub fn run_fresh(piece: &[u8]) -> (Book, Day) {
    let mut book = Book::fresh();
    let day = run(&mut book, piece, MILLION, |_, _| {});
    (book, day)
}
