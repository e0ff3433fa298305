//! What a record was answered.

use crate::{Refusal, ANSWER};

/// A record's answer, with its serial, code and account.
#[derive(Clone, Copy, PartialEq, Eq, Hash, Debug)]
pub struct Answer {
    /// The record's serial.
    pub serial: u16,
    /// Its code.
    pub code: u8,
    /// The account that it names.
    pub account: u16,
    /// What came of it.
    pub outcome: Outcome,
}

/// What came of a record.
#[derive(Clone, Copy, PartialEq, Eq, Hash, Debug)]
pub enum Outcome {
    /// It was carried out.
    CarriedOut,
    /// It was carried out and opened an account with this number.
    Opened(u16),
    /// It was refused.
    Refused(Refusal),
}

impl Answer {
    /// From five numbers: serial, code, account, refusal or 0, number given or 0.
    pub(crate) fn of(numbers: &[u16]) -> Answer {
        let outcome = match (Refusal::of(numbers[3] as u8), numbers[4]) {
            (Err(refusal), _) => Outcome::Refused(refusal),
            (Ok(()), 0) => Outcome::CarriedOut,
            (Ok(()), number) => Outcome::Opened(number),
        };
        Answer {
            serial: numbers[0],
            code: numbers[1] as u8,
            account: numbers[2],
            outcome,
        }
    }
}

/// The answers in a room that [`Book::day`](crate::Book::day) filled; see
/// [`answers`].
#[derive(Clone, Debug)]
pub struct Answers<'a> {
    numbers: std::slice::ChunksExact<'a, u16>,
}

/// The first `read` answers of a room that [`Book::day`](crate::Book::day)
/// filled, as many as there are.
pub fn answers(room: &[u16], read: u64) -> Answers<'_> {
    let all = room.len() / ANSWER;
    let many = usize::try_from(read).map_or(all, |read| read.min(all));
    Answers {
        numbers: room[..ANSWER * many].chunks_exact(ANSWER),
    }
}

impl Iterator for Answers<'_> {
    type Item = Answer;

    fn next(&mut self) -> Option<Answer> {
        self.numbers.next().map(Answer::of)
    }
}
