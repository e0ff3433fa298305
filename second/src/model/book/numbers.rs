//! K11 of document 02: "Numbers are kept with their rows, go up to 65,535 and
//! are never given twice." An account's number and its row's place are two
//! things: records and standings name a number, all else goes by row held.

use super::{Book, Sort, MOST_ACCOUNTS};

/// "Go up to 65,535": a next number of so much says that every one is given.
pub const MOST_NUMBERS: u32 = 65_536;

#[derive(Clone, Copy, PartialEq, Eq, Debug)]
pub struct Numbers {
    /// By row; 0 for a row that isn't held.
    pub of_rows: [u16; MOST_ACCOUNTS],
    /// "The next to be given."
    pub next: u32,
}

impl Numbers {
    /// Number 0 is the CM's.
    pub fn fresh() -> Numbers {
        Numbers {
            of_rows: [0; MOST_ACCOUNTS],
            next: 1,
        }
    }

    /// "Rows in a sound book rise by number, all below the next to be given"; a
    /// row beyond the number of rows has 0.
    pub(super) fn are_sound(&self, count: usize) -> bool {
        let (held, beyond) = self.of_rows.split_at(count);
        held.first() == Some(&0)
            && held.windows(2).all(|two| two[0] < two[1])
            && held.iter().all(|&number| u32::from(number) < self.next)
            && self.next <= MOST_NUMBERS
            && beyond.iter().all(|&number| number == 0)
    }
}

impl Book {
    pub fn number(&self, account: usize) -> u16 {
        self.numbers.of_rows[account]
    }

    /// The row held that has it. One that was never given and one that is in
    /// the archive have none.
    pub fn place_of(&self, number: u16) -> Option<usize> {
        let held = &self.numbers.of_rows[..self.count];
        held.binary_search(&number).ok()
    }

    /// "The account is not live, or its number was never given" is the opposite.
    pub fn live_place(&self, number: u16) -> Option<usize> {
        self.place_of(number).filter(|&place| self.is_live(place))
    }

    /// Whether a row can be opened; if not it is 9: "256 rows held or every
    /// number given".
    pub fn has_room(&self) -> bool {
        self.count < MOST_ACCOUNTS && self.numbers.next < MOST_NUMBERS
    }

    /// The number that its TM's row has; 0, the CM's, for one that is no client.
    pub fn tm_number(&self, account: usize) -> u16 {
        match self.rows[account].sort {
            Sort::Client => self.number(self.answers_for(account)),
            _ => 0,
        }
    }
}
