//! K11: "a call that moves all retired rows, in rising number, to a lent archive
//! and closes the gaps, keeping the others' order."

use super::*;

/// "An archived row is three numbers: its own, its opening code, its TM's or 0."
#[derive(Clone, Copy, PartialEq, Eq, Debug)]
pub struct Entry {
    pub number: u64,
    pub code: u64,
    pub tm: u64,
}

impl Entry {
    pub fn numbers(&self) -> [u64; 3] {
        [self.number, self.code, self.tm]
    }

    /// What the record that opened it made.
    pub fn sort(&self) -> Sort {
        match self.code {
            TRADING => Sort::Tm,
            CLIENT => Sort::Client,
            _ => Sort::Cp,
        }
    }

    /// Of a row of a sound book. The sort of one that isn't the CM's is the code
    /// of the record that opened it.
    fn of(table: &Table, place: &Place) -> Entry {
        let tm = match place[SORT] {
            CLIENT => table.places[place[TM] as usize][NUMBER],
            _ => 0,
        };
        Entry {
            number: place[NUMBER],
            code: place[SORT],
            tm,
        }
    }
}

pub struct Archived {
    pub entries: Vec<Entry>,
    pub book: Table,
}

impl Table {
    /// None where the book isn't sound. Rows rise by number, so entries do.
    pub fn archived(&self) -> Option<Archived> {
        if !self.is_sound() {
            return None;
        }
        let (kept, retired): (Vec<usize>, Vec<usize>) =
            (0..self.held()).partition(|&account| self.places[account][LIVE] == 1);
        let entry = |&account: &usize| Entry::of(self, &self.places[account]);
        Some(Archived {
            entries: retired.iter().map(entry).collect(),
            book: self.with_rows(&kept),
        })
    }

    /// Each with its number, mode and kept need; a client's TM word follows its
    /// TM's row. Serial and next number stay.
    fn with_rows(&self, kept: &[usize]) -> Table {
        let mut book = self.clone();
        book.places = [[0; WORDS.len()]; MOST_ACCOUNTS];
        for (row, &account) in book.places.iter_mut().zip(kept) {
            *row = self.places[account];
            if row[SORT] == CLIENT {
                let moved = kept.iter().position(|&tm| tm as u64 == row[TM]);
                // A live client's TM is live, so it is there.
                row[TM] = moved.map_or(row[TM], |place| place as u64);
            }
        }
        book.count = kept.len() as u16;
        book
    }
}
