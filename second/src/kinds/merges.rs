//! What made-up mergings have met, told from their files as they are.

use crate::make::froms::From;
use crate::make::merges::Merging;
use crate::model::bookfile::Version;
use crate::model::merge::records;
use crate::model::programs::MERGE_MOST;
use crate::model::*;
use crate::tally::{names, Tally};

pub const KINDS: &str = "\
both good|A 2|A 4|A 5|A 6|B 2|B 4|B 5|B 6|both at fault|the first at fault|one between at fault|\
the last at fault|A empty|B empty|both empty|wraps in A|wraps between A and B|wraps in B|FROM -|\
no FROM|FROM not sound|FROM of version 1|an amount at the ceiling|a paisa above the ceiling|\
an amount of 0|a margin of 0|as long as may be|A too long|B too long|B too long, A at fault|\
no such file|FROM no book|no book beside a fault";

/// How much has been compared.
#[derive(Default)]
pub struct Met {
    merges: u64,
    records: u64,
    pub kinds: Tally<&'static str>,
}

impl Met {
    pub fn line(&self) -> String {
        let (merges, records) = (self.merges, self.records);
        let kinds = self.kinds.line(names(KINDS));
        format!("same: {merges} mergings, {records} records written; {kinds}")
    }

    /// In the order in which files, FROM and refusals are told.
    pub fn count(&mut self, merging: &Merging) {
        self.merges += 1;
        let kinds = &mut self.kinds;
        let files = match &merging.files {
            [Some(a), Some(b)] => [a.as_slice(), b],
            _ => return kinds.count("no such file"),
        };
        let [a, b] = files.map(records);
        let is_bad = a.is_err() || b.is_err();
        if !count_lengths(files, a.is_err(), kinds) {
            return;
        }
        let serial = match merging.from.serial(kinds) {
            Some(serial) => serial,
            None => return count_no_book(is_bad, kinds),
        };
        match (a, b) {
            (Ok(a), Ok(b)) => {
                kinds.count("both good");
                count_wrap(serial, [a.len(), b.len()], kinds);
                self.records += (a.len() + b.len()) as u64;
                count_amounts(&[a, b].concat(), kinds);
            }
            (Err(fault), b) => {
                kinds.count_if("both at fault", b.is_err());
                count_fault(["A 2", "A 4", "A 5", "A 6"], files[0], fault, kinds);
            }
            (_, Err(fault)) => {
                count_fault(["B 2", "B 4", "B 5", "B 6"], files[1], fault, kinds);
            }
        }
    }
}

/// Whether both may be so long.
fn count_lengths(files: [&[u8]; 2], a_is_bad: bool, kinds: &mut Tally<&'static str>) -> bool {
    let is_long = files.map(|file| file.len() > MERGE_MOST);
    if is_long != [false; 2] {
        kinds.count(match (is_long[0], a_is_bad) {
            (true, _) => "A too long",
            (false, true) => "B too long, A at fault",
            (false, false) => "B too long",
        });
        return false;
    }
    let is_longest = files.iter().any(|file| file.len() == MERGE_MOST);
    kinds.count_if("as long as may be", is_longest);
    let is_empty = files.map(<[u8]>::is_empty);
    kinds.count_if("A empty", is_empty[0]);
    kinds.count_if("B empty", is_empty[1]);
    kinds.count_if("both empty", is_empty == [true; 2]);
    true
}

fn count_no_book(is_bad: bool, kinds: &mut Tally<&'static str>) {
    kinds.count("FROM no book");
    kinds.count_if("no book beside a fault", is_bad);
}

/// Where the serial 0 comes after 65,535.
fn count_wrap(serial: u16, [a, b]: [usize; 2], kinds: &mut Tally<&'static str>) {
    let left = 65_536 - usize::from(serial);
    kinds.count_if("wraps in A", left < a);
    kinds.count_if("wraps between A and B", left == a && b > 0);
    kinds.count_if("wraps in B", (a + 1..a + b).contains(&left));
}

fn count_amounts(records: &[Values], kinds: &mut Tally<&'static str>) {
    let is_full = |record: &Values| record.amounts.contains(&CEILING);
    kinds.count_if("an amount at the ceiling", records.iter().any(is_full));
    let is_nothing = |record: &Values| record.mark == 1 << MARGIN && record.amounts == [0; 6];
    kinds.count_if("a margin of 0", records.iter().any(is_nothing));
}

/// Kinds for refusals 2, 4, 5 and 6, and which record it is.
fn count_fault(
    [cut, code, mark, range]: [&'static str; 4],
    file: &[u8],
    (refusal, record): (Refusal, usize),
    kinds: &mut Tally<&'static str>,
) {
    kinds.count(match refusal {
        Refusal::Cut => cut,
        Refusal::UnknownCode => code,
        Refusal::UnsuitedMark => mark,
        _ => range,
    });
    let (bad, is_last) = nth(file, record);
    kinds.count(match (record, is_last) {
        (0, _) => "the first at fault",
        (_, true) => "the last at fault",
        _ => "one between at fault",
    });
    if let (Some(bad), Refusal::OutOfRange) = (bad, refusal) {
        let named = (0..6).filter(|bit| bad.mark & (1 << bit) != 0);
        let named: Vec<u64> = named.map(|bit| bad.amounts[bit]).collect();
        let is_above = named.contains(&(CEILING + 1));
        kinds.count_if("a paisa above the ceiling", is_above);
        let is_within = named.iter().all(|&amount| amount <= CEILING);
        kinds.count_if("an amount of 0", is_within);
    }
}

/// A record of a file, None for one that is cut, and whether it is the last.
fn nth(file: &[u8], record: usize) -> (Option<Values>, bool) {
    let mut reader = Reader::new(file);
    for _ in 0..record {
        reader.next();
    }
    match reader.next() {
        Next::Record(record) => (Some(record.values()), reader.left().is_empty()),
        _ => (None, true),
    }
}

impl From {
    /// The serial to number from; None for what is no book.
    pub fn serial(&self, kinds: &mut Tally<&'static str>) -> Option<u16> {
        let bytes = match self {
            From::File(bytes) => bytes,
            _ => {
                let is_dash = matches!(self, From::Dash);
                kinds.count(if is_dash { "FROM -" } else { "no FROM" });
                return Some(0);
            }
        };
        let table = bookfile::table(bytes)?;
        kinds.count_if("FROM not sound", !table.is_sound());
        let is_first = bookfile::version(bytes) == Some(Version::One);
        kinds.count_if("FROM of version 1", is_first);
        Some(table.serial)
    }
}
