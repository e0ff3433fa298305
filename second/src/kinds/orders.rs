//! What pairs of counters' files have met.

use crate::compare::orders::Left;
use crate::model::*;
use crate::tally::{names, Tally};

pub const KINDS: &str = "\
all carried out both times|a TM's mode differs|the CM's mode differs|13 in the order A B|\
13 in the order B A|13 when mixed|a retiring|a retiring in both files|the CM's records|\
TMs' records|clients' records|CPs' records|mixed and all carried out";

/// How much has been compared.
#[derive(Default)]
pub struct Met {
    pairs: u64,
    orders: u64,
    records: u64,
    pub kinds: Tally<&'static str>,
}

impl Met {
    pub fn line(&self) -> String {
        format!(
            "same: {} pairs of counters' files in {} orders, {} records; {}",
            self.pairs,
            self.orders,
            self.records,
            self.kinds.line(names(KINDS))
        )
    }

    /// A pair of files over this book; the first two orders are A B and B A, the
    /// others mixed.
    pub fn count(&mut self, book: &Book, files: [&[Values]; 2], left: &[Left]) {
        self.pairs += 1;
        self.orders += left.len() as u64;
        let records: usize = left.iter().map(|left| left.carried.refusals.len()).sum();
        self.records += records as u64;
        let kinds = &mut self.kinds;
        let (one, other) = (&left[0].carried, &left[1].carried);
        let are_whole = [one.is_whole(), other.is_whole()];
        if are_whole == [true; 2] {
            kinds.count("all carried out both times");
            let differs = |row: usize| one.book.modes[row] != other.book.modes[row];
            kinds.count_if("the CM's mode differs", differs(0));
            kinds.count_if("a TM's mode differs", (1..book.count).any(differs));
            count_retirings(files, kinds);
            count_sorts(book, &files.concat(), kinds);
        }
        let one_is_13 = are_whole[1] && one.refusals.contains(&13);
        kinds.count_if("13 in the order A B", one_is_13);
        let other_is_13 = are_whole[0] && other.refusals.contains(&13);
        kinds.count_if("13 in the order B A", other_is_13);
        for mixed in left[2..].iter().map(|left| &left.carried) {
            kinds.count_if("13 when mixed", mixed.refusals.contains(&13));
            let is_other = mixed.order != one.order && mixed.order != other.order;
            let is_whole = is_other && mixed.is_whole();
            kinds.count_if("mixed and all carried out", is_whole);
        }
    }
}

fn count_retirings(files: [&[Values]; 2], kinds: &mut Tally<&'static str>) {
    let retires = files.map(|file| file.iter().any(|record| record.code == RETIRE));
    kinds.count_if("a retiring", retires != [false; 2]);
    kinds.count_if("a retiring in both files", retires == [true; 2]);
}

fn count_sorts(book: &Book, records: &[Values], kinds: &mut Tally<&'static str>) {
    let sorts = [
        (Sort::Cm, "the CM's records"),
        (Sort::Tm, "TMs' records"),
        (Sort::Client, "clients' records"),
        (Sort::Cp, "CPs' records"),
    ];
    let sort_of = |record: &Values| book.place_of(record.account).map(|row| book.rows[row].sort);
    for (sort, kind) in sorts {
        let is_there = records.iter().any(|record| sort_of(record) == Some(sort));
        kinds.count_if(kind, is_there);
    }
}
