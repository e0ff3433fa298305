//! K14's theorem on the programs `merge`, `day` and `standings`: two counters'
//! files over one book, in both orders and mixed.

use super::books::{self, handed_over, Night};
use super::child::Pace;
use super::{all_met, merges, Made, Run};
use crate::kinds::orders::{Met, KINDS};
use crate::make::orders::{make, mixed, Counters};
use crate::make::rng::Rng;
use crate::model::bookfile::without_modes;
use crate::model::merge::{merged, renumbered};
use crate::model::orders::{carried, Carried};
use crate::model::*;
use crate::tally::names;
use std::fs;
use std::path::Path;

/// From so many pairs on all of it must have been met.
const WHOLE: u64 = 60;

/// What one order left: this program's own book, and the file and the standings
/// that the others gave.
pub struct Left {
    pub carried: Carried,
    file: Vec<u8>,
    standings: Vec<u8>,
}

/// Nothing where `day` or `standings` isn't named.
pub fn all_orders(run: &Run, merge: &str) -> Result<Vec<String>, String> {
    let (day, standings) = (run.program("--day"), run.program("--standings"));
    let standings = match day.and(standings) {
        Some(standings) => standings,
        None => return Ok(Vec::new()),
    };
    let (seeds, pairs) = run.seeds("--merges", merges::USUAL)?;
    let mut met = Met::default();
    for (_, seed) in seeds {
        let counters =
            make(seed).ok_or_else(|| format!("no pair of files is made of seed {seed}"))?;
        let mut night = Night {
            run,
            made: Made {
                kind: "two orders",
                seed,
                bytes: counters.setting_up.clone(),
                pace: Pace::Whole,
            },
            rng: Rng::new(seed, 0x0BDE3),
            met: &mut books::Met::default(),
        };
        night.two_orders([merge, standings], &counters, &mut met)?;
    }
    all_met(" by two orders", pairs >= WHOLE, &met.kinds, names(KINDS))?;
    run.remove(&["a", "b", "book", "to"]);
    Ok(vec![met.line()])
}

impl Night<'_> {
    /// A B, B A, and twice mixed, with the programs `merge` and `standings`.
    fn two_orders(
        &mut self,
        [merge, standings]: [&str; 2],
        counters: &Counters,
        met: &mut Met,
    ) -> Result<(), String> {
        let from = self.run.path("book");
        self.run.remove(&["book"]);
        let book = self.day(Book::fresh(), Path::new("-"), &from, &counters.setting_up)?;
        let book = handed_over(&book);
        let (a, b) = (&counters.files[0][..], &counters.files[1][..]);
        let mut left = Vec::new();
        for files in [[a, b], [b, a]] {
            let piece = self.merged(merge, &from, book.serial, files)?;
            left.push(self.order(standings, &book, &files.concat(), &piece)?);
        }
        for _ in 0..2 {
            let order = mixed(a, b, &mut self.rng);
            let piece = renumbered(&order, book.serial);
            left.push(self.order(standings, &book, &order, &piece)?);
        }
        met.count(&book, [a, b], &left);
        self.all_alike(&left)
    }

    /// What `merge` makes of two files that are numbered from anything.
    fn merged(
        &mut self,
        merge: &str,
        from: &Path,
        serial: u16,
        files: [&[Values]; 2],
    ) -> Result<Vec<u8>, String> {
        let [a, b] = files.map(|file| renumbered(file, self.rng.next() as u16));
        let want = merged([&a, &b], serial);
        let want = want.map_err(|fault| self.told(&format!("own files, {fault:?}")))?;
        let (a, b) = (self.run.put("a", &a)?, self.run.put("b", &b)?);
        self.settled("merge", merge, &[&a, &b, from], &[], &want)?;
        Ok(want)
    }

    fn order(
        &mut self,
        program: &str,
        book: &Book,
        order: &[Values],
        piece: &[u8],
    ) -> Result<Left, String> {
        let (from, to) = (self.run.path("book"), self.run.path("to"));
        self.run.remove(&["to"]);
        let after = self.day(book.clone(), &from, &to, piece)?;
        let standings = print::standings_over(handed_over(&after), &[]);
        self.settled("standings", program, &[&to], &[], &standings)?;
        Ok(Left {
            carried: carried(book, order),
            file: fs::read(&to).map_err(|error| error.to_string())?,
            standings,
        })
    }

    /// Orders that were carried out whole "leave the same amounts, needs, serial and
    /// standings. K2's modes are excepted."
    fn all_alike(&self, left: &[Left]) -> Result<(), String> {
        let whole: Vec<&Left> = left.iter().filter(|left| left.carried.is_whole()).collect();
        for two in whole.windows(2) {
            if without_modes(&two[0].file) != without_modes(&two[1].file) {
                return Err(self.told("two orders leave two books"));
            }
            if modeless(&two[0].standings) != modeless(&two[1].standings) {
                return Err(self.told("two orders leave other standings"));
            }
        }
        Ok(())
    }
}

/// Where the mode stands among the words of an account: behind number, sort, state,
/// TM and five figures.
const MODE_WORD: usize = 9;

/// The lines of `standings` without each account's mode.
fn modeless(standings: &[u8]) -> Vec<Vec<&[u8]>> {
    let lines = standings.split(|&byte| byte == b'\n');
    let words = lines.map(|line| line.split(|&byte| byte == b' ').enumerate());
    let kept = words.map(|words| words.filter(|(place, _)| *place != MODE_WORD));
    kept.map(|words| words.map(|(_, word)| word).collect())
        .collect()
}
