//! Document 01, "A sound book", with K2, K3, K7, K8 and K11, clause by clause and of
//! any words at all: sums are of 128 bits, and no clause trusts another. Kept
//! needs go by a rule, and the old one alone asks for cover.

use super::*;
use crate::model::table::{MARGIN, PLEDGED, SECURITIES};
use crate::model::*;
use std::cmp::Ordering;

/// One way in which a book isn't sound. Each is a clause by itself, told apart
/// by word and sort so that a comparison can say which ones it has met.
#[derive(Clone, Copy, PartialEq, Eq, PartialOrd, Ord, Debug)]
pub enum Fault {
    /// "The number of accounts is 1 to 256."
    NoAccounts,
    TooManyAccounts,
    /// "Account 0 is the CM and live."
    TopIsNoCm,
    TopIsRetired,
    TopHasTm,
    /// "Rows beyond the number are all zero": this word isn't.
    Beyond(usize),
    /// "Every other account is a TM, a CP, or a client .."
    UnknownSort,
    SecondCm,
    /// A row that is no client has TM word 0. By its sort.
    HasTm(u64),
    /// ".. whose TM is a lower-numbered TM row."
    OwnTm,
    HigherTm,
    TmBeyond,
    TmPastTable,
    /// The row named is of this sort.
    TmOfSort(u64),
    TmUnknown,
    /// "A live client's TM is live."
    TmIsRetired,
    /// "A retired account's amounts are all zero": sort and word.
    RetiredHas(u64, usize),
    /// "Received (each kind), pledged and margin are at most the ceiling."
    PastCeiling(usize),
    /// "Allocated is at most received in each kind."
    AllocatedPast(usize),
    /// "The CM's need is at most the CM's collateral", by the old rule.
    NotCovered,
    /// "Only a live TM or the CM can be in the mode": sort, live.
    ModeOn(u64, u64),
    /// "Each kept need equals the need worked out afresh", and is 0 for
    /// clients and CPs: sort, live, and whether it is too high.
    KeptNeed(u64, u64, bool),
    /// "Number 0 is the CM", so row 0 has it.
    TopHasNumber,
    /// "Rows in a sound book rise by number": one has that of the row before
    /// it, or a lower one.
    NumberTwice,
    NumberFalls,
    /// ".. all below the next to be given": one is the next, or above it.
    NumberIsNext,
    NumberPastNext,
    /// Not even the CM's 0 is below it.
    NextIsNothing,
    /// "Go up to 65,535": past 65,536, which says that every one is given.
    NextPastAll,
}

/// The words of a row that are amounts.
const AMOUNTS: std::ops::RangeInclusive<usize> = RECEIVED..=MARGIN;

impl Fault {
    /// All those that a book can have as its only fault. A row that names no
    /// known sort as its TM always comes with that row's own fault.
    pub fn all(rule: Rule) -> Vec<Fault> {
        use Fault::*;
        let mut all = vec![NoAccounts, TooManyAccounts];
        all.extend([TopIsNoCm, TopIsRetired, TopHasTm]);
        // A number beyond the rows held too.
        all.extend((0..WORDS.len()).map(Beyond));
        all.extend([UnknownSort, SecondCm, HasTm(TRADING), HasTm(CP)]);
        all.extend([OwnTm, HigherTm, TmBeyond, TmPastTable]);
        all.extend([TmOfSort(CM), TmOfSort(CLIENT), TmOfSort(CP), TmIsRetired]);
        for sort in [TRADING, CLIENT, CP] {
            all.extend(AMOUNTS.map(|word| RetiredHas(sort, word)));
        }
        let limited = (RECEIVED..RECEIVED + KINDS).chain([PLEDGED, MARGIN]);
        all.extend(limited.map(PastCeiling));
        all.extend((ALLOCATED..ALLOCATED + KINDS).map(AllocatedPast));
        if rule == Rule::Old {
            all.push(NotCovered);
        }
        all.extend([ModeOn(TRADING, 0), ModeOn(CLIENT, 0), ModeOn(CLIENT, 1)]);
        all.extend([ModeOn(CP, 0), ModeOn(CP, 1)]);
        all.extend([KeptNeed(CM, 1, false), KeptNeed(CM, 1, true)]);
        all.extend([KeptNeed(TRADING, 1, false), KeptNeed(TRADING, 1, true)]);
        all.push(KeptNeed(TRADING, 0, true));
        for sort in [CLIENT, CP] {
            all.extend([KeptNeed(sort, 0, true), KeptNeed(sort, 1, true)]);
        }
        all.extend([TopHasNumber, NumberTwice, NumberFalls]);
        all.extend([NumberIsNext, NumberPastNext, NextIsNothing, NextPastAll]);
        all
    }
}

impl Fault {
    /// Those that are broken by themselves: a book has one kind of fault, or
    /// a retired account several amounts. Allocated can't be alone, since
    /// without as much received it breaks another sentence.
    pub fn alone(faults: &[Fault]) -> Vec<Fault> {
        let mut kinds = faults.to_vec();
        kinds.sort();
        kinds.dedup();
        let is_of_retired = |fault: &Fault| matches!(fault, Fault::RetiredHas(..));
        if kinds.len() > 1 && !kinds.iter().all(is_of_retired) {
            kinds.clear();
        }
        kinds
    }
}

impl Table {
    pub fn is_sound(&self) -> bool {
        self.is_sound_by(Rule::New)
    }

    pub fn is_sound_by(&self, rule: Rule) -> bool {
        self.faults_by(rule).is_empty()
    }

    /// Every fault of every place; a kind of fault may stand there often.
    pub fn faults_by(&self, rule: Rule) -> Vec<Fault> {
        let mut faults = Vec::new();
        match usize::from(self.count) {
            0 => faults.push(Fault::NoAccounts),
            1..=MOST_ACCOUNTS => {}
            _ => faults.push(Fault::TooManyAccounts),
        }
        self.top_faults(&mut faults);
        let held = self.held().max(1);
        for place in &self.places[held..] {
            let words = (0..WORDS.len()).filter(|&word| place[word] != 0);
            faults.extend(words.map(Fault::Beyond));
        }
        for account in 0..held {
            self.row_faults(account, &mut faults);
        }
        self.need_faults(held, rule, &mut faults);
        self.number_faults(held, &mut faults);
        faults
    }

    /// Numbers beyond the rows held are among the words that must be zero.
    fn number_faults(&self, held: usize, faults: &mut Vec<Fault>) {
        let numbers: Vec<u64> = self.places[..held].iter().map(|row| row[NUMBER]).collect();
        let next = u64::from(self.next);
        if numbers[0] != 0 {
            faults.push(Fault::TopHasNumber);
        }
        if next > u64::from(MOST_NUMBERS) {
            faults.push(Fault::NextPastAll);
        }
        for two in numbers.windows(2) {
            match two[1].cmp(&two[0]) {
                Ordering::Less => faults.push(Fault::NumberFalls),
                Ordering::Equal => faults.push(Fault::NumberTwice),
                Ordering::Greater => {}
            }
        }
        for &number in &numbers {
            match number.cmp(&next) {
                Ordering::Less => {}
                Ordering::Equal if next == 0 => faults.push(Fault::NextIsNothing),
                Ordering::Equal => faults.push(Fault::NumberIsNext),
                Ordering::Greater => faults.push(Fault::NumberPastNext),
            }
        }
    }

    fn top_faults(&self, faults: &mut Vec<Fault>) {
        let top = &self.places[0];
        if top[SORT] != CM {
            faults.push(Fault::TopIsNoCm);
        }
        if top[LIVE] == 0 {
            faults.push(Fault::TopIsRetired);
        }
        if top[TM] != 0 {
            faults.push(Fault::TopHasTm);
        }
    }

    fn row_faults(&self, account: usize, faults: &mut Vec<Fault>) {
        let place = &self.places[account];
        if account != 0 {
            match place[SORT] {
                CM => faults.push(Fault::SecondCm),
                CLIENT => faults.extend(self.tm_fault(account)),
                sort @ (TRADING | CP) if place[TM] != 0 => faults.push(Fault::HasTm(sort)),
                TRADING | CP => {}
                _ => faults.push(Fault::UnknownSort),
            }
            let (sort, live) = (place[SORT], place[LIVE]);
            if place[MODE] != 0 && (sort, live) != (TRADING, 1) {
                faults.push(Fault::ModeOn(sort, live));
            }
        }
        limit_faults(place, faults);
    }

    fn tm_fault(&self, account: usize) -> Option<Fault> {
        let tm = self.places[account][TM] as usize;
        if tm >= MOST_ACCOUNTS {
            return Some(Fault::TmPastTable);
        }
        if tm >= self.held() {
            return Some(Fault::TmBeyond);
        }
        if tm >= account {
            let own = tm == account;
            return Some(if own { Fault::OwnTm } else { Fault::HigherTm });
        }
        match self.places[tm][SORT] {
            TRADING => {
                let is_left = self.places[account][LIVE] == 1 && self.places[tm][LIVE] == 0;
                is_left.then_some(Fault::TmIsRetired)
            }
            sort @ (CM | CLIENT | CP) => Some(Fault::TmOfSort(sort)),
            _ => Some(Fault::TmUnknown),
        }
    }

    fn need_faults(&self, held: usize, rule: Rule, faults: &mut Vec<Fault>) {
        let afresh = self.needs_afresh(rule);
        for (place, &need) in self.places[..held].iter().zip(&afresh) {
            let kept = u128::from(place[NEED]);
            if kept != need {
                faults.push(Fault::KeptNeed(place[SORT], place[LIVE], kept > need));
            }
        }
        if rule == Rule::Old && afresh[0] > collateral(&self.places[0], rule) {
            faults.push(Fault::NotCovered);
        }
    }

    /// "The CM's need less its collateral, or 0."
    pub fn shortfall(&self) -> u128 {
        deemed(self.needs_afresh(Rule::New)[0], &self.places[0], Rule::New)
    }

    /// What must be kept at each place: the CM's need at place 0, each TM's at
    /// its own, 0 at any other.
    pub fn needs_afresh(&self, rule: Rule) -> [u128; MOST_ACCOUNTS] {
        let held = &self.places[..self.held()];
        let mut needs = [0; MOST_ACCOUNTS];
        for (need, place) in needs.iter_mut().zip(held) {
            if place[SORT] == TRADING {
                *need = u128::from(place[MARGIN]);
            }
        }
        for place in held.iter().filter(|place| place[SORT] == CLIENT) {
            let tm = place[TM] as usize;
            if held.get(tm).map_or(false, |tm| tm[SORT] == TRADING) {
                needs[tm] += deemed(u128::from(place[MARGIN]), place, rule);
            }
        }
        let mut cm = u128::from(self.places[0][MARGIN]);
        for (place, &need) in held.iter().zip(&needs).skip(1) {
            match place[SORT] {
                TRADING => cm += deemed(need, place, rule),
                CP => cm += deemed(u128::from(place[MARGIN]), place, rule),
                _ => {}
            }
        }
        needs[0] = cm;
        needs
    }
}

/// "Cash, fixed deposits, guarantees and pledged, plus allocated government
/// securities" as the rule counts them.
fn collateral(place: &Place, rule: Rule) -> u128 {
    let in_full = [ALLOCATED, ALLOCATED + 1, ALLOCATED + 2, PLEDGED];
    let in_full: u128 = in_full.map(|word| u128::from(place[word])).iter().sum();
    in_full + u128::from(rule.counted(place[SECURITIES]))
}

fn deemed(need: u128, place: &Place, rule: Rule) -> u128 {
    need.saturating_sub(collateral(place, rule))
}

fn limit_faults(place: &Place, faults: &mut Vec<Fault>) {
    if place[LIVE] == 0 {
        let words = AMOUNTS.filter(|&word| place[word] != 0);
        faults.extend(words.map(|word| Fault::RetiredHas(place[SORT], word)));
    }
    let limited = (RECEIVED..RECEIVED + KINDS).chain([PLEDGED, MARGIN]);
    let past = limited.filter(|&word| place[word] > CEILING);
    faults.extend(past.map(Fault::PastCeiling));
    let allocated = ALLOCATED..ALLOCATED + KINDS;
    let past = allocated.filter(|&word| place[word] > place[word - KINDS]);
    faults.extend(past.map(Fault::AllocatedPast));
}
