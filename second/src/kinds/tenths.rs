//! K7 by the letter: after every record each account's collateral is added up
//! with nine tenths of its securities, rounded down. Counts the records that
//! turn on the tenth by one paisa.

use super::days;
use super::seen::Step;
use crate::listed;
use crate::model::*;
use crate::tally::Tally;

listed! {
    /// What is taken out of an account that has securities allocated; several is
    /// securities and another kind in one release.
    Taken: Securities, Several, Pledged
}

listed! {
    /// On which side of the rule: a paisa less collateral than is blocked, a paisa
    /// more of need than is covered, is refused.
    Side: Exactly, APaisaOff
}

listed! {
    /// What a paisa of securities costs in collateral.
    Cost: Nothing, APaisa
}

#[derive(Clone, Copy, PartialEq, Eq, PartialOrd, Ord, Debug)]
pub enum Kind {
    /// An allocation makes it so many paise of securities.
    Holds(Sort, u64),
    /// A release or unpledge leaves what was blocked, or would leave less.
    Leaves(Sort, Taken, Side),
    /// A paisa of a client's or CP's securities with nothing free.
    NothingFree(Sort, Cost),
    /// A paisa of the securities of a member in the mode with nothing free: 17.
    KeptIn(Sort, Cost),
    /// More in face value than was free, and carried out.
    FacePastFree(Sort),
    /// A rising margin up to what the CM's collateral covers, or past it, with
    /// tenths rounded up in the account and in the CM's.
    Margin(Sort, Side),
}

const PAISE: [u64; 7] = [1, 9, 10, 11, 19, 20, 21];

impl Kind {
    /// All that a day can meet. A member with nothing free is in the mode.
    pub fn all() -> Vec<Kind> {
        let mut all = Vec::new();
        for sort in Sort::HELD {
            all.extend(PAISE.map(|paise| Kind::Holds(sort, paise)));
            for side in Side::ALL {
                all.extend(Taken::ALL.map(|taken| Kind::Leaves(sort, taken, side)));
                all.push(Kind::Margin(sort, side));
            }
            all.push(Kind::FacePastFree(sort));
            all.extend(Cost::ALL.map(|cost| match sort {
                Sort::Cm | Sort::Tm => Kind::KeptIn(sort, cost),
                _ => Kind::NothingFree(sort, cost),
            }));
        }
        all
    }
}

/// Whether the account's collateral is as the rule has it.
pub fn after(step: &Step, met: &mut Tally<days::Kind>) -> bool {
    let account = match step.place {
        Some(account) => account,
        None => return true,
    };
    if let Some(amounts) = &step.amounts {
        let kinds = kinds(step, account, amounts);
        met.count_all(kinds.into_iter().map(days::Kind::Tenth));
    }
    step.after.collateral(account) == by_the_letter(&step.after.rows[account])
}

fn kinds(step: &Step, account: usize, amounts: &[u64; 6]) -> Vec<Kind> {
    let row = &step.after.rows[account];
    match (step.answer.code, step.answer.refusal()) {
        (ALLOCATE, 0) if amounts[SECURITIES] > 0 => {
            let held = PAISE.into_iter();
            let held = held.filter(|&paise| paise == row.allocated[SECURITIES]);
            held.map(|paise| Kind::Holds(row.sort, paise)).collect()
        }
        (RELEASE | UNPLEDGE, 0 | 12 | 17) => taking(step, account, amounts),
        (SET_MARGIN, 0 | 13) if amounts[MARGIN] > step.before.rows[account].margin => {
            margin(step, account, amounts[MARGIN]).into_iter().collect()
        }
        _ => Vec::new(),
    }
}

fn by_the_letter(row: &Row) -> u64 {
    let [cash, deposits, guarantees, securities] = row.allocated;
    cash + deposits + guarantees + row.pledged + 9 * securities / 10
}

/// The row with these amounts taken out, or put back.
fn moved(row: &Row, amounts: &[u64; 6], by: fn(u64, u64) -> u64) -> Row {
    let mut moved = *row;
    (0..KINDS).for_each(|kind| moved.allocated[kind] = by(row.allocated[kind], amounts[kind]));
    moved.pledged = by(row.pledged, amounts[PLEDGED]);
    moved
}

/// A refusal leaves the row; an account's own collateral is no part of its
/// need.
fn taking(step: &Step, account: usize, amounts: &[u64; 6]) -> Vec<Kind> {
    let (row, is_done) = (step.after.rows[account], step.is_done());
    let (before, left) = match is_done {
        true => (moved(&row, amounts, |now, gone| now + gone), row),
        false => (row, moved(&row, amounts, |now, gone| now - gone)),
    };
    let (collateral, left) = (by_the_letter(&before), by_the_letter(&left));
    let blocked = step.after.need(account).min(collateral);
    let is_paisa = *amounts == [0, 0, 0, 1, 0, 0] && blocked > 0 && collateral == blocked;
    let cost = Cost::ALL[usize::from(left < collateral)];
    let mut kinds = Vec::new();
    match row.sort {
        Sort::Cm | Sort::Tm if is_paisa && step.answer.refusal() == 17 => {
            kinds.push(Kind::KeptIn(row.sort, cost));
        }
        Sort::Client | Sort::Cp if is_paisa => kinds.push(Kind::NothingFree(row.sort, cost)),
        _ => {}
    }
    if is_done && amounts.iter().sum::<u64>() > collateral - blocked {
        kinds.push(Kind::FacePastFree(row.sort));
    }
    // Where something was free and something blocked.
    let side = match left {
        _ if blocked < 2 || collateral == blocked => None,
        _ if left == blocked => Some(Side::Exactly),
        _ if left + 1 == blocked => Some(Side::APaisaOff),
        _ => None,
    };
    let both = taken(amounts, &before).zip(side);
    kinds.extend(both.map(|(taken, side)| Kind::Leaves(row.sort, taken, side)));
    kinds
}

fn taken(amounts: &[u64; 6], before: &Row) -> Option<Taken> {
    let others = amounts[..SECURITIES].iter().any(|&amount| amount > 0);
    match (amounts[SECURITIES] > 0, others) {
        (true, true) => Some(Taken::Several),
        (true, false) => Some(Taken::Securities),
        (false, false) if before.allocated[SECURITIES] > 0 => Some(Taken::Pledged),
        _ => None,
    }
}

fn margin(step: &Step, account: usize, margin: u64) -> Option<Kind> {
    let book = step.after;
    let is_rounded = |account: usize| book.rows[account].allocated[SECURITIES] % 10 != 0;
    let (need, covered) = (book.cm_need_with(account, margin), book.collateral(0));
    let side = match step.answer.refusal() {
        0 if need == covered => Side::Exactly,
        13 if need == covered + 1 => Side::APaisaOff,
        _ => return None,
    };
    let is_told = is_rounded(account) && is_rounded(0);
    is_told.then_some(Kind::Margin(book.rows[account].sort, side))
}
