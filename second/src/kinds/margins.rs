//! K6 of document 02: 13 is for "a rising margin" alone. After every margin of
//! one day the line is held against the answer given, and where there was no
//! shortfall also as document 01 first had it, for any new margin. Counts the
//! margins set at full use.

use super::days::Kind;
use super::seen::Step;
use crate::listed;
use crate::model::*;
use crate::tally::Tally;

listed! {
    /// A margin while the CM has nothing free. Equal and falling ones are of more
    /// than nothing; a paisa more is refused with 13.
    Change: Equal = "equal", Fallen = "falling", OneMore = "a paisa more"
}

/// Whether 13 is given to rising margins alone, and by its old line too.
pub fn after(step: &Step, met: &mut Tally<Kind>) -> bool {
    let refusal = step.answer.refusal();
    let is_judged = matches!(refusal, 0 | 13) && step.answer.code == SET_MARGIN;
    match (step.amounts, step.place) {
        (Some(amounts), place) if is_judged => {
            place.map_or(false, |account| fits(step, account, amounts[MARGIN], met))
        }
        _ => refusal != Refusal::MarginUncovered as u8,
    }
}

fn fits(step: &Step, account: usize, margin: u64, met: &mut Tally<Kind>) -> bool {
    let (before, is_refused) = (step.before.rows[account].margin, !step.is_done());
    let change = match is_refused {
        true if margin == before + 1 => Some(Change::OneMore),
        false if 0 < margin && margin == before => Some(Change::Equal),
        false if margin < before => Some(Change::Fallen),
        _ => None,
    };
    let cm = step.was[0];
    let is_full = cm.collateral > 0 && cm.free == 0 && cm.shortfall == 0;
    let sort = step.after.rows[account].sort;
    let change = change.filter(|_| is_full);
    met.count_all(change.map(|change| Kind::Margin(sort, change)));
    let passes = passes_cover(step.after, account, margin);
    is_refused == (margin > before && passes) && (cm.shortfall > 0 || is_refused == passes)
}

/// "After the new margin the CM's need would pass its collateral", with all
/// needs worked out afresh. It is the same before the record and after it.
fn passes_cover(book: &Book, account: usize, margin: u64) -> bool {
    let mut with = book.clone();
    with.rows[account].margin = margin;
    with.standings()[0].shortfall > 0
}
