//! K8 by the letter: "neither can be refused for want of cover", and nothing
//! but codes 12 and 13 raises the shortfall. Counts the records that bring one,
//! change it or meet it.

use super::days;
use super::seen::Step;
use crate::listed;
use crate::model::*;
use crate::tally::Tally;

listed! {
    /// Code 12 or code 13.
    By: Value, Revision
}

listed! {
    /// What becomes of the CM's cover by one of the two.
    Turn:
    /// Just covered, where something was free.
    Level,
    /// Short by a paisa, or by more, where there was no shortfall.
    APaisa, More,
    /// Short still, by more than before or by less.
    Deeper, Eased
}

listed! { Cure: Value, Revision, Margin, Allocated, Pledged }

listed! {
    /// What is asked for under a shortfall, and answered as it should be.
    Asked:
    /// 13, where the CM's need would move, and where it would not.
    MarginUp, MarginUpOwn,
    MarginSame, MarginDown, ReleaseFree, ReleaseMore,
    /// A paisa of securities that costs nothing, with nothing free.
    ReleaseNothing,
    ReleaseKept, UnpledgeFree, UnpledgeMore, UnpledgeKept
}

listed! {
    /// The amounts of codes 12 and 13 at their edges.
    Edge: Nothing, AtCeiling, PastCeiling, WrongMark, NotLive
}

#[derive(Clone, Copy, PartialEq, Eq, PartialOrd, Ord, Debug)]
pub enum Kind {
    Turned(Sort, By, Turn),
    Cured(Sort, Cure),
    Under(Sort, Asked),
    Opened,
    Retired,
    At(By, Edge),
    CodeFourteen,
}

/// Under a shortfall the CM has nothing free and is in the mode.
fn can_be_asked(sort: Sort, asked: Asked) -> bool {
    match asked {
        Asked::MarginUp | Asked::MarginSame | Asked::MarginDown => true,
        Asked::ReleaseKept | Asked::UnpledgeKept => matches!(sort, Sort::Cm | Sort::Tm),
        Asked::ReleaseNothing => matches!(sort, Sort::Client | Sort::Cp),
        _ => sort != Sort::Cm,
    }
}

impl Kind {
    pub fn all() -> Vec<Kind> {
        let mut all = vec![Kind::Opened, Kind::Retired, Kind::CodeFourteen];
        for by in By::ALL {
            all.extend(Edge::ALL.map(|edge| Kind::At(by, edge)));
        }
        for sort in Sort::HELD {
            for by in By::ALL {
                all.extend(Turn::ALL.map(|turn| Kind::Turned(sort, by, turn)));
            }
            all.extend(Cure::ALL.map(|cure| Kind::Cured(sort, cure)));
            let asked = Asked::ALL
                .into_iter()
                .filter(|&asked| can_be_asked(sort, asked));
            all.extend(asked.map(|asked| Kind::Under(sort, asked)));
        }
        all
    }
}

fn by(code: u8) -> Option<By> {
    match code {
        REVALUE => Some(By::Value),
        REVISE => Some(By::Revision),
        _ => None,
    }
}

/// Whether the shortfall rose by codes 12 and 13 alone, and neither got a
/// refusal past 7.
pub fn after(step: &Step, met: &mut Tally<days::Kind>) -> bool {
    met.count_all(kinds(step).into_iter().map(days::Kind::Short));
    match by(step.answer.code) {
        Some(_) => step.answer.refusal() <= 7,
        None => step.after.deemed(0) <= step.before.deemed(0),
    }
}

fn kinds(step: &Step) -> Vec<Kind> {
    let (code, refusal) = (step.answer.code, step.answer.refusal());
    let mut kinds: Vec<Kind> = edge(step).into_iter().collect();
    if code == LAST_CODE + 1 && refusal == 4 {
        kinds.push(Kind::CodeFourteen);
    }
    if let (Some(amounts), Some(account)) = (&step.amounts, step.place) {
        if refusal == 0 {
            kinds.extend(turned(step, step.after.rows[account].sort));
        }
        if step.before.deemed(0) > 0 {
            kinds.extend(under(step, account, amounts));
        }
    }
    kinds
}

fn turned(step: &Step, sort: Sort) -> Option<Kind> {
    let (was, now) = (step.before.deemed(0), step.after.deemed(0));
    if was > 0 && now == 0 {
        let cure = match step.answer.code {
            REVALUE => Cure::Value,
            REVISE => Cure::Revision,
            SET_MARGIN => Cure::Margin,
            ALLOCATE => Cure::Allocated,
            PLEDGE => Cure::Pledged,
            _ => return None,
        };
        return Some(Kind::Cured(sort, cure));
    }
    let by = by(step.answer.code)?;
    let turn = match (was, now) {
        (0, 0) if step.before.free(0) > 0 && step.after.free(0) == 0 => Turn::Level,
        (0, 0) => return None,
        (0, 1) => Turn::APaisa,
        (0, _) => Turn::More,
        _ if now > was => Turn::Deeper,
        _ if now < was => Turn::Eased,
        _ => return None,
    };
    Some(Kind::Turned(sort, by, turn))
}

fn under(step: &Step, account: usize, amounts: &[u64; 6]) -> Option<Kind> {
    let (book, margin) = (step.after, amounts[MARGIN]);
    let asked = match (step.answer.code, step.answer.refusal()) {
        (OPEN_TM | OPEN_CLIENT | OPEN_CP, 0) => return Some(Kind::Opened),
        (RETIRE, 0) => return Some(Kind::Retired),
        (SET_MARGIN, 13) if book.cm_need_with(account, margin) > book.need(0) => Asked::MarginUp,
        (SET_MARGIN, 13) => Asked::MarginUpOwn,
        (SET_MARGIN, 0) if margin < step.before.rows[account].margin => Asked::MarginDown,
        (SET_MARGIN, 0) if margin > 0 => Asked::MarginSame,
        (RELEASE, 12) => Asked::ReleaseMore,
        (RELEASE, 17) => Asked::ReleaseKept,
        (RELEASE, 0) => release(&book.rows[account], amounts, book.need(account))?,
        (UNPLEDGE, 0) => Asked::UnpledgeFree,
        (UNPLEDGE, 12) => Asked::UnpledgeMore,
        (UNPLEDGE, 17) => Asked::UnpledgeKept,
        _ => return None,
    };
    Some(Kind::Under(book.rows[account].sort, asked))
}

fn release(row: &Row, amounts: &[u64; 6], need: u64) -> Option<Asked> {
    let mut before = *row;
    (0..KINDS).for_each(|kind| before.allocated[kind] += amounts[kind]);
    let is_paisa = *amounts == [0, 0, 0, 1, 0, 0];
    match before.collateral() > need {
        true => Some(Asked::ReleaseFree),
        false if is_paisa && row.allocated[SECURITIES] > 0 => Some(Asked::ReleaseNothing),
        false => None,
    }
}

fn edge(step: &Step) -> Option<Kind> {
    let by = by(step.answer.code)?;
    let amount = numbers(step.record.amounts).next();
    let edge = match (step.answer.refusal(), amount) {
        (0, Some(0)) => Edge::Nothing,
        (0, Some(CEILING)) => Edge::AtCeiling,
        (6, Some(amount)) if amount == CEILING + 1 => Edge::PastCeiling,
        (5, _) => Edge::WrongMark,
        (7, _) => Edge::NotLive,
        _ => return None,
    };
    Some(Kind::At(by, edge))
}
