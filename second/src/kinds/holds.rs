//! K5 and K7's 12 by the letter: the answer to every release and unpledge of one day,
//! worked out from the book before it, is held against the one given. Counts the
//! takings out that K5 turns on, all that its days aim at.

use super::days;
use super::seen::Step;
use crate::listed;
use crate::model::*;
use crate::tally::Tally;
use Mode::{Off, On};

listed! { Way: Release = "release", Unpledge = "unpledge" }

listed! {
    /// How much, where free is less than what is there, allocated or pledged.
    Amount: One = "1", Free = "free", FreeAndOne = "free + 1", There = "all",
    ThereAndOne = "all + 1"
}

listed! {
    /// Where a use stands: at nine collaterals, at eight and a half, or by the
    /// tenths of one paisa of margin over or under. From a paisa under nine a paisa
    /// taken out leads to a tenth under it.
    Spot: OverNine = "a paisa over 9", Nine = "at 9", TenthUnderNine = "a tenth under 9",
    UnderNine = "a paisa under 9", OverLower = "a paisa over 8.5", Lower = "at 8.5",
    UnderLower = "a paisa under 8.5"
}

listed! {
    /// What turned a member's mode: a record of its own, or of one under it.
    Turner: Allocated = "allocation", Pledged = "pledge", Released = "release",
    Unpledged = "unpledging", Margin = "margin", PutInUnder = "deposit under it",
    TakenOutUnder = "taking out under it", MarginUnder = "margin under it"
}

/// The sort is that of the account that takes out. The mode is its own where
/// it is a TM or the CM; for a client it is its TM's, for a CP the CM's.
#[derive(Clone, Copy, PartialEq, Eq, PartialOrd, Ord, Debug)]
pub enum Kind {
    Asked(Sort, Way, Mode, Amount),
    /// Within what is free, while the CM's mode is the other one than the
    /// TM's; or, where the mode is the CM's, while a TM is on and it is off,
    /// or while it alone is on.
    Beside(Sort, Way, Mode),
    /// Within what is free, with the member's use just there.
    At(Sort, Way, Mode, Spot),
    /// Within what is free, in the record after the one that turned the mode.
    After(Sort, Way, Mode, Turner),
    /// By a member that is on: all that isn't allocated, or a paisa more.
    HandedBack(Sort, Amount),
}

const SPOTS: [(Mode, Spot); 9] = [
    (On, Spot::OverNine),
    (On, Spot::Nine),
    (Off, Spot::TenthUnderNine),
    (On, Spot::UnderNine),
    (Off, Spot::UnderNine),
    (On, Spot::OverLower),
    (On, Spot::Lower),
    (Off, Spot::Lower),
    (Off, Spot::UnderLower),
];

const TURNS: [(Mode, Turner); 10] = [
    (Off, Turner::Allocated),
    (Off, Turner::Pledged),
    (Off, Turner::Margin),
    (Off, Turner::PutInUnder),
    (Off, Turner::MarginUnder),
    (On, Turner::Released),
    (On, Turner::Unpledged),
    (On, Turner::Margin),
    (On, Turner::TakenOutUnder),
    (On, Turner::MarginUnder),
];

impl Kind {
    pub fn all() -> Vec<Kind> {
        Sort::HELD.into_iter().flat_map(Kind::of).collect()
    }

    /// Those of one sort of account.
    pub fn of(sort: Sort) -> Vec<Kind> {
        let mut all = Vec::new();
        for way in Way::ALL {
            for mode in [On, Off] {
                all.extend(Amount::ALL.map(|amount| Kind::Asked(sort, way, mode, amount)));
                all.push(Kind::Beside(sort, way, mode));
            }
            if matches!(sort, Sort::Cm | Sort::Tm) {
                all.extend(SPOTS.map(|(mode, spot)| Kind::At(sort, way, mode, spot)));
                all.extend(TURNS.map(|(mode, turner)| Kind::After(sort, way, mode, turner)));
            }
        }
        if matches!(sort, Sort::Cm | Sort::Tm) {
            all.extend([Amount::There, Amount::ThereAndOne].map(|all| Kind::HandedBack(sort, all)));
        }
        all
    }

    fn is_aimed_at(&self) -> bool {
        match *self {
            Kind::Asked(..) | Kind::Beside(..) | Kind::HandedBack(..) => true,
            Kind::At(_, _, mode, spot) => SPOTS.contains(&(mode, spot)),
            Kind::After(_, _, mode, turner) => TURNS.contains(&(mode, turner)),
        }
    }

    pub fn sort(&self) -> Sort {
        match *self {
            Kind::Asked(sort, ..) | Kind::Beside(sort, ..) | Kind::At(sort, ..) => sort,
            Kind::After(sort, ..) | Kind::HandedBack(sort, _) => sort,
        }
    }

    pub fn words(&self) -> String {
        let (way, mode, what) = match *self {
            Kind::Asked(_, way, mode, amount) => {
                return format!("{} {} {}", mode.word(), way.words(), amount.words());
            }
            Kind::HandedBack(_, amount) => return format!("on hand back {}", amount.words()),
            Kind::Beside(_, way, mode) => (way, mode, "alone".to_string()),
            Kind::At(_, way, mode, spot) => (way, mode, spot.words().to_string()),
            Kind::After(_, way, mode, turner) => (way, mode, format!("by {}", turner.words())),
        };
        format!("{} {what} {}", mode.word(), way.words())
    }
}

impl Amount {
    /// None where two of them would be the same.
    fn of(amount: u64, free: u64, there: u64) -> Option<Amount> {
        let apart = 1 < free && free + 1 < there;
        let amounts = [1, free, free + 1, there, there + 1];
        let place = amounts.iter().position(|&known| known == amount);
        place.filter(|_| apart).map(|place| Amount::ALL[place])
    }
}

impl Spot {
    /// From fifty paise of collateral on they are different uses.
    fn of(used: u64, collateral: u64) -> Option<Spot> {
        // In halves of a tenth; a paisa has twenty.
        let (used, nine, lower) = (2 * used, 18 * collateral, 17 * collateral);
        let is = [
            used == nine + 20,
            used == nine,
            used + 2 == nine,
            used + 20 == nine,
            used == lower + 20,
            used == lower,
            used + 20 == lower,
        ];
        let place = is.iter().position(|&is| is);
        place
            .filter(|_| collateral >= 50)
            .map(|place| Spot::ALL[place])
    }
}

/// Amounts that a record would take from an account, one of each kind and the
/// pledged, and what is there of each.
struct Taking {
    account: usize,
    way: Way,
    amounts: [u64; 5],
    there: [u64; 5],
}

impl Taking {
    fn of(step: &Step, amounts: &[u64; 6]) -> Option<Taking> {
        let way = match step.answer.code {
            RELEASE => Way::Release,
            UNPLEDGE => Way::Unpledge,
            _ => return None,
        };
        let account = step.before.place_of(step.answer.account)?;
        let row = &step.before.rows[account];
        let [cash, deposits, guarantees, securities] = row.allocated;
        Some(Taking {
            account,
            way,
            amounts: [amounts[0], amounts[1], amounts[2], amounts[3], amounts[4]],
            there: [cash, deposits, guarantees, securities, row.pledged],
        })
    }

    fn is_there(&self) -> bool {
        let mut each = self.amounts.iter().zip(&self.there);
        each.all(|(amount, there)| amount <= there)
    }

    /// What is there of the one that is named, if it is one and counts in full.
    fn only_there(&self) -> Option<u64> {
        let mut named = (0..5).filter(|&place| self.amounts[place] != 0);
        let first = named.next().filter(|&place| place != SECURITIES)?;
        named.next().is_none().then_some(self.there[first])
    }

    /// The collateral that would be left of what is there.
    fn left(&self) -> u64 {
        let each = self.there.iter().zip(&self.amounts);
        let face: u64 = each.map(|(there, amount)| there - amount).sum();
        let securities = self.there[SECURITIES] - self.amounts[SECURITIES];
        face - securities + Rule::New.counted(securities)
    }
}

/// Whether the answer is the one of the rules; 17 is for nothing else.
pub fn after(step: &Step, turned: &[(usize, Turner)], met: &mut Tally<days::Kind>) -> bool {
    let refusal = step.answer.refusal();
    let amounts = match step.good_amounts() {
        Some(amounts) => amounts,
        None => return refusal != Refusal::KeptIn as u8,
    };
    let taking = Taking::of(step, &amounts);
    let kinds = match &taking {
        Some(taking) => kinds(step, taking, turned),
        None => hand_back(step, &amounts).into_iter().collect(),
    };
    let aimed = kinds.into_iter().filter(Kind::is_aimed_at);
    met.count_all(aimed.map(days::Kind::Hold));
    match taking {
        Some(taking) => refusal == by_the_letter(step, &taking),
        None => refusal != Refusal::KeptIn as u8,
    }
}

/// 11, 17 and 12 in their order, or 0.
fn by_the_letter(step: &Step, taking: &Taking) -> u8 {
    let is_member = step.before.is_member(taking.account);
    if !taking.is_there() {
        11
    } else if is_member && step.before.modes[taking.account] == On {
        17
    } else if taking.left() < step.was[taking.account].blocked {
        12
    } else {
        0
    }
}

fn kinds(step: &Step, taking: &Taking, turned: &[(usize, Turner)]) -> Vec<Kind> {
    let (before, account, way) = (step.before, taking.account, taking.way);
    let sort = before.rows[account].sort;
    // The TM or the CM whose mode is told beside the account.
    let member = match before.is_member(account) {
        true => account,
        false => before.answers_for(account),
    };
    let mode = before.modes[member];
    let Standing { blocked, free, .. } = step.was[account];
    let sum = taking.amounts.iter().sum();
    let amount = taking
        .only_there()
        .and_then(|there| Amount::of(sum, free, there));
    let mut kinds: Vec<Kind> = Vec::new();
    kinds.extend(amount.map(|amount| Kind::Asked(sort, way, mode, amount)));
    if taking.is_there() && taking.left() >= blocked {
        // The CM's beside a TM's; beside the CM's, on if any TM's is.
        let others = match member {
            0 if before.modes[1..].contains(&On) => On,
            0 => Off,
            _ => before.modes[0],
        };
        kinds.extend((others != mode).then_some(Kind::Beside(sort, way, mode)));
        if member == account {
            let spot = Spot::of(before.uses()[member], before.collateral(member));
            kinds.extend(spot.map(|spot| Kind::At(sort, way, mode, spot)));
            let turner = turned.iter().find(|turned| turned.0 == member);
            kinds.extend(turner.map(|&(_, turner)| Kind::After(sort, way, mode, turner)));
        }
    }
    kinds
}

fn hand_back(step: &Step, amounts: &[u64; 6]) -> Option<Kind> {
    let account = step.before.place_of(step.answer.account)?;
    let row = &step.before.rows[account];
    let named: Vec<usize> = (0..4).filter(|&kind| amounts[kind] != 0).collect();
    match (
        step.answer.code,
        named.as_slice(),
        step.before.modes[account],
    ) {
        (HAND_BACK, &[kind], On) => {
            let left = row.received[kind] - row.allocated[kind];
            let amount = match amounts[kind] {
                amount if amount == left => Amount::There,
                amount if amount == left + 1 => Amount::ThereAndOne,
                _ => return None,
            };
            Some(Kind::HandedBack(row.sort, amount))
        }
        _ => None,
    }
}

/// The modes that a record turned, and what that was.
pub fn turned(step: &Step) -> Vec<(usize, Turner)> {
    let is_turned = |&member: &usize| step.before.modes[member] != step.after.modes[member];
    let turner = |member: usize| match (step.answer.code, Some(member) == step.place) {
        (ALLOCATE, true) => Some(Turner::Allocated),
        (PLEDGE, true) => Some(Turner::Pledged),
        (RELEASE, true) => Some(Turner::Released),
        (UNPLEDGE, true) => Some(Turner::Unpledged),
        (SET_MARGIN, true) => Some(Turner::Margin),
        (ALLOCATE | PLEDGE, false) => Some(Turner::PutInUnder),
        (RELEASE | UNPLEDGE, false) => Some(Turner::TakenOutUnder),
        (SET_MARGIN, false) => Some(Turner::MarginUnder),
        _ => None,
    };
    let turned = (0..step.before.count).filter(is_turned);
    turned
        .filter_map(|member| Some((member, turner(member)?)))
        .collect()
}
