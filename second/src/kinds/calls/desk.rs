//! What made-up calls of the currency desk have met, by their arguments.

use crate::make::asked::desk::{Case, Round, Wrong, COUNTS, INITIALS, NOTIONALS};
use crate::model::desk::{rate, Position, PRODUCTS};
use crate::model::*;

pub fn cases(initial: u64, positions: &[Position]) -> Vec<Case> {
    let mut cases: Vec<Case> = positions.iter().flat_map(about).collect();
    let notionals = positions.iter().map(|position| position.notional);
    let edges = notionals.filter(|notional| NOTIONALS.contains(notional));
    cases.extend(edges.map(Case::Notional));
    let many = positions.len();
    cases.extend(COUNTS.contains(&many).then_some(Case::Many(many)));
    cases.extend(
        INITIALS
            .contains(&initial)
            .then_some(Case::Initial(initial)),
    );
    let wrongs: Vec<Wrong> = positions.iter().map(wrong).collect();
    if many > 64 {
        let first = wrongs.into_iter().find(|&wrong| wrong != Wrong::Nothing);
        cases.push(Case::ManyWrong(first.unwrap_or(Wrong::Nothing)));
        return cases;
    }
    cases.extend(two(&wrongs, initial > CEILING));
    let charges = positions.iter().map(|position| position.charge().ok());
    if let Some(charges) = charges.sum::<Option<u64>>() {
        let more = charges.saturating_add(initial).checked_sub(CEILING);
        cases.extend(more.filter(|&more| more < 3).map(Case::Sum));
    }
    cases
}

/// The first two at fault; where there is one, with a good one behind it or
/// ahead of it.
fn two(wrongs: &[Wrong], is_wrong: bool) -> Vec<Case> {
    let is_fault = |&place: &usize| wrongs[place] != Wrong::Nothing;
    let faults: Vec<usize> = (0..wrongs.len()).filter(is_fault).collect();
    let mut pairs = Vec::new();
    match *faults.as_slice() {
        [] if wrongs.len() > 1 => pairs.push((Wrong::Nothing, Wrong::Nothing)),
        [] => {}
        [one] => {
            if one + 1 < wrongs.len() {
                pairs.push((wrongs[one], Wrong::Nothing));
            }
            if one > 0 {
                pairs.push((Wrong::Nothing, wrongs[one]));
            }
        }
        [one, other, ..] => pairs.push((wrongs[one], wrongs[other])),
    }
    let case = |(one, other)| Case::Two(one, other, is_wrong);
    pairs.into_iter().map(case).collect()
}

pub fn wrong(position: &Position) -> Wrong {
    let is_past = position.notional > CEILING;
    let product = PRODUCTS.get(usize::from(position.product));
    let listed = product.map(|&(_, futures, short)| rate(futures, short, position.side).is_some());
    match (listed, is_past) {
        (None, false) => Wrong::Product,
        (None, true) => Wrong::ProductAndNotional,
        (Some(false), false) => Wrong::Option,
        (Some(false), true) => Wrong::OptionAndNotional,
        (Some(true), true) => Wrong::Notional,
        (Some(true), false) => Wrong::Nothing,
    }
}

/// Where a rate of 0 is charged, or none, every notional stands at each place.
fn about(position: &Position) -> Vec<Case> {
    let Position {
        product,
        side,
        notional,
    } = *position;
    let (futures, short) = match PRODUCTS.get(usize::from(product)) {
        Some(&(_, futures, short)) => (futures, short),
        None => return Vec::new(),
    };
    let (rate, per) = rate(futures, short, side).unwrap_or((0, 1));
    let is_whole = |notional: u64| u128::from(notional) * u128::from(rate) % u128::from(per) == 0;
    let mut rounds = Vec::new();
    if is_whole(notional.saturating_add(1)) {
        rounds.push(Round::Under);
    }
    if is_whole(notional) && notional > 0 {
        rounds.push(Round::Exact);
    }
    if notional > 1 && is_whole(notional - 1) {
        rounds.push(Round::Over);
    }
    rounds
        .into_iter()
        .map(|round| Case::Charged(product, side, round))
        .collect()
}
