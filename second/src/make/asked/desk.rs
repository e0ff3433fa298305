//! Positions for the currency desk: every product with every side about every
//! rounding, and every refusal with its neighbour.

use crate::listed;
use crate::make::rng::Rng;
use crate::model::calls::Call;
use crate::model::desk::{rate, Position, Side, MOST_POSITIONS, PRODUCTS, SIDES};
use crate::model::*;

listed! {
    /// Where a notional stands beside one whose charge is a whole number of paise.
    Round: Under, Exact, Over
}

listed! {
    /// What is wrong with one position, if anything.
    Wrong: Product, Option, Notional, ProductAndNotional, OptionAndNotional, Nothing
}

#[derive(Clone, Copy, PartialEq, Eq, PartialOrd, Ord, Debug)]
pub enum Case {
    /// One product with one side, among others or alone.
    Charged(u8, Side, Round),
    /// One position with this notional.
    Notional(u64),
    Many(usize),
    /// The initial margin and the positions' charges come to the ceiling and
    /// so much more.
    Sum(u64),
    Initial(u64),
    /// Two positions at fault, in this order, and an initial margin that is or
    /// isn't.
    Two(Wrong, Wrong, bool),
    /// More positions than may be, with faults among them.
    ManyWrong(Wrong),
}

pub const NOTIONALS: [u64; 5] = [0, 1, CEILING, CEILING + 1, u64::MAX];
pub const COUNTS: [usize; 6] = [0, 1, 63, 64, 65, 4_096];
pub const INITIALS: [u64; 5] = [0, 1, CEILING, CEILING + 1, u64::MAX];

impl Case {
    pub fn all() -> Vec<Case> {
        let mut all = Vec::new();
        for product in 0..PRODUCTS.len() as u8 {
            for (_, side) in SIDES {
                all.extend(Round::ALL.map(|round| Case::Charged(product, side, round)));
            }
        }
        all.extend(NOTIONALS.map(Case::Notional));
        all.extend(COUNTS.map(Case::Many));
        all.extend([0, 1, 2].map(Case::Sum));
        all.extend(INITIALS.map(Case::Initial));
        for one in Wrong::ALL {
            all.push(Case::ManyWrong(one));
            for other in Wrong::ALL {
                all.extend([true, false].map(|initial| Case::Two(one, other, initial)));
            }
        }
        all
    }

    pub fn call(self, rng: &mut Rng) -> Call {
        let (initial, positions) = self.asked(rng);
        let account = rng.pick(&[0, 1, 255, 256, 65_535]);
        Call::Margin(rng.next() as u16, account, initial, positions)
    }

    pub fn asked(self, rng: &mut Rng) -> (u64, Vec<Position>) {
        let initial = rng.below(CEILING / 2);
        match self {
            Case::Charged(product, side, round) => {
                let position = Position {
                    product,
                    side,
                    notional: about(product, side, round, rng),
                };
                (initial, among(position, rng))
            }
            Case::Notional(notional) => {
                let position = Position {
                    notional,
                    ..good(rng)
                };
                (initial, among(position, rng))
            }
            Case::Many(many) => (initial, (0..many).map(|_| good(rng)).collect()),
            Case::Sum(more) => sum(more, rng),
            Case::Initial(initial) => (initial, few(rng)),
            Case::Two(one, other, is_wrong) => {
                let past = rng.pick(&[CEILING + 1, u64::MAX]);
                let initial = if is_wrong { past } else { initial };
                (initial, two(one, other, rng))
            }
            Case::ManyWrong(wrong) => {
                let many = rng.between(65, 70);
                let mut positions: Vec<Position> = (0..many).map(|_| good(rng)).collect();
                positions[rng.below(64) as usize] = at_fault(wrong, rng);
                (initial, positions)
            }
        }
    }
}

/// A notional whose charge is whole paise, or by a paisa more or less.
fn about(product: u8, side: Side, round: Round, rng: &mut Rng) -> u64 {
    let (_, futures, short) = PRODUCTS[usize::from(product)];
    let (rate, per) = rate(futures, short, side).unwrap_or((1, 100_000));
    let step = per / common(rate.max(1), per);
    let times = rng.between(1, CEILING / step - 1);
    let exact = step * rng.pick(&[1, 2, times]);
    match round {
        Round::Under => exact - 1,
        Round::Exact => exact,
        Round::Over => exact + 1,
    }
}

fn common(one: u64, other: u64) -> u64 {
    match other {
        0 => one,
        _ => common(other, one % other),
    }
}

pub fn good(rng: &mut Rng) -> Position {
    let product = rng.below(PRODUCTS.len() as u64) as u8;
    let listed = PRODUCTS[usize::from(product)].2.is_some();
    let side = match listed {
        true => rng.pick(&SIDES).1,
        false => rng.pick(&[Side::Futures, Side::Spread]),
    };
    let drawn = rng.below(CEILING / 100);
    Position {
        product,
        side,
        notional: rng.pick(&[drawn, drawn, drawn, 0, 1, 99_999, 100_000, 100_001]),
    }
}

pub fn few(rng: &mut Rng) -> Vec<Position> {
    (0..rng.below(6)).map(|_| good(rng)).collect()
}

/// At a drawn place among some others.
fn among(position: Position, rng: &mut Rng) -> Vec<Position> {
    let mut positions = few(rng);
    let at = rng.below(positions.len() as u64 + 1) as usize;
    positions.insert(at, position);
    positions
}

pub fn at_fault(wrong: Wrong, rng: &mut Rng) -> Position {
    let mut position = good(rng);
    let past = rng.pick(&[CEILING + 1, 1 << 63, u64::MAX]);
    if let Wrong::Product | Wrong::ProductAndNotional = wrong {
        position.product = rng.pick(&[10, 11, 128, 255]);
        position.side = rng.pick(&SIDES).1;
    }
    if let Wrong::Option | Wrong::OptionAndNotional = wrong {
        position.product = rng.pick(&[8, 9]);
        position.side = rng.pick(&[Side::Short, Side::Long]);
    }
    if let Wrong::Notional | Wrong::ProductAndNotional | Wrong::OptionAndNotional = wrong {
        position.notional = past;
    }
    position
}

fn two(one: Wrong, other: Wrong, rng: &mut Rng) -> Vec<Position> {
    let mut positions = few(rng);
    positions.push(at_fault(one, rng));
    positions.extend(few(rng));
    positions.push(at_fault(other, rng));
    positions.extend(few(rng));
    positions
}

/// With few positions, or as many as may be at the highest rate.
fn sum(more: u64, rng: &mut Rng) -> (u64, Vec<Position>) {
    let mut positions = few(rng);
    if rng.one_in(2) {
        let dear = Position {
            product: 5,
            side: Side::Short,
            notional: CEILING,
        };
        positions = vec![dear; MOST_POSITIONS];
    }
    let charges = positions
        .iter()
        .filter_map(|position| position.charge().ok());
    (CEILING - charges.sum::<u64>() + more, positions)
}
