//! K9 of document 02: the extreme loss margin of the currency desk, "a product
//! on top of the book". It knows no book and makes a record of code 10.

pub mod figures;
pub mod lines;

use crate::model::*;

/// "Rates per 100,000 of notional, futures then short options"; None where
/// options are not listed.
pub const PRODUCTS: [(&str, u64, Option<u64>); 10] = [
    ("EURINR", 150, Some(750)),
    ("EURUSD", 500, Some(500)),
    ("GBPINR", 250, Some(750)),
    ("GBPUSD", 500, Some(500)),
    ("JPYINR", 350, Some(750)),
    ("USDINR", 500, Some(750)),
    ("USDJPY", 500, Some(500)),
    ("INTEREST", 250, Some(250)),
    ("TBILL91", 15, None),
    ("ONMIBOR", 500, None),
];

/// "It adds up to 64 positions of a client."
pub const MOST_POSITIONS: usize = 64;

#[derive(Clone, Copy, PartialEq, Eq, PartialOrd, Ord, Debug)]
pub enum Side {
    Futures,
    Short,
    Long,
    /// Its notional is the far month's value.
    Spread,
}

pub const SIDES: [(&str, Side); 4] = [
    ("futures", Side::Futures),
    ("short", Side::Short),
    ("long", Side::Long),
    ("spread", Side::Spread),
];

#[derive(Clone, Copy, PartialEq, Eq, Debug)]
pub struct Position {
    pub product: u8,
    pub side: Side,
    pub notional: u64,
}

/// The rate of a side and what it is per; None where it isn't listed. "Long
/// options carry none. A futures calendar spread is charged on a third."
pub fn rate(futures: u64, short: Option<u64>, side: Side) -> Option<(u64, u64)> {
    match side {
        Side::Futures => Some((futures, 100_000)),
        Side::Short => short.map(|rate| (rate, 100_000)),
        Side::Long => short.map(|_| (0, 100_000)),
        Side::Spread => Some((futures, 300_000)),
    }
}

impl Position {
    /// "Round up to a paisa once per position." 18, 19, 20 in that order.
    pub fn charge(&self) -> Result<u64, Refusal> {
        let product = PRODUCTS.get(usize::from(self.product));
        let &(_, futures, short) = product.ok_or(Refusal::UnknownProduct)?;
        let (rate, per) = rate(futures, short, self.side).ok_or(Refusal::NotListed)?;
        if self.notional > CEILING {
            return Err(Refusal::PastLimit);
        }
        Ok(rounded_up(self.notional * rate, per))
    }
}

/// The extreme loss and the initial margin together, and 21.
pub fn margin(initial: u64, positions: &[Position]) -> Result<u64, Refusal> {
    figures::margin_with(initial, positions, &[])
}

/// 15; 18 to 20 "by first position at fault, the initial margin after them".
fn charges(initial: u64, positions: &[Position]) -> Result<u64, Refusal> {
    if positions.len() > MOST_POSITIONS {
        return Err(Refusal::WrongLength);
    }
    let mut sum = 0;
    for position in positions {
        sum += position.charge()?;
    }
    if initial > CEILING {
        return Err(Refusal::PastLimit);
    }
    Ok(sum + initial)
}

/// "And makes the code 10 record."
pub fn record(serial: u16, account: u16, margin: u64) -> Values {
    let mut amounts = [0; 6];
    amounts[MARGIN] = margin;
    Values {
        serial,
        code: SET_MARGIN,
        mark: 1 << MARGIN,
        account,
        amounts,
    }
}
