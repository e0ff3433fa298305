//! The currency desk: a client's margin from its positions and figures.

use crate::ffi::{self, Positions};
use crate::{Refusal, RECORD};

/// The side of a position.
#[derive(Clone, Copy, PartialEq, Eq, Hash, Debug)]
#[repr(u8)]
pub enum Side {
    /// Futures.
    Futures,
    /// A short option.
    Short,
    /// A long option.
    Long,
    /// A futures calendar spread.
    Spread,
}

/// A position of a client.
#[derive(Clone, Copy, PartialEq, Eq, Hash, Debug)]
pub struct Position {
    /// One of [`product`](crate::product).
    pub product: u8,
    /// Its side.
    pub side: Side,
    /// Its notional; of a spread the far month's value.
    pub notional: u64,
}

/// A client's crystallised obligations.
#[derive(Clone, Copy, PartialEq, Eq, Hash, Debug)]
pub enum Figures {
    /// None are added.
    None,
    /// During the day.
    Intraday {
        /// Premium payable less receivable.
        premium: i64,
        /// Crystallised loss less profit.
        loss: i64,
    },
    /// At the end of the day.
    EndOfDay {
        /// Premium payable less receivable.
        premium: i64,
        /// Crystallised loss less profit.
        loss: i64,
        /// Exercise.
        exercise: i64,
        /// Final settlement.
        settlement: i64,
    },
}

impl Figures {
    fn numbers(self) -> Vec<i64> {
        match self {
            Figures::None => Vec::new(),
            Figures::Intraday { premium, loss } => vec![premium, loss],
            Figures::EndOfDay {
                premium,
                loss,
                exercise,
                settlement,
            } => vec![premium, loss, exercise, settlement],
        }
    }
}

/// The record that sets an account's margin, as a day file has it: the initial
/// margin, the extreme loss margin of at most 64 positions, and what the figures
/// come to. Refuses with 15 (over 64 positions) and 18 to 22.
///
/// ```
/// use loft::{margin, product, read_record, Figures, Position, Read, Record, Refusal, Side};
///
/// let dollars = Position {
///     product: product::USDINR,
///     side: Side::Futures,
///     notional: 10_000_001,
/// };
/// let figures = Figures::Intraday { premium: 50, loss: 30 };
/// let bytes = margin(4, 2, 60_000, &[dollars], figures)?;
/// let record = Record::set_margin(4, 2, 60_000 + 50_001 + 80);
/// assert_eq!(read_record(&bytes, 0), Read::Good(record, 14));
/// # Ok::<(), Refusal>(())
/// ```
pub fn margin(
    serial: u16,
    account: u16,
    initial: u64,
    positions: &[Position],
    figures: Figures,
) -> Result<[u8; RECORD], Refusal> {
    let products: Vec<u8> = positions.iter().map(|position| position.product).collect();
    let sides: Vec<u8> = positions
        .iter()
        .map(|position| position.side as u8)
        .collect();
    let notionals: Vec<u64> = positions.iter().map(|position| position.notional).collect();
    let positions = Positions {
        products: &products,
        sides: &sides,
        notionals: &notionals,
    };
    let mut record = [0; RECORD];
    let figures = figures.numbers();
    let refusal = ffi::margin(serial, account, initial, &positions, &figures, &mut record);
    Refusal::of(refusal).map(|()| record)
}
