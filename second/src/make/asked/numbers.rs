//! Numbers of books that had archivings: gaps where rows were, and how many
//! numbers are left to give.

use crate::listed;
use crate::make::rng::Rng;
use crate::model::table::NUMBER;
use crate::model::*;

listed! {
    Gaps:
    /// No number is missing.
    Nowhere,
    /// Behind the CM's.
    Start,
    /// Between two others.
    Middle,
    /// Behind the last row's.
    End, Everywhere,
    /// The next number is 65,535.
    OneLeft,
    /// Every number is given, the last one to a row that is gone.
    NoneLeft,
    /// The last row has 65,535.
    LastHeld
}

/// Any of them, half of the time none.
pub fn renumber_anyhow(table: &mut Table, rng: &mut Rng) {
    let gaps = rng.pick(&Gaps::ALL);
    let gaps = if rng.one_in(2) { Gaps::Nowhere } else { gaps };
    renumber(table, gaps, rng);
}

/// Gives all rows held, and the next, other numbers in the same order.
pub fn renumber(table: &mut Table, gaps: Gaps, rng: &mut Rng) {
    table.number_by_places();
    let held = table.held();
    let middle = rng.between(2, held.max(3) as u64 - 1) as usize;
    let mut number = 0;
    for place in 1..held {
        let is_gap = match gaps {
            Gaps::Start => place == 1,
            Gaps::Middle => place == middle,
            Gaps::Everywhere => rng.one_in(2),
            Gaps::OneLeft | Gaps::NoneLeft => rng.one_in(4),
            _ => false,
        };
        number += 1 + if is_gap { gap(rng) } else { 0 };
        table.places[place][NUMBER] = number;
    }
    table.next = match gaps {
        Gaps::OneLeft => MOST_NUMBERS - 1,
        Gaps::NoneLeft | Gaps::LastHeld => MOST_NUMBERS,
        Gaps::End => number as u32 + 1 + gap(rng) as u32,
        _ => number as u32 + 1,
    };
    if gaps == Gaps::LastHeld && held > 1 {
        table.places[held - 1][NUMBER] = u64::from(MOST_NUMBERS) - 1;
    }
}

/// How many numbers are missing. With one in every other place they stay below
/// 65,536; with 255 and 256 a number's low byte is another's.
fn gap(rng: &mut Rng) -> u64 {
    let drawn = rng.between(1, 200);
    rng.pick(&[1, 1, 2, drawn, 251, 255, 256])
}

/// The numbers given that no row held of a sound book has.
pub fn archived(table: &Table) -> Vec<u64> {
    let held: Vec<u64> = table.places[..table.held()]
        .iter()
        .map(|place| place[NUMBER])
        .collect();
    let given = 0..u64::from(table.next);
    given
        .filter(|number| held.binary_search(number).is_err())
        .collect()
}
