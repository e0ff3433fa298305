//! Books whose numbers aren't those of a sound one, in one way alone.

use crate::make::asked::books::cover;
use crate::make::asked::numbers::{archived, renumber, Gaps};
use crate::make::rng::Rng;
use crate::model::table::*;
use crate::model::*;

/// None where the book has no room for it.
pub fn breach(table: &mut Table, fault: Fault, rule: Rule, rng: &mut Rng) -> Option<()> {
    match fault {
        Fault::NumberIsNext | Fault::NumberPastNext => past_next(table, fault, rng)?,
        Fault::NextIsNothing => next_is_nothing(table, rule, rng),
        Fault::NextPastAll => table.next = past_all(table, rng),
        Fault::TopHasNumber => top_has_number(table, rng),
        _ => not_rising(table, fault, rng)?,
    }
    Some(())
}

/// Below that of the first row behind it, or else below the next.
fn top_has_number(table: &mut Table, rng: &mut Rng) {
    let held = table.held();
    renumber(table, if held > 1 { Gaps::Start } else { Gaps::End }, rng);
    let above = match held {
        1 => u64::from(table.next),
        _ => table.places[1][NUMBER],
    };
    table.places[0][NUMBER] = rng.pick(&[1, above - 1]);
}

/// Rows that don't rise by number: one has that of the row before it, or a lower
/// one.
fn not_rising(table: &mut Table, fault: Fault, rng: &mut Rng) -> Option<()> {
    let held = table.held();
    let number = |table: &Table, place: usize| table.places[place][NUMBER];
    let least = if fault == Fault::NumberTwice { 1 } else { 2 };
    if held <= least {
        return None;
    }
    let drawn = rng.between(least as u64, held as u64 - 1) as usize;
    let place = rng.pick(&[least, held - 1, drawn]);
    let before = number(table, place - 1);
    table.places[place][NUMBER] = match fault {
        Fault::NumberTwice => before,
        // That of the CM, of the row before the last one, or of none.
        _ => rng.pick(&[0, before - 1, number(table, place - 2)]),
    };
    if rng.one_in(2) && fault == Fault::NumberFalls {
        // Two rows have each other's number.
        table.places[place][NUMBER] = before;
        table.places[place - 1][NUMBER] = before + 1;
    }
    Some(())
}

/// The last row's number is the next, or above it.
fn past_next(table: &mut Table, fault: Fault, rng: &mut Rng) -> Option<()> {
    let last = table.held() - 1;
    if last == 0 {
        return None;
    }
    let number = table.places[last][NUMBER];
    if fault == Fault::NumberIsNext {
        table.next = number as u32;
        return Some(());
    }
    let lower: Vec<u64> = archived(table)
        .into_iter()
        .filter(|&gone| gone < number)
        .collect();
    if !lower.is_empty() && rng.one_in(2) {
        table.next = rng.pick(&lower) as u32;
        return Some(());
    }
    if table.next >= MOST_NUMBERS - 1 {
        table.number_by_places();
    }
    let next = u64::from(table.next);
    table.places[last][NUMBER] = rng.pick(&[next + 1, u64::from(MOST_NUMBERS) - 1]);
    Some(())
}

/// The CM alone, whose number isn't below it.
fn next_is_nothing(table: &mut Table, rule: Rule, rng: &mut Rng) {
    table.places[1..].fill([0; WORDS.len()]);
    table.count = 1;
    cover(table, rule, rng);
    table.next = 0;
}

/// By one, by the right number in its low bytes, or far.
fn past_all(table: &Table, rng: &mut Rng) -> u32 {
    let right = MOST_NUMBERS + table.next.min(MOST_NUMBERS - 1);
    rng.pick(&[MOST_NUMBERS + 1, right, 1 << 31, u32::MAX])
}
