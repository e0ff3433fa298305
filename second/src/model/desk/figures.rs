//! K10 of document 02: crystallised obligations by client, "the intraday
//! current exposure margin" and its end of day form.

use super::{charges, Position};
use crate::model::*;

/// "Premium payable less receivable, plus crystallised loss less profit"; "the
/// end of day form adds exercise and final settlement figures". "Payable if
/// above 0 and otherwise nothing"; 22 for one that isn't "from minus the ceiling
/// to the ceiling".
pub fn exposure(figures: &[i64]) -> Result<u64, Refusal> {
    if figures.iter().any(|figure| figure.unsigned_abs() > CEILING) {
        return Err(Refusal::PastFigure);
    }
    let sum: i64 = figures.iter().sum();
    Ok(sum.max(0).unsigned_abs())
}

/// "It joins K9's sum before the record is sent": 22 "before 21", after all
/// else.
pub fn margin_with(initial: u64, positions: &[Position], figures: &[i64]) -> Result<u64, Refusal> {
    let sum = charges(initial, positions)? + exposure(figures)?;
    Some(sum)
        .filter(|&sum| sum <= CEILING)
        .ok_or(Refusal::SumPast)
}

/// Every client's refusal and amount, each by its own figures alone. 15 where
/// the list isn't so many for each client, or the room isn't two.
pub fn exposures(each: usize, list: &[i64], room: usize) -> Result<Vec<u64>, Refusal> {
    let clients = list.chunks_exact(each);
    if !clients.remainder().is_empty() || room != 2 * clients.len() {
        return Err(Refusal::WrongLength);
    }
    let answers = clients.map(|figures| match exposure(figures) {
        Ok(amount) => [0, amount],
        Err(refusal) => [refusal as u64, 0],
    });
    Ok(answers.flatten().collect())
}
