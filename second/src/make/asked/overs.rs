//! Books that the two rules judge differently, or just don't: K7 and K8.

use super::books::{self, cover, direct, fund, settle};
use super::breaches;
use crate::make::rng::Rng;
use crate::model::table::*;
use crate::model::table::{MARGIN, SECURITIES};
use crate::model::*;

#[derive(Clone, Copy, PartialEq, Eq, Debug)]
pub enum Over {
    /// Sound by the old rule and covered by the new, with needs that move.
    Moves,
    /// The same, and covered by the new rule to the paisa.
    JustCovered,
    /// A paisa short of that.
    APaisaShort,
    /// Covered at face value only, to the paisa.
    FaceOnly,
    /// Sound by both rules.
    Stays,
    /// Kept needs by the new rule, and others by the old: taken over already.
    NewNeeds,
    /// The old rule's, of any kind.
    Any,
    Several,
    Garbage,
    OneWord,
}

pub const OVERS: [Over; 16] = [
    Over::Moves,
    Over::Moves,
    Over::Moves,
    Over::JustCovered,
    Over::JustCovered,
    Over::APaisaShort,
    Over::APaisaShort,
    Over::FaceOnly,
    Over::FaceOnly,
    Over::Stays,
    Over::NewNeeds,
    Over::NewNeeds,
    Over::Any,
    Over::Several,
    Over::Garbage,
    Over::OneWord,
];

/// How often another book is tried where the last one wouldn't do.
const TRIES: usize = 100;

pub fn book(over: Over, rng: &mut Rng) -> Table {
    for _ in 0..TRIES {
        let table = tried(over, rng);
        if fits(over, &table) {
            return table;
        }
    }
    tried(over, rng)
}

fn tried(over: Over, rng: &mut Rng) -> Table {
    match over {
        Over::Moves => {
            let mut table = direct(Rule::Old, rng);
            cover(&mut table, Rule::New, rng);
            settle(&mut table, Rule::Old);
            table
        }
        Over::JustCovered => short_by(0, rng),
        Over::APaisaShort => short_by(1, rng),
        Over::FaceOnly => face_only(rng),
        Over::Stays => {
            let mut table = direct(Rule::Old, rng);
            table.places.iter_mut().for_each(without_securities);
            cover(&mut table, Rule::New, rng);
            without_securities(&mut table.places[0]);
            settle(&mut table, Rule::New);
            table
        }
        Over::NewNeeds => direct(Rule::New, rng),
        Over::Any => books::sound_by(Rule::Old, rng),
        Over::Several => breaches::with_several(Rule::Old, rng),
        Over::Garbage => books::garbage(rng),
        Over::OneWord => books::one_word_anew(Rule::Old, rng),
    }
}

fn fits(over: Over, table: &Table) -> bool {
    let is_settled = table.settled(Rule::New) == *table;
    let (old, is_short) = (table.is_sound_by(Rule::Old), table.shortfall() > 0);
    match over {
        Over::Moves => old && !is_short && !is_settled,
        Over::JustCovered => old && !is_short,
        Over::APaisaShort | Over::FaceOnly => old && is_short,
        Over::Stays => old && is_settled,
        Over::NewNeeds => table.is_sound() && !old,
        _ => true,
    }
}

fn without_securities(place: &mut Place) {
    place[SECURITIES] = 0;
    place[SECURITIES - KINDS] = 0;
}

/// So much less than the new rule asks of the CM, with securities in it.
fn short_by(less: u64, rng: &mut Rng) -> Table {
    let mut table = direct(Rule::Old, rng);
    cover(&mut table, Rule::New, rng);
    table.places[0][MARGIN] += rng.pick(&[0, 1, 9, 10, 11, 1_000]);
    let need = table.settled(Rule::New).places[0][NEED];
    fund_with_securities(
        &mut table.places[0],
        need.saturating_sub(less),
        Rule::New,
        rng,
    );
    settle(&mut table, Rule::Old);
    table
}

/// The CM's need by the old rule to the paisa, with securities in it.
fn face_only(rng: &mut Rng) -> Table {
    let mut table = direct(Rule::Old, rng);
    table.places[0][MARGIN] = table.places[0][MARGIN].max(1);
    settle(&mut table, Rule::Old);
    let need = table.places[0][NEED];
    fund_with_securities(&mut table.places[0], need, Rule::Old, rng);
    table
}

/// From a paisa of securities up to all of the amount.
pub(super) fn fund_with_securities(place: &mut Place, amount: u64, rule: Rule, rng: &mut Rng) {
    let drawn = rng.between(1, amount.max(1));
    let wanted = rng.pick(&[1, 2, 10, 11, drawn, amount]).min(amount);
    let face = rule.face(wanted).min(CEILING);
    fund(place, amount - rule.counted(face), Rule::Old);
    // What would have been securities goes to guarantees, if there is room.
    let moved = place[SECURITIES].min(CEILING - place[SECURITIES - 1]);
    place[SECURITIES - 1] += moved;
    place[SECURITIES - 1 - KINDS] = place[SECURITIES - 1 - KINDS].max(place[SECURITIES - 1]);
    place[SECURITIES] = face;
    place[SECURITIES - KINDS] = place[SECURITIES - KINDS].max(face);
}
