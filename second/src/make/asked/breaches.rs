//! Books that aren't sound in one way alone, or in several.

mod numbers;

use super::books::*;
use crate::make::rng::Rng;
use crate::model::table::MARGIN;
use crate::model::table::*;
use crate::model::*;

/// How often another book is tried where the last one wouldn't do.
const TRIES: usize = 200;

/// A book whose only fault by this rule is this one.
pub fn with(fault: Fault, rule: Rule, rng: &mut Rng) -> Table {
    let mut table = sound_by(rule, rng);
    for _ in 0..TRIES {
        if breach(&mut table, fault, rule, rng).is_some() && only(&table, fault, rule) {
            break;
        }
        table = sound_by(rule, rng);
    }
    table
}

/// Two to four faults one after the other, and whatever comes of it.
pub fn with_several(rule: Rule, rng: &mut Rng) -> Table {
    let mut table = sound_by(rule, rng);
    for _ in 0..rng.between(2, 4) {
        let fault = rng.pick(&Fault::all(rule));
        let mut next = table.clone();
        if breach(&mut next, fault, rule, rng).is_some() {
            table = next;
        }
    }
    table
}

fn only(table: &Table, fault: Fault, rule: Rule) -> bool {
    let alone = Fault::alone(&table.faults_by(rule));
    alone.contains(&fault)
}

/// None where the book has no room for it.
fn breach(table: &mut Table, fault: Fault, rule: Rule, rng: &mut Rng) -> Option<()> {
    match fault {
        Fault::NoAccounts | Fault::TooManyAccounts => count(table, fault, rule, rng),
        Fault::TopIsNoCm | Fault::TopIsRetired | Fault::TopHasTm => top(table, fault, rng),
        Fault::Beyond(word) => beyond(table, word, rng)?,
        Fault::UnknownSort | Fault::SecondCm => sort(table, fault, rng)?,
        Fault::HasTm(sort) => {
            let account = an_account(table, sort, None, rng)?;
            let tm = rng.pick(&[1, account as u64, 256, 65_535]);
            table.places[account][TM] = tm;
        }
        Fault::RetiredHas(sort, word) => retired_has(table, sort, word, rule, rng)?,
        Fault::PastCeiling(word) => past_ceiling(table, word, rule, rng)?,
        Fault::AllocatedPast(word) => allocated_past(table, word, rng)?,
        Fault::NotCovered => not_covered(table, rule),
        Fault::ModeOn(sort, live) => {
            let account = an_account(table, sort, Some(live), rng)?;
            table.places[account][MODE] = 1;
        }
        Fault::TopHasNumber
        | Fault::NumberTwice
        | Fault::NumberFalls
        | Fault::NumberIsNext
        | Fault::NumberPastNext
        | Fault::NextIsNothing
        | Fault::NextPastAll => numbers::breach(table, fault, rule, rng)?,
        Fault::KeptNeed(sort, live, is_high) => {
            return kept_need(table, [sort, live], is_high, rule, rng)
        }
        _ => client(table, fault, rng)?,
    }
    settle(table, rule);
    Some(())
}

/// An account of this sort: one that is there or, if there is none or now and
/// then, a new one. A client is opened with its TM.
pub(super) fn an_account(
    table: &mut Table,
    sort: u64,
    live: Option<u64>,
    rng: &mut Rng,
) -> Option<usize> {
    let found = find(table, sort, live, rng);
    let room = MOST_ACCOUNTS - table.held();
    if found.is_some() && (room < 2 || !rng.one_in(4)) {
        return found;
    }
    if room < 2 {
        return None;
    }
    let live = live.unwrap_or(1);
    let tm = match sort {
        CLIENT => append(table, row(TRADING, live, 0)) as u64,
        _ => 0,
    };
    Some(append(table, row(sort, live, tm)))
}

fn count(table: &mut Table, fault: Fault, rule: Rule, rng: &mut Rng) {
    if fault == Fault::NoAccounts {
        // Every row but the first is beyond the number then.
        table.places[1..].fill([0; WORDS.len()]);
        cover(table, rule, rng);
        table.count = 0;
        return;
    }
    while table.held() < MOST_ACCOUNTS {
        append(table, row(CP, rng.below(2), 0));
    }
    table.count = rng.pick(&[257, 258, 511, 512, 513, 32_768, 65_535]);
}

fn top(table: &mut Table, fault: Fault, rng: &mut Rng) {
    match fault {
        Fault::TopIsNoCm => table.places[0][SORT] = rng.pick(&[TRADING, CLIENT, CP, 4, 255]),
        Fault::TopHasTm => table.places[0][TM] = rng.pick(&[1, 2, 255, 256, 65_535]),
        _ => {
            // A retired account's amounts are all zero, so nobody may call
            // on the CM.
            table.places.iter_mut().for_each(|place| place[MARGIN] = 0);
            let mode = table.places[0][MODE];
            table.places[0] = row(CM, 0, 0);
            table.places[0][MODE] = mode;
        }
    }
}

fn beyond(table: &mut Table, word: usize, rng: &mut Rng) -> Option<()> {
    let held = table.held() as u64;
    let last = MOST_ACCOUNTS as u64 - 1;
    if held > last {
        return None;
    }
    let drawn = rng.between(held, last);
    let place = rng.pick(&[held, last, drawn]) as usize;
    let most = match word {
        LIVE | MODE => 1,
        SORT => 255,
        NUMBER | TM => 65_535,
        _ => u64::MAX,
    };
    table.places[place][word] = rng.pick(&[1, most]);
    Some(())
}

/// Of an account that nobody names as its TM.
fn sort(table: &mut Table, fault: Fault, rng: &mut Rng) -> Option<()> {
    let sort = rng.pick(&[TRADING, CLIENT, CP]);
    let account = an_account(table, sort, None, rng)?;
    let is_named = |place: &Place| place[SORT] == CLIENT && place[TM] as usize == account;
    if table.places.iter().any(is_named) {
        return None;
    }
    let place = &mut table.places[account];
    place[TM] = 0;
    place[MODE] = 0;
    place[SORT] = match fault {
        Fault::SecondCm => CM,
        _ => rng.pick(&[4, 5, 128, 254, 255]),
    };
    Some(())
}

/// Allocated of a retired account goes with received, so that no other
/// sentence is broken.
fn retired_has(table: &mut Table, sort: u64, word: usize, rule: Rule, rng: &mut Rng) -> Option<()> {
    let account = an_account(table, sort, Some(0), rng)?;
    let amount = rng.pick(&[1, 1, 1_000, CEILING]);
    let place = &mut table.places[account];
    place[word] = amount;
    if (ALLOCATED..ALLOCATED + KINDS).contains(&word) {
        place[word - KINDS] = amount;
    }
    if word == MARGIN {
        cover(table, rule, rng);
    }
    Some(())
}

fn live_account(table: &mut Table, rng: &mut Rng) -> Option<usize> {
    match rng.below(4) {
        0 => Some(0),
        drawn => an_account(
            table,
            [TRADING, CLIENT, CP][drawn as usize - 1],
            Some(1),
            rng,
        ),
    }
}

/// A margin past the ceiling is met by own collateral, so that it is covered.
fn past_ceiling(table: &mut Table, word: usize, rule: Rule, rng: &mut Rng) -> Option<()> {
    let account = live_account(table, rng)?;
    if word != MARGIN {
        table.places[account][word] = rng.pick(&[CEILING + 1, CEILING + 1, 1 << 63, u64::MAX]);
        return Some(());
    }
    table.places[account][MARGIN] = 0;
    settle(table, rule);
    let place = &mut table.places[account];
    place[MARGIN] = CEILING + rng.pick(&[1, 1, 2, 1_000, CEILING]);
    let under = match place[SORT] {
        CM | TRADING => place[NEED],
        _ => 0,
    };
    fund(place, under + place[MARGIN], rule);
    Some(())
}

fn allocated_past(table: &mut Table, word: usize, rng: &mut Rng) -> Option<()> {
    let account = live_account(table, rng)?;
    let place = &mut table.places[account];
    let past = place[word - KINDS] + 1;
    place[word] = rng.pick(&[past, past, CEILING + 1, u64::MAX]);
    Some(())
}

/// By a paisa.
fn not_covered(table: &mut Table, rule: Rule) {
    table.places[0][MARGIN] = table.places[0][MARGIN].max(1);
    settle(table, rule);
    let need = table.places[0][NEED];
    fund(&mut table.places[0], need - 1, rule);
}

/// A TM that a client may not name.
fn client(table: &mut Table, fault: Fault, rng: &mut Rng) -> Option<()> {
    let live = rng.below(2);
    let client = an_account(table, CLIENT, Some(live), rng)?;
    let held = table.held() as u64;
    // The client's margin goes to nobody then, or to another.
    table.places[client][MARGIN] = 0;
    let named = match fault {
        Fault::OwnTm => client as u64,
        Fault::HigherTm => higher_tm(table, client, live)?,
        Fault::TmBeyond => rng.pick(&[held, MOST_ACCOUNTS as u64 - 1]),
        Fault::TmPastTable => past_table(table.places[client][TM], rng),
        Fault::TmIsRetired => return client_of_retired(table, rng),
        Fault::TmOfSort(CM) => 0,
        Fault::TmOfSort(sort) => lower(table, client, sort, live)?,
        _ => return None,
    };
    table.places[client][TM] = named;
    Some(())
}

fn higher_tm(table: &mut Table, client: usize, live: u64) -> Option<u64> {
    let is_tm = |place: &Place| place[SORT] == TRADING && place[LIVE] >= live;
    let mut above = client + 1..table.held();
    let found = above.find(|&account| is_tm(&table.places[account]));
    let room = table.held() < MOST_ACCOUNTS;
    found
        .or_else(|| room.then(|| append(table, row(TRADING, 1, 0))))
        .map(|number| number as u64)
}

/// The right number with a byte more, or far off.
fn past_table(tm: u64, rng: &mut Rng) -> u64 {
    rng.pick(&[256 + tm, 512 + tm, 256, 65_535])
}

fn lower(table: &Table, client: usize, sort: u64, live: u64) -> Option<u64> {
    let fits = |place: &Place| place[SORT] == sort && place[LIVE] >= live;
    let found = (1..client).find(|&account| fits(&table.places[account]));
    found.map(|number| number as u64)
}

fn client_of_retired(table: &mut Table, rng: &mut Rng) -> Option<()> {
    if table.held() + 2 > MOST_ACCOUNTS {
        return None;
    }
    let tm = find(table, TRADING, Some(0), rng);
    let tm = tm.unwrap_or_else(|| append(table, row(TRADING, 0, 0)));
    append(table, row(CLIENT, 1, tm as u64));
    Some(())
}

/// One kept need too high or too low, all others right. A client's or CP's own
/// margin is what one might keep for it.
fn kept_need(
    table: &mut Table,
    [sort, live]: [u64; 2],
    is_high: bool,
    rule: Rule,
    rng: &mut Rng,
) -> Option<()> {
    let account = match sort {
        CM => 0,
        _ => an_account(table, sort, Some(live), rng)?,
    };
    if !is_high && table.places[account][MARGIN] == 0 {
        table.places[account][MARGIN] = rng.pick(&[1, 1_000]);
        cover(table, rule, rng);
    }
    settle(table, rule);
    let place = &mut table.places[account];
    let (need, margin) = (place[NEED], place[MARGIN]);
    place[NEED] = if is_high {
        rng.pick(&[need + 1, need + 1, need + margin.max(1), u64::MAX])
    } else {
        need - rng.pick(&[1, 1, need, margin])
    };
    Some(())
}
