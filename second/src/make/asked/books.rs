//! Books to hand over: grown by a made-up day, or put together word by word.

use super::numbers::{renumber, renumber_anyhow, Gaps};
use crate::make::rng::Rng;
use crate::make::{make, Kind, ROUND};
use crate::model::table::*;
use crate::model::table::{MARGIN, PLEDGED, SECURITIES};
use crate::model::*;

pub fn sound(rng: &mut Rng) -> Table {
    sound_by(Rule::New, rng)
}

pub fn with_serial(serial: u16, rng: &mut Rng) -> Table {
    Table {
        serial,
        ..sound(rng)
    }
}

/// A book that is sound by this rule.
pub fn sound_by(rule: Rule, rng: &mut Rng) -> Table {
    let mut table = match rng.below(12) {
        0 => Table::fresh(),
        1..=5 => grown(rule, rng),
        _ => direct(rule, rng),
    };
    renumber_anyhow(&mut table, rng);
    if rng.one_in(3) {
        table.serial = rng.pick(&[0, 1, 255, 256, 65_534, 65_535]);
    }
    table
}

/// The book at the end of a made-up day, now and then with modes that don't
/// fit its figures.
fn grown(rule: Rule, rng: &mut Rng) -> Table {
    let kinds: Vec<Kind> = ROUND
        .into_iter()
        .filter(|kind| kind.0 != "hostile")
        .collect();
    let kind = rng.pick(&kinds);
    let room = rng.pick(&[400, 3_000, 12_000]);
    let (book, _) = day::run_fresh(&make(kind, rng.next(), room));
    let mut table = Table::of(&book);
    if rule == Rule::Old {
        cover(&mut table, rule, rng);
    }
    if rng.one_in(3) {
        turn_modes(&mut table, rng);
    }
    table
}

/// "A mode that doesn't fit the figures is sound."
fn turn_modes(table: &mut Table, rng: &mut Rng) {
    let held = table.held();
    for (account, place) in table.places[..held].iter_mut().enumerate() {
        let has_mode = account == 0 || (place[SORT], place[LIVE]) == (TRADING, 1);
        if has_mode && rng.one_in(2) {
            place[MODE] = rng.below(2);
        }
    }
}

/// Words put together without a record: any numbers of accounts and amounts
/// up to the ceiling.
pub fn direct(rule: Rule, rng: &mut Rng) -> Table {
    let count = match rng.below(5) {
        0 => rng.between(1, 4),
        1 | 2 => rng.between(5, 30),
        3 => rng.between(31, 255),
        _ => 256,
    };
    let mut table = Table::fresh();
    table.serial = rng.next() as u16;
    let scale = rng.pick(&[10, 1_000_000, CEILING / 200, CEILING]);
    fill(&mut table.places[0], scale, rng);
    while u64::from(table.count) < count {
        let row = open(&table, rng);
        let account = append(&mut table, row);
        if table.places[account][LIVE] == 1 {
            fill(&mut table.places[account], scale, rng);
        }
    }
    cover(&mut table, rule, rng);
    if rule == Rule::New && rng.one_in(3) {
        fall_short(&mut table, rng);
    }
    turn_modes(&mut table, rng);
    renumber_anyhow(&mut table, rng);
    table
}

/// A TM, a client of one that is there, or a CP; some are retired.
fn open(table: &Table, rng: &mut Rng) -> Place {
    let live = u64::from(!rng.one_in(8));
    let tm = find(table, TRADING, None, rng);
    match (rng.below(8), tm) {
        (0, _) | (1..=5, None) => row(TRADING, live, 0),
        (1..=5, Some(tm)) => row(CLIENT, live.min(table.places[tm][LIVE]), tm as u64),
        _ => row(CP, live, 0),
    }
}

pub fn row(sort: u64, live: u64, tm: u64) -> Place {
    let mut place = [0; WORDS.len()];
    place[SORT] = sort;
    place[LIVE] = live;
    place[TM] = tm;
    place
}

/// The next row, with the next number; its place. There must be one left. Where
/// every number is given, all are given anew.
pub fn append(table: &mut Table, row: Place) -> usize {
    if table.next >= MOST_NUMBERS {
        table.number_by_places();
    }
    let place = table.held();
    table.places[place] = row;
    table.places[place][NUMBER] = u64::from(table.next);
    table.count += 1;
    table.next += 1;
    place
}

fn amount(scale: u64, rng: &mut Rng) -> u64 {
    match rng.below(8) {
        0 => 0,
        1 => 1,
        2 => scale,
        3 => scale - 1,
        _ => rng.below(scale + 1),
    }
}

pub fn fill(place: &mut Place, scale: u64, rng: &mut Rng) {
    for kind in 0..KINDS {
        let received = amount(scale, rng);
        place[RECEIVED + kind] = received;
        place[ALLOCATED + kind] = match rng.below(3) {
            0 => 0,
            1 => received,
            _ => rng.below(received + 1),
        };
    }
    place[PLEDGED] = amount(scale, rng);
    place[MARGIN] = amount(scale, rng);
}

/// The place of an account of this sort, if there is one.
pub fn find(table: &Table, sort: u64, live: Option<u64>, rng: &mut Rng) -> Option<usize> {
    let fits = |place: &Place| place[SORT] == sort && live.map_or(true, |live| place[LIVE] == live);
    let found: Vec<usize> = (1..table.held())
        .filter(|&account| fits(&table.places[account]))
        .collect();
    (!found.is_empty()).then(|| rng.pick(&found))
}

/// "Each kept need equals the need worked out afresh", as far as its word
/// goes.
pub fn settle(table: &mut Table, rule: Rule) {
    *table = table.settled(rule);
}

/// Lowers margins until the CM could answer for them, and gives the CM what
/// it takes: exactly, with a little over, or all that it may have. Kept needs
/// are settled then.
pub fn cover(table: &mut Table, rule: Rule, rng: &mut Rng) {
    let most = 4 * CEILING + rule.counted(CEILING);
    while table.needs_afresh(rule)[0] > u128::from(most) {
        table.places.iter_mut().for_each(|place| place[MARGIN] /= 2);
    }
    settle(table, rule);
    let (need, own) = (table.places[0][NEED], collateral(&table.places[0], rule));
    if need > own || rng.one_in(3) {
        let more = rng.pick(&[0, 0, 1, 1_000, CEILING]);
        fund(&mut table.places[0], need + more, rule);
    }
}

/// Leaves the CM a paisa short of its need, or more, or with nothing.
pub(super) fn fall_short(table: &mut Table, rng: &mut Rng) {
    let need = table.places[0][NEED];
    let left = rng.below(need.max(1));
    let left = rng.pick(&[need.saturating_sub(1), left, 0]);
    fund(&mut table.places[0], left, Rule::New);
}

/// By so much, to the paisa.
pub fn short_by(less: u64, rng: &mut Rng) -> Table {
    let mut table = direct(Rule::New, rng);
    cover(&mut table, Rule::New, rng);
    table.places[0][MARGIN] = table.places[0][MARGIN].clamp(1, CEILING - 1);
    settle(&mut table, Rule::New);
    let need = table.places[0][NEED];
    fund(&mut table.places[0], need - less, Rule::New);
    table
}

/// A sound book with a shortfall.
pub fn short(rng: &mut Rng) -> Table {
    loop {
        let mut table = direct(Rule::New, rng);
        fall_short(&mut table, rng);
        if table.shortfall() > 0 {
            return table;
        }
    }
}

/// Makes the collateral this much, at most all amounts at the ceiling.
pub fn fund(place: &mut Place, amount: u64, rule: Rule) {
    let mut left = amount;
    for word in (ALLOCATED..=PLEDGED).rev() {
        let by = if word == SECURITIES { rule } else { Rule::Old };
        place[word] = by.face(left).min(CEILING);
        left -= by.counted(place[word]);
        if word < PLEDGED {
            place[word - KINDS] = place[word - KINDS].max(place[word]);
        }
    }
}

pub fn collateral(place: &Place, rule: Rule) -> u64 {
    let all: u64 = place[ALLOCATED..=PLEDGED].iter().sum();
    all - place[SECURITIES] + rule.counted(place[SECURITIES])
}

/// Edges of a range, a byte, a word or a sign.
const EDGES: [u64; 12] = [
    0,
    1,
    2,
    3,
    255,
    256,
    65_535,
    CEILING,
    CEILING + 1,
    i64::MAX as u64,
    i64::MAX as u64 + 1,
    u64::MAX,
];

fn edge(word: usize, rng: &mut Rng) -> u64 {
    let value = rng.pick(&EDGES);
    within(word, if rng.one_in(3) { rng.next() } else { value })
}

/// As much of a number as the word can hold.
fn within(word: usize, value: u64) -> u64 {
    match word {
        LIVE | MODE => value & 1,
        SORT => value & 0xFF,
        NUMBER | TM => value & 0xFFFF,
        _ => value,
    }
}

/// "Books may hold anything in every word."
pub fn garbage(rng: &mut Rng) -> Table {
    let mut table = sound(rng);
    table.count = rng.pick(&[0, 1, 2, 9, 255, 256, 257, 512, 65_535]);
    table.serial = rng.next() as u16;
    table.next = rng.pick(&[0, 1, 256, 65_535, 65_536, 65_537, u32::MAX]);
    let wild = rng.one_in(2);
    for place in &mut table.places {
        for (word, value) in place.iter_mut().enumerate() {
            if wild || rng.one_in(3) {
                *value = edge(word, rng);
            }
        }
        if rng.one_in(2) {
            place[SORT] = rng.below(4);
            place[TM] = rng.below(8);
        }
    }
    table
}

/// One word of one place, the count, the serial or the next number.
pub fn one_word_anew(rule: Rule, rng: &mut Rng) -> Table {
    let mut table = sound_by(rule, rng);
    match rng.below(32) {
        2 => table.next = rng.near(u64::from(table.next)) as u32,
        3 => renumber(&mut table, Gaps::Everywhere, rng),
        0 => table.count = rng.near(u64::from(table.count)) as u16,
        1 => table.serial = rng.next() as u16,
        _ => {
            let last = table.held() as u64;
            let any = rng.below(MOST_ACCOUNTS as u64);
            let place = rng.pick(&[0, 1, last - 1, last.min(255), any, any % last]);
            let word = rng.below(WORDS.len() as u64) as usize;
            let value = &mut table.places[place as usize][word];
            *value = if rng.one_in(2) {
                within(word, rng.near(*value))
            } else {
                edge(word, rng)
            };
        }
    }
    table
}
