//! Two counters' records for one book, K14: without openings, and no account is
//! named by both, so that however their files are put together "each account's own
//! records keep their order".

use super::lives::retire_step;
use super::maker::Maker;
use super::short::level;
use super::steer::{fund_account, open_some, step, wind_down_account};
use super::uses::{put_in, waver};
use super::{make as make_day, Kind, ROUND};
use crate::make::rng::Rng;
use crate::model::orders::carried;
use crate::model::*;

pub struct Counters {
    /// The day that sets the book up.
    pub setting_up: Vec<u8>,
    pub files: [Vec<Values>; 2],
}

/// What a pair of files is made for.
#[derive(Clone, Copy, PartialEq, Eq)]
enum Aim {
    /// Any book and any records that are carried out in both orders.
    Any,
    /// A mode that the order decides.
    TmsMode,
    CmsMode,
    /// A margin that is covered in one order and 13 in the other.
    Uncovered,
    Retiring,
}

const AIMS: [Aim; 6] = [
    Aim::Any,
    Aim::TmsMode,
    Aim::Uncovered,
    Aim::Retiring,
    Aim::CmsMode,
    Aim::Uncovered,
];

/// How many books are tried for one pair.
const TRIES: u64 = 400;

/// Pairs with seeds that follow one another go round the aims.
pub fn make(seed: u64) -> Option<Counters> {
    let mut rng = Rng::new(seed, 0x0BDE2);
    let aim = AIMS[(seed % AIMS.len() as u64) as usize];
    (0..TRIES).find_map(|_| drawn(aim, &mut rng))
}

/// None where the pair isn't what it was made for.
fn drawn(aim: Aim, rng: &mut Rng) -> Option<Counters> {
    let mut first = Maker::new(rng.next(), 0x0BDE2, usize::MAX / 2);
    let (setting_up, apart) = match aim {
        Aim::Any => (any_day(rng), [0, 0]),
        _ => {
            let apart = set_up(aim, &mut first);
            (first.bytes, apart)
        }
    };
    let (book, _) = run_fresh(&setting_up);
    let mut maker = Maker::over(book.clone(), rng.next());
    noise(&mut maker);
    work(aim, &mut maker, apart);
    noise(&mut maker);
    let files = split(&taken(&book, &maker.bytes), apart, rng);
    is_met(aim, &book, &files).then_some(Counters { setting_up, files })
}

fn is_met(aim: Aim, book: &Book, [a, b]: &[Vec<Values>; 2]) -> bool {
    let one = carried(book, &[&a[..], b].concat());
    let other = carried(book, &[&b[..], a].concat());
    let are_whole = one.is_whole() && other.is_whole();
    let is_one_whole = one.is_whole() || other.is_whole();
    let is_13 = |refusals: &[u8]| refusals.contains(&13);
    match aim {
        Aim::Any => are_whole && !a.is_empty() && !b.is_empty(),
        Aim::TmsMode | Aim::CmsMode => are_whole && one.book.modes != other.book.modes,
        Aim::Uncovered => is_one_whole && (is_13(&one.refusals) || is_13(&other.refusals)),
        Aim::Retiring => are_whole && [a, b].iter().any(|file| retires(file)),
    }
}

fn retires(records: &[Values]) -> bool {
    records.iter().any(|record| record.code == RETIRE)
}

fn any_day(rng: &mut Rng) -> Vec<u8> {
    let kinds: Vec<Kind> = ROUND
        .into_iter()
        .filter(|kind| kind.0 != "hostile")
        .collect();
    let room = rng.pick(&[800, 3_000, 8_000]);
    make_day(rng.pick(&kinds), rng.next(), room)
}

/// A book for the aim; gives the two accounts that it is about.
fn set_up(aim: Aim, maker: &mut Maker) -> [u16; 2] {
    open_some(maker, 5);
    let [tm, client, cp] = maker.opened_three();
    let size = maker.rng.between(40, 50_000_000_000);
    match aim {
        Aim::TmsMode => {
            put_in(maker, 0, 4 * size, true);
            put_in(maker, tm, size, true);
            [tm, client]
        }
        Aim::CmsMode => {
            put_in(maker, 0, size, true);
            [0, maker.rng.pick(&[tm, cp])]
        }
        Aim::Uncovered => {
            put_in(maker, 0, 2 * size, true);
            put_in(maker, tm, size / 2, false);
            let margin = maker.rng.between(1, size);
            maker.say_margin(cp, margin);
            maker.rng.pick(&[
                [0, client],
                [0, tm],
                [0, cp],
                [tm, client],
                [cp, client],
                [cp, 0],
            ])
        }
        Aim::Retiring | Aim::Any => {
            for account in [0, 0, tm, client, cp] {
                fund_account(maker, account);
            }
            maker.rng.pick(&[[client, cp], [cp, client], [client, 0]])
        }
    }
}

fn work(aim: Aim, maker: &mut Maker, [one, other]: [u16; 2]) {
    match aim {
        Aim::Any => {
            for _ in 0..maker.rng.between(2, 14) {
                noisily(maker);
            }
        }
        Aim::TmsMode | Aim::CmsMode => by_order(maker, one, other),
        Aim::Uncovered => covered_first(maker, one, other),
        Aim::Retiring => {
            wind_down_account(maker, one);
            if other != 0 {
                wind_down_account(maker, other);
            }
        }
    }
}

/// Nine tenths of a member's collateral are used, and then there is more of it, but
/// not so much that the use is under 85%: on in this order, off in the other.
fn by_order(maker: &mut Maker, member: u16, under: u16) {
    let collateral = maker.own(member);
    let margin = collateral - collateral / 10;
    maker.say_margin(under, margin);
    let most = (collateral / 18).max(1);
    let drawn = maker.rng.between(1, most);
    let more = maker.rng.pick(&[1, most, drawn]);
    let in_cash = maker.rng.one_in(2);
    put_in(maker, member, more, in_cash);
}

/// A margin that wants what another account gives first: collateral, or a margin of
/// its own that falls.
fn covered_first(maker: &mut Maker, giver: u16, taker: u16) {
    let before = level(maker, taker);
    let margin = maker.row(giver).margin;
    let given = 1 + maker.rng.below(margin.clamp(1, 1_000_000));
    if margin > 0 && maker.book.deemed(usize::from(giver)) > 0 {
        maker.say_margin(giver, margin - given);
    } else {
        give(maker, giver, given);
    }
    let after = level(maker, taker).min(CEILING);
    if after > before {
        let drawn = maker.rng.between(before + 1, after);
        let margin = maker.rng.pick(&[before + 1, after, drawn]);
        maker.say_margin(taker, margin);
    }
}

fn give(maker: &mut Maker, giver: u16, given: u64) {
    let pledged = maker.row(giver).pledged;
    match maker.rng.below(3) {
        0 => {
            maker.say_value(giver, pledged + given);
        }
        way => put_in(maker, giver, given, way == 1),
    }
}

fn noise(maker: &mut Maker) {
    for _ in 0..maker.rng.pick(&[0, 0, 1, 3, 8]) {
        noisily(maker);
    }
}

fn noisily(maker: &mut Maker) {
    match maker.rng.below(8) {
        0 => waver(maker),
        1 => retire_step(maker),
        _ => step(maker),
    }
}

/// The records carried out, without openings and whatever names an account that one
/// of these opened.
fn taken(book: &Book, piece: &[u8]) -> Vec<Values> {
    let mut model = book.clone();
    let mut reader = Reader::new(piece);
    let mut taken = Vec::new();
    while let Next::Record(record) = reader.next() {
        let record = record.values();
        let is_done = carry_values(&mut model, &record).refusal() == 0;
        let is_old = record.code > OPEN_CP && book.place_of(record.account).is_some();
        if is_done && is_old {
            taken.push(record);
        }
    }
    taken
}

/// Each account's records into one of the two files, those of the two accounts into
/// different ones.
fn split(records: &[Values], [one, other]: [u16; 2], rng: &mut Rng) -> [Vec<Values>; 2] {
    // No number is missing, so numbers are rows.
    let mut file = [0; MOST_ACCOUNTS].map(|_: u64| rng.below(2));
    if one != other {
        file[usize::from(one)] = 1 - file[usize::from(other)];
    }
    let of_file = |wanted: u64| {
        let own = records.iter();
        own.filter(|record| file[usize::from(record.account)] == wanted)
            .copied()
            .collect()
    };
    [of_file(0), of_file(1)]
}

/// The two files' records in any order that keeps each file's own.
pub fn mixed(a: &[Values], b: &[Values], rng: &mut Rng) -> Vec<Values> {
    let (mut a, mut b) = (a.iter(), b.iter());
    let mut order = Vec::new();
    while a.len() + b.len() > 0 {
        let drawn = rng.below((a.len() + b.len()) as u64) as usize;
        let next = if drawn < a.len() { a.next() } else { b.next() };
        order.extend(next);
    }
    order
}
