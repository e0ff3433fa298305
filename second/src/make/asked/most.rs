//! What `most` is asked: for every kind of answer a book is bent towards it,
//! and another one where it didn't come to that. Serials and amounts, which are
//! not looked at, are any.

mod scenes;

use super::numbers::{renumber, Gaps};
use super::{books, breaches, given, lists};
use crate::kinds::most::{
    bits, kinds, Gone, Kind, Mark, Stand, Unseen, CODES, LIMITS, SORTS, STRANGE,
};
use crate::make::rng::Rng;
use crate::model::calls::Call;
use crate::model::most::{most, Asked};
use crate::model::table::{CP, NUMBER, TRADING};
use crate::model::*;
use scenes::Scene;

/// How often another book is tried where the last one wouldn't do.
const TRIES: usize = 400;

pub fn call(kind: Kind, rng: &mut Rng) -> Call {
    let (book, record) = sought(kind, rng);
    Call::Most(book, record)
}

/// The record with as much as passes, or more than that by so many paise.
pub fn at_edge(kind: Kind, more: u64, rng: &mut Rng) -> Call {
    let (table, record) = sought(kind, rng);
    let amount = table.book().and_then(|book| most(&book, &record).ok());
    let serial = table.serial;
    let record = Asked::of(&record).map(|asked| asked.record(serial, amount.unwrap_or(0) + more));
    Call::CarryOut(table, record.unwrap_or_default())
}

pub fn of_unsound(fault: Fault, rng: &mut Rng) -> Call {
    let book = breaches::with(fault, Rule::New, rng);
    let code = rng.pick(&CODES);
    let place = rng.below(book.held().max(1) as u64) as usize;
    let record = asked(&book, code, suiting(code, rng), place, rng);
    Call::Most(book, record)
}

fn sought(kind: Kind, rng: &mut Rng) -> (Table, Values) {
    let mut last = (Table::fresh(), Values::default());
    for _ in 0..TRIES {
        if let Some((table, record)) = tried(kind, rng) {
            let is_it = kinds(&table, &record).contains(&kind);
            last = (table, record);
            if is_it {
                break;
            }
        }
    }
    last
}

/// None where the book that was drawn can't be bent so.
fn tried(kind: Kind, rng: &mut Rng) -> Option<(Table, Values)> {
    let code = rng.pick(&CODES);
    let sort = rng.pick(&SORTS);
    let asked = match kind {
        Kind::Unsound(refusal) => return Some(unsound(refusal, rng)),
        Kind::Code(code) => return Some(strange(code, rng.byte(), rng)),
        Kind::Carried(code) => return carried(code, rng),
        Kind::Mark(code, mark) => return Some(strange(code, byte(code, mark, rng), rng)),
        Kind::Gone(code, gone) => return Some(of_gone(code, gone, rng)),
        Kind::Nothing(code, 17) => in_mode(member(rng), code, 17, rng)?,
        Kind::Nothing(code, refusal) => at(sort, code, suiting(code, rng), refusal, 0, rng)?,
        Kind::InMode(sort, code, refusal) => in_mode(sort, code, refusal, rng)?,
        Kind::Stands(code, stand, refusal) => {
            let want = wanted(code, stand, rng);
            at(sort, code, suiting(code, rng), refusal, want, rng)?
        }
        Kind::Bit(code, bit, refusal) => {
            let want = wanted(code, Stand::Between, rng);
            at(sort, code, bit, refusal, want, rng)?
        }
        Kind::Ceiling(code) => whatever(sort, code, CEILING, rng)?,
        Kind::RoomEnds => at(sort, SET_MARGIN, MARGIN, 13, CEILING, rng)?,
        Kind::RoomGoesOn => room_goes_on(sort, rng)?,
        Kind::Of(sort, code) => {
            let want = wanted(code, Stand::Between, rng);
            whatever(sort, code, want, rng)?
        }
        Kind::Margin(sort, frees) => (Scene::family(sort, frees, rng)?, SET_MARGIN, MARGIN),
        Kind::Tenth(left) => (Scene::tenth(sort, left, rng)?, RELEASE, SECURITIES),
        Kind::ForNothing(sort) => (Scene::for_nothing(sort, rng)?, RELEASE, SECURITIES),
        Kind::Tied(code) => {
            let bit = suiting(code, rng);
            (Scene::tied(sort, bit, rng)?, code, bit)
        }
        Kind::Unseen(unseen) => return with_unseen(unseen, rng),
        Kind::Elsewhere => {
            let (mut scene, code, bit) = whatever(sort, code, 9, rng)?;
            renumber(&mut scene.table, Gaps::Start, rng);
            (scene, code, bit)
        }
        Kind::UnderMode => {
            let (mut scene, code, bit) = whatever(Sort::Client, RELEASE, 9, rng)?;
            scene.turn_tm();
            (scene, code, bit)
        }
        Kind::Short(code) => {
            let (mut scene, code, bit) = whatever(sort, code, 9, rng)?;
            books::fall_short(&mut scene.table, rng);
            (scene, code, bit)
        }
        Kind::ShortMargin(sort) => (Scene::short_margin(sort, rng)?, SET_MARGIN, MARGIN),
    };
    let (scene, code, bit) = asked;
    Some(put(scene, code, bit, rng))
}

/// A book and its account, the code and the bit to ask for.
type Bent = (Scene, u8, usize);

fn put(scene: Scene, code: u8, bit: usize, rng: &mut Rng) -> (Table, Values) {
    let Scene { table, place } = scene;
    let record = asked(&table, code, bit, place, rng);
    (table, record)
}

/// Of the account at a place, with any serial and any amounts.
fn asked(table: &Table, code: u8, bit: usize, place: usize, rng: &mut Rng) -> Values {
    let drawn = rng.next();
    Values {
        serial: rng.pick(&[table.serial, table.serial.wrapping_add(1), drawn as u16]),
        code,
        mark: 1 << bit,
        account: table.places[place][NUMBER] as u16,
        amounts: std::array::from_fn(|_| rng.pick(&[0, 1, 1_000, CEILING, CEILING + 1, drawn])),
    }
}

fn suiting(code: u8, rng: &mut Rng) -> usize {
    let bits: Vec<usize> = bits(code).collect();
    rng.pick(&bits)
}

fn member(rng: &mut Rng) -> Sort {
    rng.pick(&[Sort::Cm, Sort::Tm])
}

/// The amount that the answer is to be.
fn wanted(code: u8, stand: Stand, rng: &mut Rng) -> u64 {
    let (small, large) = (rng.between(2, 5_000), rng.between(2, CEILING - 2));
    match stand {
        Stand::Least => least(code),
        Stand::Between => rng.pick(&[2, small, small, large, CEILING - 2]),
        Stand::UnderCeiling => CEILING - 1,
    }
}

/// An account bent so that this much passes, and a paisa more is refused so.
fn at(sort: Sort, code: u8, bit: usize, refusal: u8, want: u64, rng: &mut Rng) -> Option<Bent> {
    let mut scene = Scene::with(sort, rng)?;
    scene.limit(code, bit, refusal, want, rng)?;
    Some((scene, code, bit))
}

/// The same by any refusal that there is for the code. Codes 12 and 13 know
/// none.
fn whatever(sort: Sort, code: u8, want: u64, rng: &mut Rng) -> Option<Bent> {
    let bit = suiting(code, rng);
    match LIMITS.iter().find(|(known, _)| *known == code) {
        Some(&(code, refusal)) => at(sort, code, bit, refusal, want, rng),
        None => Some((Scene::with(sort, rng)?, code, bit)),
    }
}

fn room_goes_on(sort: Sort, rng: &mut Rng) -> Option<Bent> {
    let (mut scene, code, bit) = at(sort, SET_MARGIN, MARGIN, 13, CEILING, rng)?;
    let more = rng.between(1, 1_000);
    scene.fund_cm(more)?;
    Some((scene, code, bit))
}

fn in_mode(sort: Sort, code: u8, refusal: u8, rng: &mut Rng) -> Option<Bent> {
    let bit = suiting(code, rng);
    let mut scene = Scene::with(sort, rng)?;
    let there = if refusal == 17 {
        rng.between(1, 1_000)
    } else {
        0
    };
    scene.put_there(code, bit, there);
    scene.turn();
    Some((scene, code, bit))
}

fn with_unseen(unseen: Unseen, rng: &mut Rng) -> Option<(Table, Values)> {
    let (sort, code) = (rng.pick(&SORTS), rng.pick(&CODES));
    let (scene, code, bit) = whatever(sort, code, 9, rng)?;
    let (table, mut record) = put(scene, code, bit, rng);
    let past = rng.pick(&[CEILING + 1, 1 << 63, u64::MAX]);
    let others = (0..6).filter(|&other| other != bit);
    match unseen {
        Unseen::NextSerial => record.serial = table.serial,
        Unseen::OtherSerial => record.serial = table.serial.wrapping_sub(1),
        Unseen::NamedNothing => record.amounts[bit] = 0,
        Unseen::NamedWithin => record.amounts[bit] = rng.between(1, CEILING),
        Unseen::NamedPast => record.amounts[bit] = past,
        Unseen::OthersNothing => others.for_each(|other| record.amounts[other] = 0),
        Unseen::OthersPast => others.for_each(|other| record.amounts[other] = past),
    }
    Some((table, record))
}

fn unsound(refusal: u8, rng: &mut Rng) -> (Table, Values) {
    let table = breaches::with(rng.pick(&Fault::all(Rule::New)), Rule::New, rng);
    let code = rng.pick(&CODES);
    let mut record = asked(&table, code, suiting(code, rng), 0, rng);
    match refusal {
        4 => record.code = rng.pick(&STRANGE),
        5 => record.mark = byte(code, Mark::Beside, rng),
        _ => record.account = rng.pick(&[record.account, 255, 65_535]),
    }
    (table, record)
}

/// Any code and mark, of an account that is there or not.
fn strange(code: u8, mark: u8, rng: &mut Rng) -> (Table, Values) {
    let table = books::sound(rng);
    let place = rng.below(table.held() as u64) as usize;
    let mut record = asked(&table, code, 0, place, rng);
    record.mark = mark;
    if rng.one_in(4) {
        record.account = rng.pick(&[256, 65_535]);
    }
    (table, record)
}

/// A mark that gives 5.
fn byte(code: u8, mark: Mark, rng: &mut Rng) -> u8 {
    let suiting = 1 << suiting(code, rng);
    let unsuited: Vec<u8> = (0..8)
        .filter(|bit| !bits(code).contains(bit))
        .map(|bit| 1 << bit)
        .collect();
    match mark {
        Mark::Nothing => 0,
        Mark::Bit(bit) => 1 << bit,
        Mark::Kinds => rng.pick(&[3, 5, 6, 7, 9, 10, 11, 12, 13, 14, 15]),
        Mark::Beside => suiting | rng.pick(&unsuited),
        Mark::All => 255,
    }
}

/// A record without an amount that would be carried out.
fn carried(code: u8, rng: &mut Rng) -> Option<(Table, Values)> {
    let mut table = books::sound(rng);
    let place = match code {
        OPEN_CLIENT => breaches::an_account(&mut table, TRADING, Some(1), rng)?,
        RETIRE if table.held() < 256 => books::append(&mut table, books::row(CP, 1, 0)),
        _ => 0,
    };
    let mut record = asked(&table, code, 0, place, rng);
    record.mark = 0;
    Some((table, record))
}

fn of_gone(code: u8, gone: Gone, rng: &mut Rng) -> (Table, Values) {
    let mut table = match gone {
        Gone::Archived => given::with_archive(rng),
        _ => books::sound(rng),
    };
    let place = match gone {
        Gone::Retired => lists::retired(&mut table, rng),
        _ => 0,
    };
    let mut record = asked(&table, code, suiting(code, rng), place, rng);
    let next = u64::from(table.next);
    match gone {
        Gone::Retired => {}
        Gone::Archived => record.account = given::gone(&table, rng),
        Gone::NeverGiven => record.account = rng.pick(&[next, next + 9, 65_535]).min(65_535) as u16,
    }
    (table, record)
}
