//! Statements of brokers: right ones, and ones that are bent by one thing.

mod bends;
mod scenes;

use super::numbers::{renumber, Gaps};
use super::{unsound, Fault, Rule};
use crate::kinds::statements::{Spot, SPOTS};
use crate::make::rng::Rng;
use crate::model::calls::Call;
use crate::model::statement::Record;
use crate::model::table::NEED;
use crate::model::*;
use bends::Paisa::{Less, More};
use bends::{all_bends, Bend, Draft};
use scenes::{Scene, Sheet, Who};

/// A statement of a TM, for a book.
pub struct Asked {
    pub book: Table,
    pub tm: u16,
    pub statement: Vec<u8>,
}

#[derive(Clone, Copy)]
pub enum Case {
    /// A right one, for such clients.
    Right(Sheet),
    /// A right one, with these numbers missing.
    Gapped(Gaps),
    Unsound(Sheet),
    /// Of an account that is no live TM.
    Of(Who),
    /// Of a fresh book, which has no TM.
    Fresh,
    Bent(Bend, Spot),
    /// One record bent twice: the lower number is given.
    BentTwice(Bend, Bend),
    /// Two records bent: the first is told, whatever its number.
    BothBent(Bend, Bend),
    /// A record behind the last, bent or not.
    Surplus(Option<Bend>, Sheet),
    /// Bits of a right one turned at random.
    Turned,
}

const TWICE: [(Bend, Bend); 9] = [
    (Bend::ByteShort, Bend::Zero(0)),
    (Bend::Bit(6), Bend::Account(1)),
    (Bend::Zero(4), Bend::Account(1)),
    (Bend::Above(0), Bend::AnothersClient),
    (Bend::Account(-1), Bend::Retained(More)),
    (Bend::RetiredClient, Bend::Lodged),
    (Bend::Retained(Less), Bend::Received(More)),
    (Bend::Held(More), Bend::Lodged),
    (Bend::Received(Less), Bend::Lodged),
];

const BOTH: [(Bend, Bend); 5] = [
    (Bend::Lodged, Bend::FirstByte),
    (Bend::Received(More), Bend::Zero(2)),
    (Bend::Held(Less), Bend::Account(1)),
    (Bend::Account(1), Bend::Bit(5)),
    (Bend::Above(3), Bend::Bytes(2)),
];

const SURPLUS: [Option<Bend>; 7] = [
    None,
    Some(Bend::AnothersClient),
    Some(Bend::Zero(0)),
    Some(Bend::Above(0)),
    Some(Bend::FirstByte),
    Some(Bend::Bytes(3)),
    Some(Bend::ByteShort),
];

impl Case {
    pub fn all() -> Vec<Case> {
        let mut all = Sheet::ALL.map(Case::Right).to_vec();
        all.extend(Gaps::ALL.map(Case::Gapped));
        all.extend([Sheet::Empty, Sheet::Full].map(Case::Unsound));
        all.extend(Who::ALL.map(Case::Of));
        all.extend([Case::Fresh; 2]);
        for spot in SPOTS {
            all.extend(all_bends().into_iter().map(|bend| Case::Bent(bend, spot)));
        }
        all.extend(TWICE.map(|(one, other)| Case::BentTwice(one, other)));
        all.extend(BOTH.map(|(one, other)| Case::BothBent(one, other)));
        for sheet in [Sheet::Several, Sheet::Empty] {
            all.extend(SURPLUS.map(|bend| Case::Surplus(bend, sheet)));
        }
        all.extend([Case::Turned; 4]);
        all
    }

    pub fn call(self, rng: &mut Rng) -> Call {
        let Asked {
            book,
            tm,
            statement,
        } = self.asked(rng);
        Call::Statement(book, tm, statement)
    }

    pub fn asked(self, rng: &mut Rng) -> Asked {
        match self {
            Case::Right(sheet) => right(&Scene::of(sheet, rng), rng),
            Case::Gapped(gaps) => {
                let mut scene = Scene::of(Sheet::Several, rng);
                renumber(&mut scene.book, gaps, rng);
                right(&scene, rng)
            }
            Case::Unsound(sheet) => {
                let asked = right(&Scene::of(sheet, rng), rng);
                let book = no_longer_sound(&asked.book, rng);
                Asked { book, ..asked }
            }
            Case::Of(who) => {
                let mut scene = Scene::of(Sheet::Several, rng);
                let tm = scene.number_of(who, rng);
                let asked = right(&scene, rng);
                Asked { tm, ..asked }
            }
            Case::Fresh => Asked {
                book: Table::fresh(),
                tm: rng.pick(&[0, 1, 65_535]),
                statement: rng.pick(&[&[][..], &[1, 0, 0, 1]]).to_vec(),
            },
            Case::Bent(bend, spot) => bent(&[(bend, spot)], rng),
            Case::BentTwice(one, other) => {
                let spot = rng.pick(&SPOTS);
                bent(&[(other, spot), (one, spot)], rng)
            }
            Case::BothBent(one, other) => bent(&[(one, Spot::First), (other, Spot::Middle)], rng),
            Case::Surplus(bend, sheet) => surplus(bend, sheet, rng),
            Case::Turned => turned(rng),
        }
    }
}

fn asked(scene: &Scene, drafts: &[Draft]) -> Asked {
    Asked {
        tm: scene.number(scene.tm),
        statement: bends::laid(drafts),
        book: scene.book.clone(),
    }
}

/// With the CM's kept need a paisa too high, or another book with any one fault.
fn no_longer_sound(book: &Table, rng: &mut Rng) -> Table {
    if rng.one_in(2) {
        let fault = rng.pick(&Fault::all(Rule::New));
        return unsound(fault, Rule::New, rng);
    }
    let mut book = book.clone();
    book.places[0][NEED] += 1;
    book
}

fn right(scene: &Scene, rng: &mut Rng) -> Asked {
    asked(scene, &drafts(scene, rng))
}

fn drafts(scene: &Scene, rng: &mut Rng) -> Vec<Draft> {
    let records = scene.records(rng);
    records.iter().map(Draft::of).collect()
}

/// A right statement but for these.
fn bent(bends: &[(Bend, Spot)], rng: &mut Rng) -> Asked {
    let mut scene = Scene::of(Sheet::Several, rng);
    let spots = scene.spots(rng);
    for &(bend, spot) in bends {
        scene.endow(spots[spot as usize], bend.wants(), rng);
    }
    let mut drafts = drafts(&scene, rng);
    for &(bend, spot) in bends {
        bend.put(&mut drafts, spots[spot as usize], &scene, rng);
    }
    asked(&scene, &drafts)
}

/// Of any account: another's client, a CP, the last client once more.
fn surplus(bend: Option<Bend>, sheet: Sheet, rng: &mut Rng) -> Asked {
    let scene = Scene::of(sheet, rng);
    let mut drafts = drafts(&scene, rng);
    let last = drafts.last().map(|draft| draft.account);
    let drawn = rng.next() as u16;
    let amount = rng.between(2, 1_000);
    drafts.push(Draft::of(&Record {
        account: rng.pick(&[last.unwrap_or(0), drawn, scene.number(scene.tm), 65_535]),
        amounts: rng.pick(&[[0; 5], [2 * amount, amount, amount, amount - 1, 1]]),
    }));
    if let Some(bend) = bend {
        let place = drafts.len() - 1;
        bend.put(&mut drafts, place, &scene, rng);
    }
    asked(&scene, &drafts)
}

fn turned(rng: &mut Rng) -> Asked {
    let mut asked = right(&Scene::of(Sheet::Several, rng), rng);
    for _ in 0..rng.between(1, 3) {
        let place = rng.below(asked.statement.len() as u64) as usize;
        asked.statement[place] ^= 1 << rng.below(8);
    }
    asked
}
