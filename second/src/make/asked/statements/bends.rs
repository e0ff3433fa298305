//! What a right statement is bent by: a byte, a paisa or an account.

use super::scenes::{Has, Scene};
use crate::make::rng::Rng;
use crate::model::statement::{Record, AMOUNTS, MOST};
use crate::model::table::*;

/// A record of a statement as its bytes will be. Whatever bits its set has, an amount
/// stands for each of its five.
#[derive(Clone, Copy)]
pub struct Draft {
    pub first: u8,
    pub set: u8,
    pub account: u16,
    pub amounts: [u64; AMOUNTS],
    /// The statement ends with so many of its bytes.
    cut: Option<usize>,
}

impl Draft {
    pub fn of(record: &Record) -> Draft {
        Draft {
            first: 1,
            set: record.set(),
            account: record.account,
            amounts: record.amounts,
            cut: None,
        }
    }

    fn bytes(&self) -> Vec<u8> {
        let mut bytes = vec![self.first, self.set];
        bytes.extend_from_slice(&self.account.to_be_bytes());
        for (place, amount) in self.amounts.iter().enumerate() {
            if self.set & (1 << place) != 0 {
                bytes.extend_from_slice(&amount.to_be_bytes());
            }
        }
        bytes
    }

    /// An amount, named whatever it is.
    fn name(&mut self, place: usize, amount: u64) {
        self.amounts[place] = amount;
        self.set |= 1 << place;
    }

    /// An amount by a paisa more or less, named where it isn't 0.
    fn move_by(&mut self, place: usize, paisa: Paisa) {
        let amount = self.amounts[place];
        self.amounts[place] = match paisa {
            Paisa::More => amount + 1,
            Paisa::Less => amount.saturating_sub(1),
        };
        self.set &= !(1 << place);
        if self.amounts[place] != 0 {
            self.set |= 1 << place;
        }
    }
}

pub fn laid(drafts: &[Draft]) -> Vec<u8> {
    let mut out = Vec::new();
    for draft in drafts {
        let mut bytes = draft.bytes();
        bytes.truncate(draft.cut.unwrap_or(bytes.len()));
        out.extend(bytes);
        if draft.cut.is_some() {
            break;
        }
    }
    out
}

/// By how much an amount is wrong.
#[derive(Clone, Copy)]
pub enum Paisa {
    More,
    Less,
}

use Paisa::{Less, More};

#[derive(Clone, Copy)]
pub enum Bend {
    /// 24: only so many bytes are left.
    Bytes(usize),
    FirstByte,
    Bit(u8),
    /// Of its amounts a byte is missing, or more.
    ByteShort,
    Short,
    /// 25: an amount of 0 that is named, and one above four ceilings; just four are
    /// none.
    Zero(usize),
    /// The same of a client that has nothing.
    ZeroOfNothing(usize),
    Above(usize),
    Most(usize),
    /// 26.
    Account(i32),
    LeftOut,
    Again,
    RetiredClient,
    AnothersClient,
    /// 27: one of the amounts by a paisa.
    Retained(Paisa),
    ReceivedAlone(Paisa),
    Held(Paisa),
    LodgedAlone(Paisa),
    /// 28, with both sums right.
    Received(Paisa),
    /// 29, the same.
    Lodged,
}

pub fn all_bends() -> Vec<Bend> {
    let mut all: Vec<Bend> = (1..=3)
        .map(Bend::Bytes)
        .chain((5..=7).map(Bend::Bit))
        .collect();
    all.extend([Bend::FirstByte, Bend::ByteShort, Bend::Short]);
    for kind in [Bend::Zero, Bend::Above, Bend::Most] {
        all.extend((0..AMOUNTS).map(kind));
    }
    all.extend([0, 3].map(Bend::ZeroOfNothing));
    all.extend([1, -1].map(Bend::Account));
    all.extend([
        Bend::LeftOut,
        Bend::Again,
        Bend::RetiredClient,
        Bend::AnothersClient,
        Bend::Lodged,
    ]);
    for kind in [
        Bend::Retained,
        Bend::ReceivedAlone,
        Bend::Held,
        Bend::LodgedAlone,
        Bend::Received,
    ] {
        all.extend([More, Less].map(kind));
    }
    all
}

impl Bend {
    /// What the client has whose record it bends.
    pub fn wants(self) -> Has {
        match self {
            Bend::Most(_) => Has::Most,
            Bend::ZeroOfNothing(_) => Has::Nothing,
            _ => Has::Something,
        }
    }

    pub fn put(self, drafts: &mut Vec<Draft>, place: usize, scene: &Scene, rng: &mut Rng) {
        match self {
            Bend::LeftOut => {
                drafts.remove(place);
            }
            Bend::Again => drafts.insert(place, drafts[place]),
            _ => self.put_one(&mut drafts[place], place, scene, rng),
        }
    }

    fn put_one(self, draft: &mut Draft, client: usize, scene: &Scene, rng: &mut Rng) {
        match self {
            Bend::Bytes(_) | Bend::ByteShort | Bend::Short => self.cut(draft, rng),
            Bend::FirstByte => draft.first = rng.pick(&[0, 2, 3, 129, 255]),
            Bend::Bit(bit) => draft.set |= 1 << bit,
            Bend::Zero(amount) | Bend::ZeroOfNothing(amount) => draft.name(amount, 0),
            Bend::Above(amount) => draft.name(amount, MOST + 1),
            Bend::Most(amount) => draft.name(amount, MOST),
            Bend::Account(by) => {
                let account = i32::from(draft.account) + by;
                draft.account = account.clamp(0, 65_535) as u16;
            }
            Bend::RetiredClient => draft.account = of_client(scene, true, rng),
            Bend::AnothersClient => draft.account = of_client(scene, false, rng),
            Bend::ReceivedAlone(paisa) => draft.move_by(0, paisa),
            Bend::Retained(paisa) => draft.move_by(1, paisa),
            Bend::Held(paisa) => draft.move_by(3, paisa),
            Bend::LodgedAlone(paisa) => draft.move_by(4, paisa),
            Bend::Received(paisa) => {
                draft.move_by(0, paisa);
                draft.move_by(1, paisa);
            }
            Bend::Lodged => lodge_over(draft, client, scene),
            Bend::LeftOut | Bend::Again => {}
        }
    }

    fn cut(self, draft: &mut Draft, rng: &mut Rng) {
        if draft.set == 0 {
            draft.name(0, 1);
        }
        let whole = draft.bytes().len();
        draft.cut = Some(match self {
            Bend::Bytes(left) => left,
            Bend::ByteShort => whole - 1,
            _ => rng.between(4, whole as u64 - 2) as usize,
        });
    }
}

/// The number of a retired client of the TM, or of a live one of another.
fn of_client(scene: &Scene, is_own: bool, rng: &mut Rng) -> u16 {
    let held = 0..scene.book.held();
    let fits = |place: &Place| {
        let is_of_tm = place[TM] == scene.tm as u64;
        place[SORT] == CLIENT && is_of_tm == is_own && (place[LIVE] == 0) == is_own
    };
    let found: Vec<usize> = held
        .filter(|&place| fits(&scene.book.places[place]))
        .collect();
    scene.number(rng.pick(&found))
}

/// A paisa more is placed with the corporation than is allocated.
fn lodge_over(draft: &mut Draft, client: usize, scene: &Scene) {
    let received = draft.amounts[0];
    let lodged = (scene.allocated(client) + 1).min(received);
    let held = (received - lodged) / 2;
    let placed = held + lodged;
    let amounts = [
        received,
        received.saturating_sub(placed),
        placed,
        held,
        lodged,
    ];
    let record = Record {
        account: draft.account,
        amounts,
    };
    let cut = draft.cut;
    *draft = Draft {
        cut,
        first: draft.first,
        ..Draft::of(&record)
    };
}
