//! Figures for the currency desk: the ends of the range on both sides and of
//! the type, faults beside those of positions, lists of clients.

use super::desk::{at_fault, few, Wrong};
use crate::listed;
use crate::make::rng::Rng;
use crate::model::calls::{Call, LIST_MOST};
use crate::model::*;

const LIMIT: i64 = CEILING as i64;

/// A figure at an edge.
pub const EDGES: [i64; 9] = [
    i64::MIN,
    -LIMIT - 1,
    -LIMIT,
    -1,
    0,
    1,
    LIMIT,
    LIMIT + 1,
    i64::MAX,
];

/// What is wrong ahead of the figures, if anything.
#[derive(Clone, Copy, PartialEq, Eq, PartialOrd, Ord, Debug)]
pub enum Ahead {
    TooMany,
    At(Wrong),
    Initial,
    Nothing,
}

pub const AHEAD: [Ahead; 6] = [
    Ahead::TooMany,
    Ahead::At(Wrong::Product),
    Ahead::At(Wrong::Option),
    Ahead::At(Wrong::Notional),
    Ahead::Initial,
    Ahead::Nothing,
];

listed! {
    /// What a list's room is beside two for each client.
    Room: Right, OneLess, OneMore,
    /// One for each client, or none at all.
    Half
}

listed! {
    /// Where a client's figure is out of range.
    Faulty: Nobody, First, Last, Between, All
}

#[derive(Clone, Copy, PartialEq, Eq, PartialOrd, Ord, Debug)]
pub enum Case {
    /// So many figures, one of which is at this edge.
    Edge(usize, usize, i64),
    /// So many figures that come to this.
    Sum(usize, i64),
    /// So many figures, what is wrong ahead of them, whether they are out of
    /// range, and whether the sum would pass the ceiling.
    With(usize, Ahead, bool, bool),
    /// Initial margin, charges and exposure come to the ceiling and so much more.
    Level(usize, u64),
    /// So many figures a client, so many clients.
    Clients(usize, usize),
    Room(usize, Room),
    Faulty(usize, Faulty),
    /// A list that doesn't part into clients.
    Uneven(usize),
}

pub const SUMS: [i64; 5] = [-1, 0, 1, 2 * LIMIT, -2 * LIMIT];
pub const CLIENTS: [usize; 4] = [0, 1, 2, 1_024];

impl Case {
    pub fn all() -> Vec<Case> {
        let mut all = Vec::new();
        for many in [2, 4] {
            for place in 0..many {
                all.extend(EDGES.map(|edge| Case::Edge(many, place, edge)));
            }
            all.extend(SUMS.map(|sum| Case::Sum(many, sum)));
            for ahead in AHEAD {
                for wrong in [true, false] {
                    all.push(Case::With(many, ahead, wrong, true));
                    // An initial margin past the ceiling is past it with the sum.
                    if ahead != Ahead::Initial {
                        all.push(Case::With(many, ahead, wrong, false));
                    }
                }
            }
            all.extend([0, 1].map(|more| Case::Level(many, more)));
            all.extend(CLIENTS.map(|clients| Case::Clients(many, clients)));
            all.extend(Room::ALL.map(|room| Case::Room(many, room)));
            all.extend(Faulty::ALL.map(|faulty| Case::Faulty(many, faulty)));
            all.push(Case::Uneven(many));
        }
        all
    }

    pub fn call(self, rng: &mut Rng) -> Call {
        match self {
            Case::Edge(many, place, edge) => {
                let mut figures = good(many, rng);
                figures[place] = edge;
                Call::Exposure(figures)
            }
            Case::Sum(many, sum) => Call::Exposure(coming_to(many, sum, rng)),
            Case::With(many, ahead, wrong, past) => with(many, ahead, wrong, past, rng),
            Case::Level(many, more) => level(many, more, rng),
            Case::Clients(each, clients) => list(each, clients, Room::Right, rng),
            Case::Room(each, room) => {
                let clients = rng.between(2, 40) as usize;
                list(each, clients, room, rng)
            }
            Case::Faulty(each, faulty) => faulty_list(each, faulty, rng),
            Case::Uneven(each) => uneven(each, rng),
        }
    }
}

fn figure(rng: &mut Rng) -> i64 {
    let drawn = rng.below(2 * CEILING + 1) as i64 - LIMIT;
    let small = rng.below(200) as i64 - 100;
    rng.pick(&[drawn, drawn, small, 0, LIMIT, -LIMIT])
}

pub fn good(many: usize, rng: &mut Rng) -> Vec<i64> {
    (0..many).map(|_| figure(rng)).collect()
}

fn past(rng: &mut Rng) -> i64 {
    rng.pick(&[LIMIT + 1, -LIMIT - 1, i64::MAX, i64::MIN])
}

/// Half of it in one figure and half in another, with others that cancel out.
fn coming_to(many: usize, sum: i64, rng: &mut Rng) -> Vec<i64> {
    let moved = match sum.abs() {
        0 | 1 => rng.below(CEILING) as i64,
        _ => 0,
    };
    let mut figures = vec![sum / 2 + moved, sum - sum / 2 - moved];
    if many == 4 {
        let other = figure(rng);
        figures.extend([other, -other]);
        let turned = rng.below(4) as usize;
        figures.rotate_left(turned);
    }
    figures
}

fn with(many: usize, ahead: Ahead, wrong: bool, is_past: bool, rng: &mut Rng) -> Call {
    let mut positions = few(rng);
    let mut initial = rng.below(1_000);
    let mut figures = vec![0; many];
    if is_past {
        initial = CEILING - rng.below(9);
        figures[0] = 10 + rng.below(CEILING / 2) as i64;
    }
    match ahead {
        Ahead::TooMany => positions = vec![at_fault(Wrong::Nothing, rng); 65],
        Ahead::At(fault) => positions.push(at_fault(fault, rng)),
        Ahead::Initial => initial = rng.pick(&[CEILING + 1, u64::MAX]),
        Ahead::Nothing => {}
    }
    if wrong {
        let place = rng.between(1, many as u64 - 1) as usize;
        figures[place] = past(rng);
    }
    Call::MarginWith(
        rng.next() as u16,
        rng.next() as u16,
        initial,
        positions,
        figures,
    )
}

fn level(many: usize, more: u64, rng: &mut Rng) -> Call {
    let positions = few(rng);
    let charges: u64 = positions.iter().filter_map(|one| one.charge().ok()).sum();
    let exposure = rng.between(1, CEILING / 2);
    let initial = CEILING - charges - exposure + more;
    let figures = coming_to(many, exposure as i64, rng);
    Call::MarginWith(rng.next() as u16, 2, initial, positions, figures)
}

fn list(each: usize, clients: usize, room: Room, rng: &mut Rng) -> Call {
    let figures = good(each * clients, rng);
    let wanted = 2 * clients;
    let room = match room {
        Room::Right => wanted,
        Room::OneLess => wanted.saturating_sub(1),
        Room::OneMore => wanted + 1,
        Room::Half => rng.pick(&[clients, 0, LIST_MOST]),
    };
    Call::Exposures(each as u8, figures, room)
}

fn faulty_list(each: usize, faulty: Faulty, rng: &mut Rng) -> Call {
    let clients = rng.between(3, 30) as usize;
    let mut figures = good(each * clients, rng);
    let between = rng.between(1, clients as u64 - 2) as usize;
    let at_fault: Vec<usize> = match faulty {
        Faulty::Nobody => Vec::new(),
        Faulty::First => vec![0],
        Faulty::Last => vec![clients - 1],
        Faulty::Between => vec![between],
        Faulty::All => (0..clients).collect(),
    };
    for client in at_fault {
        let place = rng.below(each as u64) as usize;
        figures[client * each + place] = past(rng);
    }
    Call::Exposures(each as u8, figures, 2 * clients)
}

/// With a room for the clients that are whole, or one more.
fn uneven(each: usize, rng: &mut Rng) -> Call {
    let clients = rng.below(9) as usize;
    let over = rng.between(1, each as u64 - 1) as usize;
    let figures = good(each * clients + over, rng);
    let room = 2 * clients + rng.pick(&[0, 1, 2]);
    Call::Exposures(each as u8, figures, room)
}
