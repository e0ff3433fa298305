//! What made-up calls with figures have met, by their arguments.

use super::desk::wrong;
use crate::make::asked::desk::Wrong;
use crate::make::asked::figures::{Ahead, Case, Faulty, Room, CLIENTS, EDGES, SUMS};
use crate::model::calls::Call;
use crate::model::desk::figures::exposure;
use crate::model::desk::Position;
use crate::model::*;

pub fn cases(call: &Call) -> Vec<Case> {
    match call {
        Call::Exposure(figures) => of_one(figures),
        Call::MarginWith(_, _, initial, positions, figures) => {
            of_margin(*initial, positions, figures)
        }
        Call::Exposures(each, list, room) => of_list(usize::from(*each), list, *room),
        _ => Vec::new(),
    }
}

fn of_one(figures: &[i64]) -> Vec<Case> {
    let many = figures.len();
    let at_edge = (0..many).filter(|&place| EDGES.contains(&figures[place]));
    let mut cases: Vec<Case> = at_edge
        .map(|place| Case::Edge(many, place, figures[place]))
        .collect();
    if exposure(figures).is_ok() {
        let sum = figures.iter().sum();
        cases.extend(SUMS.contains(&sum).then_some(Case::Sum(many, sum)));
    }
    cases
}

fn of_margin(initial: u64, positions: &[Position], figures: &[i64]) -> Vec<Case> {
    let many = figures.len();
    let faults = positions.iter().map(wrong);
    let first = faults.into_iter().find(|&fault| fault != Wrong::Nothing);
    let ahead = match first {
        _ if positions.len() > 64 => Ahead::TooMany,
        Some(fault) => Ahead::At(fault),
        None if initial > CEILING => Ahead::Initial,
        None => Ahead::Nothing,
    };
    let charges: u64 = positions.iter().filter_map(|one| one.charge().ok()).sum();
    let in_range = figures
        .iter()
        .filter(|figure| figure.unsigned_abs() <= CEILING);
    let payable = in_range.sum::<i64>().max(0).unsigned_abs();
    let sum = initial.saturating_add(charges + payable);
    let is_wrong = exposure(figures).is_err();
    let mut cases = vec![Case::With(many, ahead, is_wrong, sum > CEILING)];
    if ahead == Ahead::Nothing && !is_wrong && payable > 0 {
        let more = sum.checked_sub(CEILING).filter(|&more| more < 2);
        cases.extend(more.map(|more| Case::Level(many, more)));
    }
    cases
}

fn of_list(each: usize, list: &[i64], room: usize) -> Vec<Case> {
    if list.len() % each != 0 {
        return vec![Case::Uneven(each)];
    }
    let clients = list.len() / each;
    let room = match room {
        _ if room == 2 * clients => Room::Right,
        _ if room + 1 == 2 * clients => Room::OneLess,
        _ if room == 2 * clients + 1 => Room::OneMore,
        _ => Room::Half,
    };
    let mut cases = vec![Case::Room(each, room)];
    if room == Room::Right {
        let is_known = CLIENTS.contains(&clients);
        cases.extend(is_known.then_some(Case::Clients(each, clients)));
        cases.extend(faulty(each, list).map(|faulty| Case::Faulty(each, faulty)));
    }
    cases
}

/// Of three clients or more.
fn faulty(each: usize, list: &[i64]) -> Option<Faulty> {
    let clients: Vec<&[i64]> = list.chunks(each).collect();
    let is_wrong = |&client: &usize| exposure(clients[client]).is_err();
    let wrong: Vec<usize> = (0..clients.len()).filter(is_wrong).collect();
    match *wrong.as_slice() {
        _ if clients.len() < 3 => None,
        [] => Some(Faulty::Nobody),
        [0] => Some(Faulty::First),
        [one] if one + 1 == clients.len() => Some(Faulty::Last),
        [_] => Some(Faulty::Between),
        _ => (wrong.len() == clients.len()).then_some(Faulty::All),
    }
}
