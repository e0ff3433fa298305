//! Account numbers, lists of losses and rooms.

use super::books::{self, append, find, row, settle};
use super::given::{gone, with_archive};
use super::Room;
use crate::make::losses;
use crate::make::rng::Rng;
use crate::model::calls::Call;
use crate::model::table::MARGIN;
use crate::model::table::*;
use crate::model::*;

/// Whose standing is asked for.
#[derive(Clone, Copy)]
pub enum Who {
    Cm,
    Live(u64),
    Retired,
    NeverGiven,
    Archived,
    PastTable,
}

pub const WHO: [Who; 16] = [
    Who::Cm,
    Who::Cm,
    Who::Live(TRADING),
    Who::Live(TRADING),
    Who::Live(TRADING),
    Who::Live(CLIENT),
    Who::Live(CLIENT),
    Who::Live(CP),
    Who::Live(CP),
    Who::Retired,
    Who::Retired,
    Who::NeverGiven,
    Who::NeverGiven,
    Who::Archived,
    Who::Archived,
    Who::PastTable,
];

pub fn standing(who: Who, rng: &mut Rng) -> Call {
    let mut book = match who {
        Who::Archived => with_archive(rng),
        _ => books::sound(rng),
    };
    let next = u64::from(book.next);
    let given = book.places[rng.below(u64::from(book.count)) as usize][NUMBER];
    let account = match who {
        Who::Cm => 0,
        Who::Live(sort) => {
            let place = find(&book, sort, Some(1), rng).unwrap_or(0);
            book.places[place][NUMBER]
        }
        Who::Retired => {
            let place = retired(&mut book, rng);
            book.places[place][NUMBER]
        }
        Who::NeverGiven => rng.between(next, next + 256),
        Who::Archived => u64::from(gone(&book, rng)),
        Who::PastTable => rng.pick(&[256, 256 + given, 65_280 + given, 65_535]),
    };
    Call::Standing(book, account.min(65_535) as u16)
}

/// The CM's or any other's under a shortfall.
pub fn standing_short(rng: &mut Rng) -> Call {
    let book = books::short(rng);
    let drawn = rng.below(u64::from(book.count));
    let place = rng.pick(&[0, drawn]) as usize;
    let account = book.places[place][NUMBER];
    Call::Standing(book, account as u16)
}

/// The place of one that is there, or of a new one. A full table may have none.
pub(super) fn retired(book: &mut Table, rng: &mut Rng) -> usize {
    let sort = rng.pick(&[TRADING, CLIENT, CP]);
    let room = book.held() < MOST_ACCOUNTS;
    let found = find(book, sort, Some(0), rng);
    found
        .or_else(|| room.then(|| append(book, row(CP, 0, 0))))
        .unwrap_or(0)
}

/// What is wrong with a list of losses, if anything.
#[derive(Clone, Copy)]
pub enum Losses {
    Good,
    /// Exactly, of one account or of all.
    AtCeiling,
    PastCeiling,
    OfRetired,
    OneFewer,
    OneMore,
    None,
    Most,
    /// Each at its margin, without a shortfall and with one.
    AtMargins,
    AtMarginsShort,
    /// Both past the ceiling and one too many: 15 comes first.
    PastAndMore,
}

pub const LOSSES: [Losses; 14] = [
    Losses::Good,
    Losses::Good,
    Losses::Good,
    Losses::Good,
    Losses::AtMargins,
    Losses::AtMarginsShort,
    Losses::AtCeiling,
    Losses::PastCeiling,
    Losses::OfRetired,
    Losses::OneFewer,
    Losses::OneMore,
    Losses::None,
    Losses::Most,
    Losses::PastAndMore,
];

/// Rooms beside the length wanted, mostly that.
pub const LENGTHS: [Room; 7] = [
    Room::Exact,
    Room::Exact,
    Room::Exact,
    Room::OneLess,
    Room::OneMore,
    Room::Nothing,
    Room::Most,
];

pub fn needs(length: Room, rng: &mut Rng) -> Call {
    let book = books::sound(rng);
    let room = length.of(book.held());
    Call::Needs(book, room)
}

pub fn close_out(losses: Losses, length: Room, rng: &mut Rng) -> Call {
    let mut book = match losses {
        Losses::AtMargins => books::short_by(0, rng),
        Losses::AtMarginsShort => books::short(rng),
        _ => books::sound(rng),
    };
    let of_retired = match losses {
        Losses::OfRetired => retired(&mut book, rng),
        _ => 0,
    };
    settle(&mut book, Rule::New);
    let mut list = match book.book() {
        Some(sound) => losses::good(&sound, rng.next()),
        None => vec![0; book.held()],
    };
    let one = rng.below(list.len() as u64) as usize;
    let past = rng.pick(&[CEILING + 1, CEILING + 1, 1 << 63, u64::MAX]);
    match losses {
        Losses::Good => {}
        Losses::AtMargins | Losses::AtMarginsShort => {
            let margins = book.places.iter().map(|place| place[MARGIN]);
            list = margins.take(list.len()).collect();
        }
        Losses::AtCeiling => at_ceiling(&book, &mut list, rng),
        Losses::PastCeiling => list[one] = past,
        Losses::OfRetired => list[of_retired] = rng.pick(&[1, 1_000, CEILING]),
        Losses::OneFewer => list.truncate(list.len() - 1),
        Losses::OneMore => list.push(rng.below(2)),
        Losses::None => list.clear(),
        Losses::Most => list.resize(4_096, 0),
        Losses::PastAndMore => {
            list[one] = past;
            list.push(0);
        }
    }
    // 4,097 numbers would be no room any more.
    let room = length.of(4 * book.held()).min(4_096);
    Call::CloseOut(book, list, room)
}

fn at_ceiling(book: &Table, list: &mut [u64], rng: &mut Rng) {
    let all = rng.one_in(2);
    for (loss, place) in list.iter_mut().zip(&book.places) {
        if place[LIVE] == 1 && (all || rng.one_in(4)) {
            *loss = CEILING;
        }
    }
}
