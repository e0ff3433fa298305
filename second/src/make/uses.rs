//! Steering a TM's or the CM's use to the thresholds of K2: to the tenth by
//! way of an account under it, or one paisa over and under.

use super::maker::Maker;
use crate::model::*;

/// Where a use is to stand.
#[derive(Clone, Copy, PartialEq, Eq)]
pub enum Mark {
    /// On from here.
    Nine,
    TenthUnderNine,
    /// Eight and a half collaterals: an even number of paise has them.
    Lower,
    /// Off up to here, for an odd number of paise.
    HalfUnderLower,
    /// Off up to here, for an even one.
    TenthUnderLower,
}

impl Mark {
    fn tenths(self, collateral: u64) -> u64 {
        match self {
            Mark::Nine => 9 * collateral,
            Mark::TenthUnderNine => (9 * collateral).saturating_sub(1),
            Mark::Lower => 17 * collateral / 2,
            Mark::HalfUnderLower => (17 * collateral).saturating_sub(1) / 2,
            Mark::TenthUnderLower => (17 * collateral).saturating_sub(2) / 2,
        }
    }

    /// One more where the mark isn't there for so many paise, or else the draw.
    pub fn wants_one_more(self, collateral: u64, drawn: bool) -> bool {
        match self {
            Mark::Nine | Mark::TenthUnderNine => drawn,
            Mark::Lower | Mark::TenthUnderLower => collateral % 2 == 1,
            Mark::HalfUnderLower => collateral % 2 == 0,
        }
    }
}

/// Off or on first, then to the mark in one record, the member's own margin.
/// Its lever, an account under it, has the odd tenths.
pub fn stand(maker: &mut Maker, member: u16, lever: u16, mark: Mark, from: Mode) {
    let collateral = maker.own(member);
    no_margin(maker, lever);
    match from {
        Mode::Off => no_margin(maker, member),
        Mode::On => {
            maker.say_margin(member, collateral);
        }
    };
    let wanted = mark
        .tenths(collateral)
        .saturating_sub(others(maker, member));
    set_lever(maker, lever, wanted % 10);
    maker.say_margin(member, wanted / 10);
}

fn no_margin(maker: &mut Maker, account: u16) {
    if maker.row(account).margin != 0 {
        maker.say_margin(account, 0);
    }
}

/// What those under the member have in excess.
fn others(maker: &Maker, member: u16) -> u64 {
    let member = usize::from(member);
    maker.book.used(member) - 10 * maker.book.rows[member].margin
}

/// An excess of so many tenths, below ten, with nothing deemed: odd + 10 tens
/// of collateral and odd + 9 tens of margin.
fn set_lever(maker: &mut Maker, lever: u16, odd: u64) {
    let tens = maker.rng.below(3);
    let (pledged, wanted) = (maker.row(lever).pledged, odd + 10 * tens);
    if wanted > pledged {
        maker.say_pledge(PLEDGE, lever, wanted - pledged);
    }
    if wanted < pledged {
        maker.say_pledge(UNPLEDGE, lever, pledged - wanted);
    }
    maker.say_margin(lever, odd + 9 * tens);
}

/// In cash, or as a pledge.
pub fn put_in(maker: &mut Maker, account: u16, amount: u64, in_cash: bool) {
    match (amount, in_cash) {
        (0, _) => false,
        (_, false) => maker.say_pledge(PLEDGE, account, amount),
        (_, true) => {
            maker.say(RECEIVE, 1, account, &[amount]) && maker.say(ALLOCATE, 1, account, &[amount])
        }
    };
}

pub fn take_out(maker: &mut Maker, account: u16, amount: u64, in_cash: bool) {
    match (amount, in_cash) {
        (0, _) => false,
        (_, false) => maker.say_pledge(UNPLEDGE, account, amount),
        (_, true) => maker.say(RELEASE, 1, account, &[amount]),
    };
}

/// A TM's use, or the CM's, to one of the two thresholds, by one paisa over or
/// under: by its own margin, by one under it, or by its collateral.
pub fn waver(maker: &mut Maker) {
    let member = match maker.live_of(Sort::Tm) {
        Some(tm) if !maker.rng.one_in(4) => tm,
        _ => 0,
    };
    let mark = maker.rng.pick(&[Mark::Nine, Mark::Lower]);
    match (maker.rng.below(4), one_under(maker, member)) {
        (0, _) => move_collateral(maker, member, mark),
        (1 | 2, Some(account)) => margin_under(maker, member, account, mark),
        _ => own_margin(maker, member, mark),
    }
}

fn one_under(maker: &mut Maker, member: u16) -> Option<u16> {
    let under: Vec<u16> = (1..maker.book.count)
        .filter(|&account| maker.book.rows[account].live)
        .filter(|&account| maker.book.answers_for(account) == usize::from(member))
        .map(|account| account as u16)
        .collect();
    maker.rng.any(&under)
}

fn own_margin(maker: &mut Maker, member: u16, mark: Mark) {
    let collateral = maker.own(member);
    let tenths = mark.tenths(collateral);
    let edge = tenths.saturating_sub(others(maker, member)) / 10;
    let margin = maker.rng.beside(edge).min(CEILING);
    maker.say_margin(member, margin);
}

fn margin_under(maker: &mut Maker, member: u16, account: u16, mark: Mark) {
    let (book, at) = (&maker.book, usize::from(account));
    let tenths = mark.tenths(book.collateral(usize::from(member)));
    let without = book.used(usize::from(member)) - book.excess(at);
    let excess = tenths.saturating_sub(without);
    let used = excess + 9 * book.collateral(at);
    let edge = used.saturating_sub(others(maker, account)) / 10;
    let margin = maker.rng.beside(edge).min(CEILING);
    maker.say_margin(account, margin);
}

fn move_collateral(maker: &mut Maker, member: u16, mark: Mark) {
    let used = maker.book.used(usize::from(member));
    let edge = match mark {
        Mark::Nine | Mark::TenthUnderNine => used / 9,
        _ => 2 * used / 17,
    };
    let wanted = maker.rng.beside(edge);
    let row = maker.row(member);
    let now = maker.own(member);
    if wanted > now {
        let in_cash = maker.rng.one_in(2);
        put_in(maker, member, (wanted - now).min(CEILING), in_cash);
    } else {
        take_out(maker, member, now - wanted, row.pledged < now - wanted);
    }
}
