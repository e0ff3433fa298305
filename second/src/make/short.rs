//! Days about K8: prices and revisions that leave the CM short of its need, what
//! is refused then and what isn't, and how it is cured. All but `falling` are
//! short enough for a bundle.

use super::deemed::{open_funded, spent};
use super::maker::Maker;
use super::steer::{cure, open_some, revalue, revise, step};
use crate::model::*;

/// A TM, a client of it and a CP.
type Three = [u16; 3];

fn unit(maker: &mut Maker) -> u64 {
    4 + maker.amount() / 64
}

/// Ten units of cash, of securities that count as nine, and pledged.
fn fund(maker: &mut Maker, account: u16, unit: u64) {
    let had = maker.row(account).allocated[SECURITIES];
    let kinds = [10 * unit, 0, 0, 10 * unit + 1 - had];
    maker.put_in(account, kinds);
    maker.say_pledge(PLEDGE, account, 10 * unit);
}

fn margin(maker: &Maker, account: u16) -> u64 {
    maker.row(account).margin
}

fn pledged(maker: &Maker, account: u16) -> u64 {
    maker.row(account).pledged
}

/// The largest margin that 13 lets pass: with all that the account and those that
/// answer for it have free.
pub fn level(maker: &Maker, account: u16) -> u64 {
    margin(maker, account) + maker.free_below_cm(account) + maker.book.free(0)
}

/// K3's needs by codes 12 and 13, every kind of move in every day: about each
/// account's own collateral, and about a TM's by way of its client.
pub fn valued(maker: &mut Maker) {
    open_some(maker, 4);
    let [tm, client, cp] = maker.opened_three();
    let unit = unit(maker);
    for account in [0, tm, client, cp] {
        fund(maker, account, unit);
    }
    let spare = 40 * unit;
    maker.say_pledge(PLEDGE, 0, spare);
    for account in [cp, tm, client] {
        about(maker, account, 0);
        maker.say_revision(account, 0);
    }
    let room = maker.free(tm);
    about(maker, client, room);
    maker.say_revision(client, 0);
    about(maker, 0, 0);
    about_cover(maker);
}

/// Margins and values about the account's collateral, or past it by what its
/// TM has free: up to it, a paisa over, back, and the same once more.
fn about(maker: &mut Maker, account: u16, past: u64) {
    let whole = maker.own(account) + past;
    maker.say_around(
        Maker::say_revision,
        account,
        whole,
        &[-1, 0, 1, 0, -1, -1, 0],
    );
    let value = pledged(maker, account);
    maker.say_around(Maker::say_value, account, value, &[2, 1, 0, -1, 0, 1, 1]);
}

/// The CM, a paisa short, has its cover back by a margin that falls, by an
/// allocation and by a pledge.
fn about_cover(maker: &mut Maker) {
    let whole = maker.own(0);
    maker.say_revision(0, whole + 1);
    maker.say_margin(0, whole);
    maker.say_revision(0, whole + 1);
    maker.put_in(0, [1, 0, 0, 0]);
    maker.say_revision(0, whole + 2);
    maker.say_pledge(PLEDGE, 0, 1);
}

/// Every kind of shortfall in every day, whatever the seed. It ends with one.
pub fn short(maker: &mut Maker) {
    let three = maker.opened_three();
    let unit = unit(maker);
    for account in [0].into_iter().chain(three) {
        fund(maker, account, unit);
    }
    for account in three.into_iter().chain([0]) {
        to_and_fro(maker, account);
    }
    at_the_edges(maker, three);
    begin_shortfall(maker, three, unit);
    under_shortfall(maker, three);
}

/// To cover, past it and back, by revisions and by values, with every cure.
fn to_and_fro(maker: &mut Maker, account: u16) {
    let (start, level) = (margin(maker, account), level(maker, account));
    maker.say_around(Maker::say_revision, account, level, &[0, 1, 3, 2, 0, 5]);
    maker.say_margin(account, level);
    maker.say_revision(account, level + 5);
    maker.put_in(account, [5, 0, 0, 0]);
    maker.say_revision(account, level + 10);
    maker.say_pledge(PLEDGE, account, 5);
    let value = pledged(maker, account);
    maker.say_around(Maker::say_value, account, value, &[1, 0, -1, -3, -2, 0, -5]);
    maker.say_revision(account, start);
    maker.say_value(account, value);
}

/// "Both allow 0", and 4 "for codes outside 1 to 13".
fn at_the_edges(maker: &mut Maker, [_, client, cp]: Three) {
    let value = pledged(maker, cp);
    for value in [0, CEILING, CEILING + 1, value] {
        maker.say_value(cp, value);
    }
    for margin in [CEILING, CEILING + 1, 0] {
        maker.say_revision(client, margin);
    }
    maker.say(REVALUE, 1 << MARGIN, cp, &[1]);
    maker.say(REVISE, 1 << PLEDGED, cp, &[1]);
    let never = maker.book.count as u16;
    maker.say_value(never, 1);
    maker.say_revision(never, 1);
    maker.say(LAST_CODE + 1, 0, 0, &[]);
}

/// About three quarters of each account are needed, and the CM's pledge loses
/// more than is free of it.
fn begin_shortfall(maker: &mut Maker, three: Three, unit: u64) {
    for account in three {
        maker.say_margin(account, 22 * unit);
    }
    let nearly = margin(maker, 0) + maker.book.free(0) - 1;
    maker.say_margin(0, nearly);
    let left = pledged(maker, 0) - 9;
    maker.say_value(0, left);
}

fn under_shortfall(maker: &mut Maker, three: Three) {
    for account in three {
        margins_under(maker, account);
        let free = maker.free(account);
        maker.say_pledge(UNPLEDGE, account, free + 1);
        maker.say_pledge(UNPLEDGE, account, 1);
        maker.say_kinds(RELEASE, account, [free, 0, 0, 0]);
        maker.say_kinds(RELEASE, account, [free - 1, 0, 0, 0]);
        maker.say_kinds(RELEASE, account, [0, 0, 0, 1]);
        maker.say_pledge(UNPLEDGE, account, 1);
    }
    margins_under(maker, 0);
    maker.say_kinds(RELEASE, 0, [0, 0, 0, 1]);
    maker.say_pledge(UNPLEDGE, 0, 1);
    let cp = maker.opened(OPEN_CP, 0);
    maker.say(RETIRE, 0, cp, &[]);
}

/// Up within what the account has free and past it (13), the same, a paisa
/// down (0).
fn margins_under(maker: &mut Maker, account: u16) {
    let now = margin(maker, account);
    let past = level(maker, account) + 1;
    for margin in [now + 1, past, now, now - 1] {
        maker.say_margin(account, margin);
    }
}

/// A day made for a close-out whose last revisions leave a shortfall: of a
/// paisa, or of much.
pub fn wanting(maker: &mut Maker) {
    spent(maker);
    for _ in 0..maker.rng.between(1, 3) {
        let account = maker.live();
        let revised = (level(maker, account) + maker.amount()).min(CEILING);
        maker.say_revision(account, revised);
    }
    if maker.rng.one_in(3) {
        let short = maker.shortfall();
        maker.say_pledge(PLEDGE, 0, short.saturating_sub(1));
    }
    for account in 0..maker.book.count as u16 {
        if maker.shortfall() == 0 {
            let level = level(maker, account);
            maker.say_revision(account, (level + 1).min(CEILING));
        }
    }
    if let (Some(tm), true) = (maker.live_of(Sort::Tm), maker.rng.one_in(2)) {
        maker.say_value(tm, 0);
    }
}

/// Many accounts whose prices and margins move to and fro about cover.
pub fn falling(maker: &mut Maker) {
    open_funded(maker);
    for _ in 0..maker.usual_length() {
        match maker.rng.below(8) {
            0 | 1 => revalue(maker),
            2 | 3 => revise(maker),
            4 | 5 => cure(maker),
            _ => step(maker),
        }
    }
}
