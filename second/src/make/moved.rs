//! Days about needs that move with a record, or just don't: those of an
//! account's TM and of the CM. They are short enough for a bundle.

use super::deemed::open_funded;
use super::maker::Maker;
use super::steer::{open_some, release_free, step, unpledge_free, wind_down_account};
use crate::model::*;

/// Every kind of move in every day, whatever the seed. At the end TMs stand
/// about their collateral by what a client of each is deemed.
pub fn moved(maker: &mut Maker) {
    open_some(maker, 4);
    about(maker, 0);
    let for_all = 4 * amount(maker);
    maker.say_pledge(PLEDGE, 0, for_all);
    let cp = maker.opened(OPEN_CP, 0);
    about(maker, cp);
    let tm = maker.opened(OPEN_TM, 0);
    about(maker, tm);
    let for_clients = amount(maker);
    deposit(maker, tm, for_clients);
    let neighbour = maker.opened(OPEN_CLIENT, tm);
    let deemed = maker.rng.between(1, 3);
    maker.say_margin(neighbour, deemed);
    let client = maker.opened(OPEN_CLIENT, tm);
    about(maker, client);
    about_tm(maker, tm, client);
    at_full_use(maker, [client, tm, cp]);
    for account in [client, neighbour, tm, cp] {
        wind_down_account(maker, account);
    }
    for stand in 0..4 {
        stay(maker, stand);
    }
}

/// Enough for parts of it to be taken out.
fn amount(maker: &mut Maker) -> u64 {
    maker.amount() + 5
}

fn allocate_new(maker: &mut Maker, account: u16, kind: usize, amount: u64) -> bool {
    maker.say_kind(RECEIVE, account, kind, amount)
        && maker.say_kind(ALLOCATE, account, kind, amount)
}

/// As an allocation, or as a pledge. Securities of so much count as the
/// amount where the account has none, and else as a paisa more or less.
fn deposit(maker: &mut Maker, account: u16, amount: u64) {
    let kind = maker.rng.below(4) as usize;
    match (maker.rng.one_in(2), kind) {
        (true, SECURITIES) => allocate_new(maker, account, kind, Rule::New.face(amount)),
        (true, _) => allocate_new(maker, account, kind, amount),
        _ => maker.say_pledge(PLEDGE, account, amount),
    };
}

/// A kind that counts in full.
fn full_kind(maker: &mut Maker) -> usize {
    maker.rng.below(SECURITIES as u64) as usize
}

/// About the account's own collateral: up to it, a paisa over and back again
/// by its margin, by an allocation and by a pledge. For the CM over is 13.
fn about(maker: &mut Maker, account: u16) {
    let (kind, part) = (full_kind(maker), amount(maker));
    let pledged = maker.rng.between(part / 2 + 3, part);
    let securities = maker.rng.between(1, 21);
    allocate_new(maker, account, SECURITIES, securities);
    allocate_new(maker, account, kind, part);
    maker.say_pledge(PLEDGE, account, pledged);
    let whole = maker.own(account);
    maker.say_around(Maker::say_margin, account, whole, &[-1, 0, 1, 0, 0, 1]);
    allocate_new(maker, account, kind, 1);
    maker.say_margin(account, whole + 2);
    maker.say_pledge(PLEDGE, account, 1);
    take_out_free(maker, account, kind, [part, pledged]);
}

/// What a lower margin leaves free is taken out to the last paisa: of what is
/// allocated, and of what is pledged.
fn take_out_free(maker: &mut Maker, account: u16, kind: usize, parts: [u64; 2]) {
    let [allocated, pledged] = parts;
    let released = leave_free(maker, account, allocated);
    maker.say_kind(RELEASE, account, kind, released);
    maker.say_kind(HAND_BACK, account, kind, released);
    let unpledged = leave_free(maker, account, pledged);
    maker.say_pledge(UNPLEDGE, account, unpledged);
}

/// More than an eighth of its collateral, by a margin come to from none, so
/// that a member is not in risk reduction mode then (17).
fn leave_free(maker: &mut Maker, account: u16, most: u64) -> u64 {
    let own = maker.own(account);
    let free = maker.rng.between(own / 8 + 1, most - 1);
    maker.say_margin(account, 0);
    maker.say_margin(account, own.saturating_sub(free));
    free
}

/// About the TM's collateral by what the client is deemed, likewise.
fn about_tm(maker: &mut Maker, tm: u16, client: u16) {
    let whole = maker.own(client) + maker.free(tm);
    maker.say_around(Maker::say_margin, client, whole, &[0, 1, 0, 1]);
    let kind = full_kind(maker);
    allocate_new(maker, client, kind, 1);
    maker.say_margin(client, whole + 2);
    maker.say_pledge(PLEDGE, client, 1);
}

/// K6: all of the CM's collateral is needed, a part of it for each of these
/// and the rest for itself, and nothing on the way to it is free. For each an
/// equal margin, one a paisa more (13), a lower one, and back to full use.
fn at_full_use(maker: &mut Maker, [client, tm, cp]: [u16; 3]) {
    let cm_margin = maker.book.rows[0].margin;
    for (account, part) in [(client, 6), (tm, 5), (cp, 4), (0, 1)] {
        let more = maker.free_below_cm(account) + maker.book.free(0) / part;
        let margin = maker.row(account).margin;
        maker.say_margin(account, margin + more);
    }
    for account in [client, tm, cp, 0] {
        let margin = maker.row(account).margin;
        let lower = maker.rng.below(margin);
        for margin in [margin, margin + 1, lower, margin] {
            maker.say_margin(account, margin);
        }
    }
    maker.say_margin(0, cm_margin);
}

/// A TM with a paisa free (0), with none (1), deemed a paisa (2) or more (3).
fn stay(maker: &mut Maker, stand: u64) {
    let tm = maker.opened(OPEN_TM, 0);
    let client = maker.opened(OPEN_CLIENT, tm);
    for account in [tm, client] {
        let amount = amount(maker);
        deposit(maker, account, amount);
    }
    let more = match stand {
        3 => 3 + maker.rng.below(maker.book.free(0) / 2),
        _ => stand,
    };
    let margin = (maker.own(tm) + maker.own(client) + more).saturating_sub(1);
    maker.say_margin(client, margin.min(CEILING));
}

/// Many TMs, clients and CPs whose needs go to and fro about collaterals.
pub fn moving(maker: &mut Maker) {
    open_funded(maker);
    for _ in 0..maker.usual_length() {
        match maker.rng.below(10) {
            0 => step(maker),
            1 => release_free(maker),
            2 => unpledge_free(maker),
            3 => take_out_of_member(maker),
            4 | 5 => lessen_deemed(maker),
            _ => move_margin(maker),
        }
    }
}

/// A TM's or the CM's margin comes from none to where the mode is mostly off,
/// and what is free then is taken out, or by one paisa more or less.
fn take_out_of_member(maker: &mut Maker) {
    let member = match maker.live_of(Sort::Tm) {
        Some(tm) if !maker.rng.one_in(3) => tm,
        _ => 0,
    };
    let (row, kind) = (maker.row(member), full_kind(maker));
    let is_release = row.allocated[kind] > 0 && maker.rng.one_in(2);
    let there = if is_release {
        row.allocated[kind]
    } else {
        row.pledged
    };
    maker.say_margin(member, 0);
    let free = maker.free(member);
    let least = (maker.own(member) / 8 + 1).min(there);
    let kept = free.saturating_sub(maker.rng.between(least, there));
    maker.say_margin(member, kept.min(CEILING));
    let amount = maker.rng.beside(maker.free(member));
    if is_release {
        maker.say_kind(RELEASE, member, kind, amount);
    } else {
        maker.say_pledge(UNPLEDGE, member, amount);
    }
}

/// To where the account, or a client's TM, is just not deemed anything, or by
/// one paisa over or under.
fn move_margin(maker: &mut Maker) {
    let account = maker.live();
    let (book, at) = (&maker.book, usize::from(account));
    let row = &book.rows[at];
    let others = book.need(at) - row.margin;
    let mut edge = book.collateral(at).saturating_sub(others);
    if row.sort == Sort::Client && maker.rng.one_in(2) {
        let tm = book.answers_for(at);
        let others = book.need(tm) - book.deemed(at);
        edge += book.collateral(tm).saturating_sub(others);
    }
    let margin = maker.rng.beside(edge).min(CEILING);
    maker.say_margin(account, margin);
}

/// A deposit of what the account is deemed, or of what its TM is, or by one
/// paisa more or less.
fn lessen_deemed(maker: &mut Maker) {
    let account = maker.live_with(|maker, at| maker.book.deemed(usize::from(at)) > 0);
    let (book, at) = (&maker.book, usize::from(account));
    let (deemed, above) = (book.deemed(at), book.deemed(book.answers_for(at)));
    let is_through = 0 < above && above < deemed && maker.rng.one_in(2);
    let edge = if is_through { above } else { deemed };
    let amount = maker.rng.beside(edge).clamp(1, CEILING);
    deposit(maker, account, amount);
}
