//! Days about K7: what government securities count as, to the paisa. They are
//! short enough for a bundle.

use super::deemed::open_funded;
use super::maker::Maker;
use super::short::level;
use super::steer::{costing, open_some, release_free, step, unpledge_free};
use crate::model::*;

/// Every kind of turn on the tenth in every day, whatever the seed, by a
/// client, a CP, a TM and the CM.
pub fn haircut(maker: &mut Maker) {
    open_some(maker, 3);
    let [tm, client, cp] = maker.opened_three();
    for account in [0, tm, client, cp] {
        little_by_little(maker, account);
        fund(maker, account);
    }
    for account in [client, cp, tm, 0] {
        take_out(maker, account);
        a_paisa(maker, account);
        up_to_cover(maker, account);
    }
}

/// Many accounts with a few paise of securities, and takings out about what is
/// blocked.
pub fn tens(maker: &mut Maker) {
    open_funded(maker);
    for _ in 0..maker.usual_length() {
        let account = maker.live();
        match maker.rng.below(8) {
            0 => step(maker),
            1 | 2 => {
                let more = maker.rng.between(1, 21);
                maker.put_in(account, [0, 0, 0, more]);
            }
            3 => {
                let few = maker.rng.between(1, 3);
                maker.say_kinds(RELEASE, account, [0, 0, 0, few]);
            }
            4 => {
                let margin = maker.rng.beside(maker.own(account)).min(CEILING);
                maker.say_margin(account, margin);
            }
            5 => unpledge_free(maker),
            _ => release_free(maker),
        }
    }
}

fn securities(maker: &Maker, account: u16) -> u64 {
    maker.row(account).allocated[SECURITIES]
}

fn little_by_little(maker: &mut Maker, account: u16) {
    for paise in [1, 9, 10, 11, 19, 20, 21] {
        let more = paise - securities(maker, account).min(paise);
        maker.put_in(account, [0, 0, 0, more]);
    }
}

/// Mostly securities, of a number whose tenth is rounded, and half as much in
/// cash and pledged.
fn fund(maker: &mut Maker, account: u16) {
    let tens = 8 + maker.amount() / 40;
    let odd = 1 + (maker.seed + u64::from(account)) % 9;
    let more = 10 * tens + odd - securities(maker, account).min(10 * tens);
    let cash = maker.rng.between(2 * tens, 3 * tens);
    maker.put_in(account, [cash, 0, 0, more]);
    let pledged = maker.rng.between(4 * tens, 5 * tens);
    maker.say_pledge(PLEDGE, account, pledged);
}

/// A margin come to from none, so that a member is not in the mode, that
/// leaves so much free: more than an eighth of its collateral.
fn leave_free(maker: &mut Maker, account: u16) -> u64 {
    let own = maker.own(account);
    let free = maker.rng.between(own / 8 + 1, own / 8 + own / 12);
    maker.say_margin(account, 0);
    maker.say_margin(account, own - free);
    free
}

/// What would leave a paisa less than is blocked, and then what leaves just
/// that: of securities, of several kinds, of what is pledged.
fn take_out(maker: &mut Maker, account: u16) {
    let there = securities(maker, account);
    for with_cash in [false, true] {
        let free = leave_free(maker, account);
        let cash = u64::from(with_cash) * maker.rng.between(1, free / 3);
        let most = costing(Rule::New, there, free - cash);
        maker.say_kinds(RELEASE, account, [cash, 0, 0, most + 1]);
        maker.say_kinds(RELEASE, account, [cash, 0, 0, most]);
        maker.say_kinds(ALLOCATE, account, [cash, 0, 0, most]);
    }
    let free = leave_free(maker, account);
    maker.say_pledge(UNPLEDGE, account, free + 1);
    maker.say_pledge(UNPLEDGE, account, free);
    maker.say_pledge(PLEDGE, account, free);
}

/// "One paisa therefore counts as nothing": with nothing free, and for a client
/// or CP with something deemed too, from 11 to 10 of the last tens, and on
/// from there to 9.
fn a_paisa(maker: &mut Maker, account: u16) {
    let is_member = maker.book.is_member(usize::from(account));
    let overs: &[u64] = if is_member { &[0] } else { &[0, 1] };
    for over in overs {
        let more = 10 - (securities(maker, account) + 9) % 10;
        maker.put_in(account, [0, 0, 0, more]);
        let margin = maker.own(account) + over;
        maker.say_margin(account, margin);
        maker.say_kinds(RELEASE, account, [0, 0, 0, 1]);
        if is_member {
            maker.put_in(account, [0, 0, 0, 9]);
            let margin = maker.own(account);
            maker.say_margin(account, margin);
        }
        maker.say_kinds(RELEASE, account, [0, 0, 0, 1]);
    }
    maker.say_margin(account, 0);
}

/// The CM's need to its collateral, after a paisa more was refused. Both have
/// a tenth that is rounded up.
fn up_to_cover(maker: &mut Maker, account: u16) {
    for account in [0, account] {
        if securities(maker, account) % 10 == 0 {
            let odd = maker.rng.between(1, 9);
            maker.put_in(account, [0, 0, 0, odd]);
        }
    }
    let margin = level(maker, account);
    let deemed = maker.book.deemed(usize::from(account));
    for margin in [margin + deemed + 1, margin + deemed] {
        maker.say_margin(account, margin);
    }
    if maker.row(account).sort != Sort::Cm {
        maker.say_margin(account, 0);
    }
}
