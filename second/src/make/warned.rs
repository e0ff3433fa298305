//! Days about risk reduction mode. They are short enough for a bundle.

use super::deemed::open_funded;
use super::maker::Maker;
use super::steer::{open_any, step, wind_down_account};
use super::uses::{put_in, stand, take_out, waver, Mark};
use crate::model::*;

/// Each mark from each side.
const STANDS: [(Mark, Mode); 10] = [
    (Mark::Nine, Mode::Off),
    (Mark::Nine, Mode::On),
    (Mark::TenthUnderNine, Mode::Off),
    (Mark::TenthUnderNine, Mode::On),
    (Mark::Lower, Mode::Off),
    (Mark::Lower, Mode::On),
    (Mark::HalfUnderLower, Mode::Off),
    (Mark::HalfUnderLower, Mode::On),
    (Mark::TenthUnderLower, Mode::Off),
    (Mark::TenthUnderLower, Mode::On),
];

/// Every kind of look in every day, whatever the seed. At the end a TM stands
/// at each mark, come from off and come from on, and the CM at one that goes
/// on with the seed.
pub fn warned(maker: &mut Maker) {
    of_nothing(maker);
    let cm = collateral(maker);
    let in_cash = maker.rng.one_in(3);
    put_in(maker, 0, cm, in_cash);
    tm_to_and_fro(maker);
    for (mark, from) in in_turn(maker) {
        tm_at(maker, mark, from);
    }
    let lever = lever_of_cm(maker);
    to_and_fro(maker, 0, lever);
    for (mark, from) in in_turn(maker) {
        cm_at(maker, lever, mark, from);
    }
}

fn in_turn(maker: &Maker) -> impl Iterator<Item = (Mark, Mode)> {
    let first = maker.seed as usize % STANDS.len();
    STANDS.into_iter().cycle().skip(first).take(STANDS.len())
}

/// Nobody but a client has collateral, 10 tens and 1: its excess of eleven
/// tenths, of one, or none is all that its TM and the CM use, of nothing. Then
/// the TM retires, having been on.
fn of_nothing(maker: &mut Maker) {
    let tm = maker.opened(OPEN_TM, 0);
    let client = maker.opened(OPEN_CLIENT, tm);
    let tens = maker.rng.between(1, 9);
    maker.say_pledge(PLEDGE, client, 10 * tens + 1);
    for margin in [9 * tens + 2, 9 * tens + 1, 0, 9 * tens + 1] {
        maker.say_margin(client, margin);
    }
    maker.opened(OPEN_CP, 0);
    wind_down_account(maker, client);
    wind_down_account(maker, tm);
    maker.say(OPEN_CLIENT, 0, tm, &[]);
}

/// Enough for the marks to lie apart.
fn collateral(maker: &mut Maker) -> u64 {
    maker.amount() + 3
}

/// After a TM's own coming and going it retires.
fn tm_to_and_fro(maker: &mut Maker) {
    let tm = maker.opened(OPEN_TM, 0);
    let client = maker.opened(OPEN_CLIENT, tm);
    let amount = collateral(maker);
    put_in(maker, tm, amount, false);
    to_and_fro(maker, tm, client);
    wind_down_account(maker, client);
    wind_down_account(maker, tm);
}

/// At nine collaterals a seventeenth more keeps it on (twice nine are
/// seventeen and one), and a paisa more turns it off; taken out again but for
/// a paisa it stays off, and without that paisa it is on. Once in cash and
/// once as a pledge.
fn to_and_fro(maker: &mut Maker, member: u16, lever: u16) {
    stand(maker, member, lever, Mark::Nine, Mode::Off);
    let part = maker.own(member) / 17;
    for in_cash in [true, false] {
        put_in(maker, member, part, in_cash);
        put_in(maker, member, 1, in_cash);
        take_out(maker, member, part, in_cash);
        take_out(maker, member, 1, in_cash);
    }
}

fn tm_at(maker: &mut Maker, mark: Mark, from: Mode) {
    let tm = maker.opened(OPEN_TM, 0);
    let client = maker.opened(OPEN_CLIENT, tm);
    let amount = collateral(maker);
    let one_more = mark.wants_one_more(amount, false);
    let in_cash = maker.rng.one_in(3);
    put_in(maker, tm, amount + u64::from(one_more), in_cash);
    stand(maker, tm, client, mark, from);
    follow(maker);
}

fn cm_at(maker: &mut Maker, lever: u16, mark: Mark, from: Mode) {
    let drawn = maker.rng.one_in(2);
    if mark.wants_one_more(maker.book.collateral(0), drawn) {
        put_in(maker, 0, 1, false);
    }
    stand(maker, 0, lever, mark, from);
    follow(maker);
}

/// An opening looks again and changes nothing; a refusal doesn't look.
fn follow(maker: &mut Maker) {
    if maker.rng.one_in(2) {
        maker.say(RETIRE, 0, 0, &[]);
    }
    open_any(maker);
}

/// A CP's excess, a TM's own, or a client's that goes through its TM.
fn lever_of_cm(maker: &mut Maker) -> u16 {
    match maker.rng.below(3) {
        0 => maker.opened(OPEN_CP, 0),
        1 => maker.opened(OPEN_TM, 0),
        _ => {
            let tm = maker.opened(OPEN_TM, 0);
            maker.opened(OPEN_CLIENT, tm)
        }
    }
}

/// Many TMs and CPs whose uses go to and fro about the thresholds.
pub fn wavering(maker: &mut Maker) {
    open_funded(maker);
    for _ in 0..maker.usual_length() {
        if maker.rng.one_in(6) {
            step(maker);
        } else {
            waver(maker);
        }
    }
}
