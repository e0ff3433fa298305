//! Days about K5: a member just in risk reduction mode or just out of it, and
//! what it and one under it take out. They are short enough for a bundle.

use super::maker::Maker;
use super::steer::open_some;
use crate::kinds::holds::Way;
use crate::model::*;

/// The member has twenty parts of collateral, so that 90% and 85% of it are
/// whole paise; the one under it has ten units.
struct Scene {
    member: u16,
    under: u16,
    /// Another member, whose mode mustn't matter.
    beside: u16,
    part: u64,
    unit: u64,
}

/// Every kind of taking out by a TM and by its client in every day, whatever
/// the seed; the CM stands beside.
pub fn held(maker: &mut Maker) {
    open_some(maker, 4);
    let member = maker.opened(OPEN_TM, 0);
    let under = maker.opened(OPEN_CLIENT, member);
    play(maker, member, under, 0);
}

/// The same by the CM and by a CP; a TM stands beside.
pub fn withheld(maker: &mut Maker) {
    open_some(maker, 4);
    let beside = maker.opened(OPEN_TM, 0);
    let under = maker.opened(OPEN_CP, 0);
    play(maker, 0, under, beside);
}

fn play(maker: &mut Maker, member: u16, under: u16, beside: u16) {
    let part = 3 + maker.amount() / 16;
    let scene = Scene {
        member,
        under,
        beside,
        part,
        // More than a part, so that the one under it can turn the mode.
        unit: maker.rng.between(part + 1, 2 * part),
    };
    while_off(maker, &scene);
    while_on(maker, &scene);
    turned_by_itself(maker, &scene);
    turned_from_under(maker, &scene);
}

/// Release and unpledge, one of them first.
fn ways(maker: &mut Maker) -> [Way; 2] {
    if maker.rng.one_in(2) {
        [Way::Release, Way::Unpledge]
    } else {
        [Way::Unpledge, Way::Release]
    }
}

/// About half allocated, in one kind that counts in full and a little of it in
/// securities, and half pledged; some more is received.
fn fund(maker: &mut Maker, account: u16, tenth: u64, more: u64) {
    let kind = maker.rng.below(SECURITIES as u64) as usize;
    let allocated = maker.rng.between(4 * tenth, 6 * tenth);
    for (code, amount) in [(RECEIVE, allocated + more), (ALLOCATE, allocated)] {
        maker.say_kind(code, account, kind, amount);
    }
    let counted = maker.rng.below(tenth / 2);
    let face = Rule::New.face(counted).max(1);
    for code in [RECEIVE, ALLOCATE] {
        maker.say_kind(code, account, SECURITIES, face);
    }
    let there = maker.own(account);
    maker.say_pledge(PLEDGE, account, 10 * tenth - there);
}

/// The kind that the account was funded in.
fn kind_of(maker: &Maker, account: u16) -> usize {
    let received = maker.row(account).received;
    let kind = received.iter().position(|&amount| amount != 0);
    kind.unwrap_or(0)
}

fn there(maker: &Maker, account: u16, way: Way) -> u64 {
    let row = maker.row(account);
    match way {
        Way::Release => row.allocated[kind_of(maker, account)],
        Way::Unpledge => row.pledged,
    }
}

fn take_out(maker: &mut Maker, account: u16, way: Way, amount: u64) {
    match way {
        Way::Release => maker.say_kind(RELEASE, account, kind_of(maker, account), amount),
        Way::Unpledge => maker.say_pledge(UNPLEDGE, account, amount),
    };
}

fn put_in(maker: &mut Maker, account: u16, way: Way, amount: u64) {
    match way {
        Way::Release => maker.say_kind(ALLOCATE, account, kind_of(maker, account), amount),
        Way::Unpledge => maker.say_pledge(PLEDGE, account, amount),
    };
}

/// A paisa more than is there, all that is there, a paisa more than is free,
/// a paisa, and all that is free then. What went out comes back.
fn ask(maker: &mut Maker, account: u16, way: Way) {
    let whole = there(maker, account, way);
    let free = maker.free(account);
    for amount in [whole + 1, whole, free + 1, 1] {
        take_out(maker, account, way, amount);
    }
    let free = maker.free(account);
    take_out(maker, account, way, free);
    let gone = whole - there(maker, account, way);
    if gone != 0 {
        put_in(maker, account, way, gone);
    }
}

/// The member is far from the mode and then a paisa from it, the one beside
/// is in it. With the last that is free out, the member is in it too.
fn while_off(maker: &mut Maker, scene: &Scene) {
    let &Scene { member, part, .. } = scene;
    fund(maker, member, 2 * part, 2 * part);
    fund(maker, scene.under, scene.unit, 2 * scene.unit);
    maker.say_margin(scene.under, 8 * scene.unit);
    let tenth = maker.rng.between(scene.unit, 2 * scene.unit);
    maker.say_pledge(PLEDGE, scene.beside, 10 * tenth);
    maker.say_margin(scene.beside, 9 * tenth);
    for way in ways(maker) {
        ask(maker, scene.under, way);
    }
    for way in ways(maker) {
        maker.say_margin(member, 0);
        maker.say_margin(member, 18 * part - 1);
        ask(maker, member, way);
    }
    maker.say_margin(member, 0);
    maker.say_margin(member, 17 * part);
    for way in ways(maker) {
        take_out(maker, member, way, 1);
        put_in(maker, member, way, 1);
    }
}

/// The member is in the mode, first at 90% exactly, and the one beside isn't.
/// Hand back goes on, to the last that isn't allocated.
fn while_on(maker: &mut Maker, scene: &Scene) {
    let &Scene { member, part, .. } = scene;
    maker.say_margin(scene.beside, 0);
    maker.say_margin(member, 18 * part);
    for account in [member, scene.under] {
        for way in ways(maker) {
            ask(maker, account, way);
        }
    }
    let (kind, row) = (kind_of(maker, member), maker.row(member));
    let left = row.received[kind] - row.allocated[kind];
    for (code, amount) in [(HAND_BACK, left + 1), (HAND_BACK, left), (RECEIVE, left)] {
        maker.say_kind(code, member, kind, amount);
    }
    for margin in [18 * part + 1, 18 * part - 1, 17 * part + 1, 17 * part] {
        maker.say_margin(member, margin);
        for way in ways(maker) {
            take_out(maker, member, way, 1);
        }
    }
    maker.say_margin(member, 18 * part);
    take_out(maker, member, Way::Release, 1);
}

/// Off by one record and on again by another. A paisa is asked for right
/// after each: the first goes out and comes back.
fn off_and_on(maker: &mut Maker, member: u16, way: Way, turns: [&dyn Fn(&mut Maker); 2]) {
    let [off, on] = turns;
    off(maker);
    take_out(maker, member, way, 1);
    put_in(maker, member, way, 1);
    on(maker);
    take_out(maker, member, way, 1);
}

/// From 90%: a seventeenth more collateral, or a margin a paisa under 85%.
fn turned_by_itself(maker: &mut Maker, scene: &Scene) {
    let &Scene { member, part, .. } = scene;
    let more = 20 * part / 17 + 1;
    for way in ways(maker) {
        for by in ways(maker) {
            let off = |maker: &mut Maker| put_in(maker, member, by, more);
            let on = |maker: &mut Maker| take_out(maker, member, by, more);
            off_and_on(maker, member, way, [&off, &on]);
        }
        let margin = |margin: u64| {
            move |maker: &mut Maker| {
                maker.say_margin(member, margin);
            }
        };
        let (off, on) = (margin(17 * part - 1), margin(18 * part));
        off_and_on(maker, member, way, [&off, &on]);
    }
}

/// At 90% by ten units of margin under it, a unit of them in excess: off with
/// a margin of eight, or with a ninth more collateral there.
fn turned_from_under(maker: &mut Maker, scene: &Scene) {
    let &Scene {
        member,
        under,
        part,
        unit,
        ..
    } = scene;
    maker.say_margin(under, 10 * unit);
    maker.say_margin(member, 18 * part - unit);
    for way in ways(maker) {
        let margin = |units: u64| {
            move |maker: &mut Maker| {
                maker.say_margin(under, units * unit);
            }
        };
        off_and_on(maker, member, way, [&margin(8), &margin(10)]);
        let more = 10 * unit / 9 + 1;
        let by = ways(maker)[0];
        let off = |maker: &mut Maker| put_in(maker, under, by, more);
        let on = |maker: &mut Maker| take_out(maker, under, by, more);
        off_and_on(maker, member, way, [&off, &on]);
    }
}
