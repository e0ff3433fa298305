//! Busy days: steps that aim at the edges of refusals 7 to 14, exactly at
//! them, one over and one under, and now and then at a shortfall.

use super::maker::Maker;
use crate::model::*;

type Aim = (u64, fn(&mut Maker));

/// Each aim with its weight.
const AIMS: [Aim; 20] = [
    (8, open),
    (24, fund),
    (3, at_ceiling),
    (5, hand_back),
    (7, allocate),
    (2, release_there),
    (14, release_free),
    (2, unpledge_there),
    (8, unpledge_free),
    (16, margin_at_edge),
    (8, margin_at_own),
    (9, margin_down),
    (2, margin_same),
    (3, retire_any),
    (2, wind_down),
    (3, stranger),
    (2, wrong_sort),
    (3, revalue),
    (3, revise),
    (8, cure),
];

pub fn step(maker: &mut Maker) {
    let total = AIMS.iter().map(|aim| aim.0).sum();
    let mut drawn = maker.rng.below(total);
    for (weight, aim) in AIMS {
        if drawn < weight {
            return aim(maker);
        }
        drawn -= weight;
    }
}

pub fn busy(maker: &mut Maker) {
    maker.wanted = match maker.rng.below(3) {
        0 => maker.rng.between(3, 12) as usize,
        1 => maker.rng.between(13, 80) as usize,
        _ => MOST_ACCOUNTS,
    };
    let steps = maker.usual_length();
    begin(maker);
    for _ in 0..steps {
        step(maker);
    }
}

/// Most of the accounts, and something in the CM's hand to cover margins.
pub fn begin(maker: &mut Maker) {
    fund_account(maker, 0);
    let most = maker.wanted * 9 / 10;
    while maker.book.count < most && !maker.full() {
        open_any(maker);
    }
    if maker.wanted == MOST_ACCOUNTS {
        while maker.book.count < MOST_ACCOUNTS && !maker.full() {
            open_any(maker);
        }
    }
}

pub fn open_any(maker: &mut Maker) {
    let tm = maker.live_of(Sort::Tm);
    match (maker.rng.below(10), tm) {
        (0 | 1, _) => maker.say(OPEN_CP, 0, 0, &[]),
        (2..=7, Some(tm)) => maker.say(OPEN_CLIENT, 0, tm, &[]),
        _ => maker.say(OPEN_TM, 0, 0, &[]),
    };
}

/// Less than so many.
pub fn open_some(maker: &mut Maker, many: u64) {
    for _ in 0..maker.rng.below(many) {
        open_any(maker);
    }
}

fn open(maker: &mut Maker) {
    if maker.book.count < maker.wanted || maker.rng.one_in(6) {
        open_any(maker);
    } else {
        fund(maker);
    }
}

fn fund(maker: &mut Maker) {
    let account = if maker.rng.one_in(5) { 0 } else { maker.live() };
    fund_account(maker, account);
}

pub fn fund_account(maker: &mut Maker, account: u16) {
    if maker.rng.one_in(3) {
        let amount = maker.amount();
        maker.say_pledge(PLEDGE, account, amount);
        return;
    }
    let mut kinds = [0; 4];
    for _ in 0..maker.rng.between(1, 3) {
        let kind = maker.rng.below(4) as usize;
        kinds[kind] = maker.amount();
    }
    if maker.say_kinds(RECEIVE, account, kinds) && !maker.rng.one_in(4) {
        maker.say_kinds(ALLOCATE, account, kinds);
    }
}

/// Up to the ceiling, past it, and back again so that the day goes on.
fn at_ceiling(maker: &mut Maker) {
    let account = maker.live();
    let row = maker.row(account);
    if maker.rng.one_in(2) {
        let added = maker.rng.near(CEILING - row.pledged);
        maker.say_pledge(PLEDGE, account, added);
        maker.say_pledge(PLEDGE, account, 1);
        let over = maker.row(account).pledged - row.pledged;
        maker.say_pledge(UNPLEDGE, account, over);
        return;
    }
    let kind = maker.rng.below(4) as usize;
    let mut kinds = [0; 4];
    kinds[kind] = maker.rng.near(CEILING - row.received[kind]);
    maker.say_kinds(RECEIVE, account, kinds);
    kinds[kind] = maker.rng.between(1, 2);
    kinds[(kind + 1) % 4] = 1;
    maker.say_kinds(RECEIVE, account, kinds);
    kinds[(kind + 1) % 4] = 0;
    let now = maker.row(account);
    kinds[kind] = now.received[kind] - row.received[kind];
    maker.say_kinds(HAND_BACK, account, kinds);
}

/// For some kinds, an amount near what the bound says; at least one is tried.
fn near_kinds(maker: &mut Maker, bounds: [u64; 4]) -> [u64; 4] {
    let mut kinds = [0; 4];
    for _ in 0..maker.rng.between(1, 2) {
        let kind = maker.rng.below(4) as usize;
        kinds[kind] = maker.rng.near(bounds[kind]);
    }
    kinds
}

/// An account where the bound isn't 0 throughout, if one is found soon.
fn with_something(maker: &mut Maker, bounds: fn(&Maker, u16) -> [u64; 4]) -> (u16, [u64; 4]) {
    let account = maker.live_with(|maker, account| bounds(maker, account) != [0; 4]);
    (account, bounds(maker, account))
}

fn unallocated(maker: &Maker, account: u16) -> [u64; 4] {
    let row = maker.row(account);
    std::array::from_fn(|kind| row.received[kind] - row.allocated[kind])
}

fn allocated(maker: &Maker, account: u16) -> [u64; 4] {
    maker.row(account).allocated
}

fn hand_back(maker: &mut Maker) {
    let (account, bounds) = with_something(maker, unallocated);
    let kinds = near_kinds(maker, bounds);
    maker.say_kinds(HAND_BACK, account, kinds);
}

fn allocate(maker: &mut Maker) {
    let (account, bounds) = with_something(maker, unallocated);
    let kinds = near_kinds(maker, bounds);
    maker.say_kinds(ALLOCATE, account, kinds);
}

fn release_there(maker: &mut Maker) {
    let (account, bounds) = with_something(maker, allocated);
    let kinds = near_kinds(maker, bounds);
    maker.say_kinds(RELEASE, account, kinds);
}

/// Kinds whose sum is near what is free, none of them more than allocated,
/// so that only the sum can tell. Securities are as many as cost so much, the
/// last of which cost nothing, and now and then one more.
pub fn release_free(maker: &mut Maker) {
    let (account, bounds) = with_something(maker, allocated);
    let mut left = maker.rng.near(maker.free(account));
    let mut kinds = [0; 4];
    let first = maker.rng.below(4) as usize;
    for kind in (first..first + 4).map(|kind| kind % 4) {
        let by = by_rule(kind);
        let most = costing(by, bounds[kind], left);
        kinds[kind] = if maker.rng.one_in(3) {
            maker.rng.below(most + 1)
        } else {
            most
        };
        let kept = bounds[kind] - kinds[kind];
        left -= by.counted(bounds[kind]) - by.counted(kept);
    }
    if kinds[SECURITIES] < bounds[SECURITIES] && maker.rng.one_in(4) {
        kinds[SECURITIES] += 1;
    }
    maker.say_kinds(RELEASE, account, kinds);
}

/// How a kind counts: all but securities in full.
fn by_rule(kind: usize) -> Rule {
    match kind {
        SECURITIES => Rule::New,
        _ => Rule::Old,
    }
}

/// The most of a kind that may go where it may cost so much.
pub fn costing(by: Rule, there: u64, cost: u64) -> u64 {
    let kept = by.counted(there).saturating_sub(cost);
    there - by.face(kept)
}

fn pledged(maker: &Maker, account: u16) -> [u64; 4] {
    [maker.row(account).pledged, 0, 0, 0]
}

fn unpledge_there(maker: &mut Maker) {
    let (account, bounds) = with_something(maker, pledged);
    let amount = maker.rng.near(bounds[0]);
    maker.say_pledge(UNPLEDGE, account, amount);
}

pub fn unpledge_free(maker: &mut Maker) {
    let (account, bounds) = with_something(maker, pledged);
    let free = maker.free(account);
    let amount = maker.rng.near(free.min(bounds[0]));
    maker.say_pledge(UNPLEDGE, account, amount);
}

/// The largest margin that 13 lets pass: along the way up, each account may
/// be deemed what it is now and the CM's free besides.
fn largest_margin(maker: &Maker, account: usize) -> u64 {
    let book = &maker.book;
    let mut may_need = book.collateral(account);
    if account == 0 {
        return may_need.saturating_sub(book.need(0) - book.rows[0].margin);
    }
    let above = book.answers_for(account);
    if above != 0 {
        may_need += book.free(above);
    }
    may_need += book.deemed(account) + book.free(0);
    may_need - (book.need(account) - book.rows[account].margin)
}

/// Near what it is, near what the account needs of it, nothing, or anything.
pub fn revalue(maker: &mut Maker) {
    let account = maker.live();
    let at = usize::from(account);
    let pledged = maker.book.rows[at].pledged;
    let needed = (maker.book.need(at) + pledged).saturating_sub(maker.book.collateral(at));
    let anything = maker.amount();
    let value = maker
        .rng
        .pick(&[pledged, needed, needed, 0, CEILING, anything]);
    let value = maker.rng.beside(value).min(CEILING);
    maker.say_value(account, value);
}

/// Near what the CM can cover, nothing, the ceiling, or anything.
pub fn revise(maker: &mut Maker) {
    let account = maker.live();
    let edge = largest_margin(maker, usize::from(account)).min(CEILING);
    let anything = maker.amount();
    let margin = maker.rng.pick(&[edge, edge, edge, 0, anything]);
    let margin = match maker.rng.below(40) {
        0 => CEILING,
        _ => maker.rng.beside(margin).min(CEILING),
    };
    maker.say_revision(account, margin);
}

/// Lessens a shortfall, mostly to nothing.
pub fn cure(maker: &mut Maker) {
    let short = maker.shortfall();
    if short == 0 {
        return fund(maker);
    }
    let account = maker.live();
    let pledged = maker.book.rows[0].pledged;
    let value = maker.rng.near(pledged + short).min(CEILING);
    let (more, fewer) = (maker.rng.near(short), maker.rng.near(short));
    let margin = maker.row(account).margin;
    match maker.rng.below(5) {
        0 => maker.say_value(0, value),
        1 => maker.say_margin(account, margin.saturating_sub(fewer)),
        2 => maker.say_revision(account, margin.saturating_sub(fewer)),
        3 => maker.say_pledge(PLEDGE, 0, more),
        _ => {
            let kinds = [more, 0, 0, 0];
            maker.say_kinds(RECEIVE, 0, kinds) && maker.say_kinds(ALLOCATE, 0, kinds)
        }
    };
}

fn margin_at_edge(maker: &mut Maker) {
    let account = maker.live();
    let edge = largest_margin(maker, usize::from(account)).min(CEILING);
    let margin = maker.rng.near(edge).min(CEILING);
    maker.say_margin(account, margin);
}

/// Near the account's own collateral, or with what its TM has free.
fn margin_at_own(maker: &mut Maker) {
    let account = maker.live();
    let mut edge = maker.own(account);
    let above = maker.book.answers_for(usize::from(account));
    if above != 0 && maker.rng.one_in(2) {
        edge += maker.book.free(above);
    }
    let margin = maker.rng.near(edge.min(CEILING)).min(CEILING);
    maker.say_margin(account, margin);
}

/// Room for later margins.
fn margin_down(maker: &mut Maker) {
    let account = maker.live();
    let margin = maker.row(account).margin;
    let lower = if maker.rng.one_in(2) {
        0
    } else {
        maker.rng.below(margin + 1)
    };
    maker.say_margin(account, lower);
}

fn margin_same(maker: &mut Maker) {
    let account = maker.live();
    let margin = maker.row(account).margin;
    maker.say_margin(account, margin);
}

fn retire_any(maker: &mut Maker) {
    let account = maker.live().max(1);
    maker.say(RETIRE, 0, account, &[]);
}

/// Takes everything out, then retires; a TM's clients may still be live, or
/// need what it has.
pub fn wind_down(maker: &mut Maker) {
    let account = maker.live();
    wind_down_account(maker, account);
}

pub fn wind_down_account(maker: &mut Maker, account: u16) {
    maker.say_margin(account, 0);
    let row = maker.row(account);
    maker.say_kinds(RELEASE, account, row.allocated);
    if row.pledged != 0 {
        maker.say_pledge(UNPLEDGE, account, row.pledged);
    }
    let kinds = unallocated(maker, account);
    maker.say_kinds(HAND_BACK, account, kinds);
    maker.say(RETIRE, 0, account, &[]);
}

/// Refusal 7: numbers never given, those of retired accounts and, where there is
/// an archive, those in it.
pub fn stranger(maker: &mut Maker) {
    match maker.archived() {
        Some(number) if !maker.rng.one_in(3) => {
            return maker.by_number(|maker| any_good_record(maker, number));
        }
        _ => {}
    }
    let count = maker.book.count as u16;
    let rows = &maker.book.rows[..maker.book.count];
    let retired = rows.iter().position(|row| !row.live);
    let account = match (maker.rng.below(5), retired) {
        (0, _) => count,
        (1, _) => maker.rng.pick(&[256, 257, 511, 512, 65_535]),
        (2, _) => 256 + maker.live(),
        (_, Some(retired)) => retired as u16,
        _ => count + 1,
    };
    any_good_record(maker, account);
}

/// A record in range for any code.
pub fn any_good_record(maker: &mut Maker, account: u16) {
    let code = maker.rng.between(1, u64::from(LAST_CODE)) as u8;
    let amount = maker.amount();
    match code {
        RECEIVE | HAND_BACK | ALLOCATE | RELEASE => {
            let kinds = near_kinds(maker, [amount; 4]);
            maker.say_kinds(code, account, kinds)
        }
        PLEDGE | UNPLEDGE => maker.say_pledge(code, account, amount),
        SET_MARGIN => maker.say_margin(account, amount),
        REVALUE => maker.say_value(account, amount),
        REVISE => maker.say_revision(account, amount),
        _ => maker.say(code, 0, account, &[]),
    };
}

/// Refusal 8; with 256 numbers given it must still come before 9.
fn wrong_sort(maker: &mut Maker) {
    let account = maker.live();
    match maker.rng.below(4) {
        0 => maker.say(RETIRE, 0, 0, &[]),
        1 => maker.say(OPEN_CLIENT, 0, account, &[]),
        2 => maker.say(OPEN_TM, 0, account.max(1), &[]),
        _ => maker.say(OPEN_CP, 0, account.max(1), &[]),
    };
}
