//! Days that end with a book made for a close-out: several clients under a TM
//! with margins past their collateral, so that TMs and the CM answer for many
//! at once.

use super::maker::Maker;
use super::steer::fund_account;
use crate::model::*;

/// TMs and the CM are left with something blocked and something free.
pub fn shared(maker: &mut Maker) {
    open_funded(maker);
    for _ in 0..2 * maker.book.count {
        let account = maker.live();
        margin_by_sort(maker, account);
    }
}

/// The same, and then what TMs and the CM have free is called for: to the
/// last paisa or all but one.
pub fn spent(maker: &mut Maker) {
    shared(maker);
    for account in 0..maker.book.count {
        let tm = maker.book.answers_for(account);
        if tm != 0 && maker.book.is_live(account) {
            call_for(maker, account, tm);
        }
    }
    if let Some(cp) = maker.live_of(Sort::Cp) {
        call_for(maker, usize::from(cp), 0);
    }
}

/// Groups of accounts that have something.
pub fn open_funded(maker: &mut Maker) {
    open_groups(maker);
    for account in 0..maker.book.count as u16 {
        fund_by_sort(maker, account);
    }
}

/// A few TMs with many clients, and CPs between them; some retire.
fn open_groups(maker: &mut Maker) {
    maker.say(OPEN_TM, 0, 0, &[]);
    maker.say(OPEN_CP, 0, 0, &[]);
    let most = if maker.rng.one_in(6) { 120 } else { 20 };
    for _ in 0..maker.rng.between(6, most) {
        match (maker.rng.below(12), maker.live_of(Sort::Tm)) {
            (0, _) | (_, None) => maker.say(OPEN_TM, 0, 0, &[]),
            (1..=3, _) => maker.say(OPEN_CP, 0, 0, &[]),
            (_, Some(tm)) => maker.say(OPEN_CLIENT, 0, tm, &[]),
        };
        if maker.rng.one_in(12) {
            let last = maker.book.count as u16 - 1;
            maker.say(RETIRE, 0, last, &[]);
        }
    }
}

/// The more, the more others an account answers for.
fn fund_by_sort(maker: &mut Maker, account: u16) {
    let times = match maker.row(account).sort {
        Sort::Cm => 8,
        Sort::Tm => 4,
        _ => maker.rng.below(3),
    };
    for _ in 0..times {
        fund_account(maker, account);
    }
}

fn margin_by_sort(maker: &mut Maker, account: u16) {
    let row = maker.row(account);
    let (own, cm_free) = (maker.own(account), maker.book.free(0));
    let margin = match row.sort {
        Sort::Cm => maker.rng.below(cm_free / 3 + 1),
        Sort::Tm if maker.rng.one_in(4) => own + maker.rng.below(cm_free / 4 + 1),
        Sort::Tm => maker.rng.below(own / 3 + 1),
        Sort::Client => client_margin(maker, own, usize::from(row.tm)),
        _ => own + maker.rng.below(cm_free / 4 + 1),
    };
    maker.say_margin(account, margin.min(CEILING));
}

/// Mostly into what the TM has free, now and then through it to the CM's.
fn client_margin(maker: &mut Maker, own: u64, tm: usize) -> u64 {
    let (tm_free, cm_free) = (maker.book.free(tm), maker.book.free(0));
    match maker.rng.below(12) {
        0 => own + tm_free + maker.rng.below(cm_free / 4 + 1),
        1 | 2 => maker.rng.below(own + 1),
        _ => own + maker.rng.below(tm_free / 2 + 1),
    }
}

/// A margin so much past own collateral that the account above has nothing
/// free any more, or one paisa.
fn call_for(maker: &mut Maker, account: usize, above: usize) {
    let row = maker.book.rows[account];
    let free = maker.book.free(above);
    let called = free.saturating_sub(maker.rng.below(2));
    let margin = row.margin.max(maker.book.collateral(account)) + called;
    maker.say_margin(account as u16, margin.min(CEILING));
}
