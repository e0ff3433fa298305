//! Days of openings and retirings.

use super::maker::Maker;
use super::steer::{
    any_good_record, fund_account, open_any, step, stranger, wind_down, wind_down_account,
};
use crate::model::*;

/// More openings than there are numbers, then work on the last accounts.
pub fn openings(maker: &mut Maker) {
    maker.scale = maker.scale.min(1_000_000);
    maker.say_pledge(PLEDGE, 0, 50_000_000);
    for _ in 0..maker.rng.between(256, 300) {
        open_any(maker);
    }
    maker.lowest = (MOST_ACCOUNTS as u64 - maker.rng.between(1, 9)) as u16;
    for _ in 0..maker.rng.between(5, 120) {
        match maker.rng.below(8) {
            0 => any_good_record(maker, 256),
            1 => any_good_record(maker, 255),
            2 => open_any(maker),
            _ => step(maker),
        }
    }
}

pub fn retire(maker: &mut Maker) {
    for _ in 0..maker.rng.between(3, 40) {
        open_any(maker);
    }
    for _ in 0..maker.usual_length() {
        retire_step(maker);
    }
}

pub fn retire_step(maker: &mut Maker) {
    let account = maker.live();
    match maker.rng.below(14) {
        0..=2 => {
            maker.say(RETIRE, 0, account, &[]);
        }
        3 => retire_tm(maker),
        4 => wind_down(maker),
        5 => fund_account(maker, account),
        6 => stranger(maker),
        7 => name_retired(maker),
        8 => {
            maker.say(RECEIVE, 1, account, &[1]);
            maker.say(RETIRE, 0, account, &[]);
            maker.say(HAND_BACK, 1, account, &[1]);
        }
        9 => {
            maker.say(RETIRE, 0, 0, &[]);
        }
        10 => step(maker),
        _ => open_any(maker),
    }
}

/// The TM before its clients (14), all but one client (14), all (0), and a
/// client for it afterwards (7).
fn retire_tm(maker: &mut Maker) {
    let tm = match maker.live_of(Sort::Tm) {
        Some(tm) => tm,
        None => return,
    };
    maker.say(RETIRE, 0, tm, &[]);
    let rows = &maker.book.rows[..maker.book.count];
    let clients: Vec<u16> = (0..rows.len() as u16)
        .filter(|&account| rows[usize::from(account)].sort == Sort::Client)
        .filter(|&account| rows[usize::from(account)].tm == tm)
        .filter(|&account| rows[usize::from(account)].live)
        .collect();
    for client in clients {
        wind_down_account(maker, client);
        if maker.rng.one_in(3) {
            maker.say(RETIRE, 0, tm, &[]);
        }
    }
    wind_down_account(maker, tm);
    maker.say(OPEN_CLIENT, 0, tm, &[]);
}

fn name_retired(maker: &mut Maker) {
    let rows = &maker.book.rows[..maker.book.count];
    let retired: Vec<u16> = (0..rows.len() as u16)
        .filter(|&account| !rows[usize::from(account)].live)
        .collect();
    if let Some(account) = maker.rng.any(&retired) {
        any_good_record(maker, account);
    }
}
