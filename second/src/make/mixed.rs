//! Something of every kind in one day.

use super::bend::{bent_record, edge_record, random_bytes};
use super::lengths::wrong_serial;
use super::lives::retire_step;
use super::maker::Maker;
use super::steer::{begin, step, stranger};
use super::uses::waver;
use crate::model::*;

pub fn any_step(maker: &mut Maker) {
    match maker.rng.below(16) {
        0 => bent_record(maker),
        1 => wrong_serial(maker),
        2 => edge_record(maker),
        3 | 4 => retire_step(maker),
        5 => stranger(maker),
        6 => waver(maker),
        _ => step(maker),
    }
}

pub fn mixed(maker: &mut Maker) {
    maker.wanted = maker.rng.between(2, MOST_ACCOUNTS as u64) as usize;
    begin(maker);
    for _ in 0..maker.usual_length() {
        any_step(maker);
    }
    match maker.rng.below(4) {
        0 => {
            let whole = maker.bytes.len();
            let lost = maker.rng.below(whole.min(20) as u64 + 1) as usize;
            maker.bytes.truncate(whole - lost);
        }
        1 => {
            let many = maker.rng.between(1, 100);
            random_bytes(maker, many);
        }
        _ => {}
    }
}
