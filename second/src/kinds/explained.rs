//! What has been explained: refusals with the answer behind them, and codes
//! with an amount that stands between the least and the ceiling.

use crate::model::explain::Explained;
use crate::model::*;
use std::fmt;

#[derive(Clone, Copy, PartialEq, Eq, PartialOrd, Ord)]
pub enum Kind {
    /// What the record was refused with, and what `most` gives: 0 or a refusal.
    Refused(u8, u8),
    Between(u8),
}

/// Those that every round of days has. A margin of 0 is never refused.
#[rustfmt::skip]
const REFUSED: [(u8, u8); 15] = [
    (3, 0), (4, 4), (5, 4), (5, 5), (6, 0), (7, 7), (10, 0), (10, 10),
    (11, 0), (11, 11), (11, 17), (12, 0), (12, 12), (13, 0), (17, 17),
];

impl Kind {
    pub fn all() -> Vec<Kind> {
        let refused = REFUSED.map(|(refusal, given)| Kind::Refused(refusal, given));
        let between = (RECEIVE..=SET_MARGIN).map(Kind::Between);
        refused.into_iter().chain(between).collect()
    }

    pub fn of(explained: &Explained) -> Vec<Kind> {
        let [given, amount] = explained.numbers();
        let code = explained.record.code;
        let mut kinds = vec![Kind::Refused(explained.refusal, given as u8)];
        if given == 0 && (least(code) + 1..CEILING).contains(&amount) {
            kinds.push(Kind::Between(code));
        }
        kinds
    }
}

impl fmt::Debug for Kind {
    fn fmt(&self, out: &mut fmt::Formatter) -> fmt::Result {
        match self {
            Kind::Refused(refusal, given) => write!(out, "{refusal} and then {given}"),
            Kind::Between(code) => write!(out, "code {code} between"),
        }
    }
}
