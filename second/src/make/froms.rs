//! Made-up books to number records from.

use super::asked::{any_sound, unsound};
use crate::make::rng::Rng;
use crate::model::bookfile::Version;
use crate::model::*;

/// FROM, as a program is told it.
pub enum From {
    Nowhere,
    Dash,
    File(Vec<u8>),
}

/// What its file holds.
#[derive(Clone, Copy)]
pub enum Held {
    Sound,
    Unsound,
    /// A book of version 1.
    First,
    NoBook,
}

impl From {
    /// A book that waits for this serial.
    pub fn file(held: Held, serial: u16, rng: &mut Rng) -> From {
        let with_serial = |table: Table| Table { serial, ..table };
        From::File(match held {
            Held::Sound => bookfile::bytes(&with_serial(any_sound(rng))),
            Held::Unsound => {
                let fault = rng.pick(&Fault::all(Rule::New));
                bookfile::bytes(&with_serial(unsound(fault, Rule::New, rng)))
            }
            Held::First => bookfile::bytes_as(&with_serial(any_sound(rng)), Version::One),
            Held::NoBook => bookfile::bytes(&Table::fresh())[1..].to_vec(),
        })
    }
}
