//! An independent second program for the collateral book of one clearing
//! member, written from documents 01 and 02 and the decisions on their open
//! points, and made to be compared with the first.
//!
//! `model` has the rules, and knows nothing of the rest; `make` makes up days,
//! books, calls and files; `kinds` says of which kinds they are, and holds answers
//! against the rules by the letter; `tally` counts the kinds that were met; and
//! `compare` runs other programs beside this one.

pub mod compare;
pub mod kinds;
pub mod make;
pub mod model;
pub mod tally;
pub mod usage;

use std::io::{self, Write};

pub type Output = Result<Vec<u8>, String>;

pub fn put_out(bytes: &[u8]) -> Result<(), String> {
    let mut out = io::stdout().lock();
    out.write_all(bytes)
        .and_then(|()| out.flush())
        .map_err(|error| error.to_string())
}
