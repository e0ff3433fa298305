//! What `second day` prints, as fast as plain Rust without unsafe code gets
//! it: the day file comes in by pieces, each record is carried out where it
//! lies, and needs, uses and modes are brought up to date from the one row
//! that changed. It is a measure for `day`, and no check of it: `second` is.

#![forbid(unsafe_code)]

mod book;
mod carry;
mod collateral;
mod day;
mod kinds;
mod lines;
mod needs;
mod openings;
mod record;
mod refusal;
mod row;
mod texts;

use std::io::{self, Write};
use std::process::ExitCode;

fn main() -> ExitCode {
    match day::whole(io::stdin().lock(), io::stdout().lock()) {
        Ok(()) => ExitCode::SUCCESS,
        Err(error) => {
            let _ = writeln!(io::stderr(), "{error}");
            ExitCode::FAILURE
        }
    }
}
