//! The proved collateral book of one clearing member (CM), for a program's own
//! process. The library behind it, `libloft.a`, is written in Rattle: of every
//! function it is proved that it ends, takes anything, and gives what
//! `include/loft.h` says. What is added here is types.
//!
//! A [`Book`] owns its bytes. Amounts are whole paise. What can't be done is
//! refused with a [`Refusal`], which has a number and a text.
//!
//! ```
//! use loft::{Book, Kinds, Outcome, Record, Refusal};
//!
//! let mut book = Book::fresh();
//! book.carry_out(&Record::open_tm(0))?;
//! book.carry_out(&Record::open_client(1, 1))?;
//! book.carry_out(&Record::receive(2, 2, Kinds::cash(30_000)))?;
//! book.carry_out(&Record::allocate(3, 2, Kinds::cash(30_000)))?;
//! let answer = book.carry_out(&Record::set_margin(4, 2, 60_000))?;
//! assert_eq!(answer.outcome, Outcome::Refused(Refusal::MarginUncovered));
//! assert_eq!(book.standing(2)?.free, 30_000);
//! # Ok::<(), Refusal>(())
//! ```

#![deny(missing_docs)]
#![deny(unsafe_code)]

mod answer;
mod archived;
mod book;
mod close_out;
mod day;
mod ffi;
mod margin;
pub mod product;
mod reading;
mod record;
mod refusal;
mod standing;

pub use answer::{answers, Answer, Answers, Outcome};
pub use archived::Archived;
pub use book::Book;
pub use close_out::{CloseOut, Payment};
pub use day::{Closing, DayEnd};
pub use margin::{margin, Figures, Position, Side};
pub use reading::{read_record, records, Read, Records};
pub use record::{write_record, Kinds, Record};
pub use refusal::Refusal;
pub use standing::Standing;

/// The bytes of a book.
pub const BOOK: usize = 24_332;

/// The ceiling of an amount.
pub const CEILING: u64 = 10_000_000_000_000;

/// The numbers of an answer: serial, code, account, refusal, number given.
pub const ANSWER: usize = 5;

/// The bytes of a record that sets a margin.
pub const RECORD: usize = 14;

/// The bytes of the longest record.
pub const LONGEST: usize = 70;

/// The records at which a day stops.
pub const MILLION: u64 = 1_000_000;
