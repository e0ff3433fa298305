//! The rules, and nothing else: the book, its records and programs as documents
//! 01 and 02 have them. Nothing here is made up or counted.

pub mod book;
pub mod bookfile;
pub mod calls;
pub mod carry;
pub mod closeout;
pub mod day;
pub mod dayfile;
pub mod desk;
pub mod explain;
mod files;
pub mod holdings;
pub mod losses;
pub mod merge;
pub mod mode;
pub mod most;
pub mod orders;
pub mod print;
pub mod programs;
pub mod refusal;
pub mod rule;
pub mod statement;
pub mod story;
pub mod table;
pub mod text;

pub use book::*;
pub use carry::*;
pub use closeout::*;
pub use day::{run_fresh, Closing, Day, MILLION};
pub use dayfile::*;
pub use mode::Mode;
pub use refusal::*;
pub use rule::*;
pub use table::{Archived, Entry, Fault, Place, Table};
