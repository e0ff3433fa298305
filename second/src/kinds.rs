//! Kinds of things that a comparison is to meet: what there is of each, and which
//! of them a record, a call or a file is.

pub mod calls;
pub mod days;
pub mod explained;
pub mod holds;
pub mod looks;
pub mod margins;
pub mod merges;
pub mod most;
pub mod moves;
pub mod orders;
pub mod seen;
pub mod shorts;
pub mod statements;
pub mod tenths;
pub mod texts;
