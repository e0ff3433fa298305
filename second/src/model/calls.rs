//! Library calls from outside: calls stand one after the other in the input,
//! and each is answered with a line. What is no call, or is cut short, ends
//! the run with `bad N`.

mod answers;
mod call;
mod input;

pub use answers::{answer, Answered};
pub use call::{Call, NAMES};
use input::Input;

/// "Length 4, then so many bytes (at most 65,536)."
pub const PIECE_MOST: usize = 65_536;
/// The most elements of a list and of a room.
pub const LIST_MOST: usize = 4_096;

/// The calls of an input up to its end, or to what is no call.
pub struct Calls<'a> {
    input: Input<'a>,
    is_bad: bool,
}

impl<'a> Calls<'a> {
    pub fn of(bytes: &'a [u8]) -> Calls<'a> {
        Calls {
            input: Input::of(bytes),
            is_bad: false,
        }
    }

    /// Whether something stands there that is no call.
    pub fn is_bad(&self) -> bool {
        self.is_bad
    }

    /// The bytes not yet read, or that are no call.
    pub fn left(&self) -> &'a [u8] {
        self.input.left()
    }
}

impl Iterator for Calls<'_> {
    type Item = Call;

    fn next(&mut self) -> Option<Call> {
        if self.is_bad || self.input.left().is_empty() {
            return None;
        }
        let start = self.input;
        let call = Call::read(&mut self.input);
        if call.is_none() {
            self.input = start;
            self.is_bad = true;
        }
        call
    }
}

/// The lines for a whole input; `each` sees every call with its answer.
pub fn answered_seen(bytes: &[u8], mut each: impl FnMut(&Call, &Answered)) -> Vec<u8> {
    let mut out = Vec::new();
    let mut many = 0;
    let mut calls = Calls::of(bytes);
    for call in calls.by_ref() {
        let answered = answer(&call);
        out.extend_from_slice(answered.line.as_bytes());
        out.push(b'\n');
        many += 1;
        each(&call, &answered);
    }
    if calls.is_bad() {
        out.extend_from_slice(format!("bad {many}\n").as_bytes());
    }
    out
}

pub fn answered(bytes: &[u8]) -> Vec<u8> {
    answered_seen(bytes, |_, _| {})
}
