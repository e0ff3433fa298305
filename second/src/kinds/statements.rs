//! Kinds of statements that a comparison is to meet, and how often it met each.

mod told;

use crate::listed;
use crate::model::statement::{Checked, AMOUNTS};
use crate::model::*;
use crate::tally::{said, Tally};

/// Which record it is, by the client that is wanted there: the TM's first, its last,
/// one between them, or none.
#[derive(Clone, Copy, PartialEq, Eq, PartialOrd, Ord, Debug)]
pub enum Spot {
    First,
    Middle,
    Last,
    Surplus,
}

/// Those that a client is wanted at.
pub const SPOTS: [Spot; 3] = [Spot::First, Spot::Middle, Spot::Last];

#[derive(Clone, Copy, PartialEq, Eq, PartialOrd, Ord, Debug)]
pub enum Kind {
    Accepted(Right),
    Unsound,
    NotLive(Gone),
    NotTm(Sort),
    /// 24 to 29.
    Refused(u8, Spot),
    /// 24 for one cause alone.
    Form(Form, Spot),
    /// 25, by amount: 0, or a paisa above four ceilings.
    Zero(usize),
    Above(usize),
    /// Four ceilings, which aren't 25.
    FourCeilings(usize),
    Client(Wrong),
    /// 27 for one of the two sums alone, a paisa more than it should be or less.
    Sum(usize, bool),
    /// 28, a paisa more than the book has or less.
    Received(bool),
    /// 29 for a paisa.
    Lodged,
}

listed! {
    Right:
    /// "An empty statement passes for a TM with no live client."
    Empty, Several,
    /// A client with all amounts 0.
    Nothing,
    /// Just as much is placed with the corporation as is allocated, and more received.
    JustAllocated,
    /// Received is four ceilings.
    FourCeilings,
    /// Numbers were given that no row has.
    Archive,
    /// The TM has a retired client before a live one.
    RetiredBetween,
    /// There is another TM's client between two of its own.
    OthersBetween
}

/// Why there is no live account with the TM's number.
#[derive(Clone, Copy, PartialEq, Eq, PartialOrd, Ord, Debug)]
pub enum Gone {
    RetiredTm,
    Archived,
    NeverGiven,
}

#[derive(Clone, Copy, PartialEq, Eq, PartialOrd, Ord, Debug)]
pub enum Form {
    /// So many bytes are left.
    Bytes(usize),
    FirstByte,
    Bit(u8),
    /// Of its amounts the last byte is missing, or more.
    ByteShort,
    Short,
}

const FORMS: [Form; 9] = [
    Form::Bytes(1),
    Form::Bytes(2),
    Form::Bytes(3),
    Form::FirstByte,
    Form::Bit(5),
    Form::Bit(6),
    Form::Bit(7),
    Form::ByteShort,
    Form::Short,
];

listed! {
    /// 26: beside the client that is wanted.
    Wrong: OneMore, OneLess,
    /// A later one: the one wanted, not the first, is left out.
    LeftOut,
    /// The one before once more.
    Again, Retired, AnothersClient,
    /// The statement is at its end.
    Wanting,
    /// None is.
    Surplus
}

impl Kind {
    pub fn all() -> Vec<Kind> {
        let mut all = vec![Kind::Unsound, Kind::Lodged];
        all.extend(Right::ALL.map(Kind::Accepted));
        all.extend([Gone::RetiredTm, Gone::Archived, Gone::NeverGiven].map(Kind::NotLive));
        all.extend([Sort::Cm, Sort::Client, Sort::Cp].map(Kind::NotTm));
        for refusal in 24..=29 {
            all.extend(SPOTS.map(|spot| Kind::Refused(refusal, spot)));
        }
        all.extend([24, 25, 26].map(|refusal| Kind::Refused(refusal, Spot::Surplus)));
        for form in FORMS {
            all.extend(SPOTS.map(|spot| Kind::Form(form, spot)));
        }
        for amount in 0..AMOUNTS {
            all.extend([Kind::Zero, Kind::Above, Kind::FourCeilings].map(|kind| kind(amount)));
        }
        all.extend(Wrong::ALL.map(Kind::Client));
        for more in [false, true] {
            all.extend([Kind::Sum(1, more), Kind::Sum(2, more), Kind::Received(more)]);
        }
        all
    }
}

/// How often each kind was met, and each refusal.
#[derive(Default)]
pub struct Met {
    kinds: Tally<Kind>,
    refusals: Tally<u8>,
}

impl Met {
    /// A statement of a TM, and its answer; None is a book that isn't sound.
    pub fn count(&mut self, book: Option<&Book>, tm: u16, statement: &[u8], checked: &Checked) {
        self.refusals.count(checked.refusal());
        self.kinds.count_all(match book {
            None => vec![Kind::Unsound],
            Some(book) => told::kinds(book, tm, statement, checked),
        });
    }

    pub fn missed(&self) -> Vec<String> {
        self.kinds.missed("a statement: ", Kind::all())
    }

    pub fn line(&self) -> String {
        let (kinds, all) = self.kinds.sums();
        format!("{}; {kinds} kinds: {all}", said(self.refusals.met()))
    }
}
