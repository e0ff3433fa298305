//! Refusal numbers of documents 01 and 02.

use std::error::Error;
use std::fmt;

/// Why something was refused. Its number is that of documents 01 and 02.
#[derive(Clone, Copy, PartialEq, Eq, PartialOrd, Ord, Hash, Debug)]
#[repr(u8)]
pub enum Refusal {
    /// The book isn't sound, or the bytes are no book of version 2.
    NotSound = 1,
    /// Bytes are left, but too few for a record.
    Cut,
    /// The serial is not the next one.
    WrongSerial,
    /// The code is not 1 to 13.
    UnknownCode,
    /// The second mark byte doesn't suit the code.
    UnsuitedMark,
    /// An amount is out of range.
    OutOfRange,
    /// The account is not live.
    NotLive,
    /// The account is of the wrong sort.
    WrongSort,
    /// There is no room for another account.
    NoNumberLeft,
    /// An amount would pass the ceiling.
    PastCeiling,
    /// More than there is.
    MoreThanThere,
    /// More than is free.
    MoreThanFree,
    /// The CM doesn't cover the margin.
    MarginUncovered,
    /// The account isn't empty.
    NotEmpty,
    /// A list isn't as long as it must be.
    WrongLength,
    /// A loss can't be.
    WrongLoss,
    /// The account is in risk reduction mode.
    KeptIn,
    /// Unknown product.
    UnknownProduct,
    /// The option isn't listed.
    UnlistedOption,
    /// A notional or the initial margin is past the ceiling.
    NotionalPastCeiling,
    /// The margin is past the ceiling.
    SumPastCeiling,
    /// A figure is out of range.
    FigureOutOfRange,
    /// The archive is too short.
    ArchiveTooShort,
    /// A statement's record is cut, or its mark is bad.
    BadStatement,
    /// A statement's amount is 0 or above four ceilings.
    StatementAmount,
    /// A statement's account isn't the next live client.
    StatementAccount,
    /// A statement's sum doesn't come out.
    StatementSum,
    /// A statement's received isn't the book's.
    StatementReceived,
    /// A statement places more than is allocated.
    StatementPlaced,
}

use Refusal::*;

/// Every refusal in the order of numbers, with the text of docs/BOOK.md.
const ALL: [(Refusal, &str); 29] = [
    (NotSound, "the book isn't sound (programs meet this only with a book file)"),
    (Cut, "the bytes end within a record (`cut`)"),
    (WrongSerial, "the serial isn't the next one; the first is 0, and 0 follows 65,535"),
    (UnknownCode, "there is no such code"),
    (UnsuitedMark, "the second mark byte doesn't suit the code"),
    (OutOfRange, "an amount isn't 1 to the ceiling (a margin, and what code 12 sets, may be 0), or one not named is other than 0"),
    (NotLive, "the account isn't live, or its number was never given, or it is in the archive"),
    (WrongSort, "an opening names an account of the wrong sort; account 0 is to be retired; a statement names no TM"),
    (NoNumberLeft, "an opening where 256 accounts are held, retired ones too, or every number to 65,535 is given"),
    (PastCeiling, "received or pledged would be above the ceiling"),
    (MoreThanThere, "more than there is: hand back or allocate of received less allocated, release of allocated, unpledge of pledged"),
    (MoreThanFree, "after a release or unpledge the collateral left would be below what was blocked of the account"),
    (MarginUncovered, "after a margin that rises by code 10 the CM's need would be above its collateral"),
    (NotEmpty, "an account with an amount that isn't 0, or a TM with a live client, is to be retired"),
    (WrongLength, "a list handed over, such as that of losses, has the wrong length; more than 64 positions"),
    (WrongLoss, "a loss is above the ceiling, or a retired account's isn't 0"),
    (KeptIn, "release or unpledge from a TM's or the CM's account that is in risk reduction mode"),
    (UnknownProduct, "currency desk: there is no such product"),
    (UnlistedOption, "currency desk: an option, short or long, on a product that has none"),
    (NotionalPastCeiling, "currency desk: a notional, or after all positions the initial margin, is above the ceiling"),
    (SumPastCeiling, "currency desk: the sum is above the ceiling"),
    (FigureOutOfRange, "currency desk: a figure is below minus the ceiling or above the ceiling"),
    (ArchiveTooShort, "the list for the archive is too short for the retired accounts"),
    (BadStatement, "a broker's statement: a record is cut, or its mark is bad"),
    (StatementAmount, "a broker's statement: an amount named is 0 or above four ceilings"),
    (StatementAccount, "a broker's statement: the account isn't the TM's next live client, or one is still missing at the end"),
    (StatementSum, "a broker's statement: a sum doesn't come out"),
    (StatementReceived, "a broker's statement: received isn't what the book has"),
    (StatementPlaced, "a broker's statement: more is placed with the clearing corporation than the book has allocated"),
];

impl Refusal {
    /// The refusal with this number; none for 0 and above 29.
    ///
    /// ```
    /// use loft::Refusal;
    /// assert_eq!(Refusal::numbered(13), Some(Refusal::MarginUncovered));
    /// assert_eq!(Refusal::numbered(0), None);
    /// ```
    pub fn numbered(number: u8) -> Option<Refusal> {
        let place = usize::from(number).checked_sub(1)?;
        ALL.get(place).map(|&(refusal, _)| refusal)
    }

    /// Its number, 1 to 29.
    pub fn number(self) -> u8 {
        self as u8
    }

    /// What it is given for, in the words of docs/BOOK.md.
    pub fn text(self) -> &'static str {
        ALL[usize::from(self.number()) - 1].1
    }

    /// What a call returned. It is proved that no call returns another number
    /// than those of this page.
    pub(crate) fn of(number: u8) -> Result<(), Refusal> {
        match number {
            0 => Ok(()),
            _ => Err(Refusal::numbered(number).expect("a refusal of documents 01 and 02")),
        }
    }
}

impl fmt::Display for Refusal {
    fn fmt(&self, out: &mut fmt::Formatter<'_>) -> fmt::Result {
        write!(out, "{}: {}", self.number(), self.text())
    }
}

impl Error for Refusal {}
