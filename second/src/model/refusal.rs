//! The refusal numbers of documents 01 and 02.

/// Given by no record's check, so it stands apart.
pub const UNSOUND: u8 = 1;

/// 1 is missing: a book changed by `carry` alone stays sound, and `--check`
/// tests that it does.
#[derive(Clone, Copy, PartialEq, Eq, Debug)]
#[repr(u8)]
pub enum Refusal {
    Cut = 2,
    WrongSerial = 3,
    UnknownCode = 4,
    UnsuitedMark = 5,
    OutOfRange = 6,
    NotLive = 7,
    WrongSort = 8,
    /// K11: 256 rows held, or every number given.
    NoNumberLeft = 9,
    PastCeiling = 10,
    MoreThanThere = 11,
    MoreThanFree = 12,
    MarginUncovered = 13,
    NotEmpty = 14,
    WrongLength = 15,
    BadLoss = 16,
    /// K5; checked between 11 and 12.
    KeptIn = 17,
    /// K9, by position; `WrongLength` for too many of them.
    UnknownProduct = 18,
    NotListed = 19,
    PastLimit = 20,
    SumPast = 21,
    /// K10; checked before 21.
    PastFigure = 22,
    /// K11; checked after 1.
    ArchiveTooShort = 23,
    /// K13, by record of a statement: "cut or bad mark".
    BadForm = 24,
    BadAmount = 25,
    /// "Not the TM's next live client (at the end: one still wanting)."
    WrongClient = 26,
    WrongSums = 27,
    WrongReceived = 28,
    /// "Allocation below what is placed."
    TooLittleAllocated = 29,
}
