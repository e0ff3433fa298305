//! The refusal numbers of documents 01 and 02 that a record's line may show.

#[derive(Clone, Copy, PartialEq, Eq)]
#[repr(u8)]
pub enum Refusal {
    WrongSerial = 3,
    UnknownCode = 4,
    UnsuitedMark = 5,
    OutOfRange = 6,
    NotLive = 7,
    WrongSort = 8,
    NoNumberLeft = 9,
    PastCeiling = 10,
    MoreThanThere = 11,
    MoreThanFree = 12,
    MarginUncovered = 13,
    NotEmpty = 14,
    KeptIn = 17,
}
