//! Rows that were moved to the archive.

/// A row that was moved to the archive.
#[derive(Clone, Copy, PartialEq, Eq, Hash, Debug)]
pub struct Archived {
    /// Its account's number, which is never given again.
    pub number: u16,
    /// The code that opened it: 1 a TM, 2 a client, 3 a CP.
    pub code: u8,
    /// A client's TM, else 0.
    pub tm: u16,
}

impl Archived {
    pub(crate) fn of(entry: &[u16]) -> Archived {
        Archived {
            number: entry[0],
            code: entry[1] as u8,
            tm: entry[2],
        }
    }
}
