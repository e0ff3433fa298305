//! How a day ends.

/// Why a day stopped.
#[derive(Clone, Copy, PartialEq, Eq, Hash, Debug)]
pub enum Closing {
    /// All records were read.
    End,
    /// Too few bytes are left for a record.
    Cut,
    /// As many records were read as were asked for, or as there was room for,
    /// and bytes follow.
    Long,
}

/// How a day, or a piece of it, ended.
#[derive(Clone, Copy, PartialEq, Eq, Hash, Debug)]
pub struct DayEnd {
    /// Why it stopped.
    pub closing: Closing,
    /// The place behind the last record read.
    pub place: usize,
    /// How many records were read.
    pub read: u64,
    /// How many of them were carried out.
    pub done: u64,
}

impl DayEnd {
    /// Of the four numbers that a day tells.
    pub(crate) fn of(told: &[u64; 4]) -> DayEnd {
        let closing = match told[0] {
            0 => Closing::End,
            1 => Closing::Cut,
            _ => Closing::Long,
        };
        DayEnd {
            closing,
            place: told[1] as usize,
            read: told[2],
            done: told[3],
        }
    }

    /// This end, behind another piece's.
    pub(crate) fn after(self, before: DayEnd) -> DayEnd {
        DayEnd {
            closing: self.closing,
            place: before.place + self.place,
            read: before.read + self.read,
            done: before.done + self.done,
        }
    }
}
