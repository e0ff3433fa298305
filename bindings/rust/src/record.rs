//! A record of a day file, and its bytes.

use crate::ffi::{self, Said};
use crate::{Refusal, LONGEST};

/// One amount of each of the four kinds.
#[derive(Clone, Copy, PartialEq, Eq, Default, Hash, Debug)]
pub struct Kinds {
    /// Cash.
    pub cash: u64,
    /// Fixed deposits.
    pub deposits: u64,
    /// Bank guarantees.
    pub guarantees: u64,
    /// Government securities.
    pub securities: u64,
}

impl Kinds {
    /// Cash alone.
    pub fn cash(cash: u64) -> Kinds {
        Kinds {
            cash,
            ..Kinds::default()
        }
    }

    /// The bits of the amounts that aren't 0.
    fn named(&self) -> u8 {
        let amounts = [self.cash, self.deposits, self.guarantees, self.securities];
        let bits = amounts.iter().zip([1, 2, 4, 8]);
        bits.map(|(&amount, bit)| if amount == 0 { 0 } else { bit })
            .sum()
    }
}

/// A record, good or not. An amount that isn't named is 0 in a good one.
#[derive(Clone, Copy, PartialEq, Eq, Default, Hash, Debug)]
pub struct Record {
    /// Its serial: the book's next one, or it is refused.
    pub serial: u16,
    /// Its code, 1 to 13.
    pub code: u8,
    /// The second mark byte: 1 cash, 2 fixed deposits, 4 bank guarantees, 8
    /// government securities, 16 pledged, 32 margin, added up.
    pub named: u8,
    /// The account named.
    pub account: u16,
    /// The amounts of the four kinds.
    pub kinds: Kinds,
    /// The amount pledged.
    pub pledged: u64,
    /// The margin.
    pub margin: u64,
}

const PLEDGED: u8 = 16;
const MARGIN: u8 = 32;

impl Record {
    fn bare(code: u8, serial: u16, account: u16) -> Record {
        Record {
            serial,
            code,
            account,
            ..Record::default()
        }
    }

    /// Names those kinds that aren't 0.
    fn of_kinds(code: u8, serial: u16, account: u16, kinds: Kinds) -> Record {
        Record {
            named: kinds.named(),
            kinds,
            ..Record::bare(code, serial, account)
        }
    }

    fn of_pledged(code: u8, serial: u16, account: u16, pledged: u64) -> Record {
        Record {
            named: PLEDGED,
            pledged,
            ..Record::bare(code, serial, account)
        }
    }

    fn of_margin(code: u8, serial: u16, account: u16, margin: u64) -> Record {
        Record {
            named: MARGIN,
            margin,
            ..Record::bare(code, serial, account)
        }
    }

    /// Code 1: opens a trading member (TM).
    pub fn open_tm(serial: u16) -> Record {
        Record::bare(1, serial, 0)
    }

    /// Code 2: opens a client of a TM.
    pub fn open_client(serial: u16, tm: u16) -> Record {
        Record::bare(2, serial, tm)
    }

    /// Code 3: opens a custodial participant (CP).
    pub fn open_cp(serial: u16) -> Record {
        Record::bare(3, serial, 0)
    }

    /// Code 4: adds to what was received.
    pub fn receive(serial: u16, account: u16, kinds: Kinds) -> Record {
        Record::of_kinds(4, serial, account, kinds)
    }

    /// Code 5: takes from what was received.
    pub fn hand_back(serial: u16, account: u16, kinds: Kinds) -> Record {
        Record::of_kinds(5, serial, account, kinds)
    }

    /// Code 6: adds to what is allocated.
    pub fn allocate(serial: u16, account: u16, kinds: Kinds) -> Record {
        Record::of_kinds(6, serial, account, kinds)
    }

    /// Code 7: takes from what is allocated.
    pub fn release(serial: u16, account: u16, kinds: Kinds) -> Record {
        Record::of_kinds(7, serial, account, kinds)
    }

    /// Code 8: adds to what is pledged.
    pub fn pledge(serial: u16, account: u16, amount: u64) -> Record {
        Record::of_pledged(8, serial, account, amount)
    }

    /// Code 9: takes from what is pledged.
    pub fn unpledge(serial: u16, account: u16, amount: u64) -> Record {
        Record::of_pledged(9, serial, account, amount)
    }

    /// Code 10: sets the margin, if it is covered.
    pub fn set_margin(serial: u16, account: u16, margin: u64) -> Record {
        Record::of_margin(10, serial, account, margin)
    }

    /// Code 11: retires an account.
    pub fn retire(serial: u16, account: u16) -> Record {
        Record::bare(11, serial, account)
    }

    /// Code 12: sets pledged to a new value, covered or not.
    pub fn revalue(serial: u16, account: u16, pledged: u64) -> Record {
        Record::of_pledged(12, serial, account, pledged)
    }

    /// Code 13: sets the margin, covered or not.
    pub fn revise_margin(serial: u16, account: u16, margin: u64) -> Record {
        Record::of_margin(13, serial, account, margin)
    }

    /// Its amounts in the order of a day file.
    pub fn amounts(&self) -> [u64; 6] {
        let Kinds {
            cash,
            deposits,
            guarantees,
            securities,
        } = self.kinds;
        [
            cash,
            deposits,
            guarantees,
            securities,
            self.pledged,
            self.margin,
        ]
    }

    pub(crate) fn said<'a>(&self, amounts: &'a [u64]) -> Said<'a> {
        Said {
            serial: self.serial,
            code: self.code,
            named: self.named,
            account: self.account,
            amounts,
        }
    }
}

/// A record's bytes, as a day file has them. Refuses with 4, 5 and 6.
///
/// ```
/// use loft::{write_record, Kinds, Record, Refusal};
///
/// let bytes = write_record(&Record::receive(2, 2, Kinds::cash(30_000)))?;
/// assert_eq!(bytes, [4, 1, 0, 2, 0, 2, 0, 0, 0, 0, 0, 0, 0x75, 0x30]);
/// let nothing = Record::receive(2, 2, Kinds::default());
/// assert_eq!(write_record(&nothing), Err(Refusal::UnsuitedMark));
/// # Ok::<(), Refusal>(())
/// ```
pub fn write_record(record: &Record) -> Result<Vec<u8>, Refusal> {
    let mut room = vec![0; LONGEST];
    let mut length = 0;
    let amounts = record.amounts();
    Refusal::of(ffi::write_record(
        &record.said(&amounts),
        &mut room,
        &mut length,
    ))?;
    room.truncate(length);
    Ok(room)
}
