//! Carrying one record out: refusals 3 to 14 and 17 in their order, 17 "after
//! 11 and before 12".

use crate::model::*;

#[derive(Clone, Copy, PartialEq, Eq, Debug)]
pub enum Outcome {
    Done,
    Opened(u16),
    Refused(Refusal),
}

#[derive(Clone, Copy, PartialEq, Eq, Debug)]
pub struct Answer {
    pub serial: u16,
    pub code: u8,
    pub account: u16,
    pub outcome: Outcome,
}

impl Answer {
    /// The refusal's number, or 0.
    pub fn refusal(&self) -> u8 {
        match self.outcome {
            Outcome::Refused(refusal) => refusal as u8,
            _ => 0,
        }
    }

    /// The number given by an opening, or 0.
    pub fn opened(&self) -> u16 {
        match self.outcome {
            Outcome::Opened(number) => number,
            _ => 0,
        }
    }
}

type Carried = Result<Outcome, Refusal>;

/// A record that was read.
pub fn carry(book: &mut Book, record: &Record) -> Answer {
    carry_values(book, &record.values())
}

/// Refusal 3 changes nothing; from 4 on the serial moves as for a record
/// carried out. Modes are "looked at after every record carried out".
pub fn carry_values(book: &mut Book, record: &Values) -> Answer {
    let outcome = if record.serial != book.serial {
        Outcome::Refused(Refusal::WrongSerial)
    } else {
        book.serial = book.serial.wrapping_add(1);
        judged(book, record).unwrap_or_else(Outcome::Refused)
    };
    Answer {
        serial: record.serial,
        code: record.code,
        account: record.account,
        outcome,
    }
}

/// A record names its account by number; all from 8 on goes by its row.
fn judged(book: &mut Book, record: &Values) -> Carried {
    if let Some(fault) = record.fault() {
        return Err(fault);
    }
    let account = book.live_place(record.account).ok_or(Refusal::NotLive)?;
    let outcome = instruct(book, account, record)?;
    book.look_after(account);
    Ok(outcome)
}

fn instruct(book: &mut Book, account: usize, record: &Values) -> Carried {
    let amounts = record.amounts;
    let kinds = [amounts[0], amounts[1], amounts[2], amounts[3]];
    match record.code {
        OPEN_TM | OPEN_CLIENT | OPEN_CP => open(book, record.code, account),
        RECEIVE => receive(book, account, kinds),
        HAND_BACK => hand_back(book, account, kinds),
        ALLOCATE => allocate(book, account, kinds),
        RELEASE => release(book, account, kinds),
        PLEDGE => pledge(book, account, amounts[PLEDGED]),
        UNPLEDGE => unpledge(book, account, amounts[PLEDGED]),
        SET_MARGIN => set_margin(book, account, amounts[MARGIN]),
        RETIRE => retire(book, account),
        // "Neither can be refused for want of cover."
        REVALUE => Ok(put(book, account, |row| row.pledged = amounts[PLEDGED])),
        REVISE => Ok(put(book, account, |row| row.margin = amounts[MARGIN])),
        _ => Err(Refusal::UnknownCode),
    }
}

/// The account named must be the TM for a client, the CM for TMs and CPs; the
/// CM's place is 0, as is the TM word of a row that is no client.
fn open(book: &mut Book, code: u8, named: usize) -> Carried {
    let (sort, wanted) = match code {
        OPEN_TM => (Sort::Tm, Sort::Cm),
        OPEN_CP => (Sort::Cp, Sort::Cm),
        _ => (Sort::Client, Sort::Tm),
    };
    if book.rows[named].sort != wanted {
        return Err(Refusal::WrongSort);
    }
    if !book.has_room() {
        return Err(Refusal::NoNumberLeft);
    }
    Ok(Outcome::Opened(book.open(sort, named)))
}

fn receive(book: &mut Book, account: usize, kinds: [u64; KINDS]) -> Carried {
    let row = &mut book.rows[account];
    if (0..KINDS).any(|kind| row.received[kind] + kinds[kind] > CEILING) {
        return Err(Refusal::PastCeiling);
    }
    (0..KINDS).for_each(|kind| row.received[kind] += kinds[kind]);
    Ok(Outcome::Done)
}

fn more_than_unallocated(row: &Row, kinds: [u64; KINDS]) -> bool {
    (0..KINDS).any(|kind| kinds[kind] > row.received[kind] - row.allocated[kind])
}

fn hand_back(book: &mut Book, account: usize, kinds: [u64; KINDS]) -> Carried {
    let row = &mut book.rows[account];
    if more_than_unallocated(row, kinds) {
        return Err(Refusal::MoreThanThere);
    }
    (0..KINDS).for_each(|kind| row.received[kind] -= kinds[kind]);
    Ok(Outcome::Done)
}

fn allocate(book: &mut Book, account: usize, kinds: [u64; KINDS]) -> Carried {
    if more_than_unallocated(&book.rows[account], kinds) {
        return Err(Refusal::MoreThanThere);
    }
    book.change(account, |row| {
        (0..KINDS).for_each(|kind| row.allocated[kind] += kinds[kind])
    });
    Ok(Outcome::Done)
}

/// Takes out what is there, leaving the account this row: 17, then 12, "given
/// exactly when the collateral left .. would be below what was blocked". Taking
/// out is release and unpledge alone: hand back takes from what isn't allocated.
fn take_out(book: &mut Book, account: usize, left: Row) -> Carried {
    if book.keeps_in(account) {
        return Err(Refusal::KeptIn);
    }
    if left.collateral() < book.blocked(account) {
        return Err(Refusal::MoreThanFree);
    }
    book.change(account, |row| *row = left);
    Ok(Outcome::Done)
}

/// 11 looks at each kind.
fn release(book: &mut Book, account: usize, kinds: [u64; KINDS]) -> Carried {
    let mut left = book.rows[account];
    if (0..KINDS).any(|kind| kinds[kind] > left.allocated[kind]) {
        return Err(Refusal::MoreThanThere);
    }
    (0..KINDS).for_each(|kind| left.allocated[kind] -= kinds[kind]);
    take_out(book, account, left)
}

fn pledge(book: &mut Book, account: usize, amount: u64) -> Carried {
    if book.rows[account].pledged + amount > CEILING {
        return Err(Refusal::PastCeiling);
    }
    book.change(account, |row| row.pledged += amount);
    Ok(Outcome::Done)
}

fn unpledge(book: &mut Book, account: usize, amount: u64) -> Carried {
    let mut left = book.rows[account];
    if amount > left.pledged {
        return Err(Refusal::MoreThanThere);
    }
    left.pledged -= amount;
    take_out(book, account, left)
}

/// 13 is for "a rising margin" (K6), whether or not there is a shortfall:
/// one "that doesn't rise is carried out even while there is" (K8).
fn set_margin(book: &mut Book, account: usize, margin: u64) -> Carried {
    let rises = margin > book.rows[account].margin;
    if rises && book.cm_need_with(account, margin) > book.collateral(0) {
        return Err(Refusal::MarginUncovered);
    }
    book.change(account, |row| row.margin = margin);
    Ok(Outcome::Done)
}

fn put(book: &mut Book, account: usize, change: impl FnOnce(&mut Row)) -> Outcome {
    book.change(account, change);
    Outcome::Done
}

fn retire(book: &mut Book, account: usize) -> Carried {
    if account == 0 {
        return Err(Refusal::WrongSort);
    }
    let row = &book.rows[account];
    if !row.is_empty() || (row.sort == Sort::Tm && book.has_live_client(account)) {
        return Err(Refusal::NotEmpty);
    }
    book.rows[account].live = false;
    Ok(Outcome::Done)
}
