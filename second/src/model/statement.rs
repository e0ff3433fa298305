//! K13 of document 02: a broker's daily statement of its clients' collateral, held
//! against the book.

pub mod text;

use crate::model::*;

/// "A byte 1, a byte for the set of amounts not zero, two-byte account."
pub const HEAD: usize = 4;
/// Received, retained by the TM, placed with the CM, retained by the CM, placed with
/// the clearing corporation.
pub const AMOUNTS: usize = 5;
/// "Above four ceilings" is 25.
pub const MOST: u64 = 4 * CEILING;

#[derive(Clone, Copy, PartialEq, Eq, Default, Debug)]
pub struct Record {
    pub account: u16,
    pub amounts: [u64; AMOUNTS],
}

impl Record {
    /// The set of its amounts not zero.
    pub fn set(&self) -> u8 {
        let named = (0..AMOUNTS).filter(|&amount| self.amounts[amount] != 0);
        named.map(|amount| 1 << amount).sum()
    }

    pub fn lay(&self, out: &mut Vec<u8>) {
        out.extend_from_slice(&[1, self.set()]);
        out.extend_from_slice(&self.account.to_be_bytes());
        for amount in self.amounts.iter().filter(|&&amount| amount != 0) {
            out.extend_from_slice(&amount.to_be_bytes());
        }
    }
}

/// Where a statement is at fault: the record's place among its records, counted from
/// 0, and the account wanted there, or that none is.
#[derive(Clone, Copy, PartialEq, Eq, Debug)]
pub struct Fault {
    pub refusal: Refusal,
    pub record: usize,
    pub wanted: Option<u16>,
}

#[derive(Clone, Copy, PartialEq, Eq, Debug)]
pub enum Checked {
    Accepted,
    /// 1, 7 or 8, which look at no record.
    Refused(u8),
    At(Fault),
}

impl Checked {
    /// The refusal's number, or 0.
    pub fn refusal(&self) -> u8 {
        match self {
            Checked::Accepted => 0,
            Checked::Refused(refusal) => *refusal,
            Checked::At(fault) => fault.refusal as u8,
        }
    }

    /// The line of the program `statements`.
    pub fn line(&self) -> String {
        let refusal = self.refusal();
        match self {
            Checked::At(Fault { record, wanted, .. }) => match wanted {
                Some(account) => {
                    format!("{refusal} at record {record}: account {account} is wanted")
                }
                None => format!("{refusal} at record {record}: no account is wanted"),
            },
            _ => refusal.to_string(),
        }
    }
}

/// "Refusals: 1, 7 and 8 (not a TM) first; then by first record at fault." None is a
/// book that isn't sound.
pub fn check(book: Option<&Book>, tm: u16, statement: &[u8]) -> Checked {
    let book = match book {
        Some(book) => book,
        None => return Checked::Refused(UNSOUND),
    };
    match book.live_place(tm) {
        None => Checked::Refused(Refusal::NotLive as u8),
        Some(place) if book.rows[place].sort != Sort::Tm => {
            Checked::Refused(Refusal::WrongSort as u8)
        }
        Some(place) => {
            held_against(book, place, statement).map_or_else(Checked::At, |()| Checked::Accepted)
        }
    }
}

/// The rows of a TM's live clients, which rise by number.
pub fn clients(book: &Book, tm: usize) -> Vec<usize> {
    let is_client = |row: &Row| row.live && row.sort == Sort::Client && usize::from(row.tm) == tm;
    let rows = 0..book.count;
    rows.filter(|&row| is_client(&book.rows[row])).collect()
}

/// "One record per live client of the TM, rising number."
fn held_against(book: &Book, tm: usize, statement: &[u8]) -> Result<(), Fault> {
    let mut clients = clients(book, tm).into_iter();
    let mut left = statement;
    let mut record = 0;
    loop {
        let client = clients.next();
        let at_fault = |refusal| Fault {
            refusal,
            record,
            wanted: client.map(|client| book.number(client)),
        };
        if left.is_empty() && client.is_none() {
            return Ok(());
        }
        if left.is_empty() {
            return Err(at_fault(Refusal::WrongClient));
        }
        let (said, rest) = read(left).map_err(at_fault)?;
        let own = client.filter(|&client| book.number(client) == said.account);
        let own = own.ok_or_else(|| at_fault(Refusal::WrongClient))?;
        judge(&said, &book.rows[own]).map_err(at_fault)?;
        left = rest;
        record += 1;
    }
}

/// The length of a record with this set of amounts.
pub fn length(set: u8) -> usize {
    HEAD + 8 * set.count_ones() as usize
}

/// The first record and what is behind it: "24 cut or bad mark, 25 amount zero or
/// above four ceilings".
pub fn read(left: &[u8]) -> Result<(Record, &[u8]), Refusal> {
    let is_marked = left.len() >= HEAD && left[0] == 1 && left[1] >> AMOUNTS == 0;
    if !is_marked || left.len() < length(left[1]) {
        return Err(Refusal::BadForm);
    }
    let (own, rest) = left.split_at(length(left[1]));
    let mut named = numbers(&own[HEAD..]);
    let mut amounts = [0; AMOUNTS];
    for (place, amount) in amounts.iter_mut().enumerate() {
        if own[1] & (1 << place) != 0 {
            let said = named.next().filter(|said| (1..=MOST).contains(said));
            *amount = said.ok_or(Refusal::BadAmount)?;
        }
    }
    let account = u16::from_be_bytes([own[2], own[3]]);
    Ok((Record { account, amounts }, rest))
}

/// "Retained by TM plus placed with CM is received; retained by CM plus placed with
/// the corporation is placed with CM; received is the book's total; and the book's
/// allocated total is not below what is placed with the corporation." Face values,
/// and "Pledged is not in it".
fn judge(record: &Record, row: &Row) -> Result<(), Refusal> {
    let [received, retained, placed, held, lodged] = record.amounts;
    if retained + placed != received || held + lodged != placed {
        return Err(Refusal::WrongSums);
    }
    if received != total(&row.received) {
        return Err(Refusal::WrongReceived);
    }
    if total(&row.allocated) < lodged {
        return Err(Refusal::TooLittleAllocated);
    }
    Ok(())
}

/// Over the four kinds.
pub fn total(kinds: &[u64]) -> u64 {
    kinds.iter().sum()
}
