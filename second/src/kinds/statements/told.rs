//! Which kinds a statement is of: told from the book, the bytes and the answer, not
//! from what it was made for.

use super::{Form, Gone, Kind, Right, Spot, Wrong};
use crate::model::statement::{
    clients, length, read, total, Checked, Fault, Record, AMOUNTS, HEAD, MOST,
};
use crate::model::*;

pub fn kinds(book: &Book, tm: u16, statement: &[u8], checked: &Checked) -> Vec<Kind> {
    let place = match (book.place_of(tm), checked) {
        (Some(place), Checked::Accepted | Checked::At(_)) => place,
        (place, _) => return no_tm(book, tm, place),
    };
    let clients = clients(book, place);
    match checked {
        Checked::At(fault) => at_fault(book, place, &clients, statement, fault),
        _ => {
            let rights = rights(book, place, &clients, &records(statement));
            rights.into_iter().map(Kind::Accepted).collect()
        }
    }
}

/// 7 and 8.
fn no_tm(book: &Book, tm: u16, place: Option<usize>) -> Vec<Kind> {
    let gone = match place.map(|place| &book.rows[place]) {
        Some(row) if row.live => return vec![Kind::NotTm(row.sort)],
        Some(row) if row.sort != Sort::Tm => return Vec::new(),
        Some(_) => Gone::RetiredTm,
        None if u32::from(tm) < book.numbers.next => Gone::Archived,
        None => Gone::NeverGiven,
    };
    vec![Kind::NotLive(gone)]
}

/// The records up to the first that 24 or 25 is given for.
fn records(statement: &[u8]) -> Vec<Record> {
    let mut records = Vec::new();
    let mut left = statement;
    while let (false, Ok((record, rest))) = (left.is_empty(), read(left)) {
        records.push(record);
        left = rest;
    }
    records
}

fn rights(book: &Book, tm: usize, clients: &[usize], records: &[Record]) -> Vec<Right> {
    let (first, last) = match (clients.first(), clients.last()) {
        (Some(&first), Some(&last)) => (first, last),
        _ => return vec![Right::Empty],
    };
    let of_tm = |row: &Row| row.sort == Sort::Client && usize::from(row.tm) == tm;
    let rows = &book.rows[..last];
    let is_just = |(record, &client): (&Record, &usize)| {
        let allocated = total(&book.rows[client].allocated);
        record.amounts[4] == allocated && allocated > 0 && record.amounts[0] > allocated
    };
    let is = [
        false,
        clients.len() > 1,
        records.iter().any(|record| record.amounts == [0; AMOUNTS]),
        records.iter().zip(clients).any(is_just),
        records.iter().any(|record| record.amounts[0] == MOST),
        book.numbers.next as usize != book.count,
        rows.iter().any(|row| of_tm(row) && !row.live),
        rows[first..]
            .iter()
            .any(|row| row.live && row.sort == Sort::Client && !of_tm(row)),
    ];
    let rights = Right::ALL.iter().zip(is).filter(|(_, is)| *is);
    rights.map(|(&right, _)| right).collect()
}

/// All that a refusal from 24 on is for.
fn at_fault(
    book: &Book,
    tm: usize,
    clients: &[usize],
    statement: &[u8],
    fault: &Fault,
) -> Vec<Kind> {
    let spot = match fault.record {
        record if record >= clients.len() => Spot::Surplus,
        0 => Spot::First,
        record if record + 1 == clients.len() => Spot::Last,
        _ => Spot::Middle,
    };
    let left = behind(statement, fault.record);
    let mut kinds = vec![Kind::Refused(fault.refusal as u8, spot)];
    kinds.extend(four_ceilings(left, fault.refusal));
    match (fault.refusal, read(left)) {
        (Refusal::BadForm, _) => kinds.extend(form(left).map(|form| Kind::Form(form, spot))),
        (Refusal::BadAmount, _) => kinds.extend(bad_amount(left)),
        (_, Ok((record, _))) => {
            let client = clients.get(fault.record).copied();
            kinds.extend(against_book(book, tm, clients, client, &record, fault));
        }
        // At the end there is nothing to read.
        (_, Err(_)) => kinds.push(Kind::Client(Wrong::Wanting)),
    }
    kinds
}

/// What stands behind so many whole records.
fn behind(statement: &[u8], records: usize) -> &[u8] {
    let mut left = statement;
    for _ in 0..records {
        left = &left[length(left[1])..];
    }
    left
}

fn form(left: &[u8]) -> Option<Form> {
    if left.len() < HEAD {
        return Some(Form::Bytes(left.len()));
    }
    match (left[0], left[1] >> AMOUNTS) {
        (1, 0) if left.len() + 1 == length(left[1]) => Some(Form::ByteShort),
        (1, 0) => Some(Form::Short),
        (1, 1) => Some(Form::Bit(5)),
        (1, 2) => Some(Form::Bit(6)),
        (1, 4) => Some(Form::Bit(7)),
        (_, 0) => Some(Form::FirstByte),
        _ => None,
    }
}

/// The amounts that a whole record names, by place.
fn named(left: &[u8]) -> Vec<(usize, u64)> {
    let amounts = numbers(&left[HEAD..length(left[1])]);
    let places = (0..AMOUNTS).filter(|place| left[1] & (1 << place) != 0);
    places.zip(amounts).collect()
}

/// The only amount out of range.
fn bad_amount(left: &[u8]) -> Option<Kind> {
    let mut bad = named(left);
    bad.retain(|(_, amount)| !(1..=MOST).contains(amount));
    match bad[..] {
        [(place, 0)] => Some(Kind::Zero(place)),
        [(place, amount)] if amount == MOST + 1 => Some(Kind::Above(place)),
        _ => None,
    }
}

fn four_ceilings(left: &[u8], refusal: Refusal) -> Vec<Kind> {
    if matches!(refusal, Refusal::BadForm | Refusal::BadAmount) || left.is_empty() {
        return Vec::new();
    }
    let most = named(left)
        .into_iter()
        .filter(|(_, amount)| *amount == MOST);
    most.map(|(place, _)| Kind::FourCeilings(place)).collect()
}

/// 26 to 29 of a record that is well written.
fn against_book(
    book: &Book,
    tm: usize,
    clients: &[usize],
    client: Option<usize>,
    record: &Record,
    fault: &Fault,
) -> Vec<Kind> {
    let client = match client {
        Some(client) if fault.refusal != Refusal::WrongClient => client,
        Some(_) => {
            let wrongs = wrong_clients(book, tm, clients, record.account, fault);
            return wrongs.into_iter().map(Kind::Client).collect();
        }
        None => return vec![Kind::Client(Wrong::Surplus)],
    };
    let row = &book.rows[client];
    let [received, retained, placed, held, lodged] = record.amounts;
    let sums = [
        by_one(retained + placed, received),
        by_one(held + lodged, placed),
    ];
    let kind = match (fault.refusal, sums) {
        (Refusal::WrongSums, [Some(more), None]) if held + lodged == placed => {
            Some(Kind::Sum(1, more))
        }
        (Refusal::WrongSums, [None, Some(more)]) if retained + placed == received => {
            Some(Kind::Sum(2, more))
        }
        (Refusal::WrongReceived, _) => by_one(received, total(&row.received)).map(Kind::Received),
        (Refusal::TooLittleAllocated, _) => {
            let is_one = lodged == total(&row.allocated) + 1;
            is_one.then_some(Kind::Lodged)
        }
        _ => None,
    };
    kind.into_iter().collect()
}

/// Whether a number is one more than wanted, or one less.
fn by_one(number: u64, wanted: u64) -> Option<bool> {
    match (number.checked_sub(wanted), wanted.checked_sub(number)) {
        (Some(1), _) => Some(true),
        (_, Some(1)) => Some(false),
        _ => None,
    }
}

fn wrong_clients(
    book: &Book,
    tm: usize,
    clients: &[usize],
    account: u16,
    fault: &Fault,
) -> Vec<Wrong> {
    let wanted = u32::from(fault.wanted.unwrap_or(0));
    let said = u32::from(account);
    let is_client = |client: &usize| book.number(*client) == account;
    let (before, later) = clients.split_at(fault.record);
    let row = book.place_of(account).map(|place| book.rows[place]);
    let row = row.filter(|row| row.sort == Sort::Client);
    let is_own = row.map_or(false, |row| usize::from(row.tm) == tm);
    let is_live = row.map_or(false, |row| row.live);
    let is = [
        said == wanted + 1,
        said + 1 == wanted,
        fault.record > 0 && later.iter().skip(1).any(is_client),
        before.last().map_or(false, is_client),
        is_own && !is_live,
        is_live && !is_own,
    ];
    let wrongs = Wrong::ALL.iter().zip(is).filter(|(_, is)| *is);
    wrongs.map(|(&wrong, _)| wrong).collect()
}
