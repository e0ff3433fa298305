//! Carrying one record out where it lies: refusals 3 to 7, then by code.

use crate::book::Book;
use crate::record::Record;
use crate::refusal::Refusal;
use crate::row::Sort;

/// The number given by an opening, 0 for any other record carried out.
pub type Carried = Result<u8, Refusal>;

const PLEDGED: u8 = 4;
const MARGIN: u8 = 5;

/// Refusal 3 changes nothing; from 4 on the serial moves.
pub fn carry(book: &mut Book, record: &Record) -> Carried {
    if record.serial() != book.serial {
        return Err(Refusal::WrongSerial);
    }
    book.serial = book.serial.wrapping_add(1);
    by_code(book, record)
}

/// The code, and whether the record has one amount, in one number, so that
/// there is one jump: two would both be hard to foresee.
const fn way(code: u8, one: bool) -> u16 {
    2 * code as u16 + one as u16
}

const RECEIVE_ONE: u16 = way(4, true);
const RECEIVE: u16 = way(4, false);
const HAND_BACK_ONE: u16 = way(5, true);
const HAND_BACK: u16 = way(5, false);
const ALLOCATE_ONE: u16 = way(6, true);
const ALLOCATE: u16 = way(6, false);
const RELEASE_ONE: u16 = way(7, true);
const RELEASE: u16 = way(7, false);
const PLEDGE: u16 = way(8, true);
const UNPLEDGE: u16 = way(9, true);
const SET_MARGIN: u16 = way(10, true);
const REVALUE: u16 = way(12, true);
const REVISE: u16 = way(13, true);

fn by_code(book: &mut Book, record: &Record) -> Carried {
    match way(record.code(), record.has_one_amount()) {
        RECEIVE_ONE => book.receive(record, record.one_kind()?),
        RECEIVE => book.receive(record, record.kinds()?),
        HAND_BACK_ONE => book.hand_back(record, record.one_kind()?),
        HAND_BACK => book.hand_back(record, record.kinds()?),
        ALLOCATE_ONE => book.allocate(record, record.one_kind()?),
        ALLOCATE => book.allocate(record, record.kinds()?),
        RELEASE_ONE => book.release(record, record.one_kind()?),
        RELEASE => book.release(record, record.kinds()?),
        PLEDGE => book.pledge(record, record.amount(PLEDGED, 1)?),
        UNPLEDGE => book.unpledge(record, record.amount(PLEDGED, 1)?),
        SET_MARGIN => book.set_margin(record, record.amount(MARGIN, 0)?),
        REVALUE => book.revalue(record, record.amount(PLEDGED, 0)?),
        REVISE => book.revise(record, record.amount(MARGIN, 0)?),
        _ => without_amounts(book, record),
    }
}

fn without_amounts(book: &mut Book, record: &Record) -> Carried {
    match (record.code(), record.mark()) {
        (1, 0) => book.open(record, Sort::Tm, Sort::Cm),
        (2, 0) => book.open(record, Sort::Client, Sort::Tm),
        (3, 0) => book.open(record, Sort::Cp, Sort::Cm),
        (11, 0) => book.retire(record),
        (1..=13, _) => Err(Refusal::UnsuitedMark),
        _ => Err(Refusal::UnknownCode),
    }
}
