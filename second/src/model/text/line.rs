//! One line of a day file's text: `[serial N] WORD [ACCOUNT]`, kinds and
//! amounts, or `raw` and bytes, or nothing.

use super::{Fault, Scan, CODE_WORDS, KIND_WORDS};
use crate::model::*;

type Said = Result<Vec<u8>, Fault>;

/// An amount that is missing or has too many digits "counts as out of range".
/// No number of 16 digits is this one.
const NO_AMOUNT: u64 = u64::MAX;

/// The bytes of a line. "What was read so far is judged as a record by document
/// 01's 4, 5, 6."
pub fn line_bytes(line: &[u8], running: u16) -> Said {
    bytes_if(line, running, |record| match record.fault() {
        None => Ok(()),
        Some(Refusal::UnsuitedMark) => Err(Fault::Kinds),
        Some(_) => Err(Fault::Amount),
    })
}

/// The same for stories and tests, where words also say records that are no
/// good ones, if every amount is there.
pub fn any_bytes(line: &[u8], running: u16) -> Said {
    bytes_if(line, running, |record| {
        let is_whole = !record.amounts.contains(&NO_AMOUNT);
        is_whole.then_some(()).ok_or(Fault::Amount)
    })
}

fn bytes_if(line: &[u8], running: u16, judge: fn(&Values) -> Result<(), Fault>) -> Said {
    let mut scan = Scan::of(line);
    if scan.is_at_end() {
        return Ok(Vec::new());
    }
    if scan.takes("raw") {
        return raw(&mut scan);
    }
    let serial = match scan.takes("serial") {
        true => scan.short().ok_or(Fault::NoSerial)?,
        false => running,
    };
    let record = record(&mut scan, serial)?;
    judge(&record)?;
    nothing_more(&mut scan)?;
    let mut bytes = Vec::new();
    record.lay(&mut bytes);
    Ok(bytes)
}

/// "`raw` says 1 to 70 bytes."
fn raw(scan: &mut Scan) -> Said {
    let mut bytes = vec![scan.byte().ok_or(Fault::NoBytes)?];
    while bytes.len() < LONGEST {
        match scan.byte() {
            Some(byte) => bytes.push(byte),
            None => break,
        }
    }
    nothing_more(scan)?;
    Ok(bytes)
}

fn nothing_more(scan: &mut Scan) -> Result<(), Fault> {
    scan.is_at_end().then_some(()).ok_or(Fault::More)
}

/// "The four kinds are tried in order after every word, each present or not, then
/// N where the code names pledged or margin."
fn record(scan: &mut Scan, serial: u16) -> Result<Values, Fault> {
    let word = scan.word();
    let place = CODE_WORDS.iter().position(|known| known.as_bytes() == word);
    let code = place.ok_or(Fault::NoWord)? as u8 + 1;
    let mut record = Values {
        serial,
        code,
        account: account(scan, code)?,
        ..Values::default()
    };
    for (kind, word) in KIND_WORDS.iter().enumerate() {
        if scan.takes(word) {
            put_amount(&mut record, kind, scan);
        }
    }
    match code {
        PLEDGE | UNPLEDGE | REVALUE => put_amount(&mut record, PLEDGED, scan),
        SET_MARGIN | REVISE => put_amount(&mut record, MARGIN, scan),
        _ => {}
    }
    Ok(record)
}

/// With `tm` and `cp` a number that is no account "counts as left out": it isn't
/// passed, so it is something more in the line.
fn account(scan: &mut Scan, code: u8) -> Result<u16, Fault> {
    let before = *scan;
    match (scan.short(), code) {
        (Some(account), _) => Ok(account),
        (None, OPEN_TM | OPEN_CP) => {
            *scan = before;
            Ok(0)
        }
        _ => Err(Fault::NoAccount),
    }
}

fn put_amount(record: &mut Values, bit: usize, scan: &mut Scan) {
    record.amounts[bit] = scan.number().unwrap_or(NO_AMOUNT);
    record.mark |= 1 << bit;
}
