//! K14 of document 02: "Two clerks' files are merged in some order", A's records
//! and then B's, "renumbered".

use crate::model::*;

/// A merging that is refused: which of the two files is at fault, with what, and
/// at which of its records, counted from 0.
#[derive(Clone, Copy, PartialEq, Eq, Debug)]
pub struct Fault {
    pub file: usize,
    pub refusal: Refusal,
    pub record: usize,
}

/// "A before B, and the first record at fault decides"; with a refusal nothing is
/// written.
pub fn merged(files: [&[u8]; 2], first: u16) -> Result<Vec<u8>, Fault> {
    let mut all = Vec::new();
    for (file, piece) in files.into_iter().enumerate() {
        let records = records(piece).map_err(|(refusal, record)| Fault {
            file,
            refusal,
            record,
        })?;
        all.extend(records);
    }
    Ok(renumbered(&all, first))
}

/// The records of a file "from its start, record after record, as the reader reads
/// it", or the first at fault: "2 where bytes are left that are too few for a
/// record, else the first of 4, 5, 6 that applies".
pub fn records(piece: &[u8]) -> Result<Vec<Values>, (Refusal, usize)> {
    let mut reader = Reader::new(piece);
    let mut records = Vec::new();
    loop {
        let record = match reader.next() {
            Next::End => return Ok(records),
            Next::Cut => return Err((Refusal::Cut, records.len())),
            Next::Record(record) => record.values(),
        };
        if let Some(fault) = record.fault() {
            return Err((fault, records.len()));
        }
        records.push(record);
    }
}

/// Good records as a day file, numbered one after the other from this serial;
/// "the serial after 65,535 is 0".
pub fn renumbered(records: &[Values], first: u16) -> Vec<u8> {
    let mut out = Vec::new();
    let mut serial = first;
    for record in records {
        Values { serial, ..*record }.lay(&mut out);
        serial = serial.wrapping_add(1);
    }
    out
}
