//! A readable form of a statement, one record a line: `ACCOUNT RECEIVED RETAINED
//! PLACED HELD LODGED`, where an amount of 0 isn't named, or `raw HEX` for bytes that
//! no record has. `#` begins a comment.

use super::{length, Record, AMOUNTS, HEAD};
use crate::model::text::{hex, hex_bytes, parsed};
use crate::model::*;

/// Text to a statement's bytes; an error names its line.
pub fn write(text: &[u8]) -> Result<Vec<u8>, String> {
    let mut out = Vec::new();
    for (place, line) in text.split(|&byte| byte == b'\n').enumerate() {
        let bytes = std::str::from_utf8(line)
            .map_err(|_| "not plain text".to_string())
            .and_then(line_bytes)
            .map_err(|error| format!("line {}: {error}", place + 1))?;
        out.extend(bytes);
    }
    Ok(out)
}

pub fn line_bytes(line: &str) -> Result<Vec<u8>, String> {
    let said = line.split('#').next().unwrap_or("");
    let words: Vec<&str> = said.split_whitespace().collect();
    match words.as_slice() {
        [] => Ok(Vec::new()),
        ["raw", hex @ ..] => hex_bytes(&hex.concat()),
        [account, amounts @ ..] => {
            let mut bytes = Vec::new();
            record(account, amounts)?.lay(&mut bytes);
            Ok(bytes)
        }
    }
}

fn record(account: &str, amounts: &[&str]) -> Result<Record, String> {
    let amounts = amounts.iter().map(|word| parsed(word, "amount"));
    let amounts: Vec<u64> = amounts.collect::<Result<_, String>>()?;
    let amounts = amounts.try_into();
    Ok(Record {
        account: parsed(account, "account")?,
        amounts: amounts.map_err(|_| "a record is an account and five amounts")?,
    })
}

/// A statement's bytes to text that `write` turns into the same bytes.
pub fn read(statement: &[u8]) -> String {
    let mut out = String::new();
    let mut left = statement;
    while !left.is_empty() {
        let (bytes, rest) = left.split_at(first_length(left));
        out += &match plain(bytes) {
            Some(Record { account, amounts }) => {
                let amounts = amounts.map(|amount| amount.to_string());
                format!("{account} {}\n", amounts.join(" "))
            }
            None => format!("raw {}\n", hex(bytes)),
        };
        left = rest;
    }
    out
}

/// All that is left where that isn't a whole record.
fn first_length(left: &[u8]) -> usize {
    let length = left.get(1).map_or(HEAD, |&set| length(set));
    length.min(left.len())
}

/// What words can say: a record that names no amount of 0.
fn plain(bytes: &[u8]) -> Option<Record> {
    let set = *bytes.get(1)?;
    if bytes[0] != 1 || set >> AMOUNTS != 0 || bytes.len() != length(set) {
        return None;
    }
    let mut named = numbers(&bytes[HEAD..]);
    let of = |amount: usize| match set & (1 << amount) {
        0 => 0,
        _ => named.next().unwrap_or(0),
    };
    let record = Record {
        account: u16::from_be_bytes([bytes[2], bytes[3]]),
        amounts: [0, 1, 2, 3, 4].map(of),
    };
    (record.set() == set).then_some(record)
}
