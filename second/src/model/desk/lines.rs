//! The program `margins`: one client's positions and figures as lines of text.

use super::figures::margin_with;
use super::{record, Position, Side, PRODUCTS, SIDES};
use crate::model::*;
use crate::Output;
use std::ffi::OsString;

/// The most that standard input may hold.
pub const MOST: usize = 65_536;

const HELP: &str = "\
margins: a client's margin from its positions and its initial margin, or its record for a day file
usage: margins [--record] SERIAL ACCOUNT INITIAL < POSITIONS";

struct Asked {
    as_record: bool,
    serial: u16,
    account: u16,
    initial: u64,
}

/// What is wrong with the words is told before anything is read.
pub fn margins(words: &[OsString], input: &dyn Fn() -> Output) -> Output {
    if words.first().map_or(false, |word| word == "--help") {
        return Err(HELP.to_string());
    }
    let asked = asked(words).ok_or("margins: SERIAL, ACCOUNT and INITIAL are expected")?;
    let text = input()?;
    if text.len() > MOST {
        return Err("margins: standard input is too long".to_string());
    }
    let sheet = sheet(&text)?;
    let figures = sheet.figures.unwrap_or_default();
    answered(
        &asked,
        margin_with(asked.initial, &sheet.positions, &figures),
    )
}

fn answered(asked: &Asked, margin: Result<u64, Refusal>) -> Output {
    match (margin, asked.as_record) {
        (Ok(margin), true) => {
            let mut bytes = Vec::new();
            record(asked.serial, asked.account, margin).lay(&mut bytes);
            Ok(bytes)
        }
        (Err(refusal), true) => Err(format!("margins: refused {}", refusal as u8)),
        (Ok(margin), false) => Ok(format!("0 {margin}\n").into_bytes()),
        (Err(refusal), false) => Ok(format!("{} 0\n", refusal as u8).into_bytes()),
    }
}

fn asked(words: &[OsString]) -> Option<Asked> {
    let as_record = words.first().map_or(false, |word| word == "--record");
    let (serial, account, initial) = match &words[usize::from(as_record)..] {
        [serial, account, initial] => (serial, account, initial),
        _ => return None,
    };
    Some(Asked {
        as_record,
        serial: short(serial)?,
        account: short(account)?,
        initial: number(initial.to_str()?.as_bytes())?,
    })
}

/// A serial, or an account's number.
pub fn short(word: &OsString) -> Option<u16> {
    u16::try_from(number(word.to_str()?.as_bytes())?).ok()
}

/// "Decimal digits; a number too large for eight bytes counts as the largest."
fn number(word: &[u8]) -> Option<u64> {
    if word.is_empty() || !word.iter().all(u8::is_ascii_digit) {
        return None;
    }
    let digits = word.iter().map(|byte| u64::from(byte - b'0'));
    let sum = digits.fold(0u64, |sum, digit| {
        sum.saturating_mul(10).saturating_add(digit)
    });
    Some(sum)
}

#[derive(Default)]
struct Sheet {
    positions: Vec<Position>,
    /// "At most once."
    figures: Option<Vec<i64>>,
}

impl Sheet {
    /// None where the line is of no known form, or the second of figures.
    fn take(&mut self, line: &[u8]) -> Option<()> {
        match line.strip_prefix(b"figures ") {
            Some(_) if self.figures.is_some() => return None,
            Some(words) => self.figures = Some(figures(words)?),
            None => self.positions.push(position(line)?),
        }
        Some(())
    }
}

/// The first line that is of no known form is told by its number, from 1.
fn sheet(text: &[u8]) -> Result<Sheet, String> {
    let mut sheet = Sheet::default();
    for (place, line) in text.split(|&byte| byte == b'\n').enumerate() {
        if line.is_empty() || line.starts_with(b"#") {
            continue;
        }
        let bad = || format!("margins: line {} is no position", place + 1);
        sheet.take(line).ok_or_else(bad)?;
    }
    Ok(sheet)
}

fn figures(words: &[u8]) -> Option<Vec<i64>> {
    let words = words.split(|&byte| byte == b' ');
    let figures: Option<Vec<i64>> = words.map(figure).collect();
    figures.filter(|figures| matches!(figures.len(), 2 | 4))
}

/// "A decimal number with `-` before it if it is below 0; one that does not fit
/// .. counts as the largest or the least."
fn figure(word: &[u8]) -> Option<i64> {
    match word.strip_prefix(b"-") {
        None => Some(i64::try_from(number(word)?).unwrap_or(i64::MAX)),
        Some(size) => Some(i64::try_from(number(size)?).map_or(i64::MIN, |size| -size)),
    }
}

/// `PRODUCT SIDE NOTIONAL`, "parted by single spaces, nothing before the first
/// or behind the last".
fn position(line: &[u8]) -> Option<Position> {
    let words: Vec<&[u8]> = line.split(|&byte| byte == b' ').collect();
    let (product, side, notional) = match words.as_slice() {
        [product, side, notional] => (product, side, notional),
        _ => return None,
    };
    let side = SIDES.iter().find(|(name, _)| name.as_bytes() == *side);
    Some(Position {
        product: product_number(product)?,
        side: side.map(|&(_, side)| side)?,
        notional: number(notional)?,
    })
}

/// "Any other word of capital letters and digits is an unknown product."
fn product_number(word: &[u8]) -> Option<u8> {
    let is_plain = |byte: &u8| byte.is_ascii_uppercase() || byte.is_ascii_digit();
    if word.is_empty() || !word.iter().all(is_plain) {
        return None;
    }
    let known = PRODUCTS
        .iter()
        .position(|(name, ..)| name.as_bytes() == word);
    Some(known.map_or(u8::MAX, |place| place as u8))
}

/// A position as a line.
pub fn line(position: &Position) -> String {
    let Position {
        product, notional, ..
    } = position;
    let known = PRODUCTS.get(usize::from(*product));
    let name = known.map_or("UNKNOWN", |(name, ..)| name);
    format!("{name} {} {notional}", side_word(position.side))
}

pub fn side_word(side: Side) -> &'static str {
    SIDES[side as usize].0
}
