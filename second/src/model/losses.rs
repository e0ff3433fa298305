//! A file of losses as text: lines `NUMBER AMOUNT`, with blanks and comments as
//! in a day file's text. "Accounts not named have loss 0."

use crate::model::text::Scan;
use crate::model::*;

/// "A file over 65,536 bytes" is too long.
pub const MOST: usize = 65_536;

/// An account's number and its loss.
pub type Loss = (u16, u64);

/// What the lines say, or which one says nothing and why.
pub fn read(text: &[u8]) -> Result<Vec<Loss>, String> {
    if text.len() > MOST {
        return Err("the file of losses is too long".to_string());
    }
    let mut losses = Vec::new();
    for (place, line) in text.split(|&byte| byte == b'\n').enumerate() {
        let added = add_line(&mut losses, line);
        added.map_err(|words| format!("line {}: {words}", place + 1))?;
    }
    Ok(losses)
}

fn add_line(losses: &mut Vec<Loss>, line: &[u8]) -> Result<(), &'static str> {
    let mut scan = Scan::of(line);
    if scan.is_at_end() {
        return Ok(());
    }
    let number = scan.number().ok_or("no number")?;
    let number = u16::try_from(number).map_err(|_| "a number above 65535")?;
    let amount = scan.number().ok_or("no amount")?;
    if !scan.is_at_end() {
        return Err("something more in the line");
    }
    if losses.iter().any(|&(known, _)| known == number) {
        return Err("the same account twice");
    }
    if losses.len() == MOST_ACCOUNTS {
        return Err("more than 256 lines that say something");
    }
    losses.push((number, amount));
    Ok(())
}

/// A loss for each row held, or 7 for a number that no row held has.
pub fn by_rows(book: &Book, losses: &[Loss]) -> Result<Vec<u64>, Refusal> {
    let mut all = vec![0; book.count];
    for &(number, amount) in losses {
        all[book.place_of(number).ok_or(Refusal::NotLive)?] = amount;
    }
    Ok(all)
}
