//! The program `holdings`: what every account has received, allocated and
//! pledged, its margin, and how much of its collateral is in use.

use crate::model::*;

const HEAD: &str = "account sort state tm \
received.cash received.deposits received.guarantees received.securities \
allocated.cash allocated.deposits allocated.guarantees allocated.securities \
pledged margin use";

pub fn over(book: Book, piece: &[u8]) -> Vec<u8> {
    let (mut out, book) = print::closed(book, piece);
    let (serial, number) = (book.serial, book.numbers.next);
    out.extend(format!("serial {serial} number {number}\n{HEAD}\n").bytes());
    for account in 0..book.count {
        out.extend(line(&book, account).bytes());
    }
    out
}

fn line(book: &Book, account: usize) -> String {
    let row = &book.rows[account];
    let kinds = row.received.iter().chain(&row.allocated);
    let amounts = kinds.chain([&row.pledged, &row.margin]);
    let amounts: String = amounts.map(|amount| format!(" {amount}")).collect();
    let words = print::account_words(book, account);
    let used = in_percent(book.used(account), book.collateral(account));
    format!("{words}{amounts} {used}\n")
}

/// K2's use, in tenths of a paisa, in percent of the collateral: one decimal,
/// rounded down.
fn in_percent(used: u64, collateral: u64) -> String {
    match (used, u128::from(collateral)) {
        (0, _) => "0.0".to_string(),
        (_, 0) => "none".to_string(),
        (_, collateral) => {
            let tenths = 100 * u128::from(used) / collateral;
            format!("{}.{}", tenths / 10, tenths % 10)
        }
    }
}
