//! Working out a close-out by document 01 with K1 of document 02. It never
//! changes the book.

use crate::model::*;

/// From own collateral, from the TM's, from the CM's, uncovered.
#[derive(Clone, Copy, PartialEq, Eq, Default, Debug)]
pub struct Payment {
    pub own: u64,
    pub tm: u64,
    pub cm: u64,
    pub uncovered: u64,
}

#[derive(PartialEq, Eq, Debug)]
pub struct CloseOut {
    pub losses: Vec<u64>,
    pub payments: Vec<Payment>,
    pub total: u64,
}

/// A losses file holds eight bytes for each account, high byte first; any
/// other length is refusal 15.
pub fn close_out_bytes(book: &Book, losses: &[u8]) -> Result<CloseOut, Refusal> {
    if losses.len() != 8 * book.count {
        return Err(Refusal::WrongLength);
    }
    close_out(book, numbers(losses).collect())
}

pub fn close_out(book: &Book, losses: Vec<u64>) -> Result<CloseOut, Refusal> {
    if losses.len() != book.count {
        return Err(Refusal::WrongLength);
    }
    let rows = &book.rows[..book.count];
    if rows
        .iter()
        .zip(&losses)
        .any(|(row, &loss)| loss > CEILING || (!row.live && loss != 0))
    {
        return Err(Refusal::BadLoss);
    }
    let payments = pay(book, &losses);
    let total = payments.iter().map(|payment| payment.uncovered).sum();
    Ok(CloseOut {
        losses,
        payments,
        total,
    })
}

fn take(from: &mut u64, wanted: &mut u64) -> u64 {
    let taken = (*from).min(*wanted);
    *from -= taken;
    *wanted -= taken;
    taken
}

/// K1: "own payment of clients and CPs stays", then round one from collateral,
/// then round two "from free collateral only". Free is a standing's, and a purse
/// of its own: of a sound book round one takes no more than is blocked.
fn pay(book: &Book, losses: &[u64]) -> Vec<Payment> {
    let rows = &book.rows[..book.count];
    let mut payments = vec![Payment::default(); book.count];
    for account in 0..book.count {
        if is_client_or_cp(&rows[account]) {
            payments[account].own = losses[account].min(book.collateral(account));
        }
    }
    let within = parts_within_margin(rows, losses, &payments);
    let collateral = (0..book.count)
        .map(|account| book.collateral(account))
        .collect();
    round(rows, within, collateral, &mut payments);

    let left = parts_unpaid(losses, &payments);
    let standings = book.standings();
    let free = standings.iter().map(|standing| standing.free).collect();
    round(rows, left, free, &mut payments);

    let uncovered = parts_unpaid(losses, &payments);
    for account in 0..book.count {
        payments[account].uncovered = uncovered[account];
    }
    payments
}

fn is_client_or_cp(row: &Row) -> bool {
    matches!(row.sort, Sort::Client | Sort::Cp)
}

/// "The part of its loss within its margin (for a client or CP, less what its
/// own paid, or 0)". Nobody else has paid yet.
fn parts_within_margin(rows: &[Row], losses: &[u64], payments: &[Payment]) -> Vec<u64> {
    (0..rows.len())
        .map(|account| {
            let within = losses[account].min(rows[account].margin);
            within.saturating_sub(payments[account].own)
        })
        .collect()
}

fn parts_unpaid(losses: &[u64], payments: &[Payment]) -> Vec<u64> {
    let each = losses.iter().zip(payments);
    each.map(|(loss, paid)| loss - paid.own - paid.tm - paid.cm)
        .collect()
}

/// "From the TM's and then the CM's", "owner first, then rising number": what
/// is wanted of each account, out of purses that only TMs and the CM open.
fn round(rows: &[Row], mut wanted: Vec<u64>, mut purse: Vec<u64>, payments: &mut [Payment]) {
    for account in 0..rows.len() {
        if rows[account].sort == Sort::Tm {
            payments[account].own += take(&mut purse[account], &mut wanted[account]);
        }
    }
    for account in 0..rows.len() {
        if rows[account].sort == Sort::Client {
            let tm = usize::from(rows[account].tm);
            payments[account].tm += take(&mut purse[tm], &mut wanted[account]);
        }
    }
    payments[0].own += take(&mut purse[0], &mut wanted[0]);
    for account in 1..rows.len() {
        payments[account].cm += take(&mut purse[0], &mut wanted[account]);
    }
}
