//! Made-up losses for the book at the end of a day: mostly good ones where
//! the two rounds of a close-out turn, some that must be refused.

use crate::make::rng::Rng;
use crate::model::*;

type Way = fn(&mut Sheet, usize) -> u64;

/// What the losses of one list have in common. A comparison goes round them by
/// seed and so meets them all; ten is prime to the number of kinds of days.
const WAYS: [Way; 10] = [
    all_at_margin,
    all_but_one,
    within_own,
    at_margin,
    near_margin,
    far_or_at_margin,
    far_or_nothing,
    near_own,
    near_free,
    anything,
];

/// The seeds of the lists that a comparison tries at the end of one day: a
/// list in each way for the days made for close-outs, one for any other.
pub fn seeds(kind: &str, seed: u64) -> impl Iterator<Item = u64> {
    let many = match kind {
        "shared" | "spent" | "wanting" | "short" => WAYS.len() as u64,
        _ => 1,
    };
    (0..many).map(move |more| seed.wrapping_add(more))
}

pub fn make(book: &Book, seed: u64) -> Vec<u8> {
    let mut sheet = Sheet::new(book, Rng::new(seed, 0x1055));
    let mut losses = sheet.losses(WAYS[seed as usize % WAYS.len()]);
    let mut rng = sheet.rng;
    let fault = rng.below(12);
    match fault {
        0 => past_ceiling(&mut losses, &mut rng),
        1 => on_retired(book, &mut losses, &mut rng),
        _ => {}
    }
    let mut bytes: Vec<u8> = losses.iter().flat_map(|loss| loss.to_be_bytes()).collect();
    if fault == 2 {
        wrong_length(&mut bytes, &mut rng);
    }
    bytes
}

/// A list that no book refuses.
pub fn good(book: &Book, seed: u64) -> Vec<u64> {
    let mut sheet = Sheet::new(book, Rng::new(seed, 0x600D));
    sheet.losses(WAYS[seed as usize % WAYS.len()])
}

/// Losses are drawn in rising account number, as free collateral goes, so
/// that a loss can aim at what those before it leave.
struct Sheet<'a> {
    book: &'a Book,
    rng: Rng,
    /// What is left of the free collateral of each TM and the CM.
    free: Vec<u64>,
    /// One in so many does what the others don't, in the ways that part them.
    few: u64,
    /// The one that may pass its margin, where all others keep to theirs.
    odd: usize,
    /// One less than what is free (0), all of it (1) or one more (2).
    fashion: u64,
    /// Whether a TM's free is asked for together with the CM's.
    through: bool,
}

impl Sheet<'_> {
    fn new(book: &Book, mut rng: Rng) -> Sheet<'_> {
        let few = rng.between(2, 6);
        let odd = rng.below(book.count as u64) as usize;
        let fashion = rng.below(3);
        let through = rng.one_in(2);
        Sheet {
            book,
            rng,
            free: (0..book.count).map(|account| book.free(account)).collect(),
            few,
            odd,
            fashion,
            through,
        }
    }

    fn losses(&mut self, way: Way) -> Vec<u64> {
        let mut losses = Vec::new();
        for account in 0..self.book.count {
            let loss = if self.book.rows[account].live {
                way(self, account).min(CEILING)
            } else {
                0
            };
            self.use_free(account, loss);
            losses.push(loss);
        }
        losses
    }

    fn own(&self, account: usize) -> u64 {
        self.book.collateral(account)
    }

    fn margin(&self, account: usize) -> u64 {
        self.book.rows[account].margin
    }

    fn is_one_of_few(&mut self) -> bool {
        self.rng.one_in(self.few)
    }

    /// A loss up to here asks for no free collateral of others.
    fn before_free(&self, account: usize) -> u64 {
        match self.book.rows[account].sort {
            Sort::Client | Sort::Cp => self.margin(account).max(self.own(account)),
            _ => self.margin(account),
        }
    }

    /// Whose free collateral is asked ahead of the CM's: a TM's.
    fn tm(&self, account: usize) -> Option<usize> {
        match self.book.rows[account].sort {
            Sort::Tm => Some(account),
            Sort::Client => Some(self.book.answers_for(account)),
            _ => None,
        }
    }

    fn use_free(&mut self, account: usize, loss: u64) {
        let mut wanted = loss.saturating_sub(self.before_free(account));
        for purse in self.tm(account).into_iter().chain([0]) {
            let used = wanted.min(self.free[purse]);
            self.free[purse] -= used;
            wanted -= used;
        }
    }
}

/// Under a shortfall just that is left uncovered.
fn all_at_margin(sheet: &mut Sheet, account: usize) -> u64 {
    sheet.margin(account)
}

/// A paisa less of one.
fn all_but_one(sheet: &mut Sheet, account: usize) -> u64 {
    let less = u64::from(account == sheet.odd);
    sheet.margin(account).saturating_sub(less)
}

/// Within margin and own collateral: nobody needs another's.
fn within_own(sheet: &mut Sheet, account: usize) -> u64 {
    sheet.margin(account).min(sheet.own(account))
}

/// What is blocked is used to the last paisa, or to one less. The odd one may
/// pass its margin; it then has free collateral to ask for and no more.
fn at_margin(sheet: &mut Sheet, account: usize) -> u64 {
    let margin = sheet.margin(account);
    let less = margin.saturating_sub(1);
    if account == sheet.odd {
        sheet.rng.pick(&[less, less, margin + 1, CEILING])
    } else if sheet.rng.one_in(8 * sheet.few) {
        less
    } else {
        margin
    }
}

fn near_margin(sheet: &mut Sheet, account: usize) -> u64 {
    let margin = sheet.margin(account);
    sheet.rng.beside(margin)
}

/// Some far beyond their margins and their neighbours within.
fn far_or_at_margin(sheet: &mut Sheet, account: usize) -> u64 {
    match sheet.rng.below(3) {
        0 => far(sheet, account),
        1 => sheet.margin(account),
        _ => near_margin(sheet, account),
    }
}

/// What is blocked for those without a loss stays where it is.
fn far_or_nothing(sheet: &mut Sheet, account: usize) -> u64 {
    if sheet.is_one_of_few() {
        far(sheet, account)
    } else {
        0
    }
}

fn far(sheet: &mut Sheet, account: usize) -> u64 {
    let all = sheet.own(account) + sheet.own(sheet.book.answers_for(account)) + sheet.own(0);
    let part = sheet.rng.below(sheet.free[0] / 2 + 2);
    let beyond = sheet.before_free(account) + part;
    sheet.rng.pick(&[beyond, beyond, all + 5, CEILING])
}

fn near_own(sheet: &mut Sheet, account: usize) -> u64 {
    if sheet.is_one_of_few() {
        return 0;
    }
    let own = sheet.own(account);
    sheet.rng.beside(own)
}

/// Some ask for as much as free collateral has left, the others for none of
/// it. All that ask do so in one fashion, so that of every purse the last
/// paisa stays, or goes, or is one too few.
fn near_free(sheet: &mut Sheet, account: usize) -> u64 {
    let before = sheet.before_free(account);
    if !sheet.is_one_of_few() {
        return before - sheet.rng.below(2).min(before);
    }
    let asked = match sheet.tm(account) {
        Some(tm) if sheet.through => sheet.free[tm] + sheet.free[0],
        Some(tm) => sheet.free[tm],
        None => sheet.free[0],
    };
    (before + asked + sheet.fashion).saturating_sub(1)
}

fn anything(sheet: &mut Sheet, account: usize) -> u64 {
    if sheet.is_one_of_few() {
        return 0;
    }
    let own = sheet.own(account);
    let above = sheet.own(sheet.book.answers_for(account));
    let edge = match sheet.rng.below(7) {
        0 => own,
        1 => sheet.margin(account),
        2 => own + above,
        3 => own + sheet.book.free(sheet.book.answers_for(account)),
        4 => sheet.book.need(account),
        5 => 2 * (own + above) + 5,
        _ => own + sheet.rng.below(sheet.own(0) / 4 + 2),
    };
    sheet.rng.near(edge)
}

fn past_ceiling(losses: &mut [u64], rng: &mut Rng) {
    let account = rng.below(losses.len() as u64) as usize;
    losses[account] = rng.pick(&[CEILING, CEILING + 1, CEILING + 1, 1 << 63, u64::MAX]);
}

fn on_retired(book: &Book, losses: &mut [u64], rng: &mut Rng) {
    for (row, loss) in book.rows.iter().zip(losses) {
        if !row.live {
            *loss = rng.pick(&[0, 1, 1_000, CEILING]);
        }
    }
}

fn wrong_length(bytes: &mut Vec<u8>, rng: &mut Rng) {
    let length = bytes.len();
    match rng.below(6) {
        0 => bytes.clear(),
        1 => bytes.truncate(length - 1),
        2 => bytes.truncate(length - 8),
        3 => bytes.push(0),
        4 => bytes.extend_from_slice(&[0; 8]),
        _ => bytes.resize(8 * 256 + 8 * rng.below(3) as usize, 0),
    }
}
