//! The book of one clearing member: its rows and their numbers, its modes, the
//! needs kept beside the rows, and when a book is sound. Accounts are named by
//! their row's place here; `numbers` has the way from a number to it.

mod needs;
mod numbers;
mod uses;

use crate::model::*;
pub use numbers::{Numbers, MOST_NUMBERS};

/// "The ceiling is 10,000,000,000,000 paise."
pub const CEILING: u64 = 10_000_000_000_000;
/// "A book holds at most 256 accounts."
pub const MOST_ACCOUNTS: usize = 256;
/// Cash, fixed deposits, bank guarantees, government securities.
pub const KINDS: usize = 4;
/// Where government securities stand among them.
pub const SECURITIES: usize = 3;

#[derive(Clone, Copy, PartialEq, Eq, PartialOrd, Ord, Default, Debug)]
pub enum Sort {
    /// A row that isn't held.
    #[default]
    Unused,
    Cm,
    Tm,
    Client,
    Cp,
}

impl Sort {
    /// Those that a row held can have.
    pub const HELD: [Sort; 4] = [Sort::Cm, Sort::Tm, Sort::Client, Sort::Cp];

    pub fn whose(self) -> &'static str {
        match self {
            Sort::Cm => "the CM's",
            Sort::Tm => "a TM's",
            Sort::Client => "a client's",
            _ => "a CP's",
        }
    }
}

#[derive(Clone, Copy, PartialEq, Eq, Default, Debug)]
pub struct Row {
    pub sort: Sort,
    pub live: bool,
    /// The place of a client's TM; 0 for every other sort.
    pub tm: u16,
    pub received: [u64; KINDS],
    pub allocated: [u64; KINDS],
    pub pledged: u64,
    pub margin: u64,
}

impl Row {
    pub fn opened(sort: Sort, tm: u16) -> Row {
        Row {
            sort,
            live: true,
            tm,
            ..Row::default()
        }
    }

    /// "Cash, fixed deposits, guarantees and pledged, plus allocated
    /// government securities less a tenth."
    pub fn collateral(&self) -> u64 {
        let [cash, deposits, guarantees, securities] = self.allocated;
        cash + deposits + guarantees + self.pledged + Rule::New.counted(securities)
    }

    pub fn is_empty(&self) -> bool {
        self.received == [0; KINDS]
            && self.allocated == [0; KINDS]
            && self.pledged == 0
            && self.margin == 0
    }

    fn within_limits(&self) -> bool {
        let kinds = self.received.iter().zip(&self.allocated);
        kinds
            .into_iter()
            .all(|(&received, &allocated)| received <= CEILING && allocated <= received)
            && self.pledged <= CEILING
            && self.margin <= CEILING
    }
}

/// The five figures of an account, always worked out afresh from the rows,
/// and its mode, which "depends on history".
#[derive(Clone, Copy, PartialEq, Eq, Default, Debug)]
pub struct Standing {
    pub collateral: u64,
    pub need: u64,
    pub blocked: u64,
    pub deemed: u64,
    pub free: u64,
    pub mode: Mode,
    /// "The CM's need less its collateral, or 0"; 0 for every other account.
    pub shortfall: u64,
}

impl Standing {
    fn of(collateral: u64, need: u64, mode: Mode) -> Standing {
        let blocked = need.min(collateral);
        Standing {
            collateral,
            need,
            blocked,
            deemed: need - blocked,
            free: collateral - blocked,
            mode,
            shortfall: 0,
        }
    }
}

#[derive(Clone)]
pub struct Book {
    pub rows: [Row; MOST_ACCOUNTS],
    pub count: usize,
    pub numbers: Numbers,
    pub serial: u16,
    /// On for a TM or the CM in risk reduction mode, off for any other row.
    pub modes: [Mode; MOST_ACCOUNTS],
    /// "Every TM's and the CM's need beside the rows", 0 for any other row.
    pub needs: [u64; MOST_ACCOUNTS],
    /// For each account, the excess of those directly under it, in tenths,
    /// added up. Kept so that a look needs no walk over all the rows.
    over: [u64; MOST_ACCOUNTS],
    /// Whether every mode has been looked at. Those of a book that was handed
    /// over need not fit its figures until a record is carried out.
    looked: bool,
}

/// What an account leaves to the one that answers for it.
#[derive(Clone, Copy, PartialEq, Eq)]
struct Left {
    deemed: u64,
    excess: u64,
}

impl Book {
    /// "In a fresh book it is the only account and all amounts are 0."
    pub fn fresh() -> Book {
        let mut rows = [Row::default(); MOST_ACCOUNTS];
        rows[0] = Row::opened(Sort::Cm, 0);
        Book {
            rows,
            count: 1,
            numbers: Numbers::fresh(),
            serial: 0,
            modes: [Mode::Off; MOST_ACCOUNTS],
            needs: [0; MOST_ACCOUNTS],
            over: [0; MOST_ACCOUNTS],
            looked: true,
        }
    }

    /// A sound book that comes from outside: what is kept for the look is
    /// worked out from its rows.
    pub fn handed_over(
        rows: [Row; MOST_ACCOUNTS],
        count: usize,
        numbers: Numbers,
        serial: u16,
        modes: [Mode; MOST_ACCOUNTS],
        needs: [u64; MOST_ACCOUNTS],
    ) -> Book {
        let mut book = Book {
            rows,
            count,
            numbers,
            serial,
            modes,
            needs,
            over: [0; MOST_ACCOUNTS],
            looked: false,
        };
        for (account, used) in book.uses().into_iter().enumerate() {
            if book.is_member(account) {
                book.over[account] = used - 10 * rows[account].margin;
            }
        }
        book
    }

    pub fn collateral(&self, account: usize) -> u64 {
        self.rows[account].collateral()
    }

    pub fn is_live(&self, account: usize) -> bool {
        account < self.count && self.rows[account].live
    }

    /// A trading or the clearing member: those who answer for others.
    pub fn is_member(&self, account: usize) -> bool {
        matches!(self.rows[account].sort, Sort::Tm | Sort::Cm)
    }

    /// The account that answers for what this one is deemed: a client's TM,
    /// and the CM for TMs and CPs.
    pub fn answers_for(&self, account: usize) -> usize {
        usize::from(self.rows[account].tm)
    }

    fn left_to_others(&self, account: usize) -> Left {
        Left {
            deemed: self.deemed(account),
            excess: self.excess(account),
        }
    }

    /// Changes one row; a member's own margin is part of its need.
    pub fn change(&mut self, account: usize, change: impl FnOnce(&mut Row)) {
        let was = self.left_to_others(account);
        let margin = self.rows[account].margin;
        change(&mut self.rows[account]);
        if self.is_member(account) {
            self.needs[account] = self.needs[account] - margin + self.rows[account].margin;
        }
        self.carry_up(account, was);
    }

    /// Carries what the account is now deemed, and its excess, up to the CM.
    fn carry_up(&mut self, account: usize, left: Left) {
        let (mut at, mut was) = (account, left);
        while at != 0 {
            let now = self.left_to_others(at);
            if now == was {
                break;
            }
            let above = self.answers_for(at);
            let above_was = self.left_to_others(above);
            self.needs[above] = self.needs[above] - was.deemed + now.deemed;
            self.over[above] = self.over[above] - was.excess + now.excess;
            (at, was) = (above, above_was);
        }
    }

    /// Behind the last row, with the next number, which it gives.
    pub fn open(&mut self, sort: Sort, tm: usize) -> u16 {
        let number = self.numbers.next as u16;
        self.rows[self.count] = Row::opened(sort, tm as u16);
        self.numbers.of_rows[self.count] = number;
        self.count += 1;
        self.numbers.next += 1;
        number
    }

    pub fn has_live_client(&self, tm: usize) -> bool {
        let rows = &self.rows[..self.count];
        rows.iter()
            .any(|row| row.sort == Sort::Client && row.live && usize::from(row.tm) == tm)
    }

    /// The standings of all rows held, all but the mode from present
    /// amounts only. Whoever answers for an account has a lower place, so one
    /// walk down suffices.
    pub fn standings(&self) -> Vec<Standing> {
        let mut called = vec![0u64; self.count];
        let mut all = vec![Standing::default(); self.count];
        for account in (0..self.count).rev() {
            let row = &self.rows[account];
            let need = row.margin + called[account];
            all[account] = Standing::of(self.collateral(account), need, self.modes[account]);
            if account != 0 {
                called[self.answers_for(account)] += all[account].deemed;
            }
        }
        all[0].shortfall = all[0].need.saturating_sub(all[0].collateral);
        all
    }

    /// Document 01, "A sound book", without its last line: it "no longer has to
    /// be covered" (K8); and "each kept need equals the need worked out afresh"
    /// (K3), and numbers rise (K11). A row that is no client has TM word 0.
    pub fn is_sound(&self) -> bool {
        (1..=MOST_ACCOUNTS).contains(&self.count)
            && self.rows[0].sort == Sort::Cm
            && self.rows[0].live
            && self.rows[self.count..]
                .iter()
                .all(|row| *row == Row::default())
            && (0..self.count).all(|account| self.row_is_sound(account))
            && self.modes_are_sound()
            && self.numbers.are_sound(self.count)
            && self.needs == self.needs_afresh()
    }

    fn row_is_sound(&self, account: usize) -> bool {
        let row = &self.rows[account];
        let sort_fits = match row.sort {
            Sort::Cm => account == 0 && row.tm == 0,
            Sort::Tm | Sort::Cp => account != 0 && row.tm == 0,
            Sort::Client => self.client_is_sound(account),
            Sort::Unused => false,
        };
        sort_fits && row.within_limits() && (row.live || row.is_empty())
    }

    fn client_is_sound(&self, account: usize) -> bool {
        let row = &self.rows[account];
        let tm = usize::from(row.tm);
        tm < account && self.rows[tm].sort == Sort::Tm && (!row.live || self.rows[tm].live)
    }
}
