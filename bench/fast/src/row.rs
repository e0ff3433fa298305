//! One account's row, with the figures that are kept beside its amounts.

/// Cash, fixed deposits, bank guarantees, government securities.
pub const KINDS: usize = 4;

#[derive(Clone, Copy, PartialEq, Eq)]
pub enum Sort {
    /// A number never given, or a retired account.
    NotLive,
    Cm,
    Tm,
    Client,
    Cp,
}

/// A row of two cache lines. `collateral`, `need` and `used` follow from the
/// amounts of this row and of those under it, and are never added up afresh.
#[derive(Clone, Copy)]
#[repr(align(64))]
pub struct Row {
    pub received: [u64; KINDS],
    pub allocated: [u64; KINDS],
    pub pledged: u64,
    pub margin: u64,
    /// What `counted` gives for the allocated amounts and pledged.
    pub collateral: u64,
    /// The margin and what those directly under it are deemed.
    pub need: u64,
    /// In tenths: ten margins and the excess of those directly under it.
    pub used: u64,
    /// A TM's live clients.
    pub clients: u8,
    /// Who answers for the account: a client's TM, and the CM for all others.
    pub above: u8,
    pub sort: Sort,
    /// Risk reduction mode.
    pub mode: bool,
}

/// K7: "cash, fixed deposits, guarantees and pledged, plus allocated government
/// securities less a tenth, the tenth rounded up to a paisa".
pub fn counted(allocated: &[u64; KINDS], pledged: u64) -> u64 {
    let [cash, deposits, guarantees, securities] = *allocated;
    cash + deposits + guarantees + pledged + securities - (securities + 9) / 10
}

/// What an account leaves to the one that answers for it.
#[derive(Clone, Copy, PartialEq, Eq)]
pub struct Left {
    pub deemed: u64,
    pub excess: u64,
}

impl Row {
    pub const BLANK: Row = Row {
        received: [0; KINDS],
        allocated: [0; KINDS],
        pledged: 0,
        margin: 0,
        collateral: 0,
        need: 0,
        used: 0,
        clients: 0,
        above: 0,
        sort: Sort::NotLive,
        mode: false,
    };

    pub fn opened(sort: Sort, above: u8) -> Row {
        Row {
            sort,
            above,
            ..Row::BLANK
        }
    }

    pub fn is_member(&self) -> bool {
        matches!(self.sort, Sort::Cm | Sort::Tm)
    }

    pub fn is_empty(&self) -> bool {
        // Allocated is at most received, and collateral has pledged in it.
        self.received == [0; KINDS] && self.collateral == 0 && self.margin == 0
    }

    pub fn blocked(&self) -> u64 {
        self.need.min(self.collateral)
    }

    pub fn left(&self) -> Left {
        Left {
            deemed: self.need.saturating_sub(self.collateral),
            excess: self.used.saturating_sub(9 * self.collateral),
        }
    }

    /// "On when use isn't 0 and is at least nine collaterals; off when use is
    /// 0 or twice the use is under seventeen collaterals; otherwise as before."
    pub fn look(&mut self) {
        let on = (self.used != 0) & (self.used >= 9 * self.collateral);
        let off = (self.used == 0) | (2 * self.used < 17 * self.collateral);
        self.mode = self.is_member() & (on | (self.mode & !off));
    }
}
