//! K2 of document 02: uses and excesses, in tenths of a paisa, and the look
//! at modes; K5: what a mode forbids. With every amount at most the ceiling no figure passes 2 ^ 60.

use super::{Book, Sort};
use crate::model::*;

impl Book {
    /// "A client's or CP's excess is ten margins less nine collaterals, or 0",
    /// and a TM's "own excess is use less nine collaterals, or 0".
    pub fn excess(&self, account: usize) -> u64 {
        let row = &self.rows[account];
        let nine_collaterals = 9 * self.collateral(account);
        match row.sort {
            Sort::Client | Sort::Cp => (10 * row.margin).saturating_sub(nine_collaterals),
            Sort::Tm => self.used(account).saturating_sub(nine_collaterals),
            Sort::Cm | Sort::Unused => 0,
        }
    }

    /// "A TM's use is ten of its margins plus its clients' excess", "the CM's
    /// use is ten margins plus the excess of TMs and CPs".
    pub fn used(&self, account: usize) -> u64 {
        10 * self.rows[account].margin + self.over[account]
    }

    /// The look after a record carried out: at all TMs and the CM where none
    /// has been made yet.
    pub fn look_after(&mut self, account: usize) {
        if self.looked {
            return self.look_along(account);
        }
        (0..self.count).for_each(|account| self.look_at(account));
        self.looked = true;
    }

    /// A record moves the figures of the
    /// account it names and of those that answer for it; at every other TM a
    /// look with the same figures as before would leave the mode as it is.
    /// `Looks` holds this against a look at all of them.
    fn look_along(&mut self, account: usize) {
        let mut at = account;
        self.look_at(at);
        while at != 0 {
            at = self.answers_for(at);
            self.look_at(at);
        }
    }

    fn look_at(&mut self, account: usize) {
        if self.is_member(account) {
            let collateral = self.collateral(account);
            self.modes[account] = self.modes[account].looked_at(self.used(account), collateral);
        }
    }

    /// "A TM's or the CM's account whose mode is on." The look comes after a
    /// record, so while one is checked this is the mode before it.
    pub fn keeps_in(&self, account: usize) -> bool {
        self.is_member(account) && self.modes[account] == Mode::On
    }

    /// The use of every TM and the CM from present amounts only; 0 for all
    /// others. Whoever answers for an account has a lower place.
    pub fn uses(&self) -> Vec<u64> {
        let mut over = vec![0; self.count];
        let mut uses = vec![0; self.count];
        for account in (0..self.count).rev() {
            let row = &self.rows[account];
            let mut against = 10 * row.margin;
            if self.is_member(account) {
                against += over[account];
                uses[account] = against;
            }
            if account != 0 {
                over[self.answers_for(account)] +=
                    against.saturating_sub(9 * self.collateral(account));
            }
        }
        uses
    }

    /// What is kept for the look must be what the rows say.
    pub fn uses_agree(&self) -> bool {
        let mut uses = self.uses().into_iter().enumerate();
        uses.all(|(account, used)| !self.is_member(account) || self.used(account) == used)
    }

    /// "In a sound book only a live TM or the CM can be in the mode."
    pub(super) fn modes_are_sound(&self) -> bool {
        self.modes.iter().enumerate().all(|(account, &mode)| {
            let row = &self.rows[account];
            mode == Mode::Off || account == 0 || (row.live && row.sort == Sort::Tm)
        })
    }
}
