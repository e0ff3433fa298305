//! K3 of document 02: "Keep every TM's and the CM's need beside the rows and
//! bring it up to date from the one row that changed."

use super::{Book, MOST_ACCOUNTS};

impl Book {
    /// Kept for a TM and the CM; a client's or CP's is its margin.
    pub fn need(&self, account: usize) -> u64 {
        if self.is_member(account) {
            self.needs[account]
        } else {
            self.rows[account].margin
        }
    }

    pub fn deemed(&self, account: usize) -> u64 {
        self.need(account).saturating_sub(self.collateral(account))
    }

    /// "Blocked is the lesser of need and collateral."
    pub fn blocked(&self, account: usize) -> u64 {
        self.need(account).min(self.collateral(account))
    }

    pub fn free(&self, account: usize) -> u64 {
        self.collateral(account).saturating_sub(self.need(account))
    }

    /// The CM's need if the account's margin were this one.
    pub fn cm_need_with(&self, account: usize, margin: u64) -> u64 {
        let mut at = account;
        let mut need = self.need(at) - self.rows[at].margin + margin;
        while at != 0 {
            let above = self.answers_for(at);
            let deemed = need.saturating_sub(self.collateral(at));
            need = self.need(above) - self.deemed(at) + deemed;
            at = above;
        }
        need
    }

    /// "All needs in one list": of every row held, retired ones too.
    pub fn all_needs(&self) -> Vec<u64> {
        (0..self.count).map(|account| self.need(account)).collect()
    }

    /// What must be kept, from present amounts only; 0 for clients, CPs and
    /// rows that aren't held.
    pub fn needs_afresh(&self) -> [u64; MOST_ACCOUNTS] {
        let mut needs = [0; MOST_ACCOUNTS];
        for (account, standing) in self.standings().into_iter().enumerate() {
            if self.is_member(account) {
                needs[account] = standing.need;
            }
        }
        needs
    }
}
