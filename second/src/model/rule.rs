//! What government securities count as: K7 of document 02. K8: the old rule
//! is left for books that are to be taken over.

#[derive(Clone, Copy, PartialEq, Eq, PartialOrd, Ord, Debug)]
pub enum Rule {
    /// "Until now we counted them in full."
    Old,
    New,
}

/// A part of an amount, a broken paisa counted whole.
pub fn rounded_up(amount: u64, per: u64) -> u64 {
    amount / per + u64::from(amount % per > 0)
}

impl Rule {
    /// "Allocated government securities less a tenth, the tenth rounded up to
    /// a paisa": of the account's whole amount.
    pub fn counted(self, securities: u64) -> u64 {
        match self {
            Rule::Old => securities,
            Rule::New => securities - rounded_up(securities, 10),
        }
    }

    /// The least face value that counts as so much.
    pub fn face(self, counted: u64) -> u64 {
        match self {
            Rule::Old => counted,
            Rule::New => rounded_up(10 * counted, 9),
        }
    }
}
