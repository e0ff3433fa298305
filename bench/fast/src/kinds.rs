//! The amounts of codes 4 to 7, by kind. Most records name one kind, and need
//! not ask for the other three.

use crate::row::KINDS;

pub trait Amounts {
    fn any(&self, test: impl Fn(usize, u64) -> bool) -> bool;
    fn each(&self, put: impl FnMut(usize, u64));
}

pub struct OneKind {
    pub kind: usize,
    pub amount: u64,
}

pub struct Kinds {
    pub amounts: [u64; KINDS],
}

impl Amounts for OneKind {
    fn any(&self, test: impl Fn(usize, u64) -> bool) -> bool {
        test(self.kind, self.amount)
    }

    fn each(&self, mut put: impl FnMut(usize, u64)) {
        put(self.kind, self.amount);
    }
}

impl Amounts for Kinds {
    fn any(&self, test: impl Fn(usize, u64) -> bool) -> bool {
        let kinds = self.amounts.iter().enumerate();
        kinds.fold(false, |found, (kind, &amount)| found | test(kind, amount))
    }

    fn each(&self, mut put: impl FnMut(usize, u64)) {
        let kinds = self.amounts.iter().enumerate();
        kinds.for_each(|(kind, &amount)| put(kind, amount));
    }
}
