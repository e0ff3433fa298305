//! Who pays what.

/// What pays one account's loss; the four add up to it.
#[derive(Clone, Copy, PartialEq, Eq, Default, Hash, Debug)]
pub struct Payment {
    /// From its own collateral.
    pub own: u64,
    /// From its TM's.
    pub tm: u64,
    /// From the CM's.
    pub cm: u64,
    /// What is uncovered.
    pub uncovered: u64,
}

/// A close-out that was worked out.
#[derive(Clone, PartialEq, Eq, Default, Hash, Debug)]
pub struct CloseOut {
    /// A payment for each row held, in rising number.
    pub payments: Vec<Payment>,
    /// What is uncovered in all.
    pub total: u64,
}

impl CloseOut {
    pub(crate) fn of(pays: &[u64], total: u64) -> CloseOut {
        let payment = |four: &[u64]| Payment {
            own: four[0],
            tm: four[1],
            cm: four[2],
            uncovered: four[3],
        };
        CloseOut {
            payments: pays.chunks_exact(4).map(payment).collect(),
            total,
        }
    }
}
