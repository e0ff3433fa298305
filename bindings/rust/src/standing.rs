//! How an account stands.

/// An account's figures, in paise.
#[derive(Clone, Copy, PartialEq, Eq, Hash, Debug)]
pub struct Standing {
    /// What is allocated and pledged; government securities less a tenth.
    pub collateral: u64,
    /// Its margin and what those under it are deemed.
    pub need: u64,
    /// The lesser of need and collateral.
    pub blocked: u64,
    /// Need less blocked.
    pub deemed: u64,
    /// Collateral less blocked.
    pub free: u64,
    /// Whether it is in risk reduction mode.
    pub mode: bool,
    /// Of account 0: what its need is above its collateral, or 0.
    pub shortfall: u64,
}

impl Standing {
    pub(crate) fn of(figures: [u64; 7]) -> Standing {
        let [collateral, need, blocked, deemed, free, mode, shortfall] = figures;
        Standing {
            collateral,
            need,
            blocked,
            deemed,
            free,
            mode: mode == 1,
            shortfall,
        }
    }
}
