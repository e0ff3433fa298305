//! Risk reduction mode, K2 of document 02.

#[derive(Clone, Copy, PartialEq, Eq, PartialOrd, Ord, Default, Debug)]
pub enum Mode {
    /// "Off at first."
    #[default]
    Off,
    On,
}

impl Mode {
    /// "On when use isn't 0 and is at least nine collaterals; off when use is
    /// 0 or twice the use is under seventeen collaterals; otherwise as before."
    pub fn looked_at(self, used: u64, collateral: u64) -> Mode {
        if used != 0 && used >= 9 * collateral {
            Mode::On
        } else if used == 0 || 2 * used < 17 * collateral {
            Mode::Off
        } else {
            self
        }
    }

    pub fn word(self) -> &'static str {
        match self {
            Mode::Off => "off",
            Mode::On => "on",
        }
    }
}
