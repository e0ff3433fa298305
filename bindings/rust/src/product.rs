//! The currency desk's products by number.

/// EURINR.
pub const EURINR: u8 = 0;
/// EURUSD.
pub const EURUSD: u8 = 1;
/// GBPINR.
pub const GBPINR: u8 = 2;
/// GBPUSD.
pub const GBPUSD: u8 = 3;
/// JPYINR.
pub const JPYINR: u8 = 4;
/// USDINR.
pub const USDINR: u8 = 5;
/// USDJPY.
pub const USDJPY: u8 = 6;
/// Interest rate futures.
pub const INTEREST: u8 = 7;
/// 91 day T-bill.
pub const TBILL91: u8 = 8;
/// ONMIBOR.
pub const ONMIBOR: u8 = 9;
