//! The statuses of the library's calls, by the names that they have in crates/hw_c/src/codes.rt.

pub(crate) const OK: u32 = 0;
pub(crate) const OUT_OF_MEMORY: u32 = 1;
pub(crate) const NONE: u32 = 2;
pub(crate) const OUT_OF_RANGE: u32 = 3;
pub(crate) const EMPTY: u32 = 4;
pub(crate) const FULL: u32 = 5;
pub(crate) const TOO_LONG: u32 = 6;
pub(crate) const OTHER_INSTANCE: u32 = 7;
pub(crate) const BAD_BYTES: u32 = 0x100;
pub(crate) const BAD_CONFIG: u32 = 0x200;
pub(crate) const BAD_SIGNATURE: u32 = 0x300;
pub(crate) const BAD_PAIR: u32 = 0x310;
pub(crate) const CLASH: u32 = 0x320;
pub(crate) const RECORDS_FULL: u32 = 0x321;
pub(crate) const PARK_FULL: u32 = 0x322;
pub(crate) const LOCAL_RULE: u32 = 0x400;
pub(crate) const BAD_CERTIFICATE: u32 = 0x500;
pub(crate) const BAD_CERTIFIED_CONFIG: u32 = 0x510;
pub(crate) const BAD_CERTIFIED_VERTEX: u32 = 0x520;
