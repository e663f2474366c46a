//! SHIM of the crate root of temporal_rs 0.2.6: only what parsers.rs, parsers/time_zone.rs and the pieces of iso.rs name.
#![allow(dead_code, unused_imports)]
extern crate alloc;
use core::cmp::Ordering;

pub mod error;
pub mod options;
pub mod parsers; // src/parsers.rs and src/parsers/time_zone.rs, unchanged
pub mod iso { // pieces of src/iso.rs, cut out unchanged
    use crate::{options::Overflow, utils, TemporalError, TemporalResult};
    include!("iso_pieces.rs");
}
pub mod utils;
pub mod provider { pub trait TimeZoneProvider {} }
pub mod builtins { pub mod time_zone {
    pub struct UtcOffset;
    impl UtcOffset { pub fn from_ixdtf_minute_record(_: ixdtf::records::MinutePrecisionOffset) -> Self { Self } }
} }
pub enum TimeZone { UtcOffset(builtins::time_zone::UtcOffset) }
impl TimeZone {
    pub fn from_time_zone_record<P: provider::TimeZoneProvider + ?Sized>(_: ixdtf::records::TimeZoneRecord<'_, ixdtf::encoding::Utf8>, _: &P) -> TemporalResult<Self> { Err(TemporalError::range()) }
    pub fn utc_with_provider<P: provider::TimeZoneProvider + ?Sized>(_: &P) -> Self { unreachable!() }
}
pub use error::TemporalError;
pub type TemporalResult<T> = Result<T, TemporalError>;

include!("sign_piece.rs"); // enum Sign and impl From<i8>, cut out of src/lib.rs unchanged

// opened for the programs of src/bin
pub fn open_is_valid_date(y: i32, m: u8, d: u8) -> bool { iso::is_valid_date(y, m, d) }
pub fn open_is_valid_time(h: u8, m: u8, s: u8, a: u16, b: u16, c: u16) -> bool { iso::is_valid_time(h, m, s, a, b, c) }
pub fn open_iso_date(y: i32, m: u8, d: u8) -> iso::IsoDate { iso::IsoDate::new_unchecked(y, m, d) }
pub fn open_iso_time(h: u8, m: u8, s: u8, a: u16, b: u16, c: u16) -> iso::IsoTime { iso::IsoTime::new_unchecked(h, m, s, a, b, c) }
