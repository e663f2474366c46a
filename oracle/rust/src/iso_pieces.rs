// Cut unchanged out of temporal_rs 0.2.6, src/iso.rs (MIT OR Apache-2.0, Copyright (c) 2024 Boa). Before each piece: its lines there.
// Only the closing brace of each of the two impl blocks was added, since the block goes on in the original.

// lines 255 to 272: struct IsoDate, UNIX_EPOCH, IsoDate::new_unchecked
#[non_exhaustive]
#[derive(Debug, Clone, Copy, Default, PartialEq, Eq, PartialOrd, Ord)]
pub struct IsoDate {
    /// An ISO year within a range -271821..=275760
    pub year: i32,
    /// An ISO month within a valid range 1..=12
    pub month: u8,
    /// An ISO day within a valid range of 1..=31
    pub day: u8,
}

impl IsoDate {
    pub(crate) const UNIX_EPOCH: Self = Self::new_unchecked(1970, 1, 1);

    /// Creates a new `IsoDate` without determining the validity.
    pub(crate) const fn new_unchecked(year: i32, month: u8, day: u8) -> Self {
        Self { year, month, day }
    }
}

// lines 528 to 601: struct IsoTime, IsoTime::new_unchecked, IsoTime::new
/// An `IsoTime` record that contains `Temporal`'s
/// time slots.
#[non_exhaustive]
#[derive(Debug, Default, Clone, Copy, PartialEq, Eq, PartialOrd, Ord)]
pub struct IsoTime {
    /// A valid hour value between 0..=23
    pub hour: u8, // 0..=23
    /// A valid minute value between 0..=59
    pub minute: u8, // 0..=59
    /// A valid second value between 0..=59
    pub second: u8, // 0..=59
    /// A valid millisecond value between 0..=999
    pub millisecond: u16, // 0..=999
    /// A valid microsecond value between 0..=999
    pub microsecond: u16, // 0..=999
    /// A valid nanosecond value between 0..=999
    pub nanosecond: u16, // 0..=999
}

impl IsoTime {
    /// Creates a new `IsoTime` without any validation.
    pub(crate) fn new_unchecked(
        hour: u8,
        minute: u8,
        second: u8,
        millisecond: u16,
        microsecond: u16,
        nanosecond: u16,
    ) -> Self {
        Self {
            hour,
            minute,
            second,
            millisecond,
            microsecond,
            nanosecond,
        }
    }

    /// Creates a new regulated `IsoTime`.
    pub fn new(
        hour: u8,
        minute: u8,
        second: u8,
        millisecond: u16,
        microsecond: u16,
        nanosecond: u16,
        overflow: Overflow,
    ) -> TemporalResult<IsoTime> {
        match overflow {
            Overflow::Constrain => {
                let h = hour.clamp(0, 23);
                let min = minute.clamp(0, 59);
                let sec = second.clamp(0, 59);
                let milli = millisecond.clamp(0, 999);
                let micro = microsecond.clamp(0, 999);
                let nano = nanosecond.clamp(0, 999);
                Ok(Self::new_unchecked(h, min, sec, milli, micro, nano))
            }
            Overflow::Reject => {
                if !is_valid_time(hour, minute, second, millisecond, microsecond, nanosecond) {
                    return Err(TemporalError::range().with_message("IsoTime is not valid"));
                };
                Ok(Self::new_unchecked(
                    hour,
                    minute,
                    second,
                    millisecond,
                    microsecond,
                    nanosecond,
                ))
            }
        }
    }
}

// lines 939 to 946: is_valid_date
#[inline]
// Determines if the month and day are valid for the given year.
pub(crate) fn is_valid_date(year: i32, month: u8, day: u8) -> bool {
    if !(1..=12).contains(&month) {
        return false;
    }
    is_valid_iso_day(year, month, day)
}

// lines 1001 to 1005: is_valid_iso_day
#[inline]
pub(crate) fn is_valid_iso_day(year: i32, month: u8, day: u8) -> bool {
    let days_in_month = utils::iso_days_in_month(year, month);
    (1..=days_in_month).contains(&day)
}

// lines 1009 to 1022: is_valid_time
#[inline]
pub(crate) fn is_valid_time(hour: u8, minute: u8, second: u8, ms: u16, mis: u16, ns: u16) -> bool {
    if !(0..=23).contains(&hour) {
        return false;
    }

    let min_sec = 0..=59;
    if !min_sec.contains(&minute) || !min_sec.contains(&second) {
        return false;
    }

    let sub_second = 0..=999;
    sub_second.contains(&ms) && sub_second.contains(&mis) && sub_second.contains(&ns)
}
