//! The peers that are written in Rust, as calls for the driver: the crates `time` and `chrono`, and the writers of the Rust original.
//! A reader is lent a text and answers 1 if it was read; its whole value is made, and handed to `black_box`. A writer is lent a value, made
//! before, and a buffer; it answers the count of bytes written, 0 if it failed. The driver lends ASCII texts, valid values and live pointers.
use std::fmt::{self, Write};
use std::hint::black_box;

/// The fields of a stamp, as the driver has them (driver.c says the same).
#[repr(C)]
pub struct Fields {
    year: i32,
    words: [u32; 24],
    names: *const u8,
}

impl Fields {
    fn byte(&self, at: usize) -> u8 {
        self.words[at] as u8
    }
    fn name(&self, at: usize) -> &'static str {
        let (from, length) = (self.words[at] as usize, self.words[at + 1] as usize);
        unsafe { std::str::from_utf8_unchecked(std::slice::from_raw_parts(self.names.add(from), length)) }
    }
}

/// A buffer of fixed size as a sink.
struct Lent<'a> {
    bytes: &'a mut [u8],
    used: usize,
}

impl Write for Lent<'_> {
    fn write_str(&mut self, text: &str) -> fmt::Result {
        let end = self.used + text.len();
        self.bytes.get_mut(self.used..end).ok_or(fmt::Error)?.copy_from_slice(text.as_bytes());
        self.used = end;
        Ok(())
    }
}

macro_rules! reader {
    ($name:ident, $text:ident, $parse:expr) => {
        #[no_mangle]
        pub unsafe extern "C" fn $name(text: *const u8, length: usize) -> u64 {
            let $text = std::str::from_utf8_unchecked(std::slice::from_raw_parts(text, length));
            match $parse {
                Ok(value) => {
                    black_box(&value);
                    1
                }
                Err(_) => 0,
            }
        }
    };
}

/// A writer to a sink of `fmt`, and what makes its value.
macro_rules! writer {
    ($make:ident, $name:ident, $type:ty, $f:ident, $made:expr, $value:ident, $sink:ident, $write:expr) => {
        #[no_mangle]
        pub unsafe extern "C" fn $make($f: &Fields) -> *const $type {
            Box::leak(Box::new($made))
        }
        #[no_mangle]
        pub unsafe extern "C" fn $name($value: &$type, buffer: *mut u8, room: usize) -> usize {
            let mut lent = Lent { bytes: std::slice::from_raw_parts_mut(buffer, room), used: 0 };
            let $sink = &mut lent;
            match $write {
                Ok(_) => lent.used,
                Err(_) => 0,
            }
        }
    };
}

mod of_time {
    use super::*;
    use time::format_description::{well_known::Rfc3339, FormatItem};
    use time::macros::format_description;
    use time::{Date, Month, OffsetDateTime, PrimitiveDateTime, Time, UtcOffset};

    const DAY: &[FormatItem] = format_description!("[year]-[month]-[day]");
    const SECOND: &[FormatItem] = format_description!("[year]-[month]-[day]T[hour]:[minute]:[second]");

    fn day(f: &Fields) -> Date {
        Date::from_calendar_date(f.year, Month::try_from(f.byte(1)).unwrap(), f.byte(2)).unwrap()
    }
    fn local(f: &Fields) -> PrimitiveDateTime {
        PrimitiveDateTime::new(day(f), Time::from_hms_nano(f.byte(4), f.byte(5), f.byte(6), f.words[7]).unwrap())
    }
    fn instant(f: &Fields) -> OffsetDateTime {
        local(f).assume_offset(UtcOffset::from_hms(f.byte(10) as i8, f.byte(11) as i8, 0).unwrap())
    }

    /// This crate writes to a sink of `io`: the rest of the buffer.
    macro_rules! io_writer {
        ($make:ident, $name:ident, $type:ty, $made:ident, $format:expr) => {
            #[no_mangle]
            pub unsafe extern "C" fn $make(f: &Fields) -> *const $type {
                Box::leak(Box::new($made(f)))
            }
            #[no_mangle]
            pub unsafe extern "C" fn $name(value: &$type, buffer: *mut u8, room: usize) -> usize {
                let mut rest = std::slice::from_raw_parts_mut(buffer, room);
                value.format_into(&mut rest, $format).unwrap_or(0)
            }
        };
    }

    reader!(peer_time_read_day, t, Date::parse(t, DAY));
    reader!(peer_time_read_second, t, PrimitiveDateTime::parse(t, SECOND));
    reader!(peer_time_read_instant, t, OffsetDateTime::parse(t, &Rfc3339));
    io_writer!(make_time_day, peer_time_write_day, Date, day, DAY);
    io_writer!(make_time_second, peer_time_write_second, PrimitiveDateTime, local, SECOND);
    io_writer!(make_time_instant, peer_time_write_instant, OffsetDateTime, instant, &Rfc3339);
}

mod of_chrono {
    use super::*;
    use chrono::{DateTime, FixedOffset, NaiveDate, NaiveDateTime, TimeZone, Utc};

    fn day(f: &Fields) -> NaiveDate {
        NaiveDate::from_ymd_opt(f.year, f.words[1], f.words[2]).unwrap()
    }
    fn local(f: &Fields) -> NaiveDateTime {
        day(f).and_hms_nano_opt(f.words[4], f.words[5], f.words[6], f.words[7]).unwrap()
    }
    fn zoned(f: &Fields) -> DateTime<FixedOffset> {
        let east = FixedOffset::east_opt((f.words[10] * 3600 + f.words[11] * 60) as i32).unwrap();
        east.from_local_datetime(&local(f)).unwrap()
    }

    // of the ways that the crate has, those that take the fewest instructions: its own parsers and its `Debug`, which is ISO 8601, are quicker than its
    // format strings, but `to_rfc3339` is quicker still for an offset
    reader!(peer_chrono_read_day, t, t.parse::<NaiveDate>());
    reader!(peer_chrono_read_second, t, t.parse::<NaiveDateTime>());
    reader!(peer_chrono_read_instant, t, DateTime::parse_from_rfc3339(t));
    writer!(make_chrono_day, peer_chrono_write_day, NaiveDate, f, day(f), v, sink, write!(sink, "{:?}", v));
    writer!(make_chrono_second, peer_chrono_write_second, NaiveDateTime, f, local(f), v, sink, write!(sink, "{:?}", v));
    writer!(make_chrono_utc, peer_chrono_write_utc, DateTime<Utc>, f, Utc.from_utc_datetime(&local(f)), v, sink, write!(sink, "{:?}", v));
    writer!(make_chrono_offset, peer_chrono_write_offset, DateTime<FixedOffset>, f, zoned(f), v, sink, sink.write_str(&v.to_rfc3339()));
}

mod of_original {
    use super::*;
    use oracle::{options::*, parsers::*, Sign};
    use writeable::Writeable;

    fn precision(n: u32) -> Precision {
        match n {
            10 => Precision::Auto,
            11 => Precision::Minute,
            d => Precision::Digit(d as u8),
        }
    }
    fn time(f: &Fields, at: usize) -> FormattableTime {
        FormattableTime {
            hour: f.byte(at),
            minute: f.byte(at + 1),
            second: f.byte(at + 2),
            nanosecond: f.words[at + 3],
            precision: precision(f.words[at + 4]),
            include_sep: true,
        }
    }
    fn offset(f: &Fields) -> Option<FormattableUtcOffset> {
        let sign = match f.words[9] {
            0 => return None,
            1 => return Some(FormattableUtcOffset { show: DisplayOffset::Auto, offset: UtcOffset::Z }),
            2 => Sign::Positive,
            _ => Sign::Negative,
        };
        Some(FormattableUtcOffset { show: DisplayOffset::Auto, offset: UtcOffset::Offset(FormattableOffset { sign, time: time(f, 10) }) })
    }
    fn stamp(f: &Fields) -> FormattableIxdtf<'static> {
        FormattableIxdtf {
            date: (f.words[0] != 0).then(|| FormattableDate(f.year, f.byte(1), f.byte(2))),
            time: (f.words[3] != 0).then(|| time(f, 4)),
            utc_offset: offset(f),
            timezone: (f.words[15] != 0).then(|| FormattableTimeZone { show: DisplayTimeZone::Critical, timezone: f.name(16) }),
            calendar: (f.words[18] != 0).then(|| FormattableCalendar { show: DisplayCalendar::Critical, calendar: f.name(19) }),
        }
    }

    writer!(make_original, peer_original_write, FormattableIxdtf<'static>, f, stamp(f), v, sink, v.write_to(sink));
}
