//! Single records, each from the fields of its line (docs/VECTORS.md, up to ROOM): the line with the original's answer, the rows of
//! docs/DIFFERENCES.md under which the record falls, and what the library answers there.
use crate::records::{Calendar, Case, Name, Record, Stamp, Zone};
use crate::rows;
use oracle::{options::*, parsers::*, Sign};
use std::str::{FromStr, Split};

struct Fields<'a>(Split<'a, char>);

impl<'a> Fields<'a> {
    fn number<T: FromStr>(&mut self) -> Option<T> {
        self.0.next()?.parse().ok()
    }

    fn flag(&mut self) -> Option<bool> {
        Some(self.number::<u8>()? == 1)
    }

    fn precision(&mut self) -> Option<Precision> {
        Some(match self.number::<i32>()? {
            -1 => Precision::Auto,
            -2 => Precision::Minute,
            d => Precision::Digit(d.try_into().ok()?),
        })
    }

    fn sign(&mut self) -> Option<Sign> {
        self.number::<i8>().map(Sign::from)
    }

    fn date(&mut self) -> Option<FormattableDate> {
        Some(FormattableDate(self.number()?, self.number()?, self.number()?))
    }

    fn time(&mut self) -> Option<FormattableTime> {
        Some(FormattableTime {
            hour: self.number()?,
            minute: self.number()?,
            second: self.number()?,
            nanosecond: self.number()?,
            precision: self.precision()?,
            include_sep: self.flag()?,
        })
    }

    fn offset(&mut self) -> Option<FormattableUtcOffset> {
        let show = if self.flag()? { DisplayOffset::Auto } else { DisplayOffset::Never };
        let zulu = self.flag()?;
        let offset = FormattableOffset { sign: self.sign()?, time: self.time()? };
        Some(FormattableUtcOffset { show, offset: if zulu { UtcOffset::Z } else { UtcOffset::Offset(offset) } })
    }

    fn name(&mut self) -> Option<&'static Name> {
        let digits = self.0.next()?;
        let byte = |at| u8::from_str_radix(digits.get(at..at + 2)?, 16).ok();
        let bytes: Option<Vec<u8>> = if digits == "-" { Some(Vec::new()) } else { (0..digits.len()).step_by(2).map(byte).collect() };
        let name = Name { text: String::from_utf8(bytes?).ok()?, place: self.number()?, len: self.number()? };
        name.text.get(name.place..name.place + name.len)?;
        Some(Box::leak(Box::new(name)))
    }

    fn zone(&mut self) -> Option<Zone> {
        let show = match self.number()? {
            0u8 => DisplayTimeZone::Never,
            1 => DisplayTimeZone::Auto,
            _ => DisplayTimeZone::Critical,
        };
        Some(Zone { show, name: self.name()? })
    }

    fn calendar(&mut self) -> Option<Calendar> {
        let show = match self.number()? {
            0u8 => DisplayCalendar::Never,
            1 => DisplayCalendar::Auto,
            2 => DisplayCalendar::Always,
            _ => DisplayCalendar::Critical,
        };
        Some(Calendar { show, name: self.name()? })
    }

    /// A part of a stamp, after whether it is there.
    fn part<T>(&mut self, fields: fn(&mut Self) -> Option<T>) -> Option<Option<T>> {
        let there = self.flag()?;
        let part = fields(self)?;
        Some(there.then_some(part))
    }

    fn stamp(&mut self) -> Option<Stamp> {
        Some(Stamp {
            date: self.part(Self::date)?,
            time: self.part(Self::time)?,
            offset: self.part(Self::offset)?,
            zone: self.part(Self::zone)?,
            calendar: self.part(Self::calendar)?,
        })
    }

    fn date_duration(&mut self) -> Option<FormattableDateDuration> {
        Some(FormattableDateDuration { years: self.number()?, months: self.number()?, weeks: self.number()?, days: self.number()? })
    }

    fn duration(&mut self) -> Option<FormattableDuration> {
        use FormattableTimeDuration::{Hours, Minutes, Seconds};
        let (precision, sign, date) = (self.precision()?, self.sign()?, self.part(Self::date_duration)?);
        let (form, h, m, s) = (self.number::<u8>()?, self.number()?, self.number()?, self.number()?);
        let fraction = self.part(Self::number)?;
        let time = match form {
            0 => None,
            1 => Some(Hours(h, fraction)),
            2 => Some(Minutes(h, m, fraction)),
            _ => Some(Seconds(h, m, s, fraction)),
        };
        Some(FormattableDuration { precision, sign, date, time })
    }
}

fn record(line: &str) -> Option<Record> {
    let mut fields = Fields(line.split(' '));
    let record = match fields.0.next()? {
        "WD" => Record::Date(fields.date()?),
        "WT" => Record::Time(fields.time()?),
        "WO" => Record::Offset(fields.offset()?),
        "WZ" => Record::Zone(fields.zone()?),
        "WC" => Record::Calendar(fields.calendar()?),
        "WM" => Record::MonthDay(fields.date()?, fields.calendar()?),
        "WY" => Record::YearMonth(fields.date()?, fields.calendar()?),
        "WS" => Record::Stamp(fields.stamp()?),
        "WP" => Record::Duration(fields.duration()?),
        _ => return None,
    };
    fields.0.next().is_none().then_some(record)
}

/// The line with the original's answer, the rows, the words of the library's answer there (none where both write the same) and the
/// original's text and length hint, with tabs between them; none where the fields are not those of a record.
pub fn assigned(fields: &str) -> Option<String> {
    let case = Case { record: record(fields)?, spare: 1 };
    let original = case.record.original();
    let (line, room) = case.line(&original);
    let (rows, ours) = rows::assigned(&case.record, &original, room)?;
    let rows: Vec<String> = rows.iter().map(u32::to_string).collect();
    Some(format!("{line}\t{}\t{ours}\t{}\t{}", rows.join(" "), original.text, original.hint.0))
}
