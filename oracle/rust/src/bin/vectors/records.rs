//! The records of the writers' tags: their fields in a line, and what the original writes for them.
use oracle::{options::*, parsers::*, Sign};
use std::fmt::Write;
use writeable::{LengthHint, Writeable};

/// A name as a place and a length in a text of its own.
pub struct Name {
    pub text: String,
    pub place: usize,
    pub len: usize,
}

impl Name {
    pub fn get(&self) -> &str {
        &self.text[self.place..self.place + self.len]
    }
}

pub struct Zone {
    pub show: DisplayTimeZone,
    pub name: &'static Name,
}

pub struct Calendar {
    pub show: DisplayCalendar,
    pub name: &'static Name,
}

pub struct Stamp {
    pub date: Option<FormattableDate>,
    pub time: Option<FormattableTime>,
    pub offset: Option<FormattableUtcOffset>,
    pub zone: Option<Zone>,
    pub calendar: Option<Calendar>,
}

pub enum Record {
    Date(FormattableDate),
    Time(FormattableTime),
    Offset(FormattableUtcOffset),
    Zone(Zone),
    Calendar(Calendar),
    MonthDay(FormattableDate, Calendar),
    YearMonth(FormattableDate, Calendar),
    Stamp(Stamp),
    Duration(FormattableDuration),
}

/// A record, and how many bytes the buffer has beyond the original's text.
pub struct Case {
    pub record: Record,
    pub spare: usize,
}

// ---- the original's types

pub fn copy_date(d: &FormattableDate) -> FormattableDate {
    FormattableDate(d.0, d.1, d.2)
}

fn copy_time(t: &FormattableTime) -> FormattableTime {
    FormattableTime { hour: t.hour, minute: t.minute, second: t.second, nanosecond: t.nanosecond, precision: t.precision, include_sep: t.include_sep }
}

fn copy_offset(o: &FormattableUtcOffset) -> FormattableUtcOffset {
    let offset = match &o.offset {
        UtcOffset::Z => UtcOffset::Z,
        UtcOffset::Offset(o) => UtcOffset::Offset(FormattableOffset { sign: o.sign, time: copy_time(&o.time) }),
    };
    FormattableUtcOffset { show: o.show, offset }
}

impl Zone {
    fn original(&self) -> FormattableTimeZone<'static> {
        FormattableTimeZone { show: self.show, timezone: self.name.get() }
    }
}

impl Calendar {
    fn original(&self) -> FormattableCalendar<'static> {
        FormattableCalendar { show: self.show, calendar: self.name.get() }
    }
}

impl Stamp {
    fn original(&self) -> FormattableIxdtf<'static> {
        FormattableIxdtf {
            date: self.date.as_ref().map(copy_date),
            time: self.time.as_ref().map(copy_time),
            utc_offset: self.offset.as_ref().map(copy_offset),
            timezone: self.zone.as_ref().map(Zone::original),
            calendar: self.calendar.as_ref().map(Calendar::original),
        }
    }
}

/// What the original says of a record: its text, and its length hint.
pub struct Original {
    pub text: String,
    pub hint: LengthHint,
}

fn asked<T: Writeable>(value: &T) -> Original {
    let mut text = String::new();
    value.write_to(&mut text).expect("a String takes every text");
    Original { text, hint: value.writeable_length_hint() }
}

impl Record {
    pub fn original(&self) -> Original {
        match self {
            Record::Date(d) => asked(d),
            Record::Time(t) => asked(t),
            Record::Offset(o) => asked(o),
            Record::Zone(z) => asked(&z.original()),
            Record::Calendar(c) => asked(&c.original()),
            Record::MonthDay(d, c) => asked(&FormattableMonthDay { date: copy_date(d), calendar: c.original() }),
            Record::YearMonth(d, c) => asked(&FormattableYearMonth { date: copy_date(d), calendar: c.original() }),
            Record::Stamp(s) => asked(&s.original()),
            Record::Duration(d) => asked(d),
        }
    }
}

// ---- the fields of a line, each with the blank before it

fn number(out: &mut String, n: impl std::fmt::Display) {
    write!(out, " {n}").expect("a String takes every text");
}

pub fn hex(out: &mut String, text: &str) {
    out.push(' ');
    if text.is_empty() {
        out.push('-');
    }
    for byte in text.bytes() {
        for digit in [byte >> 4, byte & 15] {
            out.push(char::from_digit(digit.into(), 16).expect("a digit is below 16"));
        }
    }
}

fn precision(out: &mut String, p: Precision) {
    match p {
        Precision::Auto => number(out, -1),
        Precision::Minute => number(out, -2),
        Precision::Digit(d) => number(out, d),
    }
}

fn sign(out: &mut String, s: Sign) {
    number(out, match s { Sign::Positive => 1, Sign::Zero => 0, Sign::Negative => -1 });
}

fn date(out: &mut String, d: &FormattableDate) {
    write!(out, " {} {} {}", d.0, d.1, d.2).expect("a String takes every text");
}

fn time(out: &mut String, t: &FormattableTime) {
    write!(out, " {} {} {} {}", t.hour, t.minute, t.second, t.nanosecond).expect("a String takes every text");
    precision(out, t.precision);
    number(out, t.include_sep as u8);
}

fn offset(out: &mut String, o: &FormattableUtcOffset) {
    number(out, match o.show { DisplayOffset::Never => 0, DisplayOffset::Auto => 1 });
    match &o.offset {
        UtcOffset::Z => out.push_str(" 1 0 0 0 0 0 0 0"),
        UtcOffset::Offset(o) => {
            number(out, 0);
            sign(out, o.sign);
            time(out, &o.time);
        }
    }
}

fn name(out: &mut String, n: &Name) {
    hex(out, &n.text);
    number(out, n.place);
    number(out, n.len);
}

fn zone(out: &mut String, z: &Zone) {
    number(out, match z.show { DisplayTimeZone::Never => 0, DisplayTimeZone::Auto => 1, DisplayTimeZone::Critical => 3 });
    name(out, z.name);
}

fn calendar(out: &mut String, c: &Calendar) {
    number(out, match c.show { DisplayCalendar::Never => 0, DisplayCalendar::Auto => 1, DisplayCalendar::Always => 2, DisplayCalendar::Critical => 3 });
    name(out, c.name);
}

/// A part of a stamp, after whether it is there; the fields of an absent part are as given.
fn part<T>(out: &mut String, part: &Option<T>, fields: fn(&mut String, &T), absent: &str) {
    match part {
        None => out.push_str(absent),
        Some(value) => {
            number(out, 1);
            fields(out, value);
        }
    }
}

fn stamp(out: &mut String, s: &Stamp) {
    part(out, &s.date, date, " 0 0 0 0");
    part(out, &s.time, time, " 0 0 0 0 0 0 0");
    part(out, &s.offset, offset, " 0 0 0 0 0 0 0 0 0 0");
    part(out, &s.zone, zone, " 0 0 - 0 0");
    part(out, &s.calendar, calendar, " 0 0 - 0 0");
}

fn duration(out: &mut String, d: &FormattableDuration) {
    precision(out, d.precision);
    sign(out, d.sign);
    match d.date {
        None => out.push_str(" 0 0 0 0 0"),
        Some(d) => write!(out, " 1 {} {} {} {}", d.years, d.months, d.weeks, d.days).expect("a String takes every text"),
    }
    let (form, h, m, s, fraction) = match d.time {
        None => (0, 0, 0, 0, None),
        Some(FormattableTimeDuration::Hours(h, f)) => (1, h, 0, 0, f),
        Some(FormattableTimeDuration::Minutes(h, m, f)) => (2, h, m, 0, f),
        Some(FormattableTimeDuration::Seconds(h, m, s, f)) => (3, h, m, s, f),
    };
    write!(out, " {form} {h} {m} {s} {} {}", fraction.is_some() as u8, fraction.unwrap_or(0)).expect("a String takes every text");
}

/// The words LENGTH ANSWER of a text that is written into so many bytes.
pub fn answer(out: &mut String, text: &str, room: usize) {
    number(out, text.len());
    if room < text.len() {
        number(out, 1);
    } else {
        number(out, 0);
        number(out, text.len());
        hex(out, text);
    }
}

impl Case {
    /// The line with the original's answer, and the room in it.
    pub fn line(&self, original: &Original) -> (String, usize) {
        let mut line = String::with_capacity(512);
        let (tag, out) = (&self.record, &mut line);
        out.push_str(match tag {
            Record::Date(_) => "WD",
            Record::Time(_) => "WT",
            Record::Offset(_) => "WO",
            Record::Zone(_) => "WZ",
            Record::Calendar(_) => "WC",
            Record::MonthDay(..) => "WM",
            Record::YearMonth(..) => "WY",
            Record::Stamp(_) => "WS",
            Record::Duration(_) => "WP",
        });
        match &self.record {
            Record::Date(d) => date(out, d),
            Record::Time(t) => time(out, t),
            Record::Offset(o) => offset(out, o),
            Record::Zone(z) => zone(out, z),
            Record::Calendar(c) => calendar(out, c),
            Record::MonthDay(d, c) | Record::YearMonth(d, c) => {
                date(out, d);
                calendar(out, c);
            }
            Record::Stamp(s) => stamp(out, s),
            Record::Duration(d) => duration(out, d),
        }
        let room = (original.text.len() + self.spare).min(400); // the longest that a line may have
        number(out, room);
        answer(out, &original.text, room);
        (line, room)
    }
}
