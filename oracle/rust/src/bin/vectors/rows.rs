//! Where document 01 and the original part: the rows of docs/DIFFERENCES.md that are about writers, by record alone, and what the
//! library answers under each. Written from document 01, and not from the library.
use crate::records::{answer, Calendar, Case, Name, Original, Record, Stamp, Zone};
use oracle::{open_is_valid_date, options::*, parsers::*, Sign};
use std::io::{self, BufRead};
use writeable::Writeable;

/// A row: its number in docs/DIFFERENCES.md, and what it is about.
pub type Row = (u32, &'static str);

const NAME: Row = (2, "a name not of its grammar, or over 64 bytes");
const YEAR: Row = (5, "a year outside ±999,999");
const DATE: Row = (6, "a date that is none");
const CLOCK: Row = (7, "an hour, minute, second or nanosecond out of its range");
const DIGIT: Row = (8, "Digit over 9");
const NEITHER: Row = (9, "a stamp with neither date nor time");
const OFFSET: Row = (10, "a shown offset without time");
const MINUTE: Row = (11, "Minute in a duration of the form Seconds");
const FRACTION: Row = (12, "a fraction on Hours or Minutes");
const DROPPED: Row = (13, "a fraction on Hours or Minutes whose number is 0");
const NOTHING: Row = (14, "a duration with no part to write");
const NEGATIVE: Row = (15, "a negative duration of zero");
const OVERFLOW: Row = (16, "hours + minutes that wrap to 0");
const HINT_ZEROS: Row = (17, "length hint: the zeros of Digit at nanosecond 0");
const HINT_NEVER: Row = (18, "length hint: an offset under Never");
const HINT_HYPHEN: Row = (19, "length hint: the hyphen after a month-day's year");

const ROWS: [Row; 16] = [
    NAME, YEAR, DATE, CLOCK, DIGIT, NEITHER, OFFSET, MINUTE, FRACTION, DROPPED, NOTHING, NEGATIVE, OVERFLOW, HINT_ZEROS, HINT_NEVER, HINT_HYPHEN,
];

/// What the library answers where it does not write the original's text.
pub enum Ours {
    Refusal(u8),
    Text(String),
}

// ---- refusal 2

fn bad_date(d: &FormattableDate) -> Option<Row> {
    if d.0.unsigned_abs() > 999_999 {
        return Some(YEAR);
    }
    (!open_is_valid_date(d.0, d.1, d.2)).then_some(DATE)
}

fn bad_precision(p: Precision) -> Option<Row> {
    matches!(p, Precision::Digit(10..)).then_some(DIGIT)
}

fn bad_time(t: &FormattableTime) -> Option<Row> {
    let over = t.hour > 23 || t.minute > 59 || t.second > 59 || t.nanosecond > 999_999_999;
    over.then_some(CLOCK).or_else(|| bad_precision(t.precision))
}

fn bad_offset(o: &FormattableUtcOffset) -> Option<Row> {
    match &o.offset {
        UtcOffset::Z => None,
        UtcOffset::Offset(o) => bad_time(&o.time),
    }
}

// ---- refusal 3

fn zone_part(part: &str) -> bool {
    let start = |b: u8| b.is_ascii_alphabetic() || b == b'.' || b == b'_';
    let bytes = part.as_bytes();
    part != "."
        && part != ".."
        && bytes.first().map_or(false, |&b| start(b))
        && bytes.iter().all(|&b| start(b) || b.is_ascii_digit() || b == b'-' || b == b'+')
}

fn zone_offset(name: &[u8]) -> bool {
    let two = |high: u8, low: u8, most: u32| {
        high.is_ascii_digit() && low.is_ascii_digit() && u32::from(high - b'0') * 10 + u32::from(low - b'0') <= most
    };
    matches!(name, [b'+' | b'-', a, b, b':', c, d] if two(*a, *b, 23) && two(*c, *d, 59))
}

fn bad_zone(name: &Name) -> Option<Row> {
    let name = name.get();
    let fine = name.len() <= 64 && (zone_offset(name.as_bytes()) || name.split('/').all(zone_part));
    (!fine).then_some(NAME)
}

fn bad_calendar(name: &Name) -> Option<Row> {
    let name = name.get();
    let run = |run: &str| !run.is_empty() && run.bytes().all(|b| b.is_ascii_alphanumeric());
    (!(name.len() <= 64 && name.split('-').all(run))).then_some(NAME)
}

// ---- the row of a record, in document 01's order: 2, 3, 4

fn stamp_row(s: &Stamp) -> Option<(Row, Ours)> {
    let field = s.date.as_ref().and_then(bad_date).or_else(|| s.time.as_ref().and_then(bad_time)).or_else(|| s.offset.as_ref().and_then(bad_offset));
    if let Some(row) = field {
        return Some((row, Ours::Refusal(2)));
    }
    let zone = |z: &Zone| bad_zone(z.name);
    let calendar = |c: &Calendar| bad_calendar(c.name);
    if let Some(row) = s.zone.as_ref().and_then(zone).or_else(|| s.calendar.as_ref().and_then(calendar)) {
        return Some((row, Ours::Refusal(3)));
    }
    if s.date.is_none() && s.time.is_none() {
        return Some((NEITHER, Ours::Refusal(4)));
    }
    let shown = s.offset.as_ref().map_or(false, |o| o.show == DisplayOffset::Auto);
    (shown && s.time.is_none()).then_some((OFFSET, Ours::Refusal(4)))
}

fn partial_row(d: &FormattableDate, c: &Calendar) -> Option<(Row, Ours)> {
    let field = bad_date(d).map(|row| (row, Ours::Refusal(2)));
    field.or_else(|| bad_calendar(c.name).map(|row| (row, Ours::Refusal(3))))
}

fn duration_row(d: &FormattableDuration, original: &str) -> Option<(Row, Ours)> {
    use FormattableTimeDuration::{Hours, Minutes, Seconds};
    let (h, m, s, fraction, in_seconds) = match d.time {
        None => (0, 0, 0, 0, false),
        Some(Hours(h, f)) => (h, 0, 0, f.unwrap_or(0), false),
        Some(Minutes(h, m, f)) => (h, m, 0, f.unwrap_or(0), false),
        Some(Seconds(h, m, s, f)) => (h, m, s, f.unwrap_or(0), true),
    };
    let refused = |row, k| Some((row, Ours::Refusal(k)));
    if fraction > 999_999_999 {
        return refused(CLOCK, 2);
    }
    if let Some(row) = bad_precision(d.precision) {
        return refused(row, 2);
    }
    if in_seconds && d.precision == Precision::Minute {
        return refused(MINUTE, 2);
    }
    if !in_seconds && fraction != 0 {
        let number = if matches!(d.time, Some(Hours(..))) { h } else { m };
        return refused(if number == 0 { DROPPED } else { FRACTION }, 4);
    }
    let dated = d.date.map_or(false, |d| d.years != 0 || d.months != 0 || d.weeks != 0 || d.days != 0);
    let timed = h != 0 || m != 0 || s != 0 || fraction != 0;
    let digits = matches!(d.precision, Precision::Digit(_));
    let seconds = in_seconds && (s != 0 || fraction != 0 || digits || d.date.is_none() && h == 0 && m == 0);
    if !dated && !timed && !seconds {
        return refused(NOTHING, 4);
    }
    if d.sign == Sign::Negative && !dated && !timed {
        return refused(NEGATIVE, 4);
    }
    // the original leaves out the `T`, and nothing else
    let wraps = matches!(d.time, Some(Minutes(..))) && h != 0 && h.wrapping_add(m) == 0;
    wraps.then(|| {
        let place = original.len() - format!("{h}H{m}M").len();
        (OVERFLOW, Ours::Text(format!("{}T{}", &original[..place], &original[place..])))
    })
}

/// The row that a record falls under, and what the library answers there; none where it writes what the original does.
pub fn row(record: &Record, original: &str) -> Option<(Row, Ours)> {
    let refused = |row: Option<Row>, k| row.map(|row| (row, Ours::Refusal(k)));
    match record {
        Record::Date(d) => refused(bad_date(d), 2),
        Record::Time(t) => refused(bad_time(t), 2),
        Record::Offset(o) => refused(bad_offset(o), 2),
        Record::Zone(z) => refused(bad_zone(z.name), 3),
        Record::Calendar(c) => refused(bad_calendar(c.name), 3),
        Record::MonthDay(d, c) | Record::YearMonth(d, c) => partial_row(d, c),
        Record::Stamp(s) => stamp_row(s),
        Record::Duration(d) => duration_row(d, original),
    }
}

/// The words LENGTH ANSWER that the library gives under a row.
fn words(ours: &Ours, room: usize) -> String {
    let mut out = String::new();
    match ours {
        Ours::Refusal(k) => out = format!(" 0 {k}"),
        Ours::Text(text) => answer(&mut out, text, room),
    }
    out
}

// ---- the original's length hints, where it writes what document 01 says

/// How far the hint of a time is off.
fn time_hint(t: &FormattableTime, rows: &mut Vec<Row>) -> i64 {
    match t.precision {
        Precision::Digit(d @ 1..) if t.nanosecond == 0 => {
            rows.push(HINT_ZEROS);
            -1 - i64::from(d)
        }
        _ => 0,
    }
}

/// How far the hint of an offset is off: the least and the most.
fn offset_hint(o: &FormattableUtcOffset, rows: &mut Vec<Row>) -> (i64, i64) {
    if o.show == DisplayOffset::Never {
        rows.push(HINT_NEVER);
        let hint = o.writeable_length_hint();
        return (hint.0 as i64, hint.1.expect("an offset's hint has an end") as i64);
    }
    let off = match &o.offset {
        UtcOffset::Z => 0,
        UtcOffset::Offset(o) => time_hint(&o.time, rows),
    };
    (off, off)
}

/// The rows that a record's hint falls under; an error where it is wrong otherwise.
fn hint_rows(record: &Record, original: &Original) -> Result<Vec<Row>, ()> {
    let mut rows = Vec::new();
    let (low, high) = match record {
        Record::Time(t) => {
            let off = time_hint(t, &mut rows);
            (off, off)
        }
        Record::Offset(o) => offset_hint(o, &mut rows),
        Record::MonthDay(_, c) if matches!(c.show, DisplayCalendar::Always | DisplayCalendar::Critical) || c.name.get() != "iso8601" => {
            rows.push(HINT_HYPHEN);
            (-1, -1)
        }
        Record::Stamp(s) => {
            let time = s.time.as_ref().map_or(0, |t| time_hint(t, &mut rows));
            let offset = s.offset.as_ref().map_or((0, 0), |o| offset_hint(o, &mut rows));
            (time + offset.0, time + offset.1)
        }
        _ => (0, 0),
    };
    let len = original.text.len() as i64;
    let within = original.hint.0 as i64 <= len + high && original.hint.1.map_or(true, |most| len + low <= most as i64);
    if within { Ok(rows) } else { Err(()) }
}

// ---- the judgement

/// The numbers of the rows that a record falls under, and the words of the library's answer, none where it is the original's; no
/// answer where the original's length hint is wrong otherwise than a row says.
pub fn assigned(record: &Record, original: &Original, room: usize) -> Option<(Vec<u32>, String)> {
    match row(record, &original.text) {
        Some((row, ours)) => Some((vec![row.0], words(&ours, room))),
        None => hint_rows(record, original).ok().map(|rows| (rows.iter().map(|row| row.0).collect(), String::new())),
    }
}

/// What was counted, and what was found wrong.
pub struct Judge<R: BufRead> {
    replayed: R,
    next: String,
    lines: u64,
    differ: u64,
    counts: [u64; ROWS.len()],
    wrong: u64,
}

impl<R: BufRead> Judge<R> {
    /// `replayed` is what the program replay printed for the list.
    pub fn new(replayed: R) -> io::Result<Self> {
        let mut judge = Judge { replayed, next: String::new(), lines: 0, differ: 0, counts: [0; ROWS.len()], wrong: 0 };
        judge.read()?;
        Ok(judge)
    }

    fn read(&mut self) -> io::Result<()> {
        self.next.clear();
        self.replayed.read_line(&mut self.next)?;
        self.next.truncate(self.next.trim_end_matches('\n').len());
        Ok(())
    }

    fn count(&mut self, row: Row) {
        let at = ROWS.iter().position(|r| r.0 == row.0).expect("a row of the list");
        self.counts[at] += 1;
    }

    fn complain(&mut self, why: &str, line: &str) {
        self.wrong += 1;
        if self.wrong <= 20 {
            eprintln!("{why}: {line}");
        }
    }

    /// The next case of the list: replay must have printed it exactly if a row says so, with the answer that the row says.
    pub fn case(&mut self, case: &Case) -> io::Result<()> {
        let original = case.record.original();
        let (line, room) = case.line(&original);
        self.lines += 1;
        let printed = self.next.strip_prefix(line.as_str()).and_then(|rest| rest.strip_prefix(" got")).map(str::to_owned);
        match (row(&case.record, &original.text), printed) {
            (None, None) => match hint_rows(&case.record, &original) {
                Ok(rows) => rows.into_iter().for_each(|row| self.count(row)),
                Err(()) => self.complain(&format!("no row for the hint {:?}", original.hint), &line),
            },
            (None, Some(got)) => {
                self.complain("no row for", &format!("{line} got{got}"));
                self.read()?;
            }
            (Some((row, _)), None) => self.complain(&format!("row {} says that this differs, and it does not", row.0), &line),
            (Some((row, ours)), Some(got)) => {
                self.count(row);
                self.differ += 1;
                if got != words(&ours, room) {
                    self.complain(&format!("row {} says that we answer{}", row.0, words(&ours, room)), &format!("{line} got{got}"));
                }
                self.read()?;
            }
        }
        Ok(())
    }

    /// Prints the counts; whether all is as the rows say.
    pub fn end(mut self) -> bool {
        let last = format!("replayed {}, {} differ, 0 skipped", self.lines, self.differ);
        if self.next != last {
            self.complain("the last line is not what it should be", &format!("{}, and not {last}", self.next));
        }
        for ((number, about), count) in ROWS.iter().zip(self.counts) {
            println!("row {number:>2}: {count:>7}  {about}");
        }
        println!("{} records, {} under a row, {} wrong", self.lines, self.differ, self.wrong);
        self.wrong == 0
    }
}
