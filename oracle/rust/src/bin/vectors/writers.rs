//! Records for the writers: every setting beside the boundaries of each field, then random ones. About one part in 60 of the random
//! ones is out of its range, and one name in 30 is none.
use crate::checks::YEARS;
use crate::list::Random;
use crate::records::{Calendar, Case, Name, Record, Stamp, Zone};
use oracle::{options::*, parsers::*, Sign};

const PRECISIONS: [Precision; 15] = [
    Precision::Auto,
    Precision::Minute,
    Precision::Digit(0),
    Precision::Digit(1),
    Precision::Digit(2),
    Precision::Digit(3),
    Precision::Digit(4),
    Precision::Digit(5),
    Precision::Digit(6),
    Precision::Digit(7),
    Precision::Digit(8),
    Precision::Digit(9),
    Precision::Digit(10),
    Precision::Digit(128),
    Precision::Digit(255),
];
const SIGNS: [Sign; 3] = [Sign::Positive, Sign::Zero, Sign::Negative];
const OFFSETS: [DisplayOffset; 2] = [DisplayOffset::Auto, DisplayOffset::Never];
const ZONES: [DisplayTimeZone; 3] = [DisplayTimeZone::Auto, DisplayTimeZone::Never, DisplayTimeZone::Critical];
const CALENDARS: [DisplayCalendar; 4] =
    [DisplayCalendar::Auto, DisplayCalendar::Always, DisplayCalendar::Never, DisplayCalendar::Critical];
/// Months and days, and such as no month has.
const DAYS: [(u8, u8); 14] = [
    (1, 1),
    (2, 28),
    (2, 29),
    (2, 30),
    (4, 30),
    (4, 31),
    (9, 9),
    (12, 31),
    (0, 1),
    (13, 1),
    (255, 10),
    (10, 0),
    (12, 32),
    (5, 100),
];
const SMALL: [u32; 6] = [0, 1, 9, 10, u32::MAX - 1, u32::MAX];
const LARGE: [u64; 8] = [0, 1, 9, 10, u32::MAX as u64, 1 << 32, u64::MAX - 1, u64::MAX];

fn years() -> impl Iterator<Item = i32> {
    YEARS.into_iter().flat_map(|(first, last)| first..=last)
}

/// Nanoseconds with every count of zeros at their end, and some beyond the last.
fn nanoseconds() -> Vec<u32> {
    let mut list = vec![0, 1_000_000_000, 1_000_000_001, 1_500_000_000, u32::MAX];
    for zeros in 0..=8 {
        let unit = 10u32.pow(zeros);
        for digits in [unit, 9 * unit, 123_456_789 / unit * unit, 999_999_999 / unit * unit, 100_000_000 + unit % 100_000_000] {
            list.push(digits);
        }
    }
    list
}

// ---- names

/// A name that lives as long as the program. `margin` bytes stand before and after it in its text.
fn name(text: &str, margin: usize) -> &'static Name {
    let edge = &"]/=-"[..margin];
    Box::leak(Box::new(Name { text: format!("{edge}{text}{edge}"), place: margin, len: text.len() }))
}

struct Names {
    zones: Vec<&'static Name>,
    odd_zones: Vec<&'static Name>,
    calendars: Vec<&'static Name>,
    odd_calendars: Vec<&'static Name>,
}

const ZONE_START: &str = "abcXYZ._";
const ZONE_MORE: &str = "abcdefghXYZ._0123456789-+";
const RUN: &str = "abcdefghiABCD0123456789";
const ODD: &str = " !/:=-]+.~\u{e9}\u{2212}";

fn letter(random: &mut Random, from: &str) -> char {
    let most = from.chars().count() as i64 - 1;
    from.chars().nth(random.within(0, most) as usize).expect("a place in the text")
}

/// Parts joined by `joint`, of so many bytes in all.
fn parts(random: &mut Random, bytes: usize, joint: char, start: &str, more: &str) -> String {
    let mut text = String::new();
    let mut at = 0;
    while text.len() < bytes {
        let last = text.len() + 1 == bytes;
        if at > 0 && !last && random.within(0, 5) == 0 {
            text.push(joint);
            at = 0;
        } else {
            text.push(letter(random, if at == 0 { start } else { more }));
            at += 1;
        }
    }
    text
}

/// The text with one character changed, put in or taken out.
fn spoilt(random: &mut Random, text: &str) -> String {
    let mut letters: Vec<char> = text.chars().collect();
    let at = random.within(0, letters.len() as i64) as usize;
    match random.within(0, 2) {
        0 if at < letters.len() => letters[at] = letter(random, ODD),
        1 if at < letters.len() => _ = letters.remove(at),
        _ => letters.insert(at, letter(random, ODD)),
    }
    letters.into_iter().collect()
}

impl Names {
    fn new(random: &mut Random) -> Self {
        let fixed = |list: &[&str]| list.iter().map(|text| name(text, 0)).collect();
        let mut names = Names {
            zones: fixed(&["UTC", "Europe/Berlin", "America/Argentina/Buenos_Aires", "+05:30", "-00:00", "+23:59", "a", "_", "..."]),
            odd_zones: fixed(&["", ".", "..", "a/..", "/", "a/", "//", "+24:00", "+05:60", "+5:30", "+0530", "a b", "1a", "-a"]),
            calendars: fixed(&["iso8601", "iso8601", "iso8601", "ISO8601", "gregory", "islamic-civil", "9", "a-b"]),
            odd_calendars: fixed(&["", "-", "iso8601-", "-iso8601", "a--b", "iso_8601", "iso 8601"]),
        };
        for turn in 0..2000 {
            let bytes = if turn % 8 == 0 { 64 } else { random.within(1, 64) as usize };
            let margin = random.within(0, 4) as usize;
            let (hour, minute) = (random.within(0, 23), random.within(0, 59));
            let sign = letter(random, "+-");
            let zone = match turn % 4 {
                0 => format!("{sign}{hour:02}:{minute:02}"),
                _ => parts(random, bytes, '/', ZONE_START, ZONE_MORE),
            };
            let calendar = parts(random, bytes, '-', RUN, RUN);
            names.zones.push(name(&zone, margin));
            names.calendars.push(name(&calendar, margin));
            let longer = random.within(65, 90) as usize;
            let (zone, calendar) = match turn % 3 {
                0 => (parts(random, longer, '/', ZONE_START, ZONE_MORE), parts(random, longer, '-', RUN, RUN)),
                _ => (spoilt(random, &zone), spoilt(random, &calendar)),
            };
            names.odd_zones.push(name(&zone, margin));
            names.odd_calendars.push(name(&calendar, margin));
        }
        names
    }
}

// ---- random records

struct Maker<'r> {
    random: &'r mut Random,
    names: Names,
}

impl Maker<'_> {
    fn one_in(&mut self, n: i64) -> bool {
        self.random.within(1, n) == 1
    }

    fn pick<T: Copy>(&mut self, list: &[T]) -> T {
        list[self.random.within(0, list.len() as i64 - 1) as usize]
    }

    fn date(&mut self) -> FormattableDate {
        let boundary: Vec<i32> = years().collect();
        let year = match self.random.within(0, 59) {
            0 => self.random.within(i32::MIN.into(), i32::MAX.into()) as i32,
            1..=9 => self.pick(&boundary).clamp(-999_999, 999_999),
            10..=29 => self.random.within(-999_999, 999_999) as i32,
            30..=34 => self.random.within(-12_000, 12_000) as i32,
            _ => self.random.within(0, 9999) as i32,
        };
        if self.one_in(60) {
            let (month, day) = self.pick(&DAYS);
            return FormattableDate(year, month, day);
        }
        let month = self.random.within(1, 12) as u8;
        let day = self.random.within(1, 31).min(oracle::utils::iso_days_in_month(year, month).into()) as u8;
        FormattableDate(year, month, day)
    }

    fn nanosecond(&mut self) -> u32 {
        match self.random.within(0, 59) {
            0 => self.random.within(1_000_000_000, u32::MAX.into()) as u32,
            1..=9 => 0,
            10..=19 => {
                let most = 10i64.pow(self.random.within(1, 8) as u32);
                self.random.within(0, most) as u32
            }
            _ => {
                let unit = 10i64.pow(self.random.within(0, 8) as u32);
                (self.random.within(0, 999_999_999) / unit * unit) as u32
            }
        }
    }

    fn precision(&mut self) -> Precision {
        match self.random.within(0, 59) {
            0 => Precision::Digit(self.random.within(10, 255) as u8),
            1..=9 => Precision::Minute,
            10..=24 => Precision::Auto,
            _ => Precision::Digit(self.random.within(0, 9) as u8),
        }
    }

    fn time(&mut self) -> FormattableTime {
        let mut clock = [self.random.within(0, 23) as u8, self.random.within(0, 59) as u8, self.random.within(0, 59) as u8];
        if self.one_in(8) {
            clock = [self.pick(&[0, 9, 10, 23]), self.pick(&[0, 9, 10, 59]), self.pick(&[0, 9, 10, 59])];
        }
        if self.one_in(60) {
            clock[self.random.within(0, 2) as usize] = self.pick(&[24, 59, 60, 61, 99, 100, 255]);
        }
        FormattableTime {
            hour: clock[0],
            minute: clock[1],
            second: clock[2],
            nanosecond: self.nanosecond(),
            precision: self.precision(),
            include_sep: !self.one_in(4),
        }
    }

    fn offset(&mut self) -> FormattableUtcOffset {
        let show = if self.one_in(5) { DisplayOffset::Never } else { DisplayOffset::Auto };
        if self.one_in(4) {
            return FormattableUtcOffset { show, offset: UtcOffset::Z };
        }
        let mut time = self.time();
        if self.one_in(2) {
            time.precision = Precision::Minute;
        }
        if self.one_in(8) {
            time = FormattableTime { hour: 0, minute: 0, second: 0, nanosecond: 0, ..time };
        }
        let sign = self.pick(&SIGNS);
        FormattableUtcOffset { show, offset: UtcOffset::Offset(FormattableOffset { sign, time }) }
    }

    fn zone(&mut self) -> Zone {
        let odd = self.one_in(30);
        let at = self.random.next() as usize;
        let list = if odd { &self.names.odd_zones } else { &self.names.zones };
        let name = list[at % list.len()];
        Zone { show: self.pick(&ZONES), name }
    }

    fn calendar(&mut self) -> Calendar {
        let odd = self.one_in(30);
        let iso = self.one_in(3);
        let at = if iso { 0 } else { self.random.next() as usize };
        let list = if odd { &self.names.odd_calendars } else { &self.names.calendars };
        let name = list[at % list.len()];
        Calendar { show: self.pick(&CALENDARS), name }
    }

    fn stamp(&mut self) -> Stamp {
        let dated = !self.one_in(8);
        let timed = !self.one_in(if dated { 8 } else { 16 });
        let moved = timed && !self.one_in(4) || self.one_in(12);
        Stamp {
            date: dated.then(|| self.date()),
            time: timed.then(|| self.time()),
            offset: moved.then(|| self.offset()),
            zone: (!self.one_in(3)).then(|| self.zone()),
            calendar: (!self.one_in(3)).then(|| self.calendar()),
        }
    }

    fn small(&mut self) -> u32 {
        match self.random.within(0, 3) {
            0 => self.pick(&SMALL),
            1 => 0,
            _ => self.random.next() as u32 >> self.random.within(0, 31),
        }
    }

    fn large(&mut self) -> u64 {
        match self.random.within(0, 3) {
            0 => self.pick(&LARGE),
            1 => 0,
            _ => self.random.next() >> self.random.within(0, 63),
        }
    }

    fn duration(&mut self) -> FormattableDuration {
        let date = self.one_in(2).then(|| FormattableDateDuration {
            years: self.small(),
            months: self.small(),
            weeks: self.small(),
            days: self.large(),
        });
        let (hours, minutes, seconds) = (self.large(), self.large(), self.large());
        let minutes = if self.one_in(60) { 0u64.wrapping_sub(hours) } else { minutes };
        let part = match self.random.within(0, 3) {
            0 => None,
            1 => Some(0),
            _ => Some(self.nanosecond()),
        };
        // on hours and minutes a fraction is out of place
        let none = if self.one_in(12) { part } else { part.and(Some(0)) };
        let time = match self.random.within(0, 5) {
            0 => None,
            1 => Some(FormattableTimeDuration::Hours(hours, none)),
            2 => Some(FormattableTimeDuration::Minutes(hours, minutes, none)),
            _ => Some(FormattableTimeDuration::Seconds(hours, minutes, seconds, part)),
        };
        let mut precision = self.precision();
        if precision == Precision::Minute && matches!(time, Some(FormattableTimeDuration::Seconds(..))) && !self.one_in(10) {
            precision = Precision::Auto;
        }
        FormattableDuration { precision, sign: self.pick(&SIGNS), date, time }
    }

    fn record(&mut self) -> Record {
        match self.random.within(0, 31) {
            0..=1 => Record::Date(self.date()),
            2..=6 => Record::Time(self.time()),
            7..=9 => Record::Offset(self.offset()),
            10 => Record::Zone(self.zone()),
            11 => Record::Calendar(self.calendar()),
            12..=13 => Record::MonthDay(self.date(), self.calendar()),
            14..=15 => Record::YearMonth(self.date(), self.calendar()),
            16..=24 => Record::Stamp(self.stamp()),
            _ => Record::Duration(self.duration()),
        }
    }

    /// Every second buffer has no byte to spare.
    fn spare(&mut self) -> usize {
        match self.random.within(0, 3) {
            0 => self.random.within(1, 9) as usize,
            1 => self.random.within(1, 400) as usize,
            _ => 0,
        }
    }

    // ---- every setting beside every boundary

    fn dates(&self) -> Vec<Record> {
        let mut list = Vec::new();
        for year in years() {
            for (month, day) in DAYS {
                let date = || FormattableDate(year, month, day);
                list.push(Record::Date(date()));
                for show in CALENDARS {
                    for name in [self.names.calendars[0], self.names.calendars[3], self.names.odd_calendars[1]] {
                        list.push(Record::MonthDay(date(), Calendar { show, name }));
                        list.push(Record::YearMonth(date(), Calendar { show, name }));
                    }
                }
            }
        }
        list
    }

    fn times(&self) -> Vec<Record> {
        let mut list = Vec::new();
        for include_sep in [false, true] {
            for precision in PRECISIONS {
                for nanosecond in nanoseconds() {
                    let time = || FormattableTime { hour: 9, minute: 5, second: 0, nanosecond, precision, include_sep };
                    list.push(Record::Time(time()));
                    for show in OFFSETS {
                        for sign in SIGNS {
                            let offset = UtcOffset::Offset(FormattableOffset { sign, time: time() });
                            list.push(Record::Offset(FormattableUtcOffset { show, offset }));
                        }
                    }
                }
                for hour in [0, 10, 23, 24, 99, 100, 255] {
                    for minute in [0, 59, 60, 255] {
                        for second in [0, 59, 60, 255] {
                            list.push(Record::Time(FormattableTime { hour, minute, second, nanosecond: 0, precision, include_sep }));
                        }
                    }
                }
            }
        }
        list
    }

    fn annotations(&self) -> Vec<Record> {
        let mut list = Vec::new();
        for name in self.names.zones.iter().chain(&self.names.odd_zones) {
            list.extend(ZONES.map(|show| Record::Zone(Zone { show, name })));
        }
        for name in self.names.calendars.iter().chain(&self.names.odd_calendars) {
            list.extend(CALENDARS.map(|show| Record::Calendar(Calendar { show, name })));
        }
        list
    }

    /// Every choice of parts, with every setting of each.
    fn stamps(&self) -> Vec<Record> {
        let mut list = Vec::new();
        let utc = self.names.zones[0];
        let iso = self.names.calendars[0];
        let (odd_zone, odd_calendar) = (self.names.odd_zones[1], self.names.odd_calendars[1]);
        let zones = ZONES.map(|show| (show, utc)).into_iter().chain([(DisplayTimeZone::Never, odd_zone)]);
        let calendars = CALENDARS.map(|show| (show, iso)).into_iter().chain([(DisplayCalendar::Never, odd_calendar)]);
        let zones: Vec<_> = zones.map(Some).chain([None]).collect();
        let calendars: Vec<_> = calendars.map(Some).chain([None]).collect();
        for date in [None, Some(29), Some(30)] {
            for second in [None, Some(0), Some(59), Some(60)] {
                for precision in [Precision::Auto, Precision::Minute, Precision::Digit(3), Precision::Digit(10)] {
                    for offset in [None, Some(None), Some(Some(0)), Some(Some(60))] {
                        for show in OFFSETS {
                            for zone in &zones {
                                for calendar in &calendars {
                                    let clock = |second: u8| FormattableTime { hour: 23, minute: 0, second, nanosecond: 0, precision, include_sep: true };
                                    let offset = offset.map(|second| FormattableUtcOffset {
                                        show,
                                        offset: second.map_or(UtcOffset::Z, |s| UtcOffset::Offset(FormattableOffset { sign: Sign::Negative, time: clock(s) })),
                                    });
                                    list.push(Record::Stamp(Stamp {
                                        date: date.map(|day| FormattableDate(2024, 2, day)),
                                        time: second.map(clock),
                                        offset,
                                        zone: zone.map(|(show, name)| Zone { show, name }),
                                        calendar: calendar.map(|(show, name)| Calendar { show, name }),
                                    }));
                                }
                            }
                        }
                    }
                }
            }
        }
        list
    }

    /// Every form with each number 0 or 1; then each number at its boundaries.
    fn durations(&self) -> Vec<Record> {
        use FormattableTimeDuration::{Hours, Minutes, Seconds};
        let mut list = Vec::new();
        let flags = |n: u64, places: u64| (0..places).map(move |k| n >> k & 1).collect::<Vec<u64>>();
        let mut dates = vec![None];
        for n in 0..16 {
            let f = flags(n, 4);
            dates.push(Some(FormattableDateDuration { years: f[0] as u32, months: f[1] as u32, weeks: f[2] as u32, days: f[3] }));
        }
        let mut times = vec![None];
        for fraction in [None, Some(0), Some(5), Some(500_000_000), Some(1_000_000_000)] {
            for n in 0..8 {
                let f = flags(n, 3);
                times.push(Some(Seconds(f[0], f[1], f[2], fraction)));
                if n < 4 {
                    times.push(Some(Minutes(f[0], f[1], fraction)));
                }
                if n < 2 {
                    times.push(Some(Hours(f[0], fraction)));
                }
            }
        }
        let precisions = [0, 1, 2, 3, 5, 11, 12].map(|at| PRECISIONS[at]);
        for &date in &dates {
            for &time in &times {
                for precision in precisions {
                    list.extend(SIGNS.map(|sign| Record::Duration(FormattableDuration { precision, sign, date, time })));
                }
            }
        }
        for precision in [Precision::Auto, Precision::Digit(9)] {
            for sign in SIGNS {
                for a in LARGE {
                    for b in LARGE {
                        let date = FormattableDateDuration { years: a as u32, months: b as u32, weeks: a as u32, days: b };
                        for time in [Hours(a, None), Minutes(a, b, None), Seconds(a, b, a, None), Seconds(0, a, b, Some(1)), Seconds(b, 0, a, Some(0))] {
                            list.extend([Some(date), None].map(|date| Record::Duration(FormattableDuration { precision, sign, date, time: Some(time) })));
                        }
                    }
                }
                for nanosecond in nanoseconds() {
                    let time = Some(Seconds(0, 0, 1, Some(nanosecond)));
                    list.extend(PRECISIONS.map(|precision| Record::Duration(FormattableDuration { precision, sign, date: None, time })));
                }
            }
        }
        list
    }
}

/// COUNT random records.
pub fn random_ones<E>(random: &mut Random, count: u64, mut take: impl FnMut(Case) -> Result<(), E>) -> Result<(), E> {
    let names = Names::new(random);
    let mut maker = Maker { random, names };
    for _ in 0..count {
        let record = maker.record();
        take(Case { record, spare: maker.spare() })?;
    }
    Ok(())
}

/// All records of the neighbourhoods, then COUNT random ones.
pub fn all<E>(random: &mut Random, count: u64, mut take: impl FnMut(Case) -> Result<(), E>) -> Result<(), E> {
    let names = Names::new(random);
    let mut maker = Maker { random, names };
    for list in [maker.dates(), maker.times(), maker.annotations(), maker.stamps(), maker.durations()] {
        for record in list {
            take(Case { record, spare: maker.spare() })?;
        }
    }
    random_ones(maker.random, count, take)
}
