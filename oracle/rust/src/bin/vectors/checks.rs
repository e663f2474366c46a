//! Digits and checks: tags VD, G and VT.
use crate::list::{List, Random};
use oracle::{open_is_valid_date, open_is_valid_time, parsers::u32_to_digits};
use std::io::{self, Write};

impl<W: Write> List<W> {
    fn date(&mut self, year: i32, month: u8, day: u8) -> io::Result<()> {
        let ok = open_is_valid_date(year, month, day);
        self.line("VD", &[year.into(), month.into(), day.into(), ok.into()])
    }

    fn digits(&mut self, value: u32) -> io::Result<()> {
        let (digits, place) = u32_to_digits(value);
        let mut fields = [0; 11];
        fields[0] = value.into();
        for (field, digit) in fields[1..10].iter_mut().zip(digits) {
            *field = digit.into();
        }
        fields[10] = place as i64;
        self.line("G", &fields)
    }

    fn time(&mut self, [hour, minute, second]: [u8; 3], [ms, us, ns]: [u16; 3]) -> io::Result<()> {
        let ok = open_is_valid_time(hour, minute, second, ms, us, ns);
        self.line("VT", &[hour.into(), minute.into(), second.into(), ms.into(), us.into(), ns.into(), ok.into()])
    }
}

/// The years around each boundary, first and last of each run.
pub const YEARS: [(i32, i32); 20] = [
    (i32::MIN, i32::MIN + 1),
    (-1_000_001, -999_998),
    (-10_001, -9_998),
    (-401, -399),
    (-101, -99),
    (-5, 5),
    (99, 101),
    (399, 401),
    (1582, 1582),
    (1899, 1905),
    (1970, 1970),
    (1972, 1972),
    (1999, 2001),
    (2022, 2025),
    (2099, 2101),
    (9_998, 10_001),
    (99_999, 100_000),
    (999_998, 1_000_001),
    (i32::MAX - 3, i32::MAX - 3), // the last leap year
    (i32::MAX - 1, i32::MAX),
];

pub fn dates<W: Write>(list: &mut List<W>, random: &mut Random, count: u64) -> io::Result<()> {
    for (first, last) in YEARS {
        for year in first..=last {
            for month in (0..=14).chain([255]) {
                for day in (0..=32).chain([255]) {
                    list.date(year, month, day)?;
                }
            }
        }
    }
    // a common year and a leap year, every month and every day that the types have
    for year in [2023, 2024] {
        for month in 0..=255 {
            for day in 0..=255 {
                list.date(year, month, day)?;
            }
        }
    }
    for turn in 0..count {
        let any = random.within(i32::MIN.into(), i32::MAX.into()) as i32;
        let near = random.within(-1_000_001, 1_000_001) as i32;
        let step = random.one_of(&[4, 100, 400]) as i32;
        let (year, months, days) = match turn % 4 {
            0 => (any, (0, 255), (0, 255)),
            1 => (any, (1, 12), (27, 32)),
            2 => (near, (0, 13), (0, 32)),
            _ => (near / step * step, (2, 2), (28, 30)),
        };
        let month = random.within(months.0, months.1) as u8;
        let day = random.within(days.0, days.1) as u8;
        list.date(year, month, day)?;
    }
    Ok(())
}

pub fn numbers<W: Write>(list: &mut List<W>, random: &mut Random, count: u64) -> io::Result<()> {
    const MAX: i64 = u32::MAX as i64;
    let powers = (0..=9).map(|k| 10i64.pow(k));
    for middle in powers.chain([0, MAX]) {
        for value in (middle - 50).max(0)..=(middle + 50).min(MAX) {
            list.digits(value as u32)?;
        }
    }
    for turn in 0..count {
        // every second one has a random count of zeros at its end
        let unit = if turn % 2 == 0 { 1 } else { 10i64.pow(random.within(0, 9) as u32) };
        list.digits((random.within(0, MAX / unit) * unit) as u32)?;
    }
    Ok(())
}

pub fn times<W: Write>(list: &mut List<W>, random: &mut Random, count: u64) -> io::Result<()> {
    const HOURS: [u8; 6] = [0, 1, 22, 23, 24, 255];
    const SIXTIES: [u8; 5] = [0, 1, 59, 60, 255]; // minutes and seconds
    const THOUSANDS: [u16; 5] = [0, 1, 999, 1000, 65535]; // ms, us and ns
    for hour in HOURS {
        for minute in SIXTIES {
            for second in SIXTIES {
                for ms in THOUSANDS {
                    for us in THOUSANDS {
                        for ns in THOUSANDS {
                            list.time([hour, minute, second], [ms, us, ns])?;
                        }
                    }
                }
            }
        }
    }
    for turn in 0..count {
        // any; only valid ones; at most one part over its limit or just over it
        let odd = if turn % 3 == 2 { random.within(0, 5) as usize } else { 6 };
        let mut part = |at: usize, most: i64, widest: i64| match turn % 3 {
            0 => random.within(0, widest),
            _ if at == odd => random.one_of(&[most, most + 1, widest]),
            _ => random.within(0, most),
        };
        let clock = [part(0, 23, 255) as u8, part(1, 59, 255) as u8, part(2, 59, 255) as u8];
        let below = [part(3, 999, 65535) as u16, part(4, 999, 65535) as u16, part(5, 999, 65535) as u16];
        list.time(clock, below)?;
    }
    Ok(())
}
