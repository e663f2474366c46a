//! Random numbers, and the list that is printed.
use std::io::{self, Write};

/// splitmix64
pub struct Random(pub u64);

impl Random {
    pub fn next(&mut self) -> u64 {
        self.0 = self.0.wrapping_add(0x9e37_79b9_7f4a_7c15);
        let z = (self.0 ^ (self.0 >> 30)).wrapping_mul(0xbf58_476d_1ce4_e5b9);
        let z = (z ^ (z >> 27)).wrapping_mul(0x94d0_49bb_1331_11eb);
        z ^ (z >> 31)
    }
    /// A number from `low` to `high`, both included.
    pub fn within(&mut self, low: i64, high: i64) -> i64 {
        low + (self.next() % (high - low + 1) as u64) as i64
    }
    pub fn one_of(&mut self, list: &[i64]) -> i64 {
        list[self.within(0, list.len() as i64 - 1) as usize]
    }
}

/// A list as it is printed, and how many lines it has.
pub struct List<W: Write> {
    pub out: W,
    pub lines: u64,
}

impl<W: Write> List<W> {
    pub fn line(&mut self, tag: &str, fields: &[i64]) -> io::Result<()> {
        self.out.write_all(tag.as_bytes())?;
        for &n in fields {
            let mut text = [b' '; 24];
            let mut at = text.len();
            let mut rest = n.unsigned_abs();
            loop {
                at -= 1;
                text[at] = b'0' + (rest % 10) as u8;
                rest /= 10;
                if rest == 0 {
                    break;
                }
            }
            if n < 0 {
                at -= 1;
                text[at] = b'-';
            }
            self.out.write_all(&text[at - 1..])?; // with the blank before it
        }
        self.out.write_all(b"\n")?;
        self.lines += 1;
        Ok(())
    }
}
