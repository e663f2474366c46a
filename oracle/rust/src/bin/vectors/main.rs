//! Prints a vector list (docs/VECTORS.md) with the answers of the Rust original.
//! usage: vectors checks SEED COUNT | vectors writers SEED COUNT | vectors sample SEED COUNT | vectors rows SEED COUNT < replayed
//!        vectors single < records
//!   checks    digits and checks, tags VD, G and VT: all of the neighbourhoods, then COUNT random dates, COUNT random
//!             numbers and COUNT / 10 random times
//!   writers   tags WD to WP: all records of the neighbourhoods, then COUNT random ones, with the text that the original writes,
//!             also where document 01 refuses the record
//!   sample    as the random ones of writers, but only those of them that fall under no row of docs/DIFFERENCES.md
//!   rows      no list: it reads what replay printed for the list writers SEED COUNT, assigns each line that differs to a row of
//!             docs/DIFFERENCES.md, and prints how many each row has. The status is 1 if a line has no row or another answer than
//!             its row says, and if a record that falls under a row does not differ
//!   single    no list: it reads the fields of one record to a line, and prints for each what single.rs says
//! The same words give the same list, on every machine. Standard error gets one line, the number of lines printed.
mod checks;
mod list;
mod records;
mod rows;
mod single;
mod writers;

use list::{List, Random};
use records::Case;
use std::io::{self, BufRead, Write};

impl<W: Write> List<W> {
    fn case(&mut self, case: &Case) -> io::Result<()> {
        let (line, _) = case.line(&case.record.original());
        self.lines += 1;
        writeln!(self.out, "{line}")
    }
}

fn main() -> io::Result<()> {
    let words: Vec<String> = std::env::args().skip(1).collect();
    if words == ["single"] {
        for line in io::stdin().lock().lines() {
            let line = line?;
            println!("{}", single::assigned(&line).unwrap_or_else(|| format!("no record, or no row for its hint: {line}")));
        }
        return Ok(());
    }
    let numbers_of = |at: usize| words.get(at).and_then(|word| word.parse::<u64>().ok());
    let (Some(kind), Some(seed), Some(count), 3) = (words.first(), numbers_of(1), numbers_of(2), words.len()) else {
        eprintln!("usage: vectors checks|writers|sample|rows SEED COUNT, or vectors single");
        std::process::exit(2);
    };
    let mut list = List { out: io::BufWriter::with_capacity(1 << 16, io::stdout().lock()), lines: 0 };
    let mut random = Random(seed);
    match kind.as_str() {
        "checks" => {
            checks::dates(&mut list, &mut random, count)?;
            checks::numbers(&mut list, &mut random, count)?;
            checks::times(&mut list, &mut random, count / 10)?;
        }
        "writers" => writers::all(&mut random, count, |case| list.case(&case))?,
        "sample" => writers::random_ones(&mut random, count, |case| match rows::row(&case.record, &case.record.original().text) {
            None => list.case(&case),
            Some(_) => Ok(()),
        })?,
        "rows" => {
            drop(list);
            let mut judge = rows::Judge::new(io::stdin().lock())?;
            writers::all(&mut random, count, |case| judge.case(&case))?;
            std::process::exit(if judge.end() { 0 } else { 1 });
        }
        _ => {
            eprintln!("vectors: no kind of list is named {kind}");
            std::process::exit(2);
        }
    }
    list.out.flush()?;
    eprintln!("{}", list.lines);
    Ok(())
}
