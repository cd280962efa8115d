//! Runs of weekly totals as they are printed.

use crate::text::hex;
use reference::generate::{totals_run, Random, TotalsRun};
use reference::totals_book::TotalsBook;
use std::io::{self, Write};

const MOST_SHEETS: usize = 6;
/// Records of five bytes: sheets of some 200 bytes, or some 2,000.
const FEW_RECORDS: usize = 40;
const MANY_RECORDS: usize = 400;

pub fn trace_totals(seed: u64, count: usize, out: &mut impl Write) -> io::Result<()> {
    let mut random = Random::new(seed);
    let mut before: Option<TotalsRun> = None;
    for _ in 0..count {
        let again = before.filter(|run| run.sheets.len() > 1 && random.one_in(3));
        let reordered = again.is_some();
        let run = match again {
            Some(run) => run.reordered(&mut random),
            None => fresh_totals_run(&mut random),
        };
        let mut printed = Totals::start(&run.totals, out)?;
        if reordered {
            printed.reordered()?;
        }
        for sheet in &run.sheets {
            printed.add(sheet)?;
        }
        before = Some(run);
    }
    writeln!(out, "end {count}")
}

fn fresh_totals_run(random: &mut Random) -> TotalsRun {
    let most_records = if random.one_in(12) {
        MANY_RECORDS
    } else {
        FEW_RECORDS
    };
    totals_run(random, MOST_SHEETS, most_records)
}

/// A run as it is printed, sheet by sheet.
pub struct Totals<'a, W> {
    totals: Vec<u32>,
    book: TotalsBook,
    out: &'a mut W,
}

impl<'a, W: Write> Totals<'a, W> {
    pub fn start(totals: &[u32], out: &'a mut W) -> io::Result<Totals<'a, W>> {
        print_table(totals, out)?;
        Ok(Totals {
            totals: totals.to_vec(),
            book: TotalsBook::start(totals),
            out,
        })
    }

    /// The run has the table and the sheets of the run before.
    pub fn reordered(&mut self) -> io::Result<()> {
        writeln!(self.out, "reordered")
    }

    pub fn note(&mut self, line: &str) -> io::Result<()> {
        writeln!(self.out, "{line}")
    }

    pub fn add(&mut self, sheet: &[u8]) -> io::Result<()> {
        let before = self.totals.clone();
        let number = reference::add_sheet(&mut self.totals, sheet);
        writeln!(self.out, "add {} = {number}", hex(sheet))?;
        let pairs = before.iter().zip(&self.totals).enumerate();
        for (at, (_, now)) in pairs.filter(|(_, (old, now))| old != now) {
            writeln!(self.out, "total {} {now}", at + 1)?;
        }
        self.book.record(sheet, number == 0);
        writeln!(self.out, "growth {}", self.book.growth())
    }
}

fn print_table(totals: &[u32], out: &mut impl Write) -> io::Result<()> {
    write!(out, "table {}", totals.len())?;
    let mut left = totals;
    while let Some(&value) = left.first() {
        let times = left.iter().take_while(|&&total| total == value).count();
        write!(out, " {times} {value}")?;
        left = &left[times..];
    }
    writeln!(out)
}
