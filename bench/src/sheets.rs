//! The sheets that the weekly totals are timed on.

use crate::measure::Work;
use crate::program::Program;
use compare::table::{BAD_SHEET, LIMIT, TOTAL, WORKERS};
use reference::generate::Random;

/// With the end 65,536 bytes, the longest sheet of a file.
const MOST_RECORDS: usize = 13_107;
const FEW_RECORDS: usize = 10;
/// Few, so that no batch of additions comes near the limit.
const MOST_PIECES: usize = 100;
const DATE: [u8; 5] = [2, 16, 11, 26, 20];
const END: u8 = 0;

/// A sheet, the totals that it is first added to, and what every call answers.
#[derive(Debug, Clone, PartialEq, Eq)]
pub struct Sheet {
    pub label: &'static str,
    bytes: Vec<u8>,
    start: Vec<u32>,
    totals: Vec<u32>,
    number: u32,
}

impl Sheet {
    /// Added to totals of 0.
    fn good(label: &'static str, records: Vec<[u8; 5]>) -> Sheet {
        let mut bytes = records.concat();
        bytes.push(END);
        Sheet {
            label,
            bytes,
            start: vec![0; WORKERS],
            totals: vec![0; WORKERS],
            number: 0,
        }
    }
}

impl Work for Sheet {
    /// Every time from the same totals on; gives how many calls answered
    /// something else.
    fn repeat(&mut self, program: &Program, times: u32) -> u64 {
        self.totals.copy_from_slice(&self.start);
        let mut other = 0;
        for _ in 0..times {
            let number = (program.add_sheet)(&mut self.totals, &self.bytes);
            other += u64::from(number != self.number);
        }
        other
    }
}

fn record(worker: usize, pieces: usize) -> [u8; 5] {
    let (worker, pieces) = ((worker as u16).to_le_bytes(), (pieces as u16).to_le_bytes());
    [1, worker[0], worker[1], pieces[0], pieces[1]]
}

fn any_workers(count: usize) -> Vec<[u8; 5]> {
    let mut random = Random::new(500);
    (0..count)
        .map(|_| record(random.between(1, WORKERS), random.below(MOST_PIECES)))
        .collect()
}

fn pieces_of(worker: usize, records: &[[u8; 5]]) -> u32 {
    let number = (worker as u16).to_le_bytes();
    records
        .iter()
        .filter(|[_, low, high, ..]| [*low, *high] == number)
        .map(|[.., low, high]| u32::from(u16::from_le_bytes([*low, *high])))
        .sum()
}

/// Those that are longest and added.
pub fn long() -> [Sheet; 3] {
    let of_one = any_workers(MOST_RECORDS)
        .into_iter()
        .map(|[kind, _, _, low, high]| [kind, 250, 0, low, high])
        .collect();
    [
        Sheet::good("add sheet, 64 KiB, any workers", any_workers(MOST_RECORDS)),
        Sheet::good("add sheet, 64 KiB, one worker", of_one),
        Sheet::good("add sheet, 64 KiB, dates", vec![DATE; MOST_RECORDS]),
    ]
}

/// A short one, and two that are refused for what stands last in them.
pub fn short_and_refused() -> [Sheet; 3] {
    let few = Sheet::good("add sheet, 10 records", any_workers(FEW_RECORDS));
    let records = any_workers(MOST_RECORDS);
    let mut bad = Sheet::good("add sheet, 64 KiB, last byte wrong", records);
    bad.number = BAD_SHEET;
    bad.bytes[5 * MOST_RECORDS] = 1;
    let mut records = any_workers(MOST_RECORDS - 1);
    let before = pieces_of(WORKERS, &records);
    records.push(record(WORKERS, 1));
    let mut above = Sheet::good("add sheet, 64 KiB, last total too high", records);
    above.number = TOTAL;
    above.start[WORKERS - 1] = LIMIT - before;
    [few, bad, above]
}

#[cfg(test)]
mod tests {
    use super::*;
    use crate::program::{LIBRARY, SECOND};
    use reference::totals_book::{pieces_in, piecework};

    fn all() -> Vec<Sheet> {
        long().into_iter().chain(short_and_refused()).collect()
    }

    #[test]
    fn long_sheets_are_as_long_as_a_file_can_be() {
        let lengths: Vec<usize> = all().iter().map(|sheet| sheet.bytes.len()).collect();
        assert_eq!(lengths, [65_536, 65_536, 65_536, 51, 65_536, 65_536]);
    }

    #[test]
    fn every_sheet_is_answered_as_said_however_often() {
        for mut sheet in all() {
            for program in [&LIBRARY, &SECOND] {
                assert_eq!(sheet.repeat(program, 1000), 0, "{}", sheet.label);
            }
        }
    }

    #[test]
    fn a_batch_starts_from_the_same_totals() {
        for mut sheet in all() {
            assert_eq!(sheet.repeat(&SECOND, 3), 0);
            assert_eq!(sheet.repeat(&LIBRARY, 2), 0);
            let grown: u64 = sheet.totals.iter().map(|&total| u64::from(total)).sum();
            let start: u64 = sheet.start.iter().map(|&total| u64::from(total)).sum();
            let pieces = match sheet.number {
                0 => pieces_in(&sheet.bytes).expect("a good sheet"),
                _ => 0,
            };
            assert_eq!(grown, start + 2 * pieces, "{}", sheet.label);
        }
    }

    #[test]
    fn workers_are_as_the_label_says() {
        let workers = |sheet: &Sheet| {
            let work = piecework(&sheet.bytes).expect("a good sheet");
            let mut workers: Vec<u16> = work.iter().map(|work| work.worker).collect();
            workers.sort_unstable();
            workers.dedup();
            workers.len()
        };
        let [any, one, dates] = long();
        assert_eq!(workers(&any), WORKERS);
        assert_eq!(workers(&one), 1);
        assert_eq!(workers(&dates), 0);
        let few = &short_and_refused()[0];
        let records = piecework(&few.bytes).expect("a good sheet").len();
        assert_eq!(records, FEW_RECORDS);
    }
}
