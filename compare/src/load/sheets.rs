//! A long list of sheets handed on with one table of totals, beside the images.

use crate::difference::describe_adding;
use crate::sheet_tally::SheetTally;
use crate::table::{of_library, Table, DONE, LIMIT, WORKERS};
use reference::generate::{edge_sheet, good_sheet, spoil, Random, Spoil};
use reference::totals_book::moment_fault;
use std::fmt;

/// One total in so many is near the limit from the start, so that the limit is
/// met early; more of them would refuse most sheets in the end.
const NEAR_IN: usize = 100;
const NEAR: usize = 2_000_000;
const MOST_RECORDS: usize = 40;
/// Few, so that the list can go on for long.
const MOST_PIECES_A_DAY: usize = 300;
/// So many accepted sheets are handed on a second time, the last first.
const REVERSED: usize = 100;

pub struct Sheets {
    table: Table,
    tally: SheetTally,
    /// The accepted sheets since both orders last ended equal, and the totals
    /// with all before them.
    since: Vec<Vec<u8>>,
    other_order: Vec<u32>,
    added: u64,
}

impl Sheets {
    pub fn new(random: &mut Random) -> Sheets {
        let totals: Vec<u32> = (0..WORKERS).map(|_| some_total(random)).collect();
        Sheets {
            table: Table::new(random, &totals, of_library),
            tally: SheetTally::default(),
            since: Vec::new(),
            other_order: totals,
            added: 0,
        }
    }

    pub fn step(&mut self, random: &mut Random) -> Result<(), String> {
        let before = self.table.totals().to_vec();
        let sheet = some_sheet(random, &before);
        let number = self.table.step(random, &sheet).map_err(|text| {
            let call = describe_adding(&before, &sheet);
            format!("{call}\n  {text}")
        })?;
        self.tally.call(&before, &sheet, number);
        if number == DONE {
            self.added += 1;
            self.since.push(sheet);
        }
        if self.since.len() == REVERSED {
            self.end()?;
        }
        Ok(())
    }

    /// The book of the whole list, and the sheets since the last time in the
    /// other order, which has to be accepted: no total is above its end.
    pub fn end(&mut self) -> Result<(), String> {
        for sheet in self.since.drain(..).rev() {
            let number = of_library(&mut self.other_order, &mut sheet.clone());
            if number != DONE {
                return Err(format!(
                    "the other order of sheets is refused with {number}"
                ));
            }
        }
        let book = self.table.book();
        let fault = moment_fault(book, self.table.totals())
            .or_else(|| moment_fault(book, &self.other_order));
        match fault {
            Some(text) => Err(format!("after {} sheets: {text}", self.added)),
            None => Ok(()),
        }
    }
}

fn some_total(random: &mut Random) -> u32 {
    if random.one_in(NEAR_IN) {
        LIMIT - random.below(NEAR) as u32
    } else {
        0
    }
}

/// Mostly a day's sheet. The others are chosen for the totals, or are bad.
fn some_sheet(random: &mut Random, totals: &[u32]) -> Vec<u8> {
    let edge = match random.below(8) {
        0 => {
            let excess = random.pick(&[0, 0, 1]);
            edge_sheet(random, totals, MOST_RECORDS, excess)
        }
        1 => Some(good_sheet(random, MOST_RECORDS)),
        _ => None,
    };
    let mut sheet = edge.unwrap_or_else(|| day_sheet(random));
    if random.one_in(16) {
        let way = random.pick(&Spoil::ALL);
        spoil(random, &mut sheet, way);
    }
    sheet
}

/// A date, and a few pieces of some workers, each worker as likely.
fn day_sheet(random: &mut Random) -> Vec<u8> {
    let mut sheet = vec![2, 16, 11, 26, 20];
    for _ in 0..random.below(MOST_RECORDS) {
        let worker = random.between(1, WORKERS) as u16;
        let pieces = random.below(MOST_PIECES_A_DAY) as u16;
        sheet.push(1);
        sheet.extend(worker.to_le_bytes());
        sheet.extend(pieces.to_le_bytes());
    }
    sheet.push(0);
    sheet
}

impl fmt::Display for Sheets {
    fn fmt(&self, out: &mut fmt::Formatter<'_>) -> fmt::Result {
        let at_limit = self.table.totals().iter().filter(|&&total| total == LIMIT);
        self.tally.write_answers(out)?;
        write!(
            out,
            "one table: {} sheets added, {} pieces, {} totals at the limit",
            self.added,
            self.table.book().growth(),
            at_limit.count()
        )
    }
}

#[cfg(test)]
mod tests {
    use super::*;

    #[test]
    fn a_day_is_a_good_sheet() {
        let mut random = Random::new(3);
        for _ in 0..200 {
            let sheet = day_sheet(&mut random);
            assert_eq!(reference::add_sheet(&mut [0; WORKERS], &sheet), DONE);
        }
    }

    #[test]
    fn a_long_list_goes_on_being_added_and_refused() {
        let mut random = Random::new(4);
        let mut sheets = Sheets::new(&mut random);
        let mut added = 0;
        for _ in 0..4 {
            for _ in 0..1000 {
                assert_eq!(sheets.step(&mut random), Ok(()));
            }
            assert_eq!(sheets.end(), Ok(()));
            let more = sheets.added - added;
            assert!((500..1000).contains(&more), "{more}");
            added = sheets.added;
        }
        assert!(sheets.to_string().contains("sheets added"));
    }

    #[test]
    fn an_end_that_is_not_the_same_is_told() {
        let mut random = Random::new(5);
        let mut sheets = Sheets::new(&mut random);
        sheets.other_order[7] ^= 1;
        assert!(sheets.end().is_err());
    }
}
