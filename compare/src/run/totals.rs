//! Runs of the weekly totals: sheets handed on with one table, in two orders,
//! some by way of a disc, and single calls to which refusals apply.

use super::{Asked, Driver, Place};
use crate::difference::describe_adding;
use crate::discs;
use crate::kind::Kind;
use crate::pair::Pair;
use crate::sheet_case::{record, SheetCase, TOO_HIGH};
use crate::sheet_tally::Mark;
use crate::table::{orders_fault, Table, DONE, LIMIT, TOTAL, WORKERS};
use crate::writing::LONGEST_LIST;
use reference::command::{Answer, Buffer, Command};
use reference::generate::{edge_sheet, good_sheet, spoil, totals_run, Random, Spoil, TotalsRun};

const END: u8 = 0;
const CASES_IN_A_RUN: usize = 16;
/// One run in so many is of cases.
const CASES_IN: usize = 3;
/// One list of sheets in so many goes by way of a disc.
const DISC_IN: usize = 3;
/// Of so many lists one is of long sheets, and one goes beyond 32 bits.
const LISTS: usize = 24;
const MOST_SHEETS: usize = 8;
const MOST_RECORDS: usize = 40;
/// Of 65,541 bytes and more, as no file can hold them.
const LONG_RECORDS: usize = 13_108;

/// What a list of sheets came to.
#[derive(PartialEq, Eq)]
enum Ended {
    Accepted,
    SomeRefused,
    Differing,
}

impl Driver {
    pub(super) fn totals(&mut self, random: &mut Random, run: u64) {
        if random.one_in(CASES_IN) {
            self.sheet_cases(random, run);
        } else {
            self.sheet_lists(random, run);
        }
    }

    /// For each worker, calls that only this one's total decides: it is brought
    /// to the limit, would be one above it, or is too high as lent.
    pub(super) fn every_worker(&mut self, random: &mut Random, run: u64) {
        let mut near = Table::new(random, &[LIMIT - 1; WORKERS], self.add_sheet);
        for at in 0..WORKERS {
            let mut totals = [0; WORKERS];
            totals[at] = random.pick(&TOO_HIGH);
            let mut lent = Table::new(random, &totals, self.add_sheet);
            let [one, two] = [1, 2].map(|pieces| {
                let record = record(at + 1, pieces);
                [&record[..], &[END]].concat()
            });
            let place = Place { run, command: at };
            let mut passes = |table: &mut Table, sheet: &[u8], expected| {
                let number = self.add(random, table, sheet, Some(expected), place);
                number.is_some()
            };
            if !passes(&mut near, &two, TOTAL)
                || !passes(&mut near, &one, DONE)
                || !passes(&mut lent, &[END], TOTAL)
            {
                return;
            }
        }
    }

    fn sheet_cases(&mut self, random: &mut Random, run: u64) {
        for command in 0..CASES_IN_A_RUN {
            let case = SheetCase::draw(random);
            let mut table = Table::new(random, &case.totals, self.add_sheet);
            let expected = Some(case.expected_number());
            let place = Place { run, command };
            if self
                .add(random, &mut table, &case.sheet, expected, place)
                .is_some()
            {
                self.counts.sheets.reasons(case.bad, case.high);
            }
        }
    }

    /// The same sheets in two orders from the same totals.
    fn sheet_lists(&mut self, random: &mut Random, run: u64) {
        let list = some_list(random);
        let other = list.reordered(random);
        let mut place = Place { run, command: 0 };
        let mut accepted = 0;
        for (order, by_disc) in [(&list, random.one_in(DISC_IN)), (&other, false)] {
            match self.hand_on(random, order, by_disc, &mut place) {
                Ended::Differing => return,
                Ended::SomeRefused => {}
                Ended::Accepted => accepted += 1,
            }
        }
        if accepted == 2 && list != other {
            self.counts.sheets.mark(Mark::BothOrders);
        }
        let (totals, sheets) = (&list.totals, &list.sheets);
        if let Some(text) = orders_fault(self.add_sheet, totals, sheets, &other.sheets) {
            self.fail("the sheets of this run in two orders", &text, place);
        }
    }

    /// Each sheet with the totals that the one before left.
    fn hand_on(
        &mut self,
        random: &mut Random,
        list: &TotalsRun,
        by_disc: bool,
        place: &mut Place,
    ) -> Ended {
        let mut disc = by_disc.then(|| self.some_disc(random));
        let mut table = Table::new(random, &list.totals, self.add_sheet);
        let mut ended = Ended::Accepted;
        for sheet in &list.sheets {
            let handed_in = match &mut disc {
                Some(disc) => self.by_disc(random, disc, sheet, *place),
                None => Some(sheet.clone()),
            };
            let number =
                handed_in.and_then(|sheet| self.add(random, &mut table, &sheet, None, *place));
            place.command += 1;
            match number {
                None => return Ended::Differing,
                Some(DONE) => {}
                Some(_) => ended = Ended::SomeRefused,
            }
        }
        ended
    }

    /// A sheet's bytes after they were saved to a disc and read back, or as they
    /// are where the disc does not take them; nothing after a difference.
    fn by_disc(
        &mut self,
        random: &mut Random,
        disc: &mut Pair,
        sheet: &[u8],
        place: Place,
    ) -> Option<Vec<u8>> {
        let name = format!("S{}", place.command).into_bytes();
        let save = save(random, &name, sheet);
        let save = Asked::whole(&save);
        if !self.step(random, disc, save, place)?.accepted() {
            return Some(sheet.to_vec());
        }
        let buffer = Buffer {
            length: sheet.len() + random.below(3),
            fill: random.byte(),
        };
        let read = Command::Read { name, buffer };
        match self.step(random, disc, Asked::whole(&read), place)? {
            Answer::Read(reading, buffer)
                if buffer.get(..reading.length as usize) == Some(sheet) =>
            {
                let kind = disc.numbers().kind()?;
                self.counts.sheets.read_back(kind);
                Some(buffer[..reading.length as usize].to_vec())
            }
            _ => {
                self.fail("read of a sheet just saved", "other bytes come back", place);
                None
            }
        }
    }

    /// A blank disc on which some of the sheets have room.
    fn some_disc(&self, random: &mut Random) -> Pair {
        let kind = random.pick(&Kind::ALL);
        let tracks = random.between(1, 4);
        let image = discs::blank(random, kind, tracks);
        Pair::new(random, image, kind.numbers(), self.writing)
    }

    /// Hands a sheet to both programs; the answer, if all was as it should be.
    fn add(
        &mut self,
        random: &mut Random,
        table: &mut Table,
        sheet: &[u8],
        expected: Option<u32>,
        place: Place,
    ) -> Option<u32> {
        let call = describe_adding(table.totals(), sheet);
        self.announce(&call, place);
        let before = table.totals().to_vec();
        let compared = table.step(random, sheet).and_then(|number| match expected {
            Some(first) if first != number => Err(super::wrongly_first(number, first)),
            _ => Ok(number),
        });
        match compared {
            Ok(number) => {
                self.counts.passed += 1;
                self.counts.sheets.call(&before, sheet, number);
                Some(number)
            }
            Err(text) => {
                self.fail(&call, &text, place);
                None
            }
        }
    }
}

fn save(random: &mut Random, name: &[u8], sheet: &[u8]) -> Command {
    Command::Save {
        name: name.to_vec(),
        page: 0,
        start: 0,
        transfer: 0,
        sheet: sheet.to_vec(),
        writes: Buffer {
            length: LONGEST_LIST,
            fill: random.byte(),
        },
    }
}

fn some_list(random: &mut Random) -> TotalsRun {
    match random.below(LISTS) {
        0 => long_sheets(random),
        1 => beyond_32_bits(random),
        _ => totals_run(random, MOST_SHEETS, MOST_RECORDS),
    }
}

/// Two long sheets, mostly both good.
fn long_sheets(random: &mut Random) -> TotalsRun {
    let sheets = [(); 2].map(|_| {
        let mut sheet = good_sheet(random, LONG_RECORDS);
        let date = [2; 5];
        while sheet.len() < 5 * LONG_RECORDS {
            sheet.splice(0..0, date.repeat(random.between(1, LONG_RECORDS)));
        }
        if random.one_in(5) {
            let way = random.pick(&Spoil::ALL);
            spoil(random, &mut sheet, way);
        }
        sheet
    });
    TotalsRun {
        totals: vec![0; WORKERS],
        sheets: sheets.to_vec(),
    }
}

/// Totals at the limit, and so many pieces that the sum is small again where it
/// is kept in 32 bits.
fn beyond_32_bits(random: &mut Random) -> TotalsRun {
    let excess = u32::MAX - LIMIT + 1 + random.below(LIMIT as usize) as u32;
    let totals = vec![LIMIT; WORKERS];
    let sheet = edge_sheet(random, &totals, usize::MAX, excess);
    TotalsRun {
        totals,
        sheets: sheet.into_iter().collect(),
    }
}
