//! Calls of the weekly totals to which refusals apply.
//!
//! A reason for 12, or none, and a reason for 13, or none, are drawn, and table
//! and sheet are made for them. So the answer is known without either program.

use crate::table::{BAD_SHEET, DONE, LIMIT, TOTAL, WORKERS};
use reference::generate::{edge_sheet, good_sheet, spoil, Random, Spoil};

const END: u8 = 0;
const PIECES: u8 = 1;

/// Of no table. Some would pass for 500 if both were cut to fewer bits.
const OTHER_LENGTHS: [usize; 9] = [0, 1, 244, 499, 501, 756, 1000, 1012, 65_536 + 500];
const OTHER_WORKERS: [usize; 5] = [0, 501, 512, 32_768, 65_535];
/// Some would be small if they had a sign, or if pieces were added to them.
pub const TOO_HIGH: [u32; 6] = [
    LIMIT + 1,
    LIMIT + 65_536,
    (1 << 31) - 1,
    1 << 31,
    u32::MAX - 65_535,
    u32::MAX,
];
/// Few, so that no worker who starts low is brought near the limit.
const MOST_RECORDS: usize = 8;
const LOW: usize = 1_000_000;

/// Why a call gives 12.
#[derive(Debug, Clone, Copy, PartialEq, Eq)]
pub enum Bad {
    Nothing,
    Table,
    Sheet(Spoil),
}

impl Bad {
    pub const ALL: [Bad; 9] = [
        Bad::Nothing,
        Bad::Table,
        Bad::Sheet(Spoil::OtherKind),
        Bad::Sheet(Spoil::CutRecord),
        Bad::Sheet(Spoil::NoEnd),
        Bad::Sheet(Spoil::BytesAfterEnd),
        Bad::Sheet(Spoil::EarlyEnd),
        Bad::Sheet(Spoil::OtherWorker),
        Bad::Sheet(Spoil::Empty),
    ];

    pub fn name(self) -> &'static str {
        match self {
            Bad::Nothing => "good",
            Bad::Table => "a table of another length",
            Bad::Sheet(Spoil::OtherKind) => "another kind",
            Bad::Sheet(Spoil::CutRecord) => "a cut record",
            Bad::Sheet(Spoil::NoEnd) => "no end",
            Bad::Sheet(Spoil::BytesAfterEnd) => "bytes after the end",
            Bad::Sheet(Spoil::EarlyEnd) => "an early end",
            Bad::Sheet(Spoil::OtherWorker) => "another worker",
            Bad::Sheet(Spoil::Empty) => "no bytes",
        }
    }

    /// Where it stands in `ALL`.
    pub fn place(self) -> usize {
        let stands = Bad::ALL.iter().position(|&other| other == self);
        stands.unwrap_or_default()
    }
}

/// Why a call gives 13.
#[derive(Debug, Clone, Copy, PartialEq, Eq)]
pub enum High {
    Nothing,
    /// A lent total of a worker whom the sheet has.
    Named,
    /// A lent total of a worker whom the sheet does not have.
    Unnamed,
    WouldBecome,
}

impl High {
    pub const ALL: [High; 4] = [High::Nothing, High::Named, High::Unnamed, High::WouldBecome];

    pub fn name(self) -> &'static str {
        match self {
            High::Nothing => "alone",
            High::Named => "a total is too high",
            High::Unnamed => "one that the sheet does not have is",
            High::WouldBecome => "one would become so",
        }
    }

    /// Where it stands in `ALL`.
    pub fn place(self) -> usize {
        self as usize
    }
}

/// Whether both reasons can hold at once: no bytes name no worker.
pub fn can_both_hold(bad: Bad, high: High) -> bool {
    let names = matches!(high, High::Named | High::WouldBecome);
    bad != Bad::Sheet(Spoil::Empty) || !names
}

pub struct SheetCase {
    pub totals: Vec<u32>,
    pub sheet: Vec<u8>,
    pub bad: Bad,
    pub high: High,
}

impl SheetCase {
    pub fn draw(random: &mut Random) -> SheetCase {
        let bad = match random.below(3) {
            0 => Bad::Nothing,
            _ => random.pick(&Bad::ALL),
        };
        let high = match random.pick(&High::ALL) {
            drawn if can_both_hold(bad, drawn) => drawn,
            _ => High::Unnamed,
        };
        let worker = random.between(1, WORKERS);
        let mut totals: Vec<u32> = (0..WORKERS).map(|_| random.below(LOW) as u32).collect();
        let records = records(random, high, worker, &mut totals);
        SheetCase {
            sheet: sheet(random, records, bad),
            totals: match bad {
                Bad::Table => of_another_length(random, totals, high, worker),
                _ => totals,
            },
            bad,
            high,
        }
    }

    pub fn expected_number(&self) -> u32 {
        match (self.bad, self.high) {
            (Bad::Nothing, High::Nothing) => DONE,
            (Bad::Nothing, _) => TOTAL,
            _ => BAD_SHEET,
        }
    }
}

/// Good records without an end, with which and with the table, once it is made
/// for them, 13 applies for this reason.
fn records(random: &mut Random, high: High, worker: usize, totals: &mut [u32]) -> Vec<u8> {
    let near = LIMIT - random.below(60_000) as u32;
    let too_high = random.pick(&TOO_HIGH);
    let mut records = good_sheet(random, MOST_RECORDS);
    records.pop();
    match high {
        High::Nothing => {}
        High::Named => {
            records.extend(record(worker, random.below(1 << 16)));
            totals[worker - 1] = too_high;
        }
        High::Unnamed => {
            records = without(worker, &records);
            totals[worker - 1] = too_high;
        }
        High::WouldBecome => {
            // No other total is near enough for so few records.
            totals[worker - 1] = near;
            let excess = random.pick(&[1, 1, 2, 65_535]);
            let edge = edge_sheet(random, totals, MOST_RECORDS, excess);
            records = edge.unwrap_or_default();
            records.pop();
        }
    }
    records
}

pub fn record(worker: usize, pieces: usize) -> [u8; 5] {
    let ([low, high], [pieces_low, pieces_high]) =
        ((worker as u16).to_le_bytes(), (pieces as u16).to_le_bytes());
    [PIECES, low, high, pieces_low, pieces_high]
}

/// The records that are not of this worker.
fn without(worker: usize, records: &[u8]) -> Vec<u8> {
    let of_worker = record(worker, 0);
    let of_others = |one: &&[u8]| one[..3] != of_worker[..3];
    let kept: Vec<&[u8]> = records.chunks(5).filter(of_others).collect();
    kept.concat()
}

/// The records with an end, or with bytes that spoil them: a call that judges
/// totals as it goes has seen them all before.
fn sheet(random: &mut Random, mut records: Vec<u8>, bad: Bad) -> Vec<u8> {
    match bad {
        Bad::Sheet(Spoil::Empty) => Vec::new(),
        Bad::Sheet(Spoil::OtherWorker) if random.one_in(2) => {
            // Without pieces, so that nothing is added in the wrong place.
            records.extend(record(random.pick(&OTHER_WORKERS), 0));
            records.push(END);
            records
        }
        Bad::Sheet(way) => {
            let mut tail = good_sheet(random, 2);
            spoil(random, &mut tail, way);
            records.extend(tail);
            records
        }
        Bad::Nothing | Bad::Table => {
            records.push(END);
            records
        }
    }
}

/// The totals cut or with more behind them. A reason for 13 stays among them.
fn of_another_length(
    random: &mut Random,
    mut totals: Vec<u32>,
    high: High,
    worker: usize,
) -> Vec<u32> {
    let keeps = |length: &usize| high == High::Nothing || *length >= worker;
    let lengths: Vec<usize> = OTHER_LENGTHS.into_iter().filter(keeps).collect();
    totals.resize(random.pick(&lengths), 0);
    totals
}

#[cfg(test)]
mod tests {
    use super::*;

    #[test]
    fn the_second_program_answers_as_expected() {
        let mut random = Random::new(12);
        for _ in 0..5000 {
            let case = SheetCase::draw(&mut random);
            let number = reference::add_sheet(&mut case.totals.clone(), &case.sheet);
            let (expected, reasons) = (case.expected_number(), (case.bad, case.high));
            assert_eq!(number, expected, "{reasons:?}");
        }
    }

    /// Without what spoils the sheet or the table, 13 is left.
    #[test]
    fn the_reason_for_13_holds_beside_that_for_12() {
        let mut random = Random::new(13);
        for high in High::ALL {
            for _ in 0..500 {
                let worker = random.between(1, WORKERS);
                let mut totals = vec![5; WORKERS];
                let mut sheet = records(&mut random, high, worker, &mut totals);
                sheet.push(END);
                let number = reference::add_sheet(&mut totals.clone(), &sheet);
                let expected = if high == High::Nothing { DONE } else { TOTAL };
                assert_eq!(number, expected, "{high:?}");
                let longer = of_another_length(&mut random, totals.clone(), high, worker);
                assert!(longer.len() != WORKERS);
                assert!(high == High::Nothing || longer[worker - 1] == totals[worker - 1]);
            }
        }
    }

    #[test]
    fn reasons_stand_at_their_places() {
        for (place, bad) in Bad::ALL.into_iter().enumerate() {
            assert_eq!(bad.place(), place);
        }
        for (place, high) in High::ALL.into_iter().enumerate() {
            assert_eq!(high.place(), place);
        }
    }
}
