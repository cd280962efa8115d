//! The book of a run of weekly totals, and what the request claims of a run.
//!
//! The claims hold for any program that follows the request, so its call is
//! handed in. Sheets are read here by the places of their records and summed in
//! 64 bits, apart from the code of `totals.rs`.

const WORKERS: usize = 500;
const HIGHEST_TOTAL: u64 = 1_000_000_000;
/// One byte of kind and four of body; only the end is shorter.
const RECORD_BYTES: usize = 5;

const DONE: u32 = 0;
const BAD_SHEET: u32 = 12;
const TOTAL: u32 = 13;

/// A kind 1 record of a sheet.
#[derive(Debug, Clone, Copy, PartialEq, Eq)]
pub struct Piecework {
    pub worker: u16,
    pub pieces: u16,
}

/// The kind 1 records of a sheet in order; nothing if the bytes aren't a sheet.
pub fn piecework(sheet: &[u8]) -> Option<Vec<Piecework>> {
    let (end, records) = sheet.split_last()?;
    let whole = *end == 0 && records.len() % RECORD_BYTES == 0;
    let good = |record: &[u8]| match record[0] {
        1 => (1..=WORKERS).contains(&usize::from(work_of(record).worker)),
        kind => kind == 2,
    };
    if !whole || !records.chunks(RECORD_BYTES).all(good) {
        return None;
    }
    let of_kind_1 = records
        .chunks(RECORD_BYTES)
        .filter(|record| record[0] == 1)
        .map(work_of);
    Some(of_kind_1.collect())
}

fn work_of(record: &[u8]) -> Piecework {
    Piecework {
        worker: u16::from(record[1]) + 256 * u16::from(record[2]),
        pieces: u16::from(record[3]) + 256 * u16::from(record[4]),
    }
}

/// The sum of all pieces in a sheet; nothing if the bytes aren't a sheet.
pub fn pieces_in(sheet: &[u8]) -> Option<u64> {
    let records = piecework(sheet)?;
    Some(records.iter().map(|work| u64::from(work.pieces)).sum())
}

/// The pieces of each of the 500 workers in a sheet, worker 1 first; nothing if
/// the bytes aren't a sheet.
pub fn pieces_of_workers(sheet: &[u8]) -> Option<Vec<u64>> {
    let mut sums = vec![0; WORKERS];
    for work in piecework(sheet)? {
        sums[usize::from(work.worker) - 1] += u64::from(work.pieces);
    }
    Some(sums)
}

/// Fed the totals at the start, each call's sheet and whether it was accepted;
/// it never looks at the totals again.
#[derive(Debug, Clone, PartialEq, Eq)]
pub struct TotalsBook {
    start: Vec<u32>,
    added: Vec<u64>,
    growth: u64,
}

impl TotalsBook {
    pub fn start(totals: &[u32]) -> TotalsBook {
        TotalsBook {
            start: totals.to_vec(),
            added: vec![0; totals.len()],
            growth: 0,
        }
    }

    /// What the totals must be now.
    pub fn totals(&self) -> Vec<u64> {
        let pairs = self.start.iter().zip(&self.added);
        pairs
            .map(|(&lent, added)| u64::from(lent) + added)
            .collect()
    }

    /// By how much all totals together must have grown: the sum of all pieces
    /// in the accepted sheets.
    pub fn growth(&self) -> u64 {
        self.growth
    }

    /// What a call with this sheet must answer now.
    pub fn number_due(&self, sheet: &[u8]) -> u32 {
        let pieces = match pieces_of_workers(sheet) {
            Some(pieces) if self.start.len() == WORKERS => pieces,
            _ => return BAD_SHEET,
        };
        let mut grown = self.totals().into_iter().zip(pieces);
        if grown.any(|(total, pieces)| total + pieces > HIGHEST_TOTAL) {
            TOTAL
        } else {
            DONE
        }
    }

    /// Enters a call. A refused one changes nothing, and neither do accepted
    /// bytes that are no sheet: they have no pieces, and `call_fault` tells.
    pub fn record(&mut self, sheet: &[u8], accepted: bool) {
        if !accepted {
            return;
        }
        if let (Some(sum), Some(pieces)) = (pieces_in(sheet), pieces_of_workers(sheet)) {
            self.growth += sum;
            for (added, pieces) in self.added.iter_mut().zip(pieces) {
                *added += pieces;
            }
        }
    }
}

/// What is wrong with a call's answer or with the table after it, if they are
/// not as the request says. The book is that of the calls before this one.
pub fn call_fault(book: &TotalsBook, sheet: &[u8], number: u32, after: &[u32]) -> Option<String> {
    let due = book.number_due(sheet);
    if number != due {
        return Some(format!("the answer is {number}, not {due}"));
    }
    let mut now = book.clone();
    now.record(sheet, number == DONE);
    moment_fault(&now, after)
}

/// What is wrong with a table at one moment of a run, if it is not as the book
/// of the run claims.
pub fn moment_fault(book: &TotalsBook, totals: &[u32]) -> Option<String> {
    if totals.len() != book.start.len() {
        return Some(format!("the table has {} totals", totals.len()));
    }
    let (now, growth) = (sum(totals), book.growth());
    if now != sum(&book.start) + growth {
        return Some(format!("all together are {now}, the growth is {growth}"));
    }
    let mut pairs = totals.iter().zip(book.totals()).enumerate();
    let (at, (stands, due)) = pairs.find(|(_, (&stands, due))| u64::from(stands) != *due)?;
    Some(format!("worker {} has {stands}, not {due}", at + 1))
}

fn sum(totals: &[u32]) -> u64 {
    totals.iter().map(|&total| u64::from(total)).sum()
}

/// What is wrong first when a program is given the sheets in order, each with
/// the totals that the call before left.
pub fn run_fault(
    mut add_sheet: impl FnMut(&mut [u32], &[u8]) -> u32,
    start: &[u32],
    sheets: &[Vec<u8>],
) -> Option<String> {
    let mut totals = start.to_vec();
    let mut book = TotalsBook::start(start);
    sheets.iter().enumerate().find_map(|(call, sheet)| {
        let number = add_sheet(&mut totals, sheet);
        let fault = call_fault(&book, sheet, number, &totals);
        book.record(sheet, number == DONE);
        fault.map(|fault| format!("call {call}: {fault}"))
    })
}

/// What is wrong if a program accepts the same sheets throughout in two orders,
/// from the same totals, and the ends are not equal.
pub fn order_fault(
    mut add_sheet: impl FnMut(&mut [u32], &[u8]) -> u32,
    start: &[u32],
    sheets: &[Vec<u8>],
    reordered: &[Vec<u8>],
) -> Option<String> {
    let mut end_of = |order: &[Vec<u8>]| -> Option<Vec<u32>> {
        let mut totals = start.to_vec();
        let accepted = order
            .iter()
            .all(|sheet| add_sheet(&mut totals, sheet) == DONE);
        accepted.then_some(totals)
    };
    let (one, other) = (end_of(sheets)?, end_of(reordered)?);
    let at = (0..one.len()).find(|&at| one[at] != other[at])?;
    let (worker, one, other) = (at + 1, one[at], other[at]);
    Some(format!("worker {worker} ends with {one} or {other}"))
}
