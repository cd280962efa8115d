//! One table of weekly totals handed to both programs, and the book of its run.

use crate::difference::between_totals;
use crate::ffi;
use crate::lend::Lent;
use crate::library::{beside, in_or_beside};
use reference::generate::Random;
use reference::totals_book::{call_fault, order_fault, TotalsBook};

pub const WORKERS: usize = 500;
pub const LIMIT: u32 = 1_000_000_000;
pub const DONE: u32 = 0;
pub const BAD_SHEET: u32 = 12;
pub const TOTAL: u32 = 13;
/// Zeros that may stand behind a sheet. They end one without an end, or with a
/// cut record, for a call that reads on.
const ZEROS_BEHIND: [usize; 2] = [0, 8];

/// The call to compare. A sheet is lent for reading; that it can be written here
/// lets the tests plant a call that does.
pub type AddSheet = fn(&mut [u32], &mut [u8]) -> u32;

pub fn of_library(totals: &mut [u32], sheet: &mut [u8]) -> u32 {
    ffi::add_sheet(totals, sheet)
}

pub struct Table {
    library: Lent<u32>,
    second: Vec<u32>,
    book: TotalsBook,
    call: AddSheet,
}

impl Table {
    pub fn new(random: &mut Random, totals: &[u32], call: AddSheet) -> Table {
        Table {
            library: Lent::new(random, totals),
            second: totals.to_vec(),
            book: TotalsBook::start(totals),
            call,
        }
    }

    /// The totals as both programs have them.
    pub fn totals(&self) -> &[u32] {
        &self.second
    }

    pub fn book(&self) -> &TotalsBook {
        &self.book
    }

    /// Hands a sheet to both programs and gives the answer, or what differs or
    /// is not as the book claims.
    pub fn step(&mut self, random: &mut Random, sheet: &[u8]) -> Result<u32, String> {
        let expected = reference::add_sheet(&mut self.second, sheet);
        let (number, stray_write) = lend(random, self.call, &mut self.library, sheet);
        let totals = self.library.content();
        let fault = stray_write
            .or_else(|| between_numbers(number, expected))
            .or_else(|| between_totals(totals, &self.second))
            .or_else(|| call_fault(&self.book, sheet, number, totals).map(in_request));
        if let Some(text) = fault {
            return Err(text);
        }
        self.book.record(sheet, number == DONE);
        Ok(number)
    }
}

/// Calls with a guarded copy of the sheet; the answer, and what was written
/// where no call may write.
fn lend(
    random: &mut Random,
    call: AddSheet,
    totals: &mut Lent<u32>,
    sheet: &[u8],
) -> (u32, Option<String>) {
    let mut bytes = sheet.to_vec();
    bytes.resize(sheet.len() + random.pick(&ZEROS_BEHIND), 0);
    let mut lent = Lent::new(random, &bytes);
    let number = call(totals.content_mut(), &mut lent.content_mut()[..sheet.len()]);
    let stray_write = beside("table", totals).or_else(|| in_or_beside("sheet", &lent, &bytes));
    (number, stray_write)
}

fn between_numbers(found: u32, expected: u32) -> Option<String> {
    (found != expected).then(|| format!("the library answers {found}, expected {expected}"))
}

fn in_request(fault: String) -> String {
    format!("request d: {fault}")
}

/// What the call lacks of the claim that two orders of the same sheets end
/// equal, if both are accepted throughout.
pub fn orders_fault(
    call: AddSheet,
    totals: &[u32],
    sheets: &[Vec<u8>],
    reordered: &[Vec<u8>],
) -> Option<String> {
    let add = |totals: &mut [u32], sheet: &[u8]| {
        let mut lent = Lent::shifted(sheet.len(), sheet);
        call(totals, lent.content_mut())
    };
    order_fault(add, totals, sheets, reordered).map(in_request)
}
