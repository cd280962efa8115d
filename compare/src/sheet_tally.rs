//! What occurred in the calls of the weekly totals, and what should have but did
//! not.

use crate::kind::Kind;
use crate::marks::{Marks, Occasion};
use crate::sheet_case::{can_both_hold, Bad, High};
use crate::table::{BAD_SHEET, DONE, LIMIT, TOTAL};
use reference::totals_book::pieces_of_workers;
use std::collections::BTreeMap;
use std::fmt::{Formatter, Result};

pub const CALL: &str = "add sheet";
const ANSWERS: [u32; 3] = [DONE, BAD_SHEET, TOTAL];
const LONGEST_FILE: usize = 65_536;

/// What a call or a run of calls must meet beside its answers.
#[derive(Debug, Clone, Copy, PartialEq, Eq, PartialOrd, Ord)]
pub enum Mark {
    EndAlone,
    Longer,
    FirstWorker,
    LastWorker,
    AtLimit,
    OneAbove,
    Beyond32Bits,
    BothOrders,
}

impl Occasion for Mark {
    const ALL: &'static [Mark] = &[
        Mark::EndAlone,
        Mark::Longer,
        Mark::FirstWorker,
        Mark::LastWorker,
        Mark::AtLimit,
        Mark::OneAbove,
        Mark::Beyond32Bits,
        Mark::BothOrders,
    ];

    fn name(self) -> &'static str {
        match self {
            Mark::EndAlone => "a sheet of the end alone",
            Mark::Longer => "a sheet longer than a file, added",
            Mark::FirstWorker => "pieces of worker 1",
            Mark::LastWorker => "pieces of worker 500",
            Mark::AtLimit => "a total brought to the limit",
            Mark::OneAbove => "a total that would be one above it",
            Mark::Beyond32Bits => "a total that would be beyond 32 bits",
            Mark::BothOrders => "two orders accepted throughout",
        }
    }
}

#[derive(Debug, Default)]
pub struct SheetTally {
    answers: BTreeMap<u32, u64>,
    /// Calls made for a reason for 12 and one for 13, by the places of both.
    reasons: [[u64; High::ALL.len()]; Bad::ALL.len()],
    marks: Marks<Mark>,
    /// Sheets saved to a disc, read back and handed on, by its kind.
    read_back: BTreeMap<Kind, u64>,
}

impl SheetTally {
    /// Counts a call, by the totals before it.
    pub fn call(&mut self, totals: &[u32], sheet: &[u8], number: u32) {
        *self.answers.entry(number).or_default() += 1;
        match (number, pieces_of_workers(sheet)) {
            (DONE, Some(pieces)) => self.added(totals, sheet, &pieces),
            (TOTAL, Some(pieces)) => self.too_high(totals, &pieces),
            _ => {}
        }
    }

    fn added(&mut self, totals: &[u32], sheet: &[u8], pieces: &[u64]) {
        let reaches_limit = grown(totals, pieces).any(|total| total == u64::from(LIMIT));
        for (occurred, mark) in [
            (sheet.len() == 1, Mark::EndAlone),
            (sheet.len() > LONGEST_FILE, Mark::Longer),
            (pieces.first() > Some(&0), Mark::FirstWorker),
            (pieces.last() > Some(&0), Mark::LastWorker),
            (reaches_limit, Mark::AtLimit),
        ] {
            self.marks.mark(occurred, mark);
        }
    }

    /// Counts only what the sheet brings about: no lent total is too high.
    fn too_high(&mut self, totals: &[u32], pieces: &[u64]) {
        if totals.iter().any(|&total| total > LIMIT) {
            return;
        }
        let highest = grown(totals, pieces).max().unwrap_or_default();
        let one_above = highest == u64::from(LIMIT) + 1;
        self.marks.mark(one_above, Mark::OneAbove);
        let beyond = highest > u64::from(u32::MAX);
        self.marks.mark(beyond, Mark::Beyond32Bits);
    }

    pub fn mark(&mut self, mark: Mark) {
        self.marks.mark(true, mark);
    }

    pub fn reasons(&mut self, bad: Bad, high: High) {
        self.reasons[bad.place()][high.place()] += 1;
    }

    pub fn read_back(&mut self, kind: Kind) {
        *self.read_back.entry(kind).or_default() += 1;
    }

    fn count_of(&self, (bad, high): (Bad, High)) -> u64 {
        self.reasons[bad.place()][high.place()]
    }

    /// Calls to which both refusals applied.
    fn both(&self) -> u64 {
        let of_12 = &self.reasons[Bad::Nothing.place() + 1..];
        let of_13 = |counts: &[u64; High::ALL.len()]| -> u64 {
            counts[High::Nothing.place() + 1..].iter().sum()
        };
        of_12.iter().map(of_13).sum()
    }

    /// Names of what must occur in every run of the driver and did not.
    pub fn missing(&self) -> Vec<String> {
        let answers = ANSWERS
            .iter()
            .filter(|number| !self.answers.contains_key(number))
            .map(|number| format!("answering {number}"));
        let both = (self.both() == 0).then(|| format!("with {BAD_SHEET} and {TOTAL}"));
        let reasons = cases()
            .filter(|&case| self.count_of(case) == 0)
            .map(|(bad, high)| format!("{}, {}", bad.name(), high.name()));
        let discs = Kind::ALL
            .iter()
            .filter(|kind| !self.read_back.contains_key(kind))
            .map(|kind| format!("read back from {}", kind.name()));
        let of_calls = answers.chain(both).chain(reasons);
        let names = of_calls.chain(self.marks.missing()).chain(discs);
        names.map(|name| format!("{CALL}: {name}")).collect()
    }

    pub fn write(&self, out: &mut Formatter<'_>) -> Result {
        writeln!(out, "weekly totals")?;
        self.write_answers(out)?;
        writeln!(out, "two refusals at once, the answer first")?;
        writeln!(out, "{CALL} {BAD_SHEET}+{TOTAL}: {}", self.both())?;
        for bad in Bad::ALL {
            let counts = High::ALL.iter().map(|&high| {
                let count = self.count_of((bad, high));
                format!("{}: {count}", high.name())
            });
            let counts: Vec<String> = counts.collect();
            writeln!(out, "{}: {}", bad.name(), counts.join(", "))?;
        }
        self.marks.write(out)?;
        let discs = Kind::ALL.map(|kind| {
            let count = self.read_back.get(&kind).unwrap_or(&0);
            format!("{}: {count}", kind.name())
        });
        writeln!(out, "sheets read back from discs: {}", discs.join(", "))
    }

    /// How often the call gave each number, as a table.
    pub fn write_answers(&self, out: &mut Formatter<'_>) -> Result {
        write!(out, "{:9}", "answer")?;
        for number in ANSWERS {
            write!(out, "{number:>9}")?;
        }
        write!(out, "\n{CALL:9}")?;
        for number in ANSWERS {
            write!(out, "{:>9}", self.answers.get(&number).unwrap_or(&0))?;
        }
        writeln!(out)
    }
}

/// Every reason for 12 with every one for 13 that can hold beside it.
fn cases() -> impl Iterator<Item = (Bad, High)> {
    let with_each = |bad| High::ALL.into_iter().map(move |high| (bad, high));
    let all = Bad::ALL.into_iter().flat_map(with_each);
    all.filter(|&(bad, high)| can_both_hold(bad, high))
}

/// What the totals to which something is added would become.
fn grown<'a>(totals: &'a [u32], pieces: &'a [u64]) -> impl Iterator<Item = u64> + 'a {
    let both = totals.iter().zip(pieces);
    both.filter(|(_, &pieces)| pieces > 0)
        .map(|(&total, pieces)| u64::from(total) + pieces)
}

#[cfg(test)]
mod tests {
    use super::*;

    fn full() -> SheetTally {
        SheetTally {
            answers: ANSWERS.into_iter().map(|number| (number, 1)).collect(),
            reasons: [[1; 4]; 9],
            marks: Marks::full(),
            read_back: Kind::ALL.into_iter().map(|kind| (kind, 1)).collect(),
        }
    }

    #[test]
    fn nothing_is_missing_where_all_occurred() {
        assert_eq!(full().missing(), Vec::<String>::new());
        // Two of nine times four reasons can't hold at once.
        let all = 3 + 1 + 34 + 8 + 3;
        assert_eq!(SheetTally::default().missing().len(), all);
    }

    #[test]
    fn what_did_not_occur_is_named() {
        let mut tally = full();
        tally.answers.remove(&TOTAL);
        tally.reasons[1][2] = 0;
        tally.marks.remove(Mark::AtLimit);
        tally.read_back.remove(&Kind::Moved);
        let expected = [
            "add sheet: answering 13",
            "add sheet: a table of another length, one that the sheet does not have is",
            "add sheet: a total brought to the limit",
            "add sheet: read back from ten moved",
        ];
        assert_eq!(tally.missing(), expected);
        tally.reasons = Default::default();
        tally.reasons(Bad::Nothing, High::Named);
        tally.reasons(Bad::Table, High::Nothing);
        let both = "add sheet: with 12 and 13".to_string();
        assert!(tally.missing().contains(&both));
        tally.reasons(Bad::Table, High::Named);
        assert!(!tally.missing().contains(&both));
    }

    fn marks_of(total: u32, sheet: &[u8], number: u32) -> Vec<Mark> {
        let mut tally = SheetTally::default();
        let mut totals = vec![0; 500];
        totals[499] = total;
        tally.call(&totals, sheet, number);
        tally.marks.met()
    }

    #[test]
    fn a_call_is_counted_by_what_its_sheet_brings_about() {
        let two_of_last = [1, 0xF4, 1, 2, 0, 0];
        assert_eq!(marks_of(0, &[0], DONE), [Mark::EndAlone]);
        assert_eq!(marks_of(LIMIT, &[0], DONE), [Mark::EndAlone]);
        assert_eq!(marks_of(5, &two_of_last, DONE), [Mark::LastWorker]);
        let reached = [Mark::LastWorker, Mark::AtLimit];
        assert_eq!(marks_of(LIMIT - 2, &two_of_last, DONE), reached);
        assert_eq!(marks_of(LIMIT - 1, &two_of_last, TOTAL), [Mark::OneAbove]);
        assert_eq!(marks_of(LIMIT, &two_of_last, TOTAL), []);
        assert_eq!(marks_of(u32::MAX, &two_of_last, TOTAL), []);
        assert_eq!(marks_of(0, &[1, 0xF4], BAD_SHEET), []);
        let mut long = [1, 1, 0, 255, 255].repeat(66_000);
        long.push(0);
        assert_eq!(marks_of(0, &long, TOTAL), [Mark::Beyond32Bits]);
        assert_eq!(marks_of(0, &long, DONE), [Mark::Longer, Mark::FirstWorker]);
    }
}
