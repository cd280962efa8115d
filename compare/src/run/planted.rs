//! Wrong calls in place of the library's add sheet: each must be seen.

use super::Driver;
use crate::table::AddSheet;
use reference::generate::Random;

const SEED: u64 = 650_065;
/// About as many runs of totals as the default comparison has.
const RUNS: u64 = 300;

/// What a call takes for right; the faults are in here and in `Writes`.
#[derive(Clone, Copy)]
struct Rules {
    limit: u64,
    workers: (usize, usize),
    table: Option<usize>,
    high_first: bool,
    date_bytes: usize,
    ends: Ends,
    /// Sums are kept in so many bits.
    bits: u32,
    longest: usize,
    last_record_only: bool,
    /// Only totals at these places are held against the limit.
    looked_at: (usize, usize),
    named_only: bool,
    total_first: bool,
    writes: Writes,
}

#[derive(Clone, Copy, PartialEq)]
enum Ends {
    Right,
    /// With bytes behind the end.
    Open,
    Missing,
    Empty,
    Cut,
}

#[derive(Clone, Copy, PartialEq)]
enum Writes {
    Right,
    BeforeTotal,
    BeforeBad,
    Sheet,
}

const RIGHT: Rules = Rules {
    limit: 1_000_000_000,
    workers: (1, 500),
    table: Some(500),
    high_first: false,
    date_bytes: 4,
    ends: Ends::Right,
    bits: 64,
    longest: usize::MAX,
    last_record_only: false,
    looked_at: (0, 500),
    named_only: false,
    total_first: false,
    writes: Writes::Right,
};

impl Rules {
    fn add(self, totals: &mut [u32], sheet: &mut [u8]) -> u32 {
        if self.table.map_or(false, |length| length != totals.len()) {
            return 12;
        }
        let mut sums: Vec<u64> = totals.iter().map(|&total| u64::from(total)).collect();
        let mut named = vec![!self.named_only; sums.len()];
        let good = self.sum_up(&mut sums, &mut named, sheet);
        let looked_at = self.looked_at.0..self.looked_at.1.min(sums.len());
        let too_high = looked_at
            .into_iter()
            .any(|at| named[at] && sums[at] > self.limit);
        let number = match (good, too_high) {
            (false, true) if self.total_first => 13,
            (false, _) => 12,
            (true, true) => 13,
            (true, false) => 0,
        };
        let writes = match self.writes {
            Writes::BeforeTotal => number != 12,
            Writes::BeforeBad => number != 13,
            _ => number == 0,
        };
        if writes {
            let sums = sums.iter().map(|&sum| sum as u32);
            totals
                .iter_mut()
                .zip(sums)
                .for_each(|(total, sum)| *total = sum);
        }
        if let (Writes::Sheet, [first, ..]) = (self.writes, sheet) {
            *first = 0;
        }
        number
    }

    /// Whether the bytes are taken for a sheet.
    fn sum_up(self, sums: &mut [u64], named: &mut [bool], sheet: &[u8]) -> bool {
        let mut left = &sheet[..sheet.len().min(self.longest)];
        if left.is_empty() {
            return self.ends == Ends::Empty;
        }
        let mut credits = Vec::new();
        let good = loop {
            left = match left {
                [0] => break true,
                [0, ..] => break self.ends == Ends::Open,
                [1, a, b, c, d, rest @ ..] => {
                    credits.push((self.word(*a, *b), self.word(*c, *d)));
                    rest
                }
                [2, rest @ ..] if rest.len() >= self.date_bytes => &rest[self.date_bytes..],
                [] => break self.ends == Ends::Missing,
                [1 | 2, ..] => break self.ends == Ends::Cut,
                _ => break false,
            };
        };
        if self.last_record_only {
            credits = credits.pop().into_iter().collect();
        }
        good & credits
            .into_iter()
            .all(|credit| self.credit(sums, named, credit))
    }

    fn word(self, first: u8, second: u8) -> usize {
        let bytes = if self.high_first {
            [second, first]
        } else {
            [first, second]
        };
        usize::from(u16::from_le_bytes(bytes))
    }

    fn credit(
        self,
        sums: &mut [u64],
        named: &mut [bool],
        (worker, pieces): (usize, usize),
    ) -> bool {
        let (first, last) = self.workers;
        if worker < first || worker > last {
            return false;
        }
        // A worker without a place has no total to be added to.
        if let Some(sum) = worker.checked_sub(1).and_then(|at| sums.get_mut(at)) {
            let mask = u64::MAX >> (64 - self.bits);
            *sum = (*sum + pieces as u64) & mask;
            named[worker - 1] = true;
        }
        true
    }
}

/// A call with a fault.
macro_rules! planted {
    ($($field:ident: $value:expr),*) => {
        |totals, sheet| {
            #[allow(clippy::needless_update)]
            let rules = Rules { $($field: $value,)* ..RIGHT };
            rules.add(totals, sheet)
        }
    };
}

const FAULTS: [(&str, AddSheet); 28] = [
    ("limit one lower", planted!(limit: 999_999_999)),
    ("limit one higher", planted!(limit: 1_000_000_001)),
    ("worker 0 taken", planted!(workers: (0, 500))),
    ("worker 1 refused", planted!(workers: (2, 500))),
    ("worker 500 refused", planted!(workers: (1, 499))),
    ("worker 501 taken", planted!(workers: (1, 501))),
    ("any worker taken", planted!(workers: (0, 65_535))),
    ("any table taken", planted!(table: None)),
    ("a table of 499", planted!(table: Some(499))),
    ("a table of 501", planted!(table: Some(501))),
    ("high byte first", planted!(high_first: true)),
    ("dates of three bytes", planted!(date_bytes: 3)),
    ("dates of five bytes", planted!(date_bytes: 5)),
    ("bytes after the end taken", planted!(ends: Ends::Open)),
    ("no end taken", planted!(ends: Ends::Missing)),
    ("no bytes taken", planted!(ends: Ends::Empty)),
    ("a cut record taken", planted!(ends: Ends::Cut)),
    ("sums of 32 bits", planted!(bits: 32)),
    ("sums of 31 bits", planted!(bits: 31)),
    ("sums of 16 bits", planted!(bits: 16)),
    ("sheets cut at a file's length", planted!(longest: 65_536)),
    ("the last record alone", planted!(last_record_only: true)),
    ("first total not looked at", planted!(looked_at: (1, 500))),
    ("last total not looked at", planted!(looked_at: (0, 499))),
    ("only named totals looked at", planted!(named_only: true)),
    ("13 before 12", planted!(total_first: true)),
    ("written with 13", planted!(writes: Writes::BeforeTotal)),
    ("written with 12", planted!(writes: Writes::BeforeBad)),
];

fn failures(add_sheet: AddSheet) -> u64 {
    let mut driver = Driver {
        add_sheet,
        ..Driver::new(SEED, false)
    };
    driver.every_worker(&mut Random::new(SEED), 0);
    for number in 1..RUNS {
        driver.totals(&mut Random::new(SEED ^ number), number);
        if driver.counts.failed > 0 {
            break;
        }
    }
    driver.counts.failed
}

#[test]
fn the_right_call_passes() {
    assert_eq!(failures(planted!(limit: RIGHT.limit)), 0);
}

#[test]
fn every_planted_fault_is_seen() {
    for (name, add_sheet) in FAULTS {
        assert!(failures(add_sheet) > 0, "{name}");
    }
    assert!(
        failures(planted!(writes: Writes::Sheet)) > 0,
        "sheet written"
    );
}
