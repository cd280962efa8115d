//! The table of figures.

use crate::discs::Disc;
use crate::measure::{measure, Measured};
use crate::operation::{Lent, Operation};
use crate::sheets::Sheet;
use compare::kind::Kind;

/// An operation on the same disc of each kind, in the order of `Kind::ALL`.
#[derive(Clone)]
pub struct Row {
    pub label: String,
    pub operation: Operation,
    pub discs: [Disc; 3],
}

impl Row {
    fn works(&self) -> [Lent; 3] {
        [0, 1, 2].map(|at| Lent::new(self.operation, &self.discs[at]))
    }
}

/// Prints rows as they are measured and keeps the worst.
pub struct Table {
    /// Of the library over the second program, for each kind.
    ratios: [Worst; 3],
    /// Of the library's image of each kind over its plain one of ten sectors.
    over_ten: [Worst; 3],
    sheets: Worst,
}

impl Table {
    pub fn new() -> Table {
        let (case, library, second) = ("case", "library ns", "reference ns");
        println!(
            "{case:<59} {library:>12} {second:>12} {:>7} {:>14}",
            "ratio", "over ten plain"
        );
        Table {
            ratios: Default::default(),
            over_ten: Default::default(),
            sheets: Worst::default(),
        }
    }

    /// Measures a row and prints it, for each kind of disc; false if the
    /// programs refuse it or differ.
    pub fn print(&mut self, row: &Row, rounds: usize) -> bool {
        let measured = match measure(&row.works(), rounds) {
            Some(measured) => measured,
            None => return differing(&row.label),
        };
        let ten = measured[0].library;
        for (at, one) in measured.iter().enumerate() {
            let label = format!("{}, {}", row.label, Kind::ALL[at].name());
            let over_ten = one.library / ten;
            println!("{} {over_ten:>14.2}", figures(&label, one));
            self.ratios[at].note(one.ratio(), &label);
            self.over_ten[at].note(over_ten, &label);
        }
        true
    }

    /// Measures three sheets and prints a line for each; false if the programs
    /// answer something else or differ.
    pub fn print_sheets(&mut self, sheets: &[Sheet; 3], rounds: usize) -> bool {
        let measured = match measure(sheets, rounds) {
            Some(measured) => measured,
            None => return differing("add sheet"),
        };
        for (sheet, one) in sheets.iter().zip(&measured) {
            println!("{}", figures(sheet.label, one));
            self.sheets.note(one.ratio(), sheet.label);
        }
        true
    }

    pub fn print_worst(&self) {
        for worst in self.ratios.iter().chain([&self.sheets]) {
            worst.print("ratio");
        }
        // Ten over itself tells nothing.
        for worst in &self.over_ten[1..] {
            worst.print("over ten plain");
        }
    }
}

fn differing(label: &str) -> bool {
    println!("{label}: not as it should be, or the two programs differ");
    false
}

fn figures(label: &str, measured: &Measured) -> String {
    let (library, second) = (measured.library, measured.second);
    let ratio = measured.ratio();
    format!("{label:<59} {library:>12.1} {second:>12.1} {ratio:>7.2}")
}

#[derive(Debug, Default)]
struct Worst(Option<(f64, String)>);

impl Worst {
    fn note(&mut self, value: f64, label: &str) {
        if self.0.as_ref().map_or(true, |(worst, _)| value > *worst) {
            self.0 = Some((value, label.to_string()));
        }
    }

    fn print(&self, what: &str) {
        if let Some((value, label)) = &self.0 {
            println!("worst {what} {value:.2}: {label}");
        }
    }
}
