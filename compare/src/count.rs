//! What occurred in a run of the driver, and what should have but did not.

use crate::kind::Stated;
use crate::sheet_tally::SheetTally;
use crate::tally::Tally;
use std::fmt;

#[derive(Debug)]
pub struct Counts {
    /// One for each of `Stated::ALL`.
    tallies: [Tally; 6],
    /// Of the weekly totals, for which nothing is stated.
    pub sheets: SheetTally,
    pub passed: u64,
    pub failed: u64,
}

impl Default for Counts {
    fn default() -> Counts {
        Counts {
            tallies: Stated::ALL.map(Tally::new),
            sheets: SheetTally::default(),
            passed: 0,
            failed: 0,
        }
    }
}

impl Counts {
    pub fn calls(&self) -> u64 {
        self.passed + self.failed
    }

    pub fn of(&mut self, stated: Stated) -> &mut Tally {
        &mut self.tallies[stated.place()]
    }

    /// Names of what must occur in every run of the driver and did not.
    pub fn missing(&self) -> Vec<String> {
        let of = |tally: &Tally| {
            let stated = tally.stated().name();
            let names = tally.missing().into_iter();
            names.map(move |name| format!("stated {stated}: {name}"))
        };
        let of_discs = self.tallies.iter().flat_map(of);
        of_discs.chain(self.sheets.missing()).collect()
    }
}

impl fmt::Display for Counts {
    fn fmt(&self, out: &mut fmt::Formatter<'_>) -> fmt::Result {
        self.tallies.iter().try_for_each(|tally| tally.write(out))?;
        self.sheets.write(out)
    }
}

#[cfg(test)]
mod tests {
    use super::*;
    use crate::kind::Kind;
    use crate::met::Met;
    use reference::command::{Answer, Buffer, Command};

    #[test]
    fn every_statement_has_a_tally_of_its_own() {
        let mut counts = Counts::default();
        let missing = |counts: &Counts, stated: Stated, number: u32| {
            let name = format!("stated {}: delete answering {number}", stated.name());
            counts.missing().contains(&name)
        };
        let (nine, ten) = (Stated::Kind(Kind::Nine), Stated::Kind(Kind::Ten));
        let delete = Command::Delete {
            name: Vec::new(),
            writes: Buffer { length: 0, fill: 0 },
        };
        let met = Met::by(&[], Kind::Nine.numbers());
        counts.of(nine).call(&delete, &Answer::Number(6), met);
        assert!(!missing(&counts, nine, 6) && missing(&counts, nine, 4));
        assert!(missing(&counts, ten, 6));
        assert!(!missing(&counts, Stated::NineMoved, 6));
        assert!(missing(&counts, Stated::NineMoved, 1));
    }
}
