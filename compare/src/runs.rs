//! Runs by number, made until enough of what was asked for is.

use std::fmt;

/// What the runs showed is its text.
pub trait Runs: fmt::Display {
    /// After more failures no further run is made.
    const MOST_FAILURES: u64 = 10;

    /// A run depends on the seed and its number alone.
    fn run(&mut self, number: u64);

    /// Of what the command line counts.
    fn made(&self) -> u64;

    fn failed(&self) -> u64;

    /// Names of what must occur until the end and did not.
    fn missing(&self) -> Vec<String>;

    /// The last line; what is missing has failed too.
    fn verdict(&self, failed: u64) -> String;

    fn run_until(&mut self, count: u64) {
        let mut number = 0;
        while self.made() < count && self.failed() <= Self::MOST_FAILURES {
            self.run(number);
            number += 1;
        }
    }
}

/// Whether a run fails before so much is made.
#[cfg(test)]
pub fn fails(mut driver: impl Runs, count: u64) -> bool {
    let mut number = 0;
    while driver.made() < count && driver.failed() == 0 {
        driver.run(number);
        number += 1;
    }
    driver.failed() > 0
}
