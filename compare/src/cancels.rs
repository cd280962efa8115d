//! Saves with the delete of the same file, and renames with the next one: the laws
//! of request h on generated discs.

#[cfg(test)]
mod planted;

use crate::changing::{changing_command, rename_command, Run};
use crate::kind::Kind;
use crate::law_tally::LawTally;
use crate::laws::{by_both, Accepted};
use crate::marks::ByKind;
use crate::pair::Pair;
use crate::runs::Runs;
use crate::writing::{Writing, OF_LIBRARY};
use reference::command::Command;
use reference::generate::Random;
use std::fmt;

/// One command in so many is drawn to be a rename.
const RENAMES_IN: usize = 3;

pub struct Cancels {
    seed: u64,
    /// The library's, unless a test plants others.
    writing: Writing,
    tallies: ByKind<LawTally>,
    commands: u64,
    failed: u64,
}

impl Cancels {
    pub fn new(seed: u64) -> Cancels {
        Cancels {
            seed,
            writing: OF_LIBRARY,
            tallies: ByKind::default(),
            commands: 0,
            failed: 0,
        }
    }

    fn pairs(&self) -> u64 {
        self.tallies.iter().map(|tally| tally.pairs).sum()
    }

    fn triples(&self) -> u64 {
        self.tallies.iter().map(|tally| tally.triples).sum()
    }

    /// Makes a command, from which the next one goes on, and beside it the calls
    /// that a law asks for.
    fn command(
        &mut self,
        random: &mut Random,
        pair: &mut Pair,
        kind: Kind,
        command: &Command,
    ) -> Result<(), String> {
        let before = pair.image().to_vec();
        let answer = pair.step(random, command)?;
        self.commands += 1;
        if !answer.accepted() {
            return Ok(());
        }
        let accepted = Accepted {
            kind,
            writing: self.writing,
            command,
            before: &before,
            after: pair.image(),
            on_copy: by_both,
        };
        accepted.ask(random, self.tallies.of(kind))
    }
}

impl Runs for Cancels {
    fn run(&mut self, number: u64) {
        let run = Run {
            seed: self.seed,
            number,
            writing: self.writing,
            draw: some_command,
        };
        let passed =
            run.passes(|random, pair, kind, command| self.command(random, pair, kind, command));
        self.failed += u64::from(!passed);
    }

    /// Pairs and triples.
    fn made(&self) -> u64 {
        self.pairs() + self.triples()
    }

    fn failed(&self) -> u64 {
        self.failed
    }

    fn missing(&self) -> Vec<String> {
        self.tallies.missing()
    }

    fn verdict(&self, failed: u64) -> String {
        let (pairs, triples) = (self.pairs(), self.triples());
        format!("cancels: {pairs} pairs, {triples} triples, {failed} failed")
    }
}

impl fmt::Display for Cancels {
    fn fmt(&self, out: &mut fmt::Formatter<'_>) -> fmt::Result {
        self.tallies.write(out)?;
        writeln!(out, "commands: {}", self.commands)
    }
}

fn some_command(random: &mut Random, image: &[u8], kind: Kind) -> Command {
    if random.one_in(RENAMES_IN) {
        rename_command(random, image, kind)
    } else {
        changing_command(random, image, kind)
    }
}
