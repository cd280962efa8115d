//! Cards pulled while a command's list is written to them: every cut of every
//! list that generated commands give on generated discs, each repaired by the
//! library and compared with the second program.

mod sweep;

#[cfg(test)]
mod planted;

use crate::calls::Call;
use crate::changing::{changing_command, Run};
use crate::cut_case::{writes_in, Stage};
use crate::cut_tally::{CutTally, Mark};
use crate::discs;
use crate::kind::{Kind, MOST_TRACKS};
use crate::list_case::places;
use crate::marks::ByKind;
use crate::pair::Pair;
use crate::runs::Runs;
use crate::writing::{Writing, MOST_WRITES, OF_LIBRARY};
use reference::command::Command;
use reference::generate::Random;
use reference::history::BookReading;
use std::fmt;
use sweep::{Repaired, Sweep};

/// One list in so many is followed by commands on one of its repaired cuts.
const GO_ON_IN: usize = 3;
const MANY_FILES: usize = 100;
const WIDE_DIRECTORY: usize = 3;

pub struct Cuts {
    seed: u64,
    /// The library's, unless a test plants others.
    writing: Writing,
    tallies: ByKind<CutTally>,
    commands: u64,
    cuts: u64,
    /// Those of the library: of each cut, and once more of what that leaves.
    repairs: u64,
    failed: u64,
}

/// An accepted command, the image before and after it, and its list.
struct Case<'a> {
    kind: Kind,
    command: &'a Command,
    old: &'a [u8],
    new: &'a [u8],
    list: &'a [u8],
    /// The directory has a sector more.
    grows: bool,
}

impl Cuts {
    pub fn new(seed: u64) -> Cuts {
        Cuts {
            seed,
            writing: OF_LIBRARY,
            tallies: Default::default(),
            commands: 0,
            cuts: 0,
            repairs: 0,
            failed: 0,
        }
    }

    /// Makes a command, then all cuts of its list. The next command goes on from
    /// it, or from one of the repaired cuts.
    fn command(
        &mut self,
        random: &mut Random,
        pair: &mut Pair,
        kind: Kind,
        command: &Command,
    ) -> Result<(), String> {
        let old = pair.image().to_vec();
        let answer = pair.step(random, command)?;
        self.commands += 1;
        let list = match answer.list_of_writes() {
            Some(list) => list,
            None => return Ok(()),
        };
        let directory = |image: &[u8]| discs::directory_sectors(image, kind).len();
        let case = Case {
            kind,
            command,
            old: &old,
            new: pair.image(),
            list,
            grows: directory(pair.image()) > directory(&old),
        };
        let kept = random.below(writes_in(list) + 1);
        let image = self.every_cut(&case, kept)?;
        if random.one_in(GO_ON_IN) {
            *pair = Pair::new(random, image, kind.numbers(), self.writing);
            self.tallies.of(kind).mark(true, Mark::GoneOn);
        }
        Ok(())
    }

    /// Cuts the list after no write, after one, and so on to all; gives one of the
    /// repaired discs.
    fn every_cut(&mut self, case: &Case<'_>, kept: usize) -> Result<Vec<u8>, String> {
        let tools = (case.kind, self.writing);
        let sweep = Sweep::new(tools, case.command, (case.old, case.new), case.list)
            .ok_or_else(|| "accepted on a disc that is not sound".to_string())?;
        let writes = sweep.writes();
        self.mark(case, &sweep);
        let mut image = Vec::new();
        for made in 0..=writes {
            self.cuts += 1;
            let cut = |text| format!("cut after {made} of {writes} writes: {text}");
            let repaired = sweep.cut(made, self.cuts).map_err(cut)?;
            self.repairs += 2;
            self.count(case, made, writes, &repaired);
            if made == kept {
                image = repaired.image;
            }
        }
        Ok(image)
    }

    fn count(&mut self, case: &Case<'_>, made: usize, writes: usize, repaired: &Repaired) {
        let stage = Stage::of(case.command, case.grows, made, writes);
        let tally = self.tallies.of(case.kind);
        tally.cut(Call::of(case.command), stage, repaired.rule);
        tally.mark(!repaired.changed, Mark::InOrder);
        tally.mark(repaired.changed && repaired.rule == 0, Mark::Reordered);
    }

    fn mark(&mut self, case: &Case<'_>, sweep: &Sweep<'_>) {
        let (book, kind) = (sweep.book(), case.kind);
        let tracks = case.old.len() / kind.track_bytes();
        let is_save = matches!(case.command, Command::Save { .. });
        let not_plain = |file: &_| matches!(file, BookReading::NotPlain);
        let mut files = book.standing().iter();
        let free = discs::free_count(case.old);
        let tally = self.tallies.of(kind);
        tally.mark(tracks == 1, Mark::OneTrack);
        tally.mark(tracks == MOST_TRACKS, Mark::Largest);
        tally.mark(discs::has_garbage(case.old, kind), Mark::Garbage);
        tally.mark(free == 0, Mark::FullBefore);
        let full = is_save && discs::free_count(case.new) == 0;
        tally.mark(full, Mark::FullAfter);
        tally.mark(sweep.writes() == MOST_WRITES, Mark::Longest);
        tally.mark(case.old == case.new, Mark::Unchanged);
        tally.mark(entry_is_later(case), Mark::LaterDirectory);
        tally.mark(book.directory() >= WIDE_DIRECTORY, Mark::WideDirectory);
        tally.mark(files.len() >= MANY_FILES, Mark::ManyFiles);
        tally.mark(files.any(|file| not_plain(&file.reading)), Mark::NotPlain);
        tally.mark(discs::has_protected(case.old, kind), Mark::Protected);
    }
}

impl Runs for Cuts {
    fn run(&mut self, number: u64) {
        let run = Run {
            seed: self.seed,
            number,
            writing: self.writing,
            draw: changing_command,
        };
        let passed =
            run.passes(|random, pair, kind, command| self.command(random, pair, kind, command));
        self.failed += u64::from(!passed);
    }

    fn made(&self) -> u64 {
        self.cuts
    }

    fn failed(&self) -> u64 {
        self.failed
    }

    fn missing(&self) -> Vec<String> {
        self.tallies.missing()
    }

    fn verdict(&self, failed: u64) -> String {
        let (cuts, repairs) = (self.cuts, self.repairs);
        format!("cuts: {cuts} cuts, {repairs} repairs, {failed} failed")
    }
}

impl fmt::Display for Cuts {
    fn fmt(&self, out: &mut fmt::Formatter<'_>) -> fmt::Result {
        self.tallies.write(out)?;
        writeln!(out, "commands: {}", self.commands)
    }
}

/// The entry is in another directory sector than the first: the last but one
/// write of a save that makes the directory grow, the last of any other, and the
/// first of the other commands.
fn entry_is_later(case: &Case<'_>) -> bool {
    let places = places(case.list);
    let at = match case.command {
        Command::Save { .. } => places.len() - 1 - usize::from(case.grows),
        _ => 0,
    };
    discs::directory_sectors(case.new, case.kind)[0] != places[at]
}
