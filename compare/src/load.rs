//! Many commands on one image of each kind: what shows only after a long
//! history, such as a free chain that has passed every sector in many orders.
//! The lists of writes keep an older copy of each image up, as a card reader
//! would. Cards are pulled amid their lists and repaired. Saves are deleted again
//! and renames go on, on copies. After each command one sheet more is added to a
//! table of totals.

mod card;
mod sheets;

use crate::difference::describe;
use crate::discs;
use crate::kind::{Kind, Stated};
use crate::laws::{by_both, Accepted};
use crate::met::Met;
use crate::pair::Pair;
use crate::run::{any_command, small_file_command, some_room, Draw};
use crate::tally::Tally;
use crate::writing::OF_LIBRARY;
use card::Card;
use reference::command::Command;
use reference::generate::{fresh_name, standing_names, Random};
use sheets::Sheets;
use std::fmt;

/// The makers' usual disc.
const TRACKS: usize = 40;
/// All of demand 3, with each file read, is checked after each command of this
/// number. The other commands have their answers, the whole image, the places
/// of all sectors and the free-sector sum checked.
const WHOLE_MOMENT_EVERY: u64 = 10;
/// Commands of any size, then of small files, so that the directory grows, then
/// mostly deletes, since the disc is full by then.
const PHASE: u64 = 200;
/// Every second of these has cards pulled, in one command in so many, and repairs,
/// one in so many; after a pulled card one in so many. The others leave the free
/// chain the order that saves and deletes give it.
const PULLED_IN: usize = 8;
const REPAIRS_IN: usize = 40;
const REPAIRS_OF_PULLED_IN: usize = 3;
/// A blank disc ends the history before it, so few of those drawn are run.
const BLANKS_LEFT_OUT: usize = 60;

pub struct Load {
    seed: u64,
    random: Random,
    /// One of each of `Kind::ALL`, which take turns.
    images: [Image; 3],
    sheets: Sheets,
    commands: u64,
}

impl Load {
    pub fn new(seed: u64) -> Load {
        let mut random = Random::new(seed);
        let images = Kind::ALL.map(|kind| Image::new(&mut random, kind));
        let sheets = Sheets::new(&mut random);
        Load {
            seed,
            random,
            images,
            sheets,
            commands: 0,
        }
    }

    pub fn commands(&self) -> u64 {
        self.commands
    }

    /// Ends with the first failure, since the images or the totals differ from
    /// there.
    pub fn run(&mut self, commands: u64) -> Result<(), String> {
        let seed = self.seed;
        for number in 0..commands {
            self.commands += 1;
            let turn = number % self.images.len() as u64;
            let image = &mut self.images[turn as usize];
            let random = &mut self.random;
            image
                .step(random)
                .and_then(|()| self.sheets.step(random))
                .map_err(|text| format!("FAILED: seed {seed}, command {number}: {text}"))?;
        }
        let ended = self.sheets.end();
        ended.map_err(|text| format!("FAILED: seed {seed}, at the end: {text}"))
    }
}

/// One image and its long history.
struct Image {
    kind: Kind,
    pair: Pair,
    card: Card,
    tally: Tally,
    commands: u64,
    most_files: usize,
    most_directory: usize,
    full_moments: u64,
    silent_moments: u64,
    pulled: u64,
}

impl Image {
    fn new(random: &mut Random, kind: Kind) -> Image {
        let image = discs::blank(random, kind, TRACKS);
        Image {
            kind,
            card: Card::new(&image, kind.numbers()),
            pair: Pair::new(random, image, kind.numbers(), OF_LIBRARY),
            tally: Tally::new(Stated::Kind(kind)),
            commands: 0,
            most_files: 0,
            most_directory: 0,
            full_moments: 0,
            silent_moments: 0,
            pulled: 0,
        }
    }

    fn step(&mut self, random: &mut Random) -> Result<(), String> {
        let command = self.draw(random);
        self.commands += 1;
        self.run(random, &command).map_err(|text| {
            let call = describe(&command, self.kind.numbers());
            format!("{call}\n  {text}")
        })
    }

    fn has_pulls(&self) -> bool {
        self.commands / PHASE % 2 == 0
    }

    fn draw(&self, random: &mut Random) -> Command {
        let repairs_in = match self.pair.is_pulled() {
            true => REPAIRS_OF_PULLED_IN,
            false => REPAIRS_IN,
        };
        if (self.has_pulls() || self.pair.is_pulled()) && random.one_in(repairs_in) {
            return Command::Repair;
        }
        let draw: Draw = match self.commands / PHASE % 3 {
            0 => any_command,
            1 => small_file_command,
            _ => clearing_command,
        };
        loop {
            let drawn = draw(random, self.pair.image(), self.kind);
            let is_blank = matches!(drawn, Command::Blank { .. });
            if !is_blank || random.one_in(BLANKS_LEFT_OUT) {
                return drawn;
            }
        }
    }

    fn run(&mut self, random: &mut Random, command: &Command) -> Result<(), String> {
        let before = self.pair.image().to_vec();
        let met = Met::by(&before, self.kind.numbers());
        let (answer, cut) = if self.has_pulls() && random.one_in(PULLED_IN) {
            self.pair.cut(random, command)?
        } else {
            (self.pair.step(random, command)?, None)
        };
        self.tally.call(command, &answer, met);
        self.pulled += u64::from(cut.is_some());
        self.observe();
        if answer.accepted() && cut.is_none() {
            self.laws(random, command, &before)?;
        }
        let made = cut.map(|(made, _)| made);
        self.card
            .take(command, (&answer, made), self.pair.image())?;
        let fault = if self.commands % WHOLE_MOMENT_EVERY == 0 {
            self.tally.moments += 1;
            self.pair.moment_fault()
        } else {
            self.pair.places_fault()
        };
        fault.map_or(Ok(()), Err)
    }

    /// What a law asks for after an accepted command. Drawn from a copy, so that
    /// the history is the one without.
    fn laws(&mut self, random: &Random, command: &Command, before: &[u8]) -> Result<(), String> {
        let accepted = Accepted {
            kind: self.kind,
            writing: self.pair.writing(),
            command,
            before,
            after: self.pair.image(),
            on_copy: by_both,
        };
        accepted.ask(&mut random.clone(), &mut self.tally.laws)
    }

    fn observe(&mut self) {
        let (files, directory) = self.pair.extent();
        self.most_files = self.most_files.max(files);
        self.most_directory = self.most_directory.max(directory);
        self.full_moments += u64::from(discs::free_count(self.pair.image()) == 0);
        self.silent_moments += u64::from(!self.pair.has_history());
    }
}

/// Mostly lifts the protection of a standing file or deletes it.
fn clearing_command(random: &mut Random, image: &[u8], kind: Kind) -> Command {
    let standing = standing_names(image, kind.sectors(), kind.arrangement());
    let name = match standing.len() {
        0 => fresh_name(random),
        count => standing[random.below(count)].clone(),
    };
    match random.below(4) {
        0 => Command::Protect {
            name,
            on: 0,
            writes: some_room(random, 1),
        },
        1 | 2 => Command::Delete {
            name,
            writes: some_room(random, 3),
        },
        _ => any_command(random, image, kind),
    }
}

impl fmt::Display for Load {
    fn fmt(&self, out: &mut fmt::Formatter<'_>) -> fmt::Result {
        let [ten, moved, nine] = &self.images;
        write!(out, "{ten}\n{moved}\n{nine}\n{}", self.sheets)
    }
}

impl fmt::Display for Image {
    fn fmt(&self, out: &mut fmt::Formatter<'_>) -> fmt::Result {
        self.tally.write_answers(out)?;
        writeln!(
            out,
            "one image, {}, of {TRACKS} tracks: at most {} files and {} directory sectors",
            self.kind.name(),
            self.most_files,
            self.most_directory
        )?;
        writeln!(out, "moments without a free sector: {}", self.full_moments)?;
        writeln!(
            out,
            "cards pulled: {}; moments between such and a repair: {}",
            self.pulled, self.silent_moments
        )?;
        let laws = &self.tally.laws;
        writeln!(
            out,
            "on copies: saves deleted again: {}; renames that went on: {}",
            laws.pairs, laws.triples
        )?;
        writeln!(
            out,
            "moments with each file read: {}; with the places of all sectors: all others",
            self.tally.moments
        )?;
        write!(out, "{}", self.card)
    }
}

#[cfg(test)]
mod tests {
    use super::*;

    #[test]
    fn the_same_seed_draws_the_same_commands() {
        let table = |seed| {
            let mut load = Load::new(seed);
            assert_eq!(load.run(600), Ok(()));
            assert_eq!(load.commands(), 600);
            load.to_string()
        };
        assert_eq!(table(1), table(1));
        assert_ne!(table(1), table(2));
    }
}
