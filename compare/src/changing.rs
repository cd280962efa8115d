//! Runs of commands that change generated discs.

use crate::difference::describe;
use crate::discs;
use crate::kind::Kind;
use crate::pair::Pair;
use crate::run::{random_of, Draw};
use crate::writing::Writing;
use reference::command::{Buffer, Command};
use reference::generate::{capacity, fresh_name, standing_names, Random};
use reference::writes_book::list_length;

const LONGEST_SHEET: usize = 65_536;
pub const LONGEST_SECTORS: usize = 260;
/// Where there is room for it, one command in so many is the longest save.
const LONGEST_IN: usize = 3;
const FEW_SECTORS: usize = 4;
/// A list has at most so many writes beside those of its file.
const MOST_OTHERS: usize = 3;
/// About the bytes of a sector.
const MOST_SHORTER: usize = 250;

/// A run depends on the seed and its number alone.
pub struct Run {
    pub seed: u64,
    pub number: u64,
    pub writing: Writing,
    pub draw: Draw,
}

impl Run {
    /// Draws commands and has them made, on a disc whose kind is the number's turn.
    /// The first failure ends it and is printed; whether there was none.
    pub fn passes(
        &self,
        mut make: impl FnMut(&mut Random, &mut Pair, Kind, &Command) -> Result<(), String>,
    ) -> bool {
        let random = &mut random_of(self.seed, self.number);
        let kind = Kind::ALL[self.number as usize % Kind::ALL.len()];
        let (image, most) = some_disc(random, kind);
        let mut pair = Pair::new(random, image, kind.numbers(), self.writing);
        (0..random.between(1, most)).all(|at| {
            let command = (self.draw)(random, pair.image(), kind);
            let made = make(random, &mut pair, kind, &command);
            made.map_err(|text| self.report(at, &command, kind, &text))
                .is_ok()
        })
    }

    fn report(&self, at: usize, command: &Command, kind: Kind, text: &str) {
        let Run { seed, number, .. } = self;
        println!("FAILED: seed {seed}, run {number}, command {at}");
        println!("  {}", describe(command, kind.numbers()));
        println!("  {text}");
    }
}

/// A disc, and how many commands are made on it at most.
pub fn some_disc(random: &mut Random, kind: Kind) -> (Vec<u8>, usize) {
    match random.below(400) {
        0 => (discs::many_files(random, kind), 3),
        1..=13 => (discs::largest(random, kind), 3),
        14..=80 => (discs::small_files(random, kind), 8),
        81..=140 => (discs::nearly_full(random, kind), 8),
        141..=180 => (discs::wide_directory(random, kind), 6),
        181..=220 => (discs::blank(random, kind, 1), 10),
        _ => (discs::sound(random, kind), 10),
    }
}

/// Mostly accepted: a save or a command on a standing file, with room for its
/// list.
pub fn changing_command(random: &mut Random, image: &[u8], kind: Kind) -> Command {
    let standing = standing_names(image, kind.sectors(), kind.arrangement());
    let free = discs::free_count(image);
    if free > LONGEST_SECTORS && random.one_in(LONGEST_IN) {
        return save(random, LONGEST_SECTORS, LONGEST_SHEET);
    }
    if standing.is_empty() || random.one_in(2) {
        return any_save(random, free.max(1));
    }
    let name = standing[random.below(standing.len())].clone();
    let writes = room(random, 0);
    match random.below(4) {
        0 | 1 => Command::Delete { name, writes },
        2 => Command::Protect {
            name,
            on: random.below(2) as u32,
            writes,
        },
        _ => Command::Rename {
            old: name,
            new: fresh_name(random),
            writes,
        },
    }
}

/// Of a standing file, if there is one, and else a small save.
pub fn rename_command(random: &mut Random, image: &[u8], kind: Kind) -> Command {
    let standing = standing_names(image, kind.sectors(), kind.arrangement());
    match standing.len() {
        0 => any_save(random, FEW_SECTORS),
        files => Command::Rename {
            old: standing[random.below(files)].clone(),
            new: fresh_name(random),
            writes: room(random, 0),
        },
    }
}

/// Of a few sectors, or of all that are free or about so many.
fn any_save(random: &mut Random, free: usize) -> Command {
    let sectors = match random.below(8) {
        0 => free,
        1 => (free - 1).max(1),
        2 => random.between(1, free),
        _ => random.between(1, free.min(FEW_SECTORS)),
    };
    let most = capacity(sectors).min(LONGEST_SHEET);
    let shorter = random.below(most.min(MOST_SHORTER));
    let length = most - random.pick(&[0, shorter]);
    save(random, sectors, length)
}

/// Of so many bytes, which take at most so many sectors.
fn save(random: &mut Random, sectors: usize, length: usize) -> Command {
    Command::Save {
        name: fresh_name(random),
        page: 0,
        start: 0,
        transfer: random.draw() as u16,
        sheet: random.bytes(length),
        writes: room(random, sectors),
    }
}

/// For the list of a command with so many file sectors.
fn room(random: &mut Random, sectors: usize) -> Buffer {
    Buffer {
        length: list_length(sectors + MOST_OTHERS),
        fill: random.byte(),
    }
}
