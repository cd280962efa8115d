//! Commands with arguments on and across every boundary.

use super::files::{capacity, module_length};
use super::{fresh_name, illegal_name, numbers_made, other_number, standing_names};
use super::{Random, Replays, NINE, TEN};
use crate::command::{Buffer, Command};
use crate::directory;
use crate::disc::{word, Disc, FREE_COUNT, MAX_SECTORS};
use crate::module::sectors_taken;
use crate::writes_book::list_length;

/// The image that a command is made for, and the numbers that it was made with.
#[derive(Clone, Copy)]
pub struct Target<'a> {
    pub image: &'a [u8],
    pub sectors: u32,
    pub arrangement: u32,
}

impl<'a> Target<'a> {
    /// For the numbers stated, which may be no format.
    pub fn new(image: &'a [u8], sectors: u32, arrangement: u32) -> Target<'a> {
        let (sectors, arrangement) = numbers_made(sectors, arrangement);
        Target {
            image,
            sectors,
            arrangement,
        }
    }

    /// None for an image of a wrong size.
    pub fn disc(self) -> Option<Disc<'a>> {
        Disc::open(self.image, self.sectors, self.arrangement).ok()
    }
}

/// A list of commands made for a starting image. Each is chosen with the
/// image before it in view, so that boundaries such as a full disc are met.
pub fn command_list(
    random: &mut Random,
    start: &[u8],
    sectors: u32,
    arrangement: u32,
    count: usize,
    mut replays: Replays,
) -> Vec<Command> {
    let mut image = start.to_vec();
    (0..count)
        .map(|_| {
            let command = replays.command(random, &image, sectors, arrangement);
            replays.heard(&command.run(&mut image, sectors, arrangement));
            command
        })
        .collect()
}

/// A command for an image of any length, never a replay or a repair.
pub fn command(random: &mut Random, image: &[u8], sectors: u32, arrangement: u32) -> Command {
    let target = Target::new(image, sectors, arrangement);
    match random.below(40) {
        0..=11 => save(random, target),
        12..=17 => delete(random, target),
        18..=22 => rename(random, target),
        23..=26 => protect(random, target),
        27..=32 => read(random, target),
        33..=35 => list(random, target),
        36 => Command::Check,
        37 if random.one_in(4) => blank(random),
        _ => view(random, target),
    }
}

/// Mostly a standing name, sometimes an absent or illegal one.
fn name(random: &mut Random, target: Target<'_>) -> Vec<u8> {
    let standing = standing_names(target.image, target.sectors, target.arrangement);
    match random.below(10) {
        0 => illegal_name(random),
        1 | 2 => fresh_name(random),
        _ if standing.is_empty() => fresh_name(random),
        _ => standing[random.below(standing.len())].clone(),
    }
}

/// Mostly a name that may not stand yet.
fn new_name(random: &mut Random, target: Target<'_>) -> Vec<u8> {
    if random.one_in(4) {
        name(random, target)
    } else {
        fresh_name(random)
    }
}

fn rename(random: &mut Random, target: Target<'_>) -> Command {
    let old = name(random, target);
    let new = if random.one_in(8) {
        old.clone()
    } else {
        new_name(random, target)
    };
    let writes = writes_buffer(random, 1);
    Command::Rename { old, new, writes }
}

fn delete(random: &mut Random, target: Target<'_>) -> Command {
    Command::Delete {
        name: name(random, target),
        writes: writes_buffer(random, 3),
    }
}

fn protect(random: &mut Random, target: Target<'_>) -> Command {
    Command::Protect {
        name: name(random, target),
        on: random.pick(&[0, 0, 1, 0x80, 256, u32::MAX]),
        writes: writes_buffer(random, 1),
    }
}

fn save(random: &mut Random, target: Target<'_>) -> Command {
    let start = match random.below(4) {
        0 => random.pick(&[0, 1, 0x2000, 0xFFFF, 0xFF00]),
        _ => random.draw() as u16,
    };
    let page = match random.below(12) {
        0 => random.pick(&[8, 9, 255, 256, 263, 65_536, u32::MAX]),
        _ => random.below(8) as u32,
    };
    let length = sheet_length(random, target.image, start);
    let writes = 2 + sectors_taken(length) + usize::from(directory_is_full(target));
    Command::Save {
        name: new_name(random, target),
        page,
        start,
        transfer: random.draw() as u16,
        sheet: random.bytes(length),
        writes: writes_buffer(random, writes),
    }
}

fn directory_is_full(target: Target<'_>) -> bool {
    target
        .disc()
        .map_or(false, |disc| directory::free_slot(disc).is_none())
}

/// For a list of so many writes, mostly long enough.
fn writes_buffer(random: &mut Random, writes: usize) -> Buffer {
    let exact = list_length(writes);
    let length = match random.below(16) {
        0 => 0,
        1 => exact - 1,
        2 => random.below(exact),
        3..=6 => exact + random.between(1, 300),
        _ => exact,
    };
    Buffer {
        length,
        fill: random.byte(),
    }
}

/// Lengths at the edges of a sector, of the free chain and of the addresses.
fn sheet_length(random: &mut Random, image: &[u8], start: u16) -> usize {
    let addresses = 65_536 - usize::from(start);
    match random.below(16) {
        0 => 0,
        1 if random.one_in(3) || addresses < 4096 => addresses + random.below(2),
        2 | 3 => exact_room(random, image).min(addresses),
        _ => module_length(random, addresses),
    }
}

/// What just fits the free sectors, or is about one sector or byte off. Images
/// of a wrong size have their count looked for as well; 0/1 comes first in
/// every arrangement, and elsewhere this would only be a worse guess.
fn exact_room(random: &mut Random, image: &[u8]) -> usize {
    let free = if image.len() < 256 {
        0
    } else {
        usize::from(word(image, FREE_COUNT)).min(MAX_SECTORS - 1)
    };
    let sectors = (free + random.below(3)).max(2) - 1;
    capacity(sectors) + random.below(2)
}

fn buffer(random: &mut Random, exact: usize) -> Buffer {
    let length = match random.below(6) {
        0 => 0,
        1 => exact.saturating_sub(1),
        2 => exact + random.between(1, 20),
        3 => random.below(exact + 1),
        _ => exact,
    };
    Buffer {
        length,
        fill: random.byte(),
    }
}

fn read(random: &mut Random, target: Target<'_>) -> Command {
    let name = name(random, target);
    let mut whole = vec![0; 65_536];
    let reading = crate::read(
        target.image,
        target.sectors,
        target.arrangement,
        &name,
        &mut whole,
    );
    let buffer = buffer(random, reading.length as usize);
    Command::Read { name, buffer }
}

fn list(random: &mut Random, target: Target<'_>) -> Command {
    let mut whole = vec![0; 65_536];
    let listed = crate::list(target.image, target.sectors, target.arrangement, &mut whole);
    Command::List {
        buffer: buffer(random, listed.length as usize),
    }
}

/// Mostly refused.
pub fn blank(random: &mut Random) -> Command {
    const NAMES: [&[u8]; 8] = [
        b"A",
        b"PIECES",
        b"NINECHARS",
        b"TENCHARS10",
        b"",
        b"A.B",
        b"lower",
        b"A B",
    ];
    Command::Blank {
        name: random.pick(&NAMES).to_vec(),
    }
}

/// Sectors 9, 10 and 11 are looked at on either disc, and so is the first track
/// that the image would lack with the other number stated.
fn view(random: &mut Random, target: Target<'_>) -> Command {
    let tracks_of = |sectors: u32| (target.image.len() / 256) as u32 / sectors;
    let tracks = tracks_of(target.sectors);
    let tracks_of_other = tracks_of(other_number(target.sectors));
    let track = random.below(tracks as usize) as u32;
    let sector = random.between(1, target.sectors as usize) as u32;
    match random.below(8) {
        0 => Command::View {
            track: random.pick(&[tracks, tracks_of_other, 80, 256, track + 256, u32::MAX]),
            sector,
        },
        1 | 2 => Command::View {
            track,
            sector: random.pick(&[0, NINE, TEN, TEN + 1, 256, sector + 256, u32::MAX]),
        },
        _ => Command::View { track, sector },
    }
}
