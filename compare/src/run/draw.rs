//! The commands of a run, drawn with the image before them and its kind in view.

use crate::kind::Kind;
use crate::list_case::Target;
use crate::writing::{LONGEST_LIST, RECORD};
use reference::command::{Buffer, Command};
use reference::generate::{self, fresh_name, standing_names, Random, Replays};
use reference::writes_book::list_length;

/// One command that ends the silence after a cut in so many is a blank disc in place
/// of a repair, and as many are replays.
const NEW_STARTS_IN: usize = 12;

pub type Draw = fn(&mut Random, &[u8], Kind) -> Command;

/// Of any sort.
pub fn any_command(random: &mut Random, image: &[u8], kind: Kind) -> Command {
    generate::command(random, image, kind.sectors(), kind.arrangement())
}

/// Of any sort, often made for the disc of the other number, and the rarer ones
/// more often.
pub fn misstated_disc_command(random: &mut Random, image: &[u8], kind: Kind) -> Command {
    match random.below(12) {
        0 => Command::Blank {
            name: b"STATED".to_vec(),
        },
        1 => Command::List {
            buffer: Buffer {
                length: random.below(500),
                fill: random.byte(),
            },
        },
        2 => Command::View {
            track: random.below(8) as u32,
            sector: kind.sectors() + 1,
        },
        3..=6 => {
            let other = kind.other_number(random);
            any_command(random, image, other)
        }
        _ => any_command(random, image, kind),
    }
}

/// Mostly saves and deletes of small files, so that the number of files often
/// passes a multiple of fifteen, up and down.
pub fn small_file_command(random: &mut Random, image: &[u8], kind: Kind) -> Command {
    let name = match random.below(3) {
        0 => format!("F{}", random.below(30)).into_bytes(),
        _ => fresh_name(random),
    };
    match random.below(8) {
        0 | 1 => any_command(random, image, kind),
        2..=4 => Command::Delete {
            name,
            writes: some_room(random, 3),
        },
        _ => {
            let (sectors, length) = random.pick(&[(1, 1), (1, 200), (1, 245), (2, 246)]);
            Command::Save {
                name,
                page: 1,
                start: 0x4000,
                transfer: 0x4000,
                sheet: vec![random.byte(); length],
                writes: some_room(random, sectors + 2),
            }
        }
    }
}

/// Mostly of standing files, with buffers that fit their lists in every way.
pub fn listing_command(random: &mut Random, image: &[u8], kind: Kind) -> Command {
    let standing = standing_names(image, kind.sectors(), kind.arrangement());
    if standing.is_empty() || random.one_in(4) {
        return any_command(random, image, kind);
    }
    let name = standing[random.below(standing.len())].clone();
    match random.below(5) {
        0 => Command::Delete {
            name,
            writes: any_room(random, 3),
        },
        1 => Command::Protect {
            name,
            on: random.below(2) as u32,
            writes: any_room(random, 1),
        },
        2 => Command::Save {
            name: fresh_name(random),
            page: 0,
            start: 0x2000,
            transfer: 0x2000,
            sheet: random.bytes(200),
            writes: any_room(random, 3),
        },
        _ => Command::Rename {
            old: name,
            new: fresh_name(random),
            writes: any_room(random, 1),
        },
    }
}

/// None, too short by any number of bytes or by one, exact, or longer.
fn any_room(random: &mut Random, writes: usize) -> Buffer {
    let exact = list_length(writes);
    let length = match random.below(6) {
        0 => 0,
        1 => random.below(exact),
        2 => exact - 1,
        3 => exact + random.between(1, RECORD),
        _ => exact,
    };
    Buffer {
        length,
        fill: random.byte(),
    }
}

/// For a list of so many writes, or of one more, and mostly for both; sometimes
/// a byte shorter.
pub fn some_room(random: &mut Random, writes: usize) -> Buffer {
    let exact = list_length(writes);
    let one_more = exact + RECORD;
    let longer = one_more + random.below(RECORD);
    let length = match random.below(12) {
        0 => exact - 1,
        1 | 2 => exact,
        3..=5 => one_more - 1,
        6 | 7 => one_more,
        _ => longer,
    };
    Buffer {
        length,
        fill: random.byte(),
    }
}

/// A replay of a list of any sort, or what the second program draws for a run
/// with replays.
pub fn replay_command(
    random: &mut Random,
    image: &[u8],
    kind: Kind,
    replays: &mut Replays,
) -> Command {
    if random.one_in(2) {
        let writes = Target::new(image, kind).any_list(random);
        return Command::Replay { writes };
    }
    replays.command(random, image, kind.sectors(), kind.arrangement())
}

/// What ends the silence after a cut: mostly a repair.
pub fn restoring_command(random: &mut Random, image: &[u8], kind: Kind) -> Command {
    match random.below(NEW_STARTS_IN) {
        0 => Command::Blank {
            name: b"PULLED".to_vec(),
        },
        1 => Command::Replay {
            writes: Target::new(image, kind).good_list(random),
        },
        _ => Command::Repair,
    }
}

/// Often of modules as long as there are any, under few names, or a blank disc.
pub fn largest_disc_command(random: &mut Random, image: &[u8], kind: Kind) -> Command {
    const LONGEST: usize = 65_536;
    let [name, new] = [(); 2].map(|_| vec![random.pick(b"ABCD")]);
    let buffer = Buffer {
        length: LONGEST,
        fill: random.byte(),
    };
    match random.below(16) {
        0 => Command::Blank { name },
        1..=3 => Command::Save {
            name,
            page: random.below(8) as u32,
            start: 0,
            transfer: random.draw() as u16,
            sheet: random.bytes(LONGEST),
            writes: Buffer {
                length: LONGEST_LIST - random.pick(&[0, 0, 0, 1, RECORD]),
                fill: random.byte(),
            },
        },
        4..=6 => Command::Read { name, buffer },
        7 => Command::List { buffer },
        8 => Command::Rename {
            old: name,
            new,
            writes: some_room(random, 1),
        },
        _ => any_command(random, image, kind),
    }
}
