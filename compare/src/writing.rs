//! The calls of requests e and g: the four commands that give a list of what they
//! wrote, the replay of such a list, and the repair.

use crate::ffi;
use crate::kind::Numbers;
use reference::command::Command;
use reference::Filled;

/// Kind, track, sector and 256 bytes.
pub const RECORD: usize = 259;
/// The longest module and its new directory sector, the one that links to it
/// and the system sector.
pub const MOST_WRITES: usize = 263;
pub const LONGEST_LIST: usize = RECORD * MOST_WRITES + 1;

/// One of the four commands, with its one or two texts and its buffer as lent;
/// those of the command itself are not looked at.
pub type Change = fn(&Command, &mut [u8], Numbers, [&[u8]; 2], &mut [u8]) -> Filled;

/// A list is lent for reading; that it can be written here lets the tests plant
/// a call that does.
pub type Replay = fn(&mut [u8], Numbers, &mut [u8]) -> u32;

pub type Repair = fn(&mut [u8], Numbers) -> u32;

/// The calls to compare: the library's, unless a test plants others.
#[derive(Debug, Clone, Copy)]
pub struct Writing {
    pub change: Change,
    pub replay: Replay,
    pub repair: Repair,
}

pub const OF_LIBRARY: Writing = Writing {
    change,
    replay,
    repair,
};

/// No other command gets here; it would leave the image and the buffer.
fn change(
    command: &Command,
    image: &mut [u8],
    numbers: Numbers,
    [first, second]: [&[u8]; 2],
    writes: &mut [u8],
) -> Filled {
    let Numbers {
        sectors,
        arrangement,
    } = numbers;
    match command {
        Command::Save {
            page,
            start,
            transfer,
            ..
        } => ffi::save(
            image,
            sectors,
            arrangement,
            first,
            *page,
            *start,
            *transfer,
            second,
            writes,
        ),
        Command::Delete { .. } => ffi::delete(image, sectors, arrangement, first, writes),
        Command::Rename { .. } => ffi::rename(image, sectors, arrangement, first, second, writes),
        Command::Protect { on, .. } => {
            ffi::protect(image, sectors, arrangement, first, *on, writes)
        }
        _ => Filled {
            number: 0,
            length: 0,
        },
    }
}

fn replay(image: &mut [u8], numbers: Numbers, writes: &mut [u8]) -> u32 {
    ffi::replay(image, numbers.sectors, numbers.arrangement, writes)
}

fn repair(image: &mut [u8], numbers: Numbers) -> u32 {
    ffi::repair(image, numbers.sectors, numbers.arrangement)
}
