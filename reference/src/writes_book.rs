//! What a list of writes must be by the paper, read apart from `writes.rs`: its
//! records in the order of its command, and the new image if replayed on the
//! old one.

use crate::command::Command;
use crate::disc::{Disc, Sector};
use crate::history::{follow, pointer, slots_in_use, stored};

/// Kind, track, sector and 256 bytes.
const RECORD: usize = 259;

/// The length of a list with so many writes, its kind 0 included.
pub fn list_length(writes: usize) -> usize {
    RECORD * writes + 1
}

/// One record of a list: the number of its sector, and the 256 bytes.
pub(crate) type Write<'a> = (usize, &'a [u8]);

/// The writes of a list in order; nothing if it is bad.
pub(crate) fn writes<'a>(disc: Disc<'_>, list: &'a [u8]) -> Option<Vec<Write<'a>>> {
    let mut writes = Vec::new();
    let mut left = list;
    loop {
        match *left {
            [0] => return Some(writes),
            [3, track, sector, ref rest @ ..] if rest.len() > 256 => {
                let sector = disc.on_disc(u32::from(track), u32::from(sector))?;
                let (bytes, later) = rest.split_at(256);
                writes.push((sector.number(), bytes));
                left = later;
            }
            _ => return None,
        }
    }
}

/// The image that a list makes of an old one; nothing if the list is bad or the
/// image of a wrong size.
pub fn replayed(old: &[u8], sectors: u32, arrangement: u32, list: &[u8]) -> Option<Vec<u8>> {
    let disc = Disc::open(old, sectors, arrangement).ok()?;
    let mut image = old.to_vec();
    for (number, bytes) in writes(disc, list)? {
        image[disc.place(Sector::numbered(number))].copy_from_slice(bytes);
    }
    Some(image)
}

/// What a replay's number, or the image after it, lacks: 1 for a wrong size, 14
/// for a bad list, either with the image as it was, and else the list's writes.
pub fn replay_fault(
    (sectors, arrangement): (u32, u32),
    (old, new): (&[u8], &[u8]),
    list: &[u8],
    number: u32,
) -> Option<String> {
    let image = replayed(old, sectors, arrangement, list);
    let due = if Disc::open(old, sectors, arrangement).is_err() {
        1
    } else if image.is_none() {
        14
    } else {
        0
    };
    if number != due {
        Some(format!("replay answers {number}, not {due}"))
    } else if new != image.as_deref().unwrap_or(old) {
        Some(format!("the image after a replay that answers {number}"))
    } else {
        None
    }
}

/// What the list of an accepted command lacks: its records are to stand in the
/// paper's order, and replaying it on the old image is to give the new one.
pub fn list_fault(
    command: &Command,
    (sectors, arrangement): (u32, u32),
    (old, new): (&[u8], &[u8]),
    list: &[u8],
) -> Option<String> {
    let before = Disc::open(old, sectors, arrangement).ok();
    let after = Disc::open(new, sectors, arrangement).ok();
    let (before, after) = match before.zip(after) {
        Some(discs) => discs,
        None => return Some("an image is of no right size".to_string()),
    };
    let found: Vec<usize> = match writes(before, list) {
        Some(writes) => writes.iter().map(|&(number, _)| number).collect(),
        None => return Some("the list is bad".to_string()),
    };
    let order = order_due(command, before, after);
    if order.as_ref() != Some(&found) {
        Some(format!("sectors {found:?} are listed, not {order:?}"))
    } else if replayed(old, sectors, arrangement, list).as_deref() != Some(new) {
        Some("replayed, the list does not give the new image".to_string())
    } else {
        None
    }
}

/// The numbers of the sectors that an accepted command is to list.
fn order_due(command: &Command, before: Disc<'_>, after: Disc<'_>) -> Option<Vec<usize>> {
    match command {
        Command::Save { name, .. } => {
            let (directory, chain) = find(after, &stored(name))?;
            let mut order = vec![0];
            order.extend(chain);
            order.push(directory);
            let old_sectors = directory_chain(before)?;
            if !old_sectors.contains(&directory) {
                order.push(*old_sectors.last()?);
            }
            Some(order)
        }
        Command::Delete { name, .. } => {
            let (directory, chain) = find(before, &stored(name))?;
            Some(vec![directory, *chain.last()?, 0])
        }
        Command::Rename { old: name, .. } | Command::Protect { name, .. } => {
            let (directory, _) = find(before, &stored(name))?;
            Some(vec![directory])
        }
        _ => None,
    }
}

fn directory_chain(disc: Disc<'_>) -> Option<Vec<usize>> {
    follow(disc, pointer(disc.system(), 0x12))
}

/// The directory sector that names a file, and the file's chain.
fn find(disc: Disc<'_>, name: &[u8; 9]) -> Option<(usize, Vec<usize>)> {
    directory_chain(disc)?.into_iter().find_map(|directory| {
        let slot = slots_in_use(disc, directory).find(|slot| slot[..9] == *name)?;
        Some((directory, follow(disc, pointer(slot, 11))?))
    })
}
