//! The check: the eight rules of a sound image, in order.

use crate::directory::{self, Entry, ENTRIES_IN_USE, PROTECTED, UNPROTECTED};
use crate::disc::{Address, Disc, Sector, MAX_SECTORS};
use crate::name::Name;
use crate::refusal::Refusal;

/// The number of the lowest broken rule, or 0 for a sound image. Each rule may
/// rely on those before it.
pub fn broken_rule(disc: Disc<'_>) -> u32 {
    let mut marks = match Marks::of_directory_and_files(disc) {
        Ok(marks) => marks,
        Err(rule) => return rule,
    };
    if !marks.free_chain_is_right() {
        6
    } else if disc.used_count() != file_sectors(disc) {
        7
    } else if !marks.all_met() {
        8
    } else {
        0
    }
}

pub fn require_sound(disc: Disc<'_>) -> Result<(), Refusal> {
    match broken_rule(disc) {
        0 => Ok(()),
        _ => Err(Refusal::Unsound),
    }
}

/// A mark for each sector that is 0/1 or met by the directory or a file, by
/// sector number; refused if one of rules 1 to 5 is broken.
pub fn taken(disc: Disc<'_>) -> Result<[bool; MAX_SECTORS], Refusal> {
    match Marks::of_directory_and_files(disc) {
        Ok(marks) => Ok(marks.met),
        Err(_) => Err(Refusal::Unsound),
    }
}

/// One mark for each sector that a chain has met. 0/1 is marked from the
/// start, so that no chain may meet it.
struct Marks<'a> {
    disc: Disc<'a>,
    met: [bool; MAX_SECTORS],
}

impl<'a> Marks<'a> {
    fn new(disc: Disc<'a>) -> Marks<'a> {
        let mut met = [false; MAX_SECTORS];
        met[Sector::SYSTEM.number()] = true;
        Marks { disc, met }
    }

    /// The marks once rules 1 to 5 are found to hold, or the lowest of them that
    /// is broken.
    fn of_directory_and_files(disc: Disc<'a>) -> Result<Marks<'a>, u32> {
        let mut marks = Marks::new(disc);
        if !directory_pointer_is_right(disc) {
            Err(1)
        } else if marks.walk(disc.directory_pointer()).is_none() {
            Err(2)
        } else if !directory::sectors(disc).all(|sector| directory_sector_is_right(disc, sector)) {
            Err(3)
        } else if names_repeat(disc) {
            Err(4)
        } else if !directory::entries(disc).all(|(_, entry)| marks.file_is_right(&entry)) {
            Err(5)
        } else {
            Ok(marks)
        }
    }

    /// Marks a chain from its first sector to its end link, and gives its
    /// length and last sector; nothing if it leaves the disc or meets a
    /// marked sector. The marks make every walk end.
    fn walk(&mut self, head: Address) -> Option<(usize, Sector)> {
        let mut length = 0;
        let mut next = head;
        loop {
            let sector = self.disc.locate(next)?;
            if std::mem::replace(&mut self.met[sector.number()], true) {
                return None;
            }
            length += 1;
            next = self.disc.link(sector);
            if next.is_end() {
                return Some((length, sector));
            }
        }
    }

    /// Rule 5. The walk goes to the end link, not to the entry's length, so a
    /// chain that goes on is seen.
    fn file_is_right(&mut self, entry: &Entry) -> bool {
        match self.walk(entry.first) {
            Some((length, last)) => {
                length == usize::from(entry.length) && self.disc.address(last) == entry.last
            }
            None => false,
        }
    }

    /// Rule 6.
    fn free_chain_is_right(&mut self) -> bool {
        let pointer = self.disc.free_pointer();
        let length = if pointer.is_end() {
            Some(0)
        } else {
            self.walk(pointer).map(|(length, _)| length)
        };
        length == Some(self.disc.free_count())
    }

    fn all_met(&self) -> bool {
        self.met[..self.disc.sectors()].iter().all(|&met| met)
    }
}

fn directory_pointer_is_right(disc: Disc<'_>) -> bool {
    disc.locate(disc.directory_pointer())
        .map_or(false, |sector| sector != Sector::SYSTEM)
}

fn directory_sector_is_right(disc: Disc<'_>, sector: Sector) -> bool {
    let mut in_use = 0;
    for slot in directory::slots_of(sector) {
        if let Some(entry) = Entry::decode(slot.bytes(disc)) {
            if !entry_is_right(&entry) {
                return false;
            }
            in_use += 1;
        }
    }
    disc.sector(sector)[ENTRIES_IN_USE] == in_use
}

fn entry_is_right(entry: &Entry) -> bool {
    entry.name.is_padded_file_name()
        && entry.length >= 1
        && matches!(entry.attribute, UNPROTECTED | PROTECTED)
}

/// Sorting keeps this quick for a directory that fills the disc.
fn names_repeat(disc: Disc<'_>) -> bool {
    let mut names: Vec<Name> = directory::entries(disc)
        .map(|(_, entry)| entry.name)
        .collect();
    names.sort_unstable();
    names.windows(2).any(|pair| pair[0] == pair[1])
}

/// The sum of the entries' lengths.
pub fn file_sectors(disc: Disc<'_>) -> usize {
    directory::entries(disc)
        .map(|(_, entry)| usize::from(entry.length))
        .sum()
}
