//! Discs for a repair: sound ones, full ones, ones whose free space is wrong in
//! every way, and ones that a repair refuses.

use super::damage::{break_rule, damage, some_of, stray};
use super::{arranged, numbers_made, sound_disc, Random, PLAIN};
use crate::directory::{self, Entry, Slot};
use crate::disc::{put_word, word, Address, Disc, DiscMut, Sector, FREE_COUNT, USED_COUNT};

/// What may be wrong with the free space while rules 1 to 5 hold.
#[derive(Debug, Clone, Copy, PartialEq, Eq)]
pub enum FreeDamage {
    /// Sectors are in no chain; the free count follows, or not.
    Lost,
    /// The free chain runs into the directory, a file or 0/1.
    CrossLinked,
    /// The free chain comes back to itself.
    Cycle,
    /// The free pointer, or a link of the free chain, is off the disc.
    OffDisc,
    /// One of the counts, or both, are wrong.
    Counts,
    /// Pointer, counts and the links of the free sectors are any bytes.
    Junk,
}

pub const FREE_DAMAGES: [FreeDamage; 6] = [
    FreeDamage::Lost,
    FreeDamage::CrossLinked,
    FreeDamage::Cycle,
    FreeDamage::OffDisc,
    FreeDamage::Counts,
    FreeDamage::Junk,
];

/// A disc of at most `max_tracks` tracks to be repaired. Most have a wrong free
/// space, some are sound, and some break one of rules 1 to 5 or are of a wrong
/// size, so that a repair refuses them.
pub fn repair_disc(
    random: &mut Random,
    max_tracks: usize,
    sectors: u32,
    arrangement: u32,
) -> Vec<u8> {
    let (made, _) = numbers_made(sectors, arrangement);
    let mut image = sound_disc(random, max_tracks, made, PLAIN);
    if random.one_in(5) {
        fill_up(random, &mut image, made, PLAIN);
    }
    let kind = random.below(16);
    if (2..=12).contains(&kind) {
        for _ in 0..random.between(1, 3) {
            let damage = random.pick(&FREE_DAMAGES);
            damage_free(random, &mut image, made, PLAIN, damage);
        }
    }
    match kind {
        10..=14 => {
            let rule = random.between(1, 5);
            break_rule(random, &mut image, made, PLAIN, rule);
        }
        15 => damage(random, &mut image, made, PLAIN),
        _ => {}
    }
    arranged(image, sectors, arrangement)
}

/// Gives all free sectors of a sound image to one of the files, or to the
/// directory if there is none. A wrong size or number leaves the image alone.
pub fn fill_up(random: &mut Random, image: &mut [u8], sectors: u32, arrangement: u32) {
    let mut disc = match DiscMut::open(image, sectors, arrangement) {
        Ok(disc) => disc,
        Err(_) => return,
    };
    let before = disc.now();
    let free: Vec<Sector> = before.chain(before.free_pointer()).collect();
    let entries: Vec<(Slot, Entry)> = directory::entries(before).collect();
    let head = before.free_pointer();
    let last = match free.last() {
        Some(&last) => before.address(last),
        None => return,
    };
    let mut used = word(before.system(), USED_COUNT);
    match some_of(random, &entries) {
        Some((slot, mut entry)) => {
            let end = before.locate(entry.last);
            entry.length += free.len() as u16;
            entry.last = last;
            used += free.len() as u16;
            slot.bytes_mut(&mut disc).copy_from_slice(&entry.encode());
            link_from(&mut disc, end, head);
        }
        None => {
            let end = directory::sectors(before).last();
            for &sector in &free {
                disc.sector_mut(sector)[2..].fill(0);
            }
            link_from(&mut disc, end, head);
        }
    }
    // Without a free sector the pointer may have any track byte.
    let track = random.pick(&[0, 0, 7, 255]);
    disc.put_free_pointer(Address { track, sector: 0 });
    disc.put_counts(0, usize::from(used));
}

fn link_from(disc: &mut DiscMut<'_>, sector: Option<Sector>, to: Address) {
    if let Some(sector) = sector {
        disc.put_link(sector, to);
    }
}

/// Damages the free space of a disc on which rules 1 to 5 hold, and leaves them
/// holding. Where there is no free sector, the free pointer or a count is wrong
/// instead. A wrong size or number leaves the image alone.
pub fn damage_free(
    random: &mut Random,
    image: &mut [u8],
    sectors: u32,
    arrangement: u32,
    damage: FreeDamage,
) {
    let mut disc = match DiscMut::open(image, sectors, arrangement) {
        Ok(disc) => disc,
        Err(_) => return,
    };
    let free = free_sectors(disc.now());
    match damage {
        FreeDamage::Lost => lose(random, &mut disc, &free),
        FreeDamage::CrossLinked => {
            let to = taken_address(random, disc.now(), &free);
            lead(random, &mut disc, &free, to);
        }
        FreeDamage::Cycle => go_round(random, &mut disc, &free),
        FreeDamage::OffDisc => {
            let to = off_disc(random, disc.now());
            lead(random, &mut disc, &free, to);
        }
        FreeDamage::Counts => wrong_counts(random, &mut disc),
        FreeDamage::Junk => junk(random, &mut disc, &free),
    }
}

/// The sectors that are neither 0/1 nor met by the directory or a file, by
/// number. They are found without the free chain, which may be wrong already.
fn free_sectors(disc: Disc<'_>) -> Vec<Sector> {
    let mut taken: Vec<usize> = directory::sectors(disc).map(Sector::number).collect();
    for (_, entry) in directory::entries(disc) {
        taken.extend(disc.chain(entry.first).map(Sector::number));
    }
    (1..disc.sectors())
        .filter(|number| !taken.contains(number))
        .map(Sector::numbered)
        .collect()
}

/// 0/1, or a sector of the directory or a file.
fn taken_address(random: &mut Random, disc: Disc<'_>, free: &[Sector]) -> Address {
    let taken: Vec<Sector> = (0..disc.sectors())
        .map(Sector::numbered)
        .filter(|sector| !free.contains(sector))
        .collect();
    disc.address(random.pick(&taken))
}

/// Never an end: that would only be a shorter chain.
fn off_disc(random: &mut Random, disc: Disc<'_>) -> Address {
    loop {
        let address = stray(random, disc);
        if !address.is_end() && disc.locate(address).is_none() {
            return address;
        }
    }
}

/// Leads the free chain to an address, from one of its sectors or from the
/// pointer.
fn lead(random: &mut Random, disc: &mut DiscMut<'_>, free: &[Sector], to: Address) {
    match some_of(random, free) {
        Some(from) if !random.one_in(3) => disc.put_link(from, to),
        _ => disc.put_free_pointer(to),
    }
}

/// Leads the free pointer into a circle of one or two sectors.
fn go_round(random: &mut Random, disc: &mut DiscMut<'_>, free: &[Sector]) {
    let one = some_of(random, free).unwrap_or(Sector::SYSTEM);
    let other = some_of(random, free).unwrap_or(Sector::SYSTEM);
    let (to_one, to_other) = (disc.now().address(one), disc.now().address(other));
    disc.put_free_pointer(to_one);
    if one != Sector::SYSTEM {
        disc.put_link(one, to_other);
        disc.put_link(other, to_one);
    }
}

fn lose(random: &mut Random, disc: &mut DiscMut<'_>, free: &[Sector]) {
    match some_of(random, free) {
        Some(from) if random.one_in(2) => disc.put_link(from, Address::END),
        Some(from) => {
            let later = disc.now().link(from);
            disc.put_free_pointer(later);
        }
        None => disc.put_free_pointer(Address::END),
    }
    if random.one_in(2) {
        let left = disc.now().chain(disc.now().free_pointer()).count();
        put_word(disc.system_mut(), FREE_COUNT, left as u16);
    }
}

fn wrong_counts(random: &mut Random, disc: &mut DiscMut<'_>) {
    let counts = random.pick(&[&[FREE_COUNT][..], &[USED_COUNT], &[FREE_COUNT, USED_COUNT]]);
    for &at in counts {
        let system = disc.system_mut();
        let count = word(system, at);
        let wrong = match random.below(4) {
            0 => random.draw() as u16,
            1 => 0,
            2 => count.wrapping_sub(1),
            _ => count.wrapping_add(1),
        };
        put_word(system, at, wrong);
    }
}

fn junk(random: &mut Random, disc: &mut DiscMut<'_>, free: &[Sector]) {
    for &sector in free {
        let link = random.bytes(2);
        disc.put_link(sector, Address::from_link(&link));
    }
    let pointer = random.bytes(2);
    disc.put_free_pointer(Address::from_pointer(&pointer));
    disc.put_counts(random.draw() as usize, random.draw() as usize);
}
