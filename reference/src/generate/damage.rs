//! Damaged discs: sound ones with rules broken, bytes flipped or a wrong size.

use super::{arranged, numbers_made, other_number, tracks_fitting_both};
use super::{sound_disc, sound_disc_of, Random, PLAIN};
use crate::directory::{self, Entry, Slot};
use crate::disc::{put_word, word, Address, Disc, DiscMut, Sector};
use crate::disc::{FREE_COUNT, FREE_POINTER, USED_COUNT};

pub fn damaged_disc(
    random: &mut Random,
    max_tracks: usize,
    sectors: u32,
    arrangement: u32,
) -> Vec<u8> {
    let (made, _) = numbers_made(sectors, arrangement);
    let image = if random.one_in(12) {
        disc_of_other_number(random, max_tracks.clamp(1, 80), made)
    } else {
        let mut image = sound_disc(random, max_tracks, made, PLAIN);
        damage(random, &mut image, made, PLAIN);
        image
    };
    arranged(image, sectors, arrangement)
}

/// A sound image, but not of the number stated. Length tells only where it
/// doesn't fit both.
fn disc_of_other_number(random: &mut Random, max_tracks: usize, stated: u32) -> Vec<u8> {
    let sectors = other_number(stated);
    let any = random.between(1, max_tracks);
    let tracks = tracks_fitting_both(random, max_tracks, sectors).unwrap_or(any);
    sound_disc_of(random, tracks, sectors, PLAIN)
}

/// Damages a sound image; now and then nothing comes of it.
pub fn damage(random: &mut Random, image: &mut Vec<u8>, sectors: u32, arrangement: u32) {
    match random.below(10) {
        0 => wrong_length(random, image, sectors),
        1..=3 => {
            for _ in 0..random.between(1, 3) {
                flip_byte(random, image, sectors, arrangement);
            }
        }
        4 | 5 => {
            for _ in 0..random.between(2, 3) {
                let rule = random.between(1, 8);
                break_rule(random, image, sectors, arrangement, rule);
            }
        }
        _ => {
            let rule = random.between(1, 8);
            break_rule(random, image, sectors, arrangement, rule);
        }
    }
}

/// Leaves an image whose length isn't that of 1 to 80 tracks.
pub fn wrong_length(random: &mut Random, image: &mut Vec<u8>, sectors: u32) {
    let length = match random.below(5) {
        0 => 0,
        1 => image.len() - 1,
        2 => image.len() + 1,
        3 => image.len() - 256,
        _ => 81 * 256 * numbers_made(sectors, PLAIN).0 as usize,
    };
    image.resize(length, 0);
}

/// Changes a byte that the check looks at: a pointer or count of the system
/// sector, a byte of a directory sector, or a link. An image of a wrong size or
/// with a wrong number stated is left alone.
pub fn flip_byte(random: &mut Random, image: &mut [u8], sectors: u32, arrangement: u32) {
    let mut disc = match DiscMut::open(image, sectors, arrangement) {
        Ok(disc) => disc,
        Err(_) => return,
    };
    let any = Sector::numbered(random.below(disc.now().sectors()));
    let (sector, at) = match random.below(3) {
        0 => (Sector::SYSTEM, random.between(FREE_POINTER, USED_COUNT + 1)),
        1 => (any, random.below(2)),
        _ => match some_directory_sector(random, disc.now()) {
            Some(sector) => (sector, random.below(243)),
            None => (any, random.below(2)),
        },
    };
    let byte = &mut disc.sector_mut(sector)[at];
    *byte = match random.below(3) {
        0 => random.byte(),
        1 => byte.wrapping_add(1),
        _ => random.below(12) as u8,
    };
}

/// Damages an image where the rule looks. The image may stay sound if it has
/// nothing that the rule could be broken with, and one of a wrong size or with a
/// wrong number stated is left alone.
pub fn break_rule(
    random: &mut Random,
    image: &mut [u8],
    sectors: u32,
    arrangement: u32,
    rule: usize,
) {
    let mut disc = match DiscMut::open(image, sectors, arrangement) {
        Ok(disc) => disc,
        Err(_) => return,
    };
    match rule {
        1 => {
            let pointer = stray(random, disc.now());
            disc.put_directory_pointer(pointer);
        }
        2 => redirect_directory(random, &mut disc),
        3 => spoil_directory_sector(random, &mut disc),
        4 => repeat_name(random, &mut disc),
        5 => spoil_file(random, &mut disc),
        6 => spoil_free_chain(random, &mut disc),
        7 => nudge_word(random, disc.system_mut(), USED_COUNT),
        _ => lose_free_sector(random, &mut disc),
    }
}

/// 0/1, or an address just off the disc.
pub fn stray(random: &mut Random, disc: Disc<'_>) -> Address {
    let tracks = disc.tracks() as u8;
    let last = disc.format().sectors_per_track();
    let (track, sector) = match random.below(6) {
        0 => (0, 1),
        1 => (tracks, random.between(1, last) as u8),
        2 => (random.below(usize::from(tracks)) as u8, last as u8 + 1),
        3 => (0, 0),
        4 => (255, 1),
        _ => (0, 255),
    };
    Address { track, sector }
}

/// Any sector of the disc, or a stray address.
fn elsewhere(random: &mut Random, disc: Disc<'_>) -> Address {
    if random.one_in(3) {
        return stray(random, disc);
    }
    disc.address(Sector::numbered(random.below(disc.sectors())))
}

pub fn some_of<T: Copy>(random: &mut Random, items: &[T]) -> Option<T> {
    (!items.is_empty()).then(|| random.pick(items))
}

fn some_directory_sector(random: &mut Random, disc: Disc<'_>) -> Option<Sector> {
    let sectors: Vec<Sector> = directory::sectors(disc).collect();
    some_of(random, &sectors)
}

fn some_entry(random: &mut Random, disc: Disc<'_>) -> Option<(Slot, Entry)> {
    let entries: Vec<(Slot, Entry)> = directory::entries(disc).collect();
    some_of(random, &entries)
}

fn some_of_chain(random: &mut Random, disc: Disc<'_>, head: Address) -> Option<Sector> {
    let sectors: Vec<Sector> = disc.chain(head).collect();
    some_of(random, &sectors)
}

fn redirect_directory(random: &mut Random, disc: &mut DiscMut<'_>) {
    if let Some(from) = some_directory_sector(random, disc.now()) {
        let to = match some_directory_sector(random, disc.now()) {
            Some(sector) if random.one_in(2) => disc.now().address(sector),
            _ => stray(random, disc.now()),
        };
        disc.put_link(from, to);
    }
}

fn spoil_directory_sector(random: &mut Random, disc: &mut DiscMut<'_>) {
    let slot = match some_directory_sector(random, disc.now()) {
        Some(sector) => Slot {
            sector,
            index: random.below(15),
        },
        None => return,
    };
    let in_use = some_entry(random, disc.now()).map_or(slot, |(slot, _)| slot);
    match random.below(6) {
        0 => {
            let count = &mut disc.sector_mut(slot.sector)[2];
            *count = random.pick(&[count.wrapping_add(1), count.wrapping_sub(1), 255]);
        }
        1 => slot.bytes_mut(disc)[random.below(16)] = random.byte(),
        2 => in_use.bytes_mut(disc)[random.below(9)] = random.pick(b"a .\x00@"),
        3 => in_use.bytes_mut(disc)[0] = b' ',
        4 => in_use.bytes_mut(disc)[9..11].fill(0),
        _ => in_use.bytes_mut(disc)[15] = random.pick(&[1, 0x7F, 0x81, 0xFF]),
    }
}

fn repeat_name(random: &mut Random, disc: &mut DiscMut<'_>) {
    let pair = (
        some_entry(random, disc.now()),
        some_entry(random, disc.now()),
    );
    if let (Some((slot, _)), Some((_, other))) = pair {
        slot.put_name(disc, other.name);
    }
}

fn spoil_file(random: &mut Random, disc: &mut DiscMut<'_>) {
    let (slot, entry) = match some_entry(random, disc.now()) {
        Some(found) => found,
        None => return,
    };
    match random.below(6) {
        0 => put_word(slot.bytes_mut(disc), 9, off_by_one(random, entry.length)),
        1 => put_word(slot.bytes_mut(disc), 9, random.draw() as u16 | 1),
        2 => {
            let pointer = elsewhere(random, disc.now()).to_pointer();
            slot.bytes_mut(disc)[11..13].copy_from_slice(&pointer);
        }
        3 => {
            let pointer = elsewhere(random, disc.now()).to_pointer();
            slot.bytes_mut(disc)[13..15].copy_from_slice(&pointer);
        }
        4 => {
            let free = disc.now().free_pointer();
            if let Some(last) = disc.now().locate(entry.last) {
                disc.put_link(last, free);
            }
        }
        _ => redirect(random, disc, entry.first),
    }
}

/// Never 0, which would break rule 3 instead.
fn off_by_one(random: &mut Random, length: u16) -> u16 {
    if length > 1 && random.one_in(2) {
        length - 1
    } else {
        length.saturating_add(1)
    }
}

/// Sends one link of a chain elsewhere.
fn redirect(random: &mut Random, disc: &mut DiscMut<'_>, head: Address) {
    if let Some(from) = some_of_chain(random, disc.now(), head) {
        let to = elsewhere(random, disc.now());
        disc.put_link(from, to);
    }
}

fn spoil_free_chain(random: &mut Random, disc: &mut DiscMut<'_>) {
    match random.below(4) {
        0 => nudge_word(random, disc.system_mut(), FREE_COUNT),
        1 => {
            let pointer = elsewhere(random, disc.now());
            disc.put_free_pointer(pointer);
        }
        _ => {
            let head = disc.now().free_pointer();
            redirect(random, disc, head);
        }
    }
}

fn nudge_word(random: &mut Random, bytes: &mut [u8], at: usize) {
    let step = random.pick(&[1, 0xFFFF, 0x100, 0xFF00]);
    put_word(bytes, at, word(bytes, at).wrapping_add(step));
}

/// Takes the first or the last sector out of the free chain and its count.
fn lose_free_sector(random: &mut Random, disc: &mut DiscMut<'_>) {
    let before = disc.now();
    let sectors: Vec<Sector> = before.chain(before.free_pointer()).collect();
    if sectors.is_empty() {
        return;
    }
    let second = before.link(sectors[0]);
    let count = word(before.system(), FREE_COUNT).wrapping_sub(1);
    if sectors.len() > 1 && random.one_in(2) {
        disc.put_link(sectors[sectors.len() - 2], Address::END);
    } else {
        disc.put_free_pointer(second);
    }
    put_word(disc.system_mut(), FREE_COUNT, count);
}
