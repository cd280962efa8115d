//! Sound discs, built from a scrambled pool of sectors.
//!
//! Written on its own from the layouts, without the code of the commands.

use super::files::{bodies, Body};
use super::{arranged, fresh_name, numbers_made, tracks_fitting_both, Random};
use std::collections::BTreeSet;

/// A sound image of at most `max_tracks` tracks, mostly small.
pub fn sound_disc(
    random: &mut Random,
    max_tracks: usize,
    sectors: u32,
    arrangement: u32,
) -> Vec<u8> {
    let (made, _) = numbers_made(sectors, arrangement);
    let tracks = track_count(random, max_tracks.clamp(1, 80), made);
    sound_disc_of(random, tracks, sectors, arrangement)
}

/// A sound image of 1 to 80 tracks.
pub fn sound_disc_of(
    random: &mut Random,
    tracks: usize,
    sectors: u32,
    arrangement: u32,
) -> Vec<u8> {
    let (made, _) = numbers_made(sectors, arrangement);
    let mut maker = Maker::new(random, tracks, made as usize);
    let slots = maker.place_directory();
    maker.place_files(&slots);
    maker.place_free_chain();
    arranged(maker.image, sectors, arrangement)
}

fn track_count(random: &mut Random, max_tracks: usize, sectors: u32) -> usize {
    let few = random.between(1, max_tracks.min(6));
    match random.below(12) {
        0 => max_tracks,
        1 | 2 => random.between(1, max_tracks),
        3 => tracks_fitting_both(random, max_tracks, sectors).unwrap_or(few),
        _ => few,
    }
}

struct Maker<'a> {
    random: &'a mut Random,
    /// Plain.
    image: Vec<u8>,
    sectors_per_track: usize,
    /// Numbers of the sectors not placed yet.
    pool: Vec<usize>,
    used: usize,
}

impl<'a> Maker<'a> {
    /// The whole image is junk at first, so that every byte the rules leave
    /// open may stand at anything.
    fn new(random: &'a mut Random, tracks: usize, sectors_per_track: usize) -> Maker<'a> {
        let sectors = tracks * sectors_per_track;
        let image = if random.one_in(3) {
            vec![0; sectors * 256]
        } else {
            random.bytes(sectors * 256)
        };
        let mut pool: Vec<usize> = (1..sectors).collect();
        if !random.one_in(5) {
            random.shuffle(&mut pool);
        }
        let mut maker = Maker {
            random,
            image,
            sectors_per_track,
            pool,
            used: 0,
        };
        maker.name_disc();
        maker
    }

    fn name_disc(&mut self) {
        let name = match self.random.below(3) {
            0 => self.random.bytes(9),
            1 => b"PIECES   ".to_vec(),
            _ => b"DISC 7/a!".to_vec(),
        };
        self.image[0x18..0x21].copy_from_slice(&name);
    }

    /// Lays the directory and gives its slots' byte positions, shuffled.
    fn place_directory(&mut self) -> Vec<usize> {
        let most = self
            .pool
            .len()
            .min(if self.random.one_in(12) { 12 } else { 3 });
        let size = self.random.between(1, most);
        let sectors = self.take(size);
        self.link(&sectors);
        let head = self.pointer(sectors[0]);
        self.image[0x12..0x14].copy_from_slice(&head);
        let mut slots = Vec::new();
        for sector in sectors {
            let start = sector * 256;
            self.image[start + 2..start + 243].fill(0);
            slots.extend((0..15).map(|index| start + 3 + 16 * index));
        }
        if !self.random.one_in(3) {
            self.random.shuffle(&mut slots);
        }
        slots
    }

    fn place_files(&mut self, slots: &[usize]) {
        let wanted = match self.random.below(6) {
            0 | 1 => slots.len(),
            2 => slots.len() - 1,
            3 => self.random.between(0, slots.len()),
            _ => self.random.between(0, slots.len().min(8)),
        };
        // Files of a crowded directory are small, so that room is left to grow.
        let crowded = wanted + 1 >= slots.len();
        let most_sectors = if crowded { 1 + wanted % 2 } else { usize::MAX };
        let kept_free = self.kept_free();
        let mut names = BTreeSet::new();
        for &slot in &slots[..wanted] {
            let most = most_sectors.min(self.pool.len().saturating_sub(kept_free));
            if most > 0 {
                let name = self.unique_name(&mut names);
                self.place_file(slot, &name, most);
            }
        }
        self.image[0x16..0x18].copy_from_slice(&(self.used as u16).to_le_bytes());
    }

    /// How many sectors the files leave free at least; some discs are full.
    fn kept_free(&mut self) -> usize {
        if self.random.one_in(4) {
            0
        } else {
            self.random.below(self.pool.len() / 2 + 1)
        }
    }

    /// There are far more names than slots, so a new one is soon found.
    fn unique_name(&mut self, names: &mut BTreeSet<[u8; 9]>) -> [u8; 9] {
        loop {
            let name = stored(&fresh_name(self.random));
            if names.insert(name) {
                return name;
            }
        }
    }

    fn place_file(&mut self, slot: usize, name: &[u8; 9], most_sectors: usize) {
        let bodies = bodies(self.random, most_sectors);
        let sectors = self.take(bodies.len());
        self.link(&sectors);
        self.write_bodies(&sectors, &bodies);
        let first = self.pointer(sectors[0]);
        let last = self.pointer(sectors[sectors.len() - 1]);
        let entry = &mut self.image[slot..slot + 16];
        entry[..9].copy_from_slice(name);
        entry[9..11].copy_from_slice(&(sectors.len() as u16).to_le_bytes());
        entry[11..13].copy_from_slice(&first);
        entry[13..15].copy_from_slice(&last);
        entry[15] = if self.random.one_in(3) { 0x80 } else { 0 };
        self.image[slot / 256 * 256 + 2] += 1;
        self.used += sectors.len();
    }

    fn write_bodies(&mut self, sectors: &[usize], bodies: &[Body]) {
        for (sector, body) in sectors.iter().zip(bodies) {
            self.image[sector * 256 + 2..sector * 256 + 256].copy_from_slice(body);
        }
    }

    /// All that is left is free. An empty chain may have any track byte.
    fn place_free_chain(&mut self) {
        let sectors = std::mem::take(&mut self.pool);
        self.link(&sectors);
        let head = match sectors.first() {
            Some(&first) => self.pointer(first),
            None => [0, self.random.byte()],
        };
        self.image[0x10..0x12].copy_from_slice(&head);
        self.image[0x14..0x16].copy_from_slice(&(sectors.len() as u16).to_le_bytes());
    }

    fn take(&mut self, count: usize) -> Vec<usize> {
        self.pool.drain(..count).collect()
    }

    /// Links the sectors in order. The end link may have any track byte.
    fn link(&mut self, sectors: &[usize]) {
        for pair in sectors.windows(2) {
            let [sector, track] = self.pointer(pair[1]);
            self.image[pair[0] * 256..pair[0] * 256 + 2].copy_from_slice(&[track, sector]);
        }
        if let Some(last) = sectors.last() {
            let track = if self.random.one_in(2) {
                0
            } else {
                self.random.byte()
            };
            self.image[last * 256..last * 256 + 2].copy_from_slice(&[track, 0]);
        }
    }

    /// Sector first, as in the system sector and in entries.
    fn pointer(&self, number: usize) -> [u8; 2] {
        let (track, in_track) = (
            number / self.sectors_per_track,
            number % self.sectors_per_track,
        );
        [in_track as u8 + 1, track as u8]
    }
}

fn stored(typed: &[u8]) -> [u8; 9] {
    let mut name = [b' '; 9];
    let mut at = 0;
    for &byte in typed {
        if byte == b'.' {
            at = 6;
        } else {
            name[at] = byte;
            at += 1;
        }
    }
    name
}
