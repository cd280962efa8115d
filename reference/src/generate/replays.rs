//! Replays within a run: lists of the run's own commands and lists made here,
//! good and bad.

use super::commands::{command, Target};
use super::Random;
use crate::command::{Answer, Command};
use crate::disc::{Address, Sector};

const RECORD: usize = 259;
/// How many lists of earlier commands are kept.
const KEPT: usize = 4;

/// Which commands of a run are replays, and what their lists are made of.
#[derive(Debug, Clone)]
pub struct Replays {
    /// One command in so many is a replay; 0 for none.
    one_in: usize,
    earlier: Vec<Vec<u8>>,
    last_sound: Option<Vec<u8>>,
}

impl Replays {
    pub fn none() -> Replays {
        Replays::one_in(0)
    }

    /// One command in so many is a replay; none for 0.
    pub fn one_in(chances: usize) -> Replays {
        Replays {
            one_in: chances,
            earlier: Vec::new(),
            last_sound: None,
        }
    }

    /// The next command of a run, for an image of any length.
    pub fn command(
        &mut self,
        random: &mut Random,
        image: &[u8],
        sectors: u32,
        arrangement: u32,
    ) -> Command {
        if self.one_in == 0 {
            return command(random, image, sectors, arrangement);
        }
        let target = Target::new(image, sectors, arrangement);
        if crate::check(image, target.sectors, target.arrangement).rule == 0 {
            self.last_sound = Some(image.to_vec());
        } else if random.one_in(3) {
            return Command::Replay {
                writes: self.healing_list(target),
            };
        }
        if random.one_in(self.one_in) {
            Command::Replay {
                writes: self.list(random, target),
            }
        } else {
            command(random, image, sectors, arrangement)
        }
    }

    /// Keeps the list of an accepted command for later replays.
    pub fn heard(&mut self, answer: &Answer) {
        if let (true, Answer::Wrote(filled, buffer)) = (self.one_in > 0, answer) {
            if filled.number == 0 {
                self.earlier.push(buffer[..filled.length as usize].to_vec());
            }
            if self.earlier.len() > KEPT {
                self.earlier.remove(0);
            }
        }
    }

    /// The sectors that make the image what it was when it was last sound, so
    /// that a run goes on after a replay that spoilt it.
    fn healing_list(&self, target: Target<'_>) -> Vec<u8> {
        let old = self.last_sound.as_deref().unwrap_or(target.image);
        let discs = target.disc().zip(
            Target {
                image: old,
                ..target
            }
            .disc(),
        );
        let mut list = Vec::new();
        if let Some((now, sound)) = discs.filter(|(now, sound)| now.sectors() == sound.sectors()) {
            for sector in (0..now.sectors()).map(Sector::numbered) {
                if now.sector(sector) != sound.sector(sector) {
                    push_record(&mut list, now.address(sector), sound.sector(sector));
                }
            }
        }
        list.push(0);
        list
    }

    fn list(&self, random: &mut Random, target: Target<'_>) -> Vec<u8> {
        let mut list = self.good_list(random, target);
        match random.below(20) {
            0..=7 => {}
            8 | 9 => cut_after_a_record(random, &mut list),
            10 => write_again(random, &mut list),
            11 => list = vec![0],
            12 => wrong_kind(random, &mut list),
            13 => list.truncate(random.below(list.len())),
            14 => list.truncate(list.len() - 1),
            15 => bytes_after_the_end(random, &mut list),
            16..=18 => off_the_disc(random, target, &mut list),
            _ => {
                let length = random.below(600);
                list = random.bytes(length);
            }
        }
        list
    }

    /// Of an earlier command, of one that could come next, or of any sectors.
    fn good_list(&self, random: &mut Random, target: Target<'_>) -> Vec<u8> {
        match random.below(5) {
            0 | 1 if !self.earlier.is_empty() => {
                self.earlier[random.below(self.earlier.len())].clone()
            }
            2..=3 => next_list(random, target).unwrap_or_else(|| any_sectors(random, target)),
            _ => any_sectors(random, target),
        }
    }
}

/// The list of a command that would be accepted now.
fn next_list(random: &mut Random, target: Target<'_>) -> Option<Vec<u8>> {
    const TRIES: usize = 6;
    (0..TRIES).find_map(|_| {
        let (sectors, arrangement) = (target.sectors, target.arrangement);
        let next = command(random, target.image, sectors, arrangement);
        match next.run(&mut target.image.to_vec(), sectors, arrangement) {
            Answer::Wrote(filled, mut buffer) if filled.number == 0 => {
                buffer.truncate(filled.length as usize);
                Some(buffer)
            }
            _ => None,
        }
    })
}

/// A few sectors, as they stand or with other bytes.
fn any_sectors(random: &mut Random, target: Target<'_>) -> Vec<u8> {
    let mut list = Vec::new();
    if let Some(disc) = target.disc() {
        for _ in 0..random.between(1, 4) {
            let sector = Sector::numbered(random.below(disc.sectors()));
            let bytes = match random.below(4) {
                0 => random.bytes(256),
                1 => vec![random.byte(); 256],
                _ => disc.sector(sector).to_vec(),
            };
            push_record(&mut list, disc.address(sector), &bytes);
        }
    }
    list.push(0);
    list
}

fn push_record(list: &mut Vec<u8>, address: Address, bytes: &[u8]) {
    list.extend([3, address.track, address.sector]);
    list.extend(bytes);
}

/// The card is pulled: the first few records, mostly with their end.
fn cut_after_a_record(random: &mut Random, list: &mut Vec<u8>) {
    list.truncate(RECORD * random.below(list.len() / RECORD + 1));
    if !random.one_in(4) {
        list.push(0);
    }
}

/// Writes one of the sectors a second time, with other bytes.
fn write_again(random: &mut Random, list: &mut Vec<u8>) {
    let at = RECORD * random.below(list.len() / RECORD);
    if let Some(record) = list.get(at..at + RECORD) {
        let mut again = record.to_vec();
        again[3 + random.below(256)] ^= random.between(1, 255) as u8;
        let end = list.len() - 1;
        list.splice(end..end, again);
    }
}

fn wrong_kind(random: &mut Random, list: &mut [u8]) {
    let at = RECORD * random.below(list.len() / RECORD + 1);
    list[at] = if at + 1 == list.len() {
        random.pick(&[1, 2, 3, 4, 255])
    } else {
        random.pick(&[0, 1, 2, 4, 131, 255])
    };
}

fn bytes_after_the_end(random: &mut Random, list: &mut Vec<u8>) {
    match random.below(4) {
        0 => list.push(0),
        1 => list.push(random.byte()),
        2 => list.extend([0; RECORD]),
        _ => list.extend_from_within(..),
    }
}

/// Sends one of the records, if there is one, to a place off the disc.
fn off_the_disc(random: &mut Random, target: Target<'_>, list: &mut [u8]) {
    let tracks = (target.image.len() / 256) as u32 / target.sectors;
    let last = target.sectors as u8;
    let at = RECORD * random.below(list.len() / RECORD);
    if list.len() > RECORD {
        let (track, sector) = match random.below(5) {
            0 => (
                tracks as u8,
                random.between(1, target.sectors as usize) as u8,
            ),
            1 => (list[at + 1], 0),
            2 => (list[at + 1], 11),
            3 => (list[at + 1], last + 1),
            _ => (255, list[at + 2]),
        };
        list[at + 1..at + 3].copy_from_slice(&[track, sector]);
    }
}
