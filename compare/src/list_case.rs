//! Lists of writes for the replay, good or bad for one reason, and why a list is
//! bad, read apart from both programs.

use crate::discs;
use crate::kind::Kind;
use crate::writing::RECORD;
use reference::generate::{sound_disc_of, Random};

const WRITE: u8 = 3;
const END: u8 = 0;
const MOST_RECORDS: usize = 3;
/// Lists of every sector are made for discs of so many tracks at most.
const FEW_TRACKS: usize = 3;

/// Why a list is bad.
#[derive(Debug, Clone, Copy, PartialEq, Eq, PartialOrd, Ord)]
pub enum Bad {
    NoBytes,
    NoEnd,
    OtherKind,
    Cut,
    Track,
    SectorZero,
    /// Of nine sectors t/10, whose reckoned number is on the disc.
    AfterLast,
    OtherSector,
    AfterEnd,
    /// A kind 0 in place of a kind 3: length and last byte are a list's.
    EarlyEnd,
}

impl Bad {
    pub const ALL: [Bad; 10] = [
        Bad::NoBytes,
        Bad::NoEnd,
        Bad::OtherKind,
        Bad::Cut,
        Bad::Track,
        Bad::SectorZero,
        Bad::AfterLast,
        Bad::OtherSector,
        Bad::AfterEnd,
        Bad::EarlyEnd,
    ];

    pub fn name(self) -> &'static str {
        match self {
            Bad::NoBytes => "no bytes",
            Bad::NoEnd => "no end",
            Bad::OtherKind => "another kind",
            Bad::Cut => "a cut record",
            Bad::Track => "a track not on the disc",
            Bad::SectorZero => "sector 0",
            Bad::AfterLast => "the sector after the last",
            Bad::OtherSector => "another sector not on the disc",
            Bad::AfterEnd => "bytes after the end",
            Bad::EarlyEnd => "an early end",
        }
    }
}

/// The first that is wrong in a list.
#[derive(Debug, Clone, Copy, PartialEq, Eq, PartialOrd, Ord)]
pub struct Fault {
    pub bad: Bad,
    /// Good records stand before it, which must not be written.
    pub behind_writes: bool,
}

impl Fault {
    pub fn all() -> impl Iterator<Item = Fault> {
        let both = |bad| [false, true].map(|behind_writes| Fault { bad, behind_writes });
        Bad::ALL.into_iter().flat_map(both).filter(Fault::can_be)
    }

    fn can_be(&self) -> bool {
        match self.bad {
            Bad::NoBytes => !self.behind_writes,
            Bad::NoEnd => self.behind_writes,
            _ => true,
        }
    }

    pub fn name(self) -> String {
        let place = if self.behind_writes {
            "behind good records"
        } else {
            "first"
        };
        format!("{}, {place}", self.bad.name())
    }
}

/// What is wrong with a list for a disc of so many tracks; nothing if it is good.
pub fn fault(list: &[u8], tracks: usize, kind: Kind) -> Option<Fault> {
    let mut at = 0;
    loop {
        let bad = match &list[at..] {
            [END] => return None,
            [] if at == 0 => Bad::NoBytes,
            [] => Bad::NoEnd,
            [END, ..] => after_end(list),
            [WRITE, rest @ ..] if rest.len() < RECORD - 1 => Bad::Cut,
            [WRITE, track, sector, ..] => match off_the_disc(*track, *sector, tracks, kind) {
                Some(bad) => bad,
                None => {
                    at += RECORD;
                    continue;
                }
            },
            _ => Bad::OtherKind,
        };
        let behind_writes = at > 0;
        return Some(Fault { bad, behind_writes });
    }
}

fn after_end(list: &[u8]) -> Bad {
    if list.len() % RECORD == 1 && list.ends_with(&[END]) {
        Bad::EarlyEnd
    } else {
        Bad::AfterEnd
    }
}

fn off_the_disc(track: u8, sector: u8, tracks: usize, kind: Kind) -> Option<Bad> {
    let (sector, last) = (u32::from(sector), kind.sectors());
    match sector {
        0 => Some(Bad::SectorZero),
        _ if sector == last + 1 => Some(Bad::AfterLast),
        _ if sector > last => Some(Bad::OtherSector),
        _ if usize::from(track) >= tracks => Some(Bad::Track),
        _ => None,
    }
}

/// The places of a list's records, track and sector.
pub fn places(list: &[u8]) -> Vec<[u8; 2]> {
    let record = |record: &[u8]| [record[1], record[2]];
    list.chunks_exact(RECORD).map(record).collect()
}

/// The disc that lists are made for.
#[derive(Clone, Copy)]
pub struct Target {
    kind: Kind,
    tracks: usize,
}

impl Target {
    /// For an image of any length.
    pub fn new(image: &[u8], kind: Kind) -> Target {
        let tracks = (image.len() / kind.track_bytes()).max(1);
        Target { kind, tracks }
    }

    /// A sector on the disc, often 0/1, with other bytes.
    fn record(self, random: &mut Random) -> Vec<u8> {
        let (track, sector) = if random.one_in(4) {
            (0, 1)
        } else {
            let sectors = self.kind.sectors() as usize;
            (random.below(self.tracks), random.between(1, sectors))
        };
        let mut record = vec![WRITE, track as u8, sector as u8];
        record.extend(random.bytes(RECORD - record.len()));
        record
    }

    fn records(self, random: &mut Random, count: usize) -> Vec<u8> {
        (0..count).flat_map(|_| self.record(random)).collect()
    }

    /// Of a few sectors, sometimes the first of them twice, or of none.
    pub fn good_list(self, random: &mut Random) -> Vec<u8> {
        let count = random.below(MOST_RECORDS + 1);
        let mut list = self.records(random, count);
        if count > 0 && random.one_in(3) {
            let mut again = self.record(random);
            again[1..3].copy_from_slice(&list[1..3]);
            list.extend(again);
        }
        list.push(END);
        list
    }

    pub fn bad_list(self, random: &mut Random, fault: Fault) -> Vec<u8> {
        let count = match fault.behind_writes {
            true => random.between(1, MOST_RECORDS),
            false => 0,
        };
        let mut list = self.records(random, count);
        list.extend(self.spoilt(random, fault.bad));
        list
    }

    /// A list from what is wrong on; good records may follow that.
    fn spoilt(self, random: &mut Random, bad: Bad) -> Vec<u8> {
        let (mut list, last) = (self.record(random), self.kind.sectors() as u8);
        match bad {
            Bad::NoBytes | Bad::NoEnd => return Vec::new(),
            Bad::Cut => return cut(random, list),
            Bad::AfterEnd => return bytes_after_end(random, list),
            Bad::OtherKind => list[0] = random.pick(&[1, 2, 4, 131, 255]),
            Bad::Track => list[1] = random.pick(&[self.tracks as u8, 80, 128, 255]),
            Bad::SectorZero => list[2] = 0,
            Bad::AfterLast => list[2] = last + 1,
            Bad::OtherSector => list[2] = random.between(usize::from(last) + 2, 255) as u8,
            Bad::EarlyEnd => list[0] = END,
        }
        let following = random.below(2);
        list.extend(self.records(random, following));
        list.push(END);
        list
    }

    /// Every sector of a sound disc: what it is replayed on becomes that.
    fn whole_disc(self, random: &mut Random) -> Vec<u8> {
        let (kind, mut list) = (self.kind, Vec::new());
        let image = sound_disc_of(random, self.tracks, kind.sectors(), kind.arrangement());
        for track in 0..self.tracks as u8 {
            for sector in 1..=kind.sectors() as u8 {
                let at = discs::place(&image, kind, [sector, track]);
                list.extend([WRITE, track, sector]);
                list.extend(&image[at..at + 256]);
            }
        }
        list.push(END);
        list
    }

    /// More records than the disc has sectors.
    fn longer_than_disc(self, random: &mut Random) -> Vec<u8> {
        let sectors = self.tracks * self.kind.sectors() as usize;
        let count = sectors + random.between(1, MOST_RECORDS);
        let mut list = self.records(random, count);
        list.push(END);
        list
    }

    /// Good, bad for any reason, or any bytes.
    pub fn any_list(self, random: &mut Random) -> Vec<u8> {
        let faults: Vec<Fault> = Fault::all().collect();
        let length = random.below(2 * RECORD + 2);
        match random.below(10) {
            0 | 1 => self.good_list(random),
            2 if self.tracks <= FEW_TRACKS => self.longer_than_disc(random),
            3 if self.tracks <= FEW_TRACKS => self.whole_disc(random),
            4 => random.bytes(length),
            _ => {
                let fault = random.pick(&faults);
                self.bad_list(random, fault)
            }
        }
    }
}

/// Any part of a record, the last byte of it sometimes as an end has it.
fn cut(random: &mut Random, mut record: Vec<u8>) -> Vec<u8> {
    record.truncate(random.between(1, RECORD - 1));
    if let ([_, _, _, .., last], true) = (&mut record[..], random.one_in(2)) {
        *last = END;
    }
    record
}

/// One byte or a whole record, which has no end behind it.
fn bytes_after_end(random: &mut Random, mut record: Vec<u8>) -> Vec<u8> {
    let one = random.pick(&[END, WRITE, 255]);
    record[RECORD - 1] = 255;
    match random.below(3) {
        0 => [vec![END], record].concat(),
        _ => vec![END, one],
    }
}

#[cfg(test)]
mod tests {
    use super::*;

    fn targets() -> impl Iterator<Item = Target> {
        let of = |kind: Kind| [1, 3, 80].map(|tracks| Target { kind, tracks });
        Kind::ALL.into_iter().flat_map(of)
    }

    fn replayed(target: Target, list: &[u8]) -> u32 {
        let Target { kind, tracks } = target;
        let mut image = vec![0; tracks * kind.track_bytes()];
        reference::replay(&mut image, kind.sectors(), kind.arrangement(), list)
    }

    #[test]
    fn lists_are_bad_for_the_reason_that_they_were_made_for() {
        let mut random = Random::new(21);
        for target in targets() {
            for wanted in Fault::all() {
                for _ in 0..30 {
                    let list = target.bad_list(&mut random, wanted);
                    assert_eq!(fault(&list, target.tracks, target.kind), Some(wanted));
                    assert_eq!(replayed(target, &list), 14, "{}", wanted.name());
                }
            }
        }
    }

    #[test]
    fn good_lists_have_no_fault() {
        let mut random = Random::new(22);
        for target in targets() {
            for _ in 0..30 {
                let list = target.good_list(&mut random);
                assert_eq!(fault(&list, target.tracks, target.kind), None);
                assert_eq!(replayed(target, &list), 0);
            }
        }
    }

    #[test]
    fn lists_of_any_sort_are_judged_as_the_second_program_does() {
        let mut random = Random::new(23);
        for target in targets() {
            for _ in 0..100 {
                let list = target.any_list(&mut random);
                let good = fault(&list, target.tracks, target.kind).is_none();
                assert_eq!(replayed(target, &list) == 0, good);
            }
        }
    }

    #[test]
    fn a_whole_disc_is_sound_wherever_it_is_replayed() {
        let mut random = Random::new(24);
        for kind in Kind::ALL {
            let target = Target { kind, tracks: 2 };
            let mut image = random.bytes(2 * kind.track_bytes());
            let list = target.whole_disc(&mut random);
            let (sectors, arrangement) = (kind.sectors(), kind.arrangement());
            assert_eq!(
                reference::replay(&mut image, sectors, arrangement, &list),
                0
            );
            assert!(crate::met::is_sound(&image, kind));
        }
    }
}
