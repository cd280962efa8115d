//! Wrong repairs in place of the library's, one fault each. The right one is
//! written here once more, apart from both programs.

use crate::calls::{SIZE, UNSOUND};
use crate::discs;
use crate::kind::{Kind, Numbers};
use std::ops::RangeInclusive;

const DONE: u32 = 0;
const FREE_POINTER: usize = 0x10;
const FREE_COUNT: usize = 0x14;
const USED_COUNT: usize = 0x16;
const ORDER_OF_TEN: [u8; 10] = [1, 4, 7, 10, 3, 6, 9, 2, 5, 8];
const ORDER_OF_NINE: [u8; 9] = [1, 4, 7, 2, 5, 8, 3, 6, 9];

/// Track and sector.
type Place = [u8; 2];

#[derive(Clone, Copy, Debug, PartialEq)]
pub enum Fault {
    Right,
    // Refusals.
    SoundRefused,
    Rule6Refused,
    Rule7Refused,
    Rule8Refused,
    Rule1Done,
    Rule2Done,
    Rule3Done,
    Rule4Done,
    Rule5Done,
    UnsoundForSize,
    SizeForUnsound,
    NineMovedTaken,
    ArrangementCut,
    SectorsCut,
    OtherSectorsTaken,
    LengthRoundedDown,
    TooLongTaken,
    FullRefused,
    NoFilesRefused,
    WritesWhenRefused,
    // The order.
    ByNumber,
    OrderOfTenForNine,
    LastTrackFirst,
    LastSectorFirst,
    OldOrderFirst,
    LostFirst,
    SoundLeft,
    Rotated,
    // Links and the end.
    EndLinkLeft,
    EndTrackLeft,
    EndToFirst,
    LinksSectorFirst,
    FirstLinkLeft,
    // The pointer.
    PointerTrackFirst,
    PointerLeft,
    PointerTrackLeft,
    EmptyPointerLeft,
    EmptyPointerTrackLeft,
    // Counts.
    FreeCountLeft,
    FreeCountOneMore,
    FreeCountLowByte,
    FreeCountHighFirst,
    UsedCountLeft,
    UsedCountLowByte,
    UsedCountOfFiles,
    UsedCountWithDirectory,
    // Bodies and other bytes.
    BodiesCleared,
    LostBodiesCleared,
    LastBodyCleared,
    BootCleared,
    DirectoryEndCleared,
    FileEndCleared,
    ProtectionLifted,
    VersionWritten,
    // Which sectors are free.
    DirectoryOfOneSector,
    SystemThreaded,
    LastOfFileThreaded,
    LastFileThreaded,
    BlankDirectoryKept,
    LostLeft,
    OneLostThreaded,
    ManyLostLeft,
    LostDirectoryKept,
    LastTrackLeft,
    TrackZeroLeft,
    LastSectorLeft,
    // Kinds of discs.
    MovedAsPlain,
    MovedOrder,
    NineAsTen,
    PlacesOf16Bits,
    UpTo79Tracks,
    NothingDone,
}

impl Fault {
    pub fn repair(self, image: &mut [u8], numbers: Numbers) -> u32 {
        let (kind, length) = match self.disc(image.len(), numbers) {
            Some(disc) => disc,
            None if self == Fault::UnsoundForSize => return UNSOUND,
            None => return SIZE,
        };
        let image = &mut image[..length];
        let rule = reference::check(image, kind.sectors(), kind.arrangement()).rule;
        match self.refusal(rule, image, kind) {
            DONE if (1..=5).contains(&rule) || self == Fault::NothingDone => DONE,
            DONE => {
                self.thread(image, kind, rule);
                DONE
            }
            number => {
                if self == Fault::WritesWhenRefused {
                    image[FREE_COUNT] ^= 1;
                }
                number
            }
        }
    }

    /// The kind that is taken for the one stated, and how many bytes of it.
    fn disc(self, length: usize, numbers: Numbers) -> Option<(Kind, usize)> {
        let Numbers {
            sectors,
            arrangement,
        } = numbers;
        let numbers = match self {
            Fault::NineMovedTaken if (sectors, arrangement) == (9, 1) => Kind::Nine.numbers(),
            Fault::ArrangementCut => Numbers {
                arrangement: arrangement % 256,
                ..numbers
            },
            Fault::SectorsCut => Numbers {
                sectors: sectors % 256,
                ..numbers
            },
            Fault::OtherSectorsTaken if sectors != 9 => Numbers {
                sectors: 10,
                ..numbers
            },
            _ => numbers,
        };
        let kind = numbers.kind()?;
        let whole = length / kind.track_bytes() * kind.track_bytes();
        match self {
            Fault::LengthRoundedDown if kind.fits(whole) => Some((kind, whole)),
            Fault::TooLongTaken if length == 81 * kind.track_bytes() => {
                Some((kind, 80 * kind.track_bytes()))
            }
            _ => kind.fits(length).then_some((kind, length)),
        }
    }

    fn refusal(self, rule: u32, image: &[u8], kind: Kind) -> u32 {
        let free = discs::free_count(image);
        let refused: RangeInclusive<u32> = match self {
            Fault::SoundRefused if rule == 0 => 0..=0,
            Fault::Rule6Refused => 1..=6,
            Fault::Rule7Refused if rule == 7 => 7..=7,
            Fault::Rule8Refused if rule == 8 => 8..=8,
            Fault::Rule1Done => 2..=5,
            Fault::Rule2Done if rule == 2 => return DONE,
            Fault::Rule3Done if rule == 3 => return DONE,
            Fault::Rule4Done if rule == 4 => return DONE,
            Fault::Rule5Done => 1..=4,
            Fault::FullRefused if rule == 0 && free == 0 => 0..=0,
            Fault::NoFilesRefused if rule == 0 && used(image, kind).0 == 0 => 0..=0,
            _ => 1..=5,
        };
        match refused.contains(&rule) {
            true if self == Fault::SizeForUnsound => SIZE,
            true => UNSOUND,
            false => DONE,
        }
    }

    /// The free chain, the pointer and both counts of a disc that keeps rules 1
    /// to 5.
    fn thread(self, image: &mut [u8], kind: Kind, rule: u32) {
        let old_chain = old_chain(image, kind);
        let free = self.free(image, kind, &old_chain);
        // Some faults break the chains that the used count is taken from.
        let used = used(image, kind);
        self.touch(image, kind, &old_chain, &free);
        if self == Fault::SoundLeft && rule == 0 {
            return;
        }
        for (at, &place) in free.iter().enumerate() {
            match free.get(at + 1) {
                Some(&next) => self.link(image, kind, at, (place, next)),
                None => self.end(image, kind, place, free[0]),
            }
        }
        self.point(image, free.first().copied());
        self.count(image, free.len(), used);
    }

    fn link(self, image: &mut [u8], kind: Kind, at: usize, (place, next): (Place, Place)) {
        let [track, sector] = next;
        let link = match self {
            Fault::LinksSectorFirst => [sector, track],
            Fault::FirstLinkLeft if at == 0 => return,
            _ => next,
        };
        self.bytes(image, kind, place)[..2].copy_from_slice(&link);
    }

    fn end(self, image: &mut [u8], kind: Kind, place: Place, first: Place) {
        let link = &mut self.bytes(image, kind, place)[..2];
        match self {
            Fault::EndLinkLeft => {}
            Fault::EndTrackLeft => link[1] = 0,
            Fault::EndToFirst => link.copy_from_slice(&first),
            _ => link.fill(0),
        }
    }

    fn point(self, image: &mut [u8], first: Option<Place>) {
        let pointer = &mut image[FREE_POINTER..FREE_POINTER + 2];
        match (self, first) {
            (Fault::PointerLeft, _) | (Fault::EmptyPointerLeft, None) => {}
            (Fault::EmptyPointerTrackLeft, None) => pointer[0] = 0,
            (Fault::PointerTrackLeft, Some([_, sector])) => pointer[0] = sector,
            (Fault::PointerTrackFirst, Some(first)) => pointer.copy_from_slice(&first),
            (_, Some([track, sector])) => pointer.copy_from_slice(&[sector, track]),
            (_, None) => pointer.fill(0),
        }
    }

    fn count(self, image: &mut [u8], free: usize, used: (usize, usize, usize)) {
        let (files, sectors, directory) = used;
        let free = free as u16 + u16::from(self == Fault::FreeCountOneMore);
        let used = match self {
            Fault::UsedCountOfFiles => files,
            Fault::UsedCountWithDirectory => sectors + directory,
            _ => sectors,
        } as u16;
        let counts = &mut image[FREE_COUNT..USED_COUNT + 2];
        let (free_count, used_count) = counts.split_at_mut(2);
        match self {
            Fault::FreeCountLeft => {}
            Fault::FreeCountLowByte => free_count[0] = free as u8,
            Fault::FreeCountHighFirst => free_count.copy_from_slice(&free.to_be_bytes()),
            _ => free_count.copy_from_slice(&free.to_le_bytes()),
        }
        match self {
            Fault::UsedCountLeft => {}
            Fault::UsedCountLowByte => used_count[0] = used as u8,
            _ => used_count.copy_from_slice(&used.to_le_bytes()),
        }
    }

    /// Bytes that no repair changes.
    fn touch(self, image: &mut [u8], kind: Kind, old_chain: &[Place], free: &[Place]) {
        let lost = |place: &&Place| !old_chain.contains(place);
        let cleared: Vec<Place> = match self {
            Fault::BodiesCleared => free.to_vec(),
            Fault::LostBodiesCleared => free.iter().filter(lost).copied().collect(),
            Fault::LastBodyCleared => free.last().copied().into_iter().collect(),
            _ => Vec::new(),
        };
        for place in cleared {
            self.bytes(image, kind, place)[2..].fill(0);
        }
        let directory = discs::directory_sectors(image, kind);
        let (first, last) = (directory[0], directory[directory.len() - 1]);
        let last_of_file = chains(image, kind)
            .first()
            .map(|chain| chain[chain.len() - 1]);
        match (self, last_of_file) {
            (Fault::BootCleared, _) => image[..FREE_POINTER].fill(0),
            (Fault::VersionWritten, _) => image[0x40..0x51].copy_from_slice(b"TANDOS 65 IMAGE 1"),
            (Fault::DirectoryEndCleared, _) => self.bytes(image, kind, last)[0] = 0,
            (Fault::FileEndCleared, Some(last)) => self.bytes(image, kind, last)[0] = 0,
            (Fault::ProtectionLifted, _) => self.bytes(image, kind, first)[3 + 15] = 0,
            _ => {}
        }
    }

    fn free(self, image: &[u8], kind: Kind, old_chain: &[Place]) -> Vec<Place> {
        let mut taken = vec![[0, 1]];
        let mut directory = discs::directory_sectors(image, kind);
        let mut files = chains(image, kind);
        match self {
            Fault::DirectoryOfOneSector => directory.truncate(1),
            Fault::SystemThreaded => taken.clear(),
            Fault::BlankDirectoryKept => taken.push([0, 4]),
            Fault::LastFileThreaded => drop(files.pop()),
            Fault::LastOfFileThreaded => {
                for chain in &mut files {
                    chain.pop();
                }
            }
            _ => {}
        }
        taken.extend(directory);
        taken.extend(files.concat());
        let tracks = image.len() / kind.track_bytes();
        let mut free = self.order(kind, tracks, &taken, old_chain);
        let all = free.clone();
        let is_old = |place: &Place| old_chain.contains(place);
        let mut lost = 0;
        free.retain(|place| {
            lost += usize::from(!is_old(place));
            match self {
                Fault::LostLeft => is_old(place),
                Fault::OneLostThreaded => is_old(place) || lost == 1,
                Fault::ManyLostLeft => is_old(place) || lost < 100,
                Fault::LostDirectoryKept => is_old(place) || !is_directory(image, kind, *place),
                Fault::LastTrackLeft => usize::from(place[0]) + 1 < tracks || tracks == 1,
                Fault::TrackZeroLeft => place[0] > 0,
                Fault::LastSectorLeft => Some(place) != all.last(),
                _ => true,
            }
        });
        free
    }

    fn order(self, kind: Kind, tracks: usize, taken: &[Place], old_chain: &[Place]) -> Vec<Place> {
        let mut order: Vec<u8> = match (self, kind) {
            (Fault::OrderOfTenForNine, Kind::Nine) => {
                let small = |sector: &&u8| **sector <= 9;
                ORDER_OF_TEN.iter().filter(small).copied().collect()
            }
            (Fault::MovedOrder, Kind::Moved) | (Fault::ByNumber, _) => {
                (1..=kind.sectors() as u8).collect()
            }
            (_, Kind::Nine) => ORDER_OF_NINE.to_vec(),
            _ => ORDER_OF_TEN.to_vec(),
        };
        match self {
            Fault::LastSectorFirst => order.reverse(),
            Fault::Rotated => order.rotate_left(2),
            _ => {}
        }
        let mut tracks: Vec<u8> = (0..tracks as u8).collect();
        if self == Fault::LastTrackFirst {
            tracks.reverse();
        }
        let on = |track: u8| order.iter().map(move |&sector| [track, sector]);
        let mut free: Vec<Place> = tracks.into_iter().flat_map(on).collect();
        free.retain(|place| !taken.contains(place));
        let is_old = |place: &Place| old_chain.contains(place);
        match self {
            Fault::LostFirst => free.sort_by_key(is_old),
            Fault::OldOrderFirst => free.sort_by_key(|place| {
                let mut old = old_chain.iter();
                old.position(|one| one == place).unwrap_or(old_chain.len())
            }),
            _ => {}
        }
        free
    }

    fn bytes(self, image: &mut [u8], kind: Kind, [track, sector]: Place) -> &mut [u8] {
        let plain = |sectors: usize| 256 * (sectors * usize::from(track) + usize::from(sector) - 1);
        let at = match (self, kind) {
            (Fault::MovedAsPlain, Kind::Moved) => plain(10),
            (Fault::NineAsTen, Kind::Nine) => plain(10) % image.len(),
            (Fault::PlacesOf16Bits, _) => discs::place(image, kind, [sector, track]) % (1 << 16),
            (Fault::UpTo79Tracks, _) if track == 79 => discs::place(image, kind, [sector, 78]),
            _ => discs::place(image, kind, [sector, track]),
        };
        &mut image[at..at + 256]
    }
}

/// The sectors met by the old free chain as far as it is one.
fn old_chain(image: &[u8], kind: Kind) -> Vec<Place> {
    let tracks = image.len() / kind.track_bytes();
    let mut next = [image[FREE_POINTER + 1], image[FREE_POINTER]];
    let mut met = Vec::new();
    let on_disc = |[track, sector]: Place| {
        usize::from(track) < tracks && (1..=kind.sectors()).contains(&u32::from(sector))
    };
    while on_disc(next) && !met.contains(&next) {
        met.push(next);
        let at = discs::place(image, kind, [next[1], next[0]]);
        next = [image[at], image[at + 1]];
    }
    met
}

/// The sectors of each file, in directory order.
fn chains(image: &[u8], kind: Kind) -> Vec<Vec<Place>> {
    let chain = |entry: [u8; 16]| discs::chain_of(image, kind, [entry[12], entry[11]]);
    discs::entries(image, kind).into_iter().map(chain).collect()
}

/// How many files there are, their sectors, and those of the directory.
fn used(image: &[u8], kind: Kind) -> (usize, usize, usize) {
    let entries = discs::entries(image, kind);
    let lengths = entries
        .iter()
        .map(|entry| u16::from_le_bytes([entry[9], entry[10]]));
    let directory = discs::directory_sectors(image, kind).len();
    (entries.len(), lengths.map(usize::from).sum(), directory)
}

/// One entry and zeros behind it, as a new directory sector has it.
fn is_directory(image: &[u8], kind: Kind, [track, sector]: Place) -> bool {
    let at = discs::place(image, kind, [sector, track]);
    let bytes = &image[at..at + 256];
    bytes[2] == 1 && bytes[3] != 0 && bytes[3 + 16..].iter().all(|&byte| byte == 0)
}

/// The faults with the calls that have them in place of the library's.
macro_rules! planted {
    ($($fault:ident),* $(,)?) => {
        [$((
            stringify!($fault),
            $crate::writing::Writing {
                repair: |image, numbers| {
                    $crate::planted_repair::Fault::$fault.repair(image, numbers)
                },
                ..$crate::writing::OF_LIBRARY
            },
        )),*]
    };
}

pub(crate) use planted;
