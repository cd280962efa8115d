//! Starting images of any kind beside those of the second program's own
//! generators.

use crate::kind::{Kind, Numbers, MOST_TRACKS};
use crate::writing::LONGEST_LIST;
use reference::generate::{capacity, damage, fresh_name, sound_disc_of, Random};

/// A save's refusal where the directory would have to grow and cannot.
const NO_ROOM: u32 = 8;
const FREE_POINTER: usize = 0x10;
const DIRECTORY_POINTER: usize = 0x12;
const FREE_COUNT: usize = 0x14;
pub const SLOTS_PER_DIRECTORY_SECTOR: usize = 15;
/// Behind the link and the number of entries in use.
const FIRST_SLOT: usize = 3;
pub const ENTRY_BYTES: usize = 16;
/// Of an entry.
pub const ATTRIBUTE: usize = 15;
const PROTECTED: u8 = 0x80;

/// Mostly few, so that many calls take little time; one image in `chances` has
/// more than 25, and as many have more than 5.
fn track_count(random: &mut Random, kind: Kind, chances: usize) -> usize {
    match random.below(chances) {
        0 if random.one_in(3) => MOST_TRACKS,
        0 => random.between(26, MOST_TRACKS),
        1 if random.one_in(2) => tracks_fitting_both(random, kind),
        1 => random.between(6, 25),
        _ => random.between(1, 5),
    }
}

/// 23,040 bytes are 9 tracks of ten sectors and 10 tracks of nine; so are
/// multiples of them.
fn tracks_fitting_both(random: &mut Random, kind: Kind) -> usize {
    let multiple = match random.below(8) {
        0 => random.between(3, 8),
        _ => random.between(1, 2),
    };
    multiple * kind.other_number(random).sectors() as usize
}

pub fn sound(random: &mut Random, kind: Kind) -> Vec<u8> {
    let tracks = track_count(random, kind, 30);
    sound_disc_of(random, tracks, kind.sectors(), kind.arrangement())
}

/// Commands on these are mostly refused at once, so there are more large ones.
pub fn damaged(random: &mut Random, kind: Kind) -> Vec<u8> {
    let tracks = track_count(random, kind, 6);
    let (sectors, arrangement) = (kind.sectors(), kind.arrangement());
    let mut image = sound_disc_of(random, tracks, sectors, arrangement);
    damage(random, &mut image, sectors, arrangement);
    image
}

pub fn blank(random: &mut Random, kind: Kind, tracks: usize) -> Vec<u8> {
    let mut image = vec![random.byte(); tracks * kind.track_bytes()];
    let number = reference::blank(&mut image, kind.sectors(), kind.arrangement(), b"COMPARE");
    assert_eq!(number, 0);
    image
}

/// A disc with as many tracks as there are, blank or with one directory sector
/// full.
pub fn largest(random: &mut Random, kind: Kind) -> Vec<u8> {
    let mut image = blank(random, kind, MOST_TRACKS);
    if !random.one_in(3) {
        for number in 0..SLOTS_PER_DIRECTORY_SECTOR {
            let name = format!("F{number}");
            assert_eq!(save(&mut image, kind, name.as_bytes(), &[1]), 0);
        }
    }
    image
}

/// A sound disc of the other number of sectors, as long as one of this kind:
/// only the check can tell.
pub fn misstated(random: &mut Random, kind: Kind) -> Vec<u8> {
    let other = kind.other_number(random);
    let tracks = tracks_fitting_both(random, other);
    if random.one_in(4) {
        blank(random, other, tracks)
    } else {
        sound_disc_of(random, tracks, other.sectors(), other.arrangement())
    }
}

/// Saves a sheet on page 0 by the second program.
pub fn save(image: &mut [u8], kind: Kind, name: &[u8], sheet: &[u8]) -> u32 {
    let (sectors, arrangement) = (kind.sectors(), kind.arrangement());
    let writes = &mut vec![0; LONGEST_LIST];
    reference::save(image, sectors, arrangement, name, 0, 0, 0, sheet, writes).number
}

/// Files of any length on a disc with at most three free sectors left.
pub fn nearly_full(random: &mut Random, kind: Kind) -> Vec<u8> {
    let tracks = track_count(random, kind, 30);
    let mut image = blank(random, kind, tracks);
    let left = random.below(4);
    while free_count(&image) > left {
        let most = (free_count(&image) - left).min(200);
        let length = capacity(random.between(1, most)) - random.below(200);
        let (name, sheet) = (fresh_name(random), random.bytes(length));
        if save(&mut image, kind, &name, &sheet) == NO_ROOM {
            break;
        }
    }
    image
}

/// Files of one or two sectors, about as many as fill some directory sectors.
pub fn small_files(random: &mut Random, kind: Kind) -> Vec<u8> {
    if random.one_in(200) {
        return many_files(random, kind);
    }
    let (tracks, wanted) = (random.between(2, 5), random.pick(&[13, 14, 15, 16, 29, 30]));
    save_small_files(random, kind, tracks, wanted)
}

pub fn many_files(random: &mut Random, kind: Kind) -> Vec<u8> {
    save_small_files(random, kind, 40, 300)
}

fn save_small_files(random: &mut Random, kind: Kind, tracks: usize, wanted: usize) -> Vec<u8> {
    let mut image = blank(random, kind, tracks);
    for number in 0..wanted {
        let name = format!("F{number}");
        let sheet = vec![random.byte(); random.pick(&[1, 200, 245])];
        save(&mut image, kind, name.as_bytes(), &sheet);
    }
    image
}

/// A blank disc whose directory has taken free sectors, often all of them.
pub fn wide_directory(random: &mut Random, kind: Kind) -> Vec<u8> {
    let tracks = track_count(random, kind, 30);
    let mut image = blank(random, kind, tracks);
    let free = free_count(&image);
    let taken = if random.one_in(2) {
        free
    } else {
        random.between(1, free)
    };
    let mut last = blank_directory(&image, kind);
    for _ in 0..taken {
        let pointer = [image[FREE_POINTER], image[FREE_POINTER + 1]];
        image[last..last + 2].copy_from_slice(&[pointer[1], pointer[0]]);
        last = place(&image, kind, pointer);
        let next = [image[last + 1], image[last]];
        image[FREE_POINTER..FREE_POINTER + 2].copy_from_slice(&next);
        image[last..last + 2].fill(0);
    }
    let count = (free - taken) as u16;
    image[FREE_COUNT..FREE_COUNT + 2].copy_from_slice(&count.to_le_bytes());
    image
}

/// Bytes that no program has written, of a right or of any length.
pub fn any_bytes(random: &mut Random, kind: Kind) -> Vec<u8> {
    let tracks = random.between(1, 3);
    let length = match random.below(4) {
        0 => random.below(3 * kind.track_bytes()),
        _ => tracks * kind.track_bytes(),
    };
    let mut image = match random.below(4) {
        0 => vec![random.pick(&[0, 1, 0xFF]); length],
        _ => random.bytes(length),
    };
    if random.one_in(2) && length >= kind.track_bytes() {
        // A directory pointer on the disc, so that more than it is looked at.
        image[0x12] = random.between(2, kind.sectors() as usize) as u8;
        image[0x13] = 0;
    }
    image
}

/// Makes an image as long as whole tracks of the number of sectors stated, so
/// that nothing but this number is wrong. Right numbers leave it as it is, and
/// so do those of which no disc is long enough.
pub fn fit_wrong_number(image: &mut Vec<u8>, numbers: Numbers) {
    const MOST_SECTORS: usize = 20;
    let sectors = numbers.sectors as usize;
    if numbers.kind().is_none() && (1..=MOST_SECTORS).contains(&sectors) {
        let tracks = (image.len() / 256 / sectors).max(1);
        image.resize(tracks * sectors * 256, 0);
    }
}

/// Where a sector begins in an image, by a pointer, which has its sector first.
pub fn place(image: &[u8], kind: Kind, [sector, track]: [u8; 2]) -> usize {
    let (track, sector) = (u32::from(track), u32::from(sector));
    let view = reference::view_start(image, kind.sectors(), kind.arrangement(), track, sector);
    assert!(view > 0, "{track}/{sector} is on the disc");
    view as usize - 2
}

/// The sectors of a sound disc's directory, track and sector, in order.
pub fn directory_sectors(image: &[u8], kind: Kind) -> Vec<[u8; 2]> {
    chain_of(image, kind, pointer(image, DIRECTORY_POINTER))
}

/// Those of its free chain.
pub fn free_sectors(image: &[u8], kind: Kind) -> Vec<[u8; 2]> {
    chain_of(image, kind, pointer(image, FREE_POINTER))
}

/// The track and sector of a pointer, which has its sector first.
fn pointer(image: &[u8], at: usize) -> [u8; 2] {
    [image[at + 1], image[at]]
}

/// From a track and sector to the end link, or to as many sectors as there are.
pub fn chain_of(image: &[u8], kind: Kind, head: [u8; 2]) -> Vec<[u8; 2]> {
    let mut next = head;
    let mut sectors = Vec::new();
    while next[1] != 0 && sectors.len() < image.len() / 256 {
        sectors.push(next);
        let at = place(image, kind, [next[1], next[0]]);
        next = [image[at], image[at + 1]];
    }
    sectors
}

/// The byte positions of a sound disc's slots, in directory order.
pub fn slots(image: &[u8], kind: Kind) -> Vec<usize> {
    let of = |[track, sector]: [u8; 2]| {
        let at = place(image, kind, [sector, track]);
        (0..SLOTS_PER_DIRECTORY_SECTOR).map(move |slot| at + FIRST_SLOT + ENTRY_BYTES * slot)
    };
    let directory = directory_sectors(image, kind);
    directory.into_iter().flat_map(of).collect()
}

/// The slots in use, in directory order.
pub fn entries(image: &[u8], kind: Kind) -> Vec<[u8; ENTRY_BYTES]> {
    let entry = |at: usize| std::array::from_fn(|byte| image[at + byte]);
    let slots = slots(image, kind).into_iter();
    slots
        .map(entry)
        .filter(|slot| slot != &[0; ENTRY_BYTES])
        .collect()
}

/// Whether a file is protected.
pub fn has_protected(image: &[u8], kind: Kind) -> bool {
    let mut entries = entries(image, kind).into_iter();
    entries.any(|entry| entry[ATTRIBUTE] >= PROTECTED)
}

/// Whether a free sector holds bytes behind its link.
pub fn has_garbage(image: &[u8], kind: Kind) -> bool {
    let mut free = free_sectors(image, kind).into_iter();
    free.any(|sector| holds_bytes(image, kind, sector))
}

/// Whether a sector, track and sector, holds bytes behind its link.
pub fn holds_bytes(image: &[u8], kind: Kind, [track, sector]: [u8; 2]) -> bool {
    let at = place(image, kind, [sector, track]);
    image[at + 2..at + 256].iter().any(|&byte| byte != 0)
}

/// 0/4 is the directory sector of a blank disc.
pub fn blank_directory(image: &[u8], kind: Kind) -> usize {
    place(image, kind, [4, 0])
}

/// Of an image of any kind, since 0/1 comes first in all.
pub fn free_count(image: &[u8]) -> usize {
    usize::from(u16::from_le_bytes([
        image[FREE_COUNT],
        image[FREE_COUNT + 1],
    ]))
}

#[cfg(test)]
mod tests {
    use super::*;
    use crate::met::{is_sound, Met};

    #[test]
    fn starting_discs_are_sound() {
        let mut random = Random::new(4);
        for kind in Kind::ALL {
            for _ in 0..50 {
                assert!(is_sound(&sound(&mut random, kind), kind));
                assert!(is_sound(&nearly_full(&mut random, kind), kind));
                assert!(is_sound(&small_files(&mut random, kind), kind));
                assert!(is_sound(&wide_directory(&mut random, kind), kind));
            }
        }
    }

    #[test]
    fn nearly_full_discs_have_few_free_sectors() {
        let mut random = Random::new(5);
        for kind in Kind::ALL {
            let free: Vec<usize> = (0..60)
                .map(|_| free_count(&nearly_full(&mut random, kind)))
                .collect();
            assert!(free.iter().all(|&count| count <= 4));
            assert!(free.contains(&0));
        }
    }

    #[test]
    fn misstated_discs_are_sound_with_the_other_number() {
        let mut random = Random::new(6);
        for kind in Kind::ALL {
            for _ in 0..30 {
                let image = misstated(&mut random, kind);
                assert!(Met::by(&image, kind.numbers()).misstated);
            }
        }
    }

    #[test]
    fn images_are_made_to_fit_wrong_numbers_alone() {
        let fitted = |sectors, arrangement| {
            let mut image = vec![0; 2560];
            let numbers = Numbers {
                sectors,
                arrangement,
            };
            fit_wrong_number(&mut image, numbers);
            image.len()
        };
        assert_eq!(fitted(8, 0), 2048);
        assert_eq!(fitted(11, 0), 11 * 256);
        assert_eq!(fitted(3, 1), 2304);
        for (sectors, arrangement) in [(10, 0), (9, 0), (0, 0), (266, 0), (u32::MAX, 1)] {
            assert_eq!(fitted(sectors, arrangement), 2560);
        }
    }
}
