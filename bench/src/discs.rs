//! The discs that the calls are timed on.

use compare::kind::Kind;
use compare::writing::LONGEST_LIST;
use reference::generate::capacity;

/// Takes 80 sectors.
const LARGE_BYTES: usize = 20_000;
const LARGE_SECTORS: usize = 80;
const SMALL_BYTES: usize = 200;
/// Enough for the module that is saved and deleted.
pub const LEFT_FREE: usize = 10;
/// Enough for a large one.
pub const LEFT_FREE_FOR_LARGE: usize = 40;
const SHEET_BYTES: usize = 5000;
const SHEET_SECTORS: usize = 20;

/// An image, its kind and the name of the file that calls name, the last of the
/// directory.
#[derive(Debug, Clone)]
pub struct Disc {
    pub image: Vec<u8>,
    pub kind: Kind,
    pub file: Vec<u8>,
}

fn blank(kind: Kind, tracks: usize) -> Disc {
    let mut image = vec![0; kind.track_bytes() * tracks];
    let number = reference::blank(&mut image, kind.sectors(), kind.arrangement(), b"BENCH");
    assert_eq!(number, 0);
    Disc {
        image,
        kind,
        file: Vec::new(),
    }
}

impl Disc {
    /// 0/1 comes first in every kind of image.
    fn free(&self) -> usize {
        usize::from(u16::from_le_bytes([self.image[0x14], self.image[0x15]]))
    }

    pub fn last_track(&self) -> u32 {
        (self.image.len() / self.kind.track_bytes()) as u32 - 1
    }

    fn save(&mut self, name: String, length: usize) {
        self.file = name.into_bytes();
        let sheet: Vec<u8> = (0..length).map(|at| (at * 7) as u8).collect();
        let saved = reference::save(
            &mut self.image,
            self.kind.sectors(),
            self.kind.arrangement(),
            &self.file,
            0,
            0x2000,
            0x2000,
            &sheet,
            &mut vec![0; LONGEST_LIST],
        );
        assert_eq!(saved.number, 0, "the file fits");
    }

    /// Files of 20,000 bytes, and before them one that takes what they leave,
    /// until `left` sectors are free.
    fn fill(&mut self, left: usize) {
        let sectors = self.free() - left;
        let rest = sectors % LARGE_SECTORS;
        if rest > 0 {
            self.save("REST".to_string(), capacity(rest));
        }
        for number in 0..sectors / LARGE_SECTORS {
            self.save(format!("LARGE{number}"), LARGE_BYTES);
        }
    }

    fn save_small_files(&mut self, count: usize) {
        for number in 0..count {
            self.save(format!("F{number}"), SMALL_BYTES);
        }
    }

    /// The same file on every disc, to be read.
    fn save_sheet(&mut self) {
        self.save("SHEET".to_string(), SHEET_BYTES);
    }
}

/// Full but for so many sectors, with few files.
pub fn few_large_files(kind: Kind, tracks: usize, left: usize) -> Disc {
    let mut disc = blank(kind, tracks);
    disc.fill(left);
    disc
}

pub fn small_files(kind: Kind, tracks: usize, count: usize) -> Disc {
    let mut disc = blank(kind, tracks);
    disc.save_small_files(count);
    disc
}

/// Small files on half of the sectors, and their directory.
pub fn half_full(kind: Kind, tracks: usize) -> Disc {
    let sectors = tracks * kind.sectors() as usize;
    small_files(kind, tracks, sectors / 2)
}

/// Nearly full, with few files, the last of which is the sheet.
pub fn few_large_files_and_sheet(kind: Kind, tracks: usize) -> Disc {
    let mut disc = blank(kind, tracks);
    disc.fill(LEFT_FREE + SHEET_SECTORS);
    disc.save_sheet();
    disc
}

/// Small files, and behind them the sheet.
pub fn small_files_and_sheet(kind: Kind, tracks: usize, count: usize) -> Disc {
    let mut disc = small_files(kind, tracks, count);
    disc.save_sheet();
    disc
}

#[cfg(test)]
mod tests {
    use super::*;

    fn is_sound(disc: &Disc) -> bool {
        let (sectors, arrangement) = (disc.kind.sectors(), disc.kind.arrangement());
        let checked = reference::check(&disc.image, sectors, arrangement);
        (checked.number, checked.rule) == (0, 0)
    }

    #[test]
    fn nearly_full_discs_keep_room_for_a_save() {
        for kind in Kind::ALL {
            for tracks in [5, 10, 20, 40, 80] {
                for (disc, left) in [
                    (few_large_files(kind, tracks, LEFT_FREE), LEFT_FREE),
                    (
                        few_large_files(kind, tracks, LEFT_FREE_FOR_LARGE),
                        LEFT_FREE_FOR_LARGE,
                    ),
                    (few_large_files_and_sheet(kind, tracks), LEFT_FREE),
                ] {
                    assert!(is_sound(&disc));
                    assert_eq!(disc.free(), left);
                    assert_eq!(disc.last_track() as usize, tracks - 1);
                }
            }
            assert_eq!(few_large_files(kind, 40, LEFT_FREE).file, b"LARGE3");
        }
    }

    #[test]
    fn half_of_the_sectors_are_small_files() {
        for kind in Kind::ALL {
            let (disc, half) = (half_full(kind, 80), 40 * kind.sectors() as usize);
            assert!(is_sound(&disc));
            let directory = (half + 14) / 15;
            assert_eq!(disc.free(), half - 1 - directory);
        }
    }

    #[test]
    fn small_files_stand_in_as_many_entries() {
        for kind in Kind::ALL {
            let disc = small_files_and_sheet(kind, 80, 600);
            assert!(is_sound(&disc));
            let (sectors, arrangement) = (kind.sectors(), kind.arrangement());
            let buffer = &mut vec![0; 65_536];
            let listed = reference::list(&disc.image, sectors, arrangement, buffer);
            assert_eq!(listed.length, 14 + 13 * 601 + 1);
            assert_eq!(disc.file, b"SHEET");
        }
    }
}
