//! What occurred of the laws of request h where one kind of disc was stated, and
//! what should have but did not.

use crate::calls::SHORT;
use crate::changing::LONGEST_SECTORS;
use crate::discs;
use crate::kind::{Kind, MOST_TRACKS};
use crate::laws::Accepted;
use crate::marks::{Marks, Occasion, Tallied};
use std::fmt::{Formatter, Result};

const DONE: u32 = 0;
const NAME: u32 = 2;
const TAKEN: u32 = 5;

/// Pairs are of a save and the delete of its file, triples of two renames and the
/// one that they come to.
#[derive(Debug, Clone, Copy, PartialEq, Eq, PartialOrd, Ord)]
pub enum Mark {
    PairOneTrack,
    PairLargest,
    EndReached,
    EndReachedWithTrack,
    EndReachedByOne,
    EndLeft,
    EndLeftWithTrack,
    Leftover,
    OneSector,
    Longest,
    EarlierSector,
    LaterSector,
    InFront,
    PairProtected,
    Exact,
    Longer,
    LeftOut,
    TripleOneTrack,
    TripleLargest,
    Back,
    Another,
    Standing,
    Same,
    Illegal,
    Short,
    TripleEarlier,
    TripleLater,
    TripleProtected,
    TripleFull,
    TripleEndWithTrack,
}

impl Occasion for Mark {
    const ALL: &'static [Mark] = &[
        Mark::PairOneTrack,
        Mark::PairLargest,
        Mark::EndReached,
        Mark::EndReachedWithTrack,
        Mark::EndReachedByOne,
        Mark::EndLeft,
        Mark::EndLeftWithTrack,
        Mark::Leftover,
        Mark::OneSector,
        Mark::Longest,
        Mark::EarlierSector,
        Mark::LaterSector,
        Mark::InFront,
        Mark::PairProtected,
        Mark::Exact,
        Mark::Longer,
        Mark::LeftOut,
        Mark::TripleOneTrack,
        Mark::TripleLargest,
        Mark::Back,
        Mark::Another,
        Mark::Standing,
        Mark::Same,
        Mark::Illegal,
        Mark::Short,
        Mark::TripleEarlier,
        Mark::TripleLater,
        Mark::TripleProtected,
        Mark::TripleFull,
        Mark::TripleEndWithTrack,
    ];

    fn name(self) -> &'static str {
        match self {
            Mark::PairOneTrack => "pairs on one track",
            Mark::PairLargest => "pairs on 80 tracks",
            Mark::EndReached => "pairs whose save takes all free sectors",
            Mark::EndReachedWithTrack => "such pairs with a track byte in the old end",
            Mark::EndReachedByOne => "such pairs of one sector",
            Mark::EndLeft => "pairs whose save leaves free sectors",
            Mark::EndLeftWithTrack => "such pairs with a track byte in the end",
            Mark::Leftover => "pairs whose file takes sectors that hold bytes",
            Mark::OneSector => "pairs of a file of one sector",
            Mark::Longest => "pairs of a file of 260 sectors",
            Mark::EarlierSector => "pairs with the entry before the last directory sector",
            Mark::LaterSector => "pairs with the entry behind the first directory sector",
            Mark::InFront => "pairs with the entry in front of others",
            Mark::PairProtected => "pairs beside a protected file",
            Mark::Exact => "pairs with just enough lent to the delete",
            Mark::Longer => "pairs with more lent to the delete",
            Mark::LeftOut => "saves that need a new directory sector, and no law",
            Mark::TripleOneTrack => "triples on one track",
            Mark::TripleLargest => "triples on 80 tracks",
            Mark::Back => "triples back to the first name",
            Mark::Another => "triples to another name",
            Mark::Standing => "triples to the name of another file, refused",
            Mark::Same => "triples to the second name, refused",
            Mark::Illegal => "triples to no legal name, refused",
            Mark::Short => "triples with too little lent, refused",
            Mark::TripleEarlier => "triples with the entry before the last directory sector",
            Mark::TripleLater => "triples with the entry behind the first directory sector",
            Mark::TripleProtected => "triples beside a protected file",
            Mark::TripleFull => "triples without a free sector",
            Mark::TripleEndWithTrack => "triples with a track byte in the end of the free chain",
        }
    }
}

#[derive(Debug, Default)]
pub struct LawTally {
    pub pairs: u64,
    pub triples: u64,
    marks: Marks<Mark>,
}

impl LawTally {
    /// A save and the delete of its file, lent just enough or more.
    pub fn pair(&mut self, save: &Accepted<'_>, exact: bool) {
        self.pairs += 1;
        let (kind, before) = (save.kind, save.before);
        let free = discs::free_sectors(before, kind);
        let left = discs::free_count(save.after);
        let taken = &free[..free.len() - left];
        let with_track = has_track(before, kind, free.last());
        let reached = left == 0;
        let entry = Entry::changed_by(save);
        for (occurred, mark) in [
            (tracks(save) == 1, Mark::PairOneTrack),
            (tracks(save) == MOST_TRACKS, Mark::PairLargest),
            (reached, Mark::EndReached),
            (reached && with_track, Mark::EndReachedWithTrack),
            (reached && taken.len() == 1, Mark::EndReachedByOne),
            (!reached, Mark::EndLeft),
            (!reached && with_track, Mark::EndLeftWithTrack),
            (hold_bytes(before, kind, taken), Mark::Leftover),
            (taken.len() == 1, Mark::OneSector),
            (taken.len() == LONGEST_SECTORS, Mark::Longest),
            (entry.in_earlier_sector(), Mark::EarlierSector),
            (entry.in_later_sector(), Mark::LaterSector),
            (entry.is_in_front, Mark::InFront),
            (discs::has_protected(before, kind), Mark::PairProtected),
            (exact, Mark::Exact),
            (!exact, Mark::Longer),
        ] {
            self.marks.mark(occurred, mark);
        }
    }

    /// A save of which the law says nothing.
    pub fn left_out(&mut self) {
        self.marks.mark(true, Mark::LeftOut);
    }

    /// A rename of the first name to the second, and what the one of the second to
    /// the third answered.
    pub fn triple(&mut self, rename: &Accepted<'_>, [a, b, c]: [&[u8]; 3], number: u32) {
        self.triples += 1;
        let (kind, before) = (rename.kind, rename.before);
        let free = discs::free_sectors(before, kind);
        let entry = Entry::changed_by(rename);
        for (occurred, mark) in [
            (tracks(rename) == 1, Mark::TripleOneTrack),
            (tracks(rename) == MOST_TRACKS, Mark::TripleLargest),
            (number == DONE && c == a, Mark::Back),
            (number == DONE && c != a, Mark::Another),
            (number == TAKEN && c != b, Mark::Standing),
            (number == TAKEN && c == b, Mark::Same),
            (number == NAME, Mark::Illegal),
            (number == SHORT, Mark::Short),
            (entry.in_earlier_sector(), Mark::TripleEarlier),
            (entry.in_later_sector(), Mark::TripleLater),
            (discs::has_protected(before, kind), Mark::TripleProtected),
            (free.is_empty(), Mark::TripleFull),
            (
                has_track(before, kind, free.last()),
                Mark::TripleEndWithTrack,
            ),
        ] {
            self.marks.mark(occurred, mark);
        }
    }
}

impl Tallied for LawTally {
    fn missing(&self) -> Vec<String> {
        self.marks.missing().collect()
    }

    fn write(&self, out: &mut Formatter<'_>) -> Result {
        let (pairs, triples) = (self.pairs, self.triples);
        writeln!(out, "pairs: {pairs}, triples: {triples}")?;
        self.marks.write(out)
    }
}

fn tracks(accepted: &Accepted<'_>) -> usize {
    accepted.before.len() / accepted.kind.track_bytes()
}

/// Whether the link of a chain's last sector has a track byte.
fn has_track(image: &[u8], kind: Kind, last: Option<&[u8; 2]>) -> bool {
    last.map_or(false, |&[track, sector]| {
        image[discs::place(image, kind, [sector, track])] != 0
    })
}

fn hold_bytes(image: &[u8], kind: Kind, sectors: &[[u8; 2]]) -> bool {
    let mut sectors = sectors.iter();
    sectors.any(|&sector| discs::holds_bytes(image, kind, sector))
}

/// Where the entry of a save or a rename stands.
struct Entry {
    /// Of its directory sector, and of the last one.
    sector: usize,
    last: usize,
    /// Others stand behind it in its sector.
    is_in_front: bool,
}

impl Entry {
    /// The one slot that the command has changed.
    fn changed_by(accepted: &Accepted<'_>) -> Entry {
        const SLOTS: usize = discs::SLOTS_PER_DIRECTORY_SECTOR;
        let (before, after) = (accepted.before, accepted.after);
        let slots = discs::slots(before, accepted.kind);
        let bytes = |at: usize| at..at + discs::ENTRY_BYTES;
        let changed = |&at: &usize| before[bytes(at)] != after[bytes(at)];
        let slot = slots.iter().position(changed).unwrap_or_default();
        let sector = slot / SLOTS;
        let behind = &slots[slot + 1..SLOTS * (sector + 1)];
        Entry {
            sector,
            last: slots.len() / SLOTS - 1,
            is_in_front: behind.iter().any(|&at| before[at] != 0),
        }
    }

    fn in_earlier_sector(&self) -> bool {
        self.sector < self.last
    }

    fn in_later_sector(&self) -> bool {
        self.sector > 0
    }
}

#[cfg(test)]
impl LawTally {
    pub fn full() -> LawTally {
        LawTally {
            marks: Marks::full(),
            ..LawTally::default()
        }
    }
}

#[cfg(test)]
mod tests {
    use super::*;
    use crate::laws::{by_both, delete_of, rename_of};
    use crate::writing::{LONGEST_LIST, OF_LIBRARY};
    use reference::command::{Buffer, Command};
    use reference::generate::{capacity, Random};

    const ROOM: Buffer = Buffer {
        length: LONGEST_LIST,
        fill: 1,
    };

    fn marks_of(
        kind: Kind,
        (before, after): (&[u8], &[u8]),
        count: impl Fn(&mut LawTally, &Accepted<'_>),
    ) -> Vec<Mark> {
        let accepted = Accepted {
            kind,
            writing: OF_LIBRARY,
            command: &Command::Check,
            before,
            after,
            on_copy: by_both,
        };
        let mut tally = LawTally::default();
        count(&mut tally, &accepted);
        tally.marks.met()
    }

    /// Those of a pair whose save is of so many bytes.
    fn marks_of_save(kind: Kind, before: &[u8], length: usize) -> Vec<Mark> {
        let mut after = before.to_vec();
        assert_eq!(discs::save(&mut after, kind, b"NEW", &vec![7; length]), 0);
        marks_of(kind, (before, &after), |tally, save| tally.pair(save, true))
    }

    #[test]
    fn nothing_is_missing_where_all_occurred() {
        assert_eq!(LawTally::full().missing(), Vec::<String>::new());
        assert_eq!(LawTally::default().missing().len(), 30);
        let mut tally = LawTally::full();
        tally.marks.remove(Mark::Back);
        assert_eq!(tally.missing(), ["triples back to the first name"]);
    }

    #[test]
    fn a_pair_is_counted_by_the_free_sectors_that_its_save_takes() {
        use Mark::*;
        for kind in Kind::ALL {
            let mut image = discs::blank(&mut Random::new(71), kind, 1);
            let small = [PairOneTrack, EndLeft, OneSector, Exact];
            assert_eq!(marks_of_save(kind, &image, 245), small);
            let all = capacity(discs::free_count(&image));
            let whole = [PairOneTrack, EndReached, Exact];
            assert_eq!(marks_of_save(kind, &image, all), whole);
            let free = discs::free_sectors(&image, kind);
            let [track, sector] = free[free.len() - 1];
            let end = discs::place(&image, kind, [sector, track]);
            image[end] = 3;
            image[end + 255] = 1;
            let left = [PairOneTrack, EndLeft, EndLeftWithTrack, OneSector, Exact];
            assert_eq!(marks_of_save(kind, &image, 245), left);
            let reached = [
                PairOneTrack,
                EndReached,
                EndReachedWithTrack,
                Leftover,
                Exact,
            ];
            assert_eq!(marks_of_save(kind, &image, all), reached);
            let rest = capacity(free.len() - 1);
            assert_eq!(discs::save(&mut image, kind, b"REST", &vec![7; rest]), 0);
            let mut by_one = reached.to_vec();
            by_one.splice(3..3, [EndReachedByOne]);
            by_one.insert(5, OneSector);
            assert_eq!(marks_of_save(kind, &image, 245), by_one);
            let largest = discs::blank(&mut Random::new(72), kind, 80);
            let longest = [PairLargest, EndLeft, Longest, Exact];
            assert_eq!(marks_of_save(kind, &largest, 65_536), longest);
        }
    }

    #[test]
    fn a_pair_is_counted_by_the_slot_of_its_entry() {
        for kind in Kind::ALL {
            let mut image = discs::blank(&mut Random::new(73), kind, 3);
            for number in 0..discs::SLOTS_PER_DIRECTORY_SECTOR + 1 {
                let name = format!("F{number}");
                assert_eq!(discs::save(&mut image, kind, name.as_bytes(), &[1]), 0);
            }
            let met = |image: &[u8], mark| marks_of_save(kind, image, 1).contains(&mark);
            let of_slot = [Mark::EarlierSector, Mark::LaterSector, Mark::InFront];
            let marks = |image: &[u8]| of_slot.map(|mark| met(image, mark));
            assert_eq!(marks(&image), [false, true, false]);
            for (slot, in_front) in [(14, false), (3, true)] {
                let mut cleared = image.clone();
                let (sectors, arrangement) = (kind.sectors(), kind.arrangement());
                let name = format!("F{slot}");
                let delete = delete_of(name.as_bytes(), ROOM);
                assert!(delete.run(&mut cleared, sectors, arrangement).accepted());
                assert_eq!(marks(&cleared), [true, false, in_front]);
            }
            assert!(!met(&image, Mark::PairProtected));
            let first = discs::slots(&image, kind)[0];
            image[first + discs::ATTRIBUTE] = 0x80;
            assert!(met(&image, Mark::PairProtected));
        }
    }

    #[test]
    fn a_triple_is_counted_by_its_last_name_and_answer() {
        let (a, b, c): (&[u8], &[u8], &[u8]) = (b"A", b"B", b"C");
        for kind in Kind::ALL {
            let mut before = discs::blank(&mut Random::new(74), kind, 1);
            assert_eq!(discs::save(&mut before, kind, a, &[1]), 0);
            let mut after = before.clone();
            let rename = rename_of(a, b, ROOM);
            let answer = rename.run(&mut after, kind.sectors(), kind.arrangement());
            assert!(answer.accepted());
            for (third, number, mark) in [
                (a, DONE, Mark::Back),
                (c, DONE, Mark::Another),
                (c, TAKEN, Mark::Standing),
                (b, TAKEN, Mark::Same),
                (b"", NAME, Mark::Illegal),
                (c, SHORT, Mark::Short),
            ] {
                let marks = marks_of(kind, (&before, &after), |tally, rename| {
                    tally.triple(rename, [a, b, third], number);
                });
                assert_eq!(marks, [Mark::TripleOneTrack, mark]);
            }
        }
    }
}
