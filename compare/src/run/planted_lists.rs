//! Wrong calls in place of the library's commands with lists and of its replay:
//! each must be seen.

use super::Driver;
use crate::calls::{BAD_LIST, SHORT, SIZE};
use crate::kind::{Kind, Numbers};
use crate::runs::Runs;
use crate::writing::{Writing, LONGEST_LIST, OF_LIBRARY, RECORD};
use reference::command::Command;
use reference::Filled;

const SEED: u64 = 650_065;
/// About as many runs as the default comparison has.
const RUNS: u64 = 1500;
const ROOM: u32 = 8;

/// What is wrong with the four commands.
#[derive(Clone, Copy, PartialEq)]
enum Listed {
    Right,
    OldBytes,
    LinkLeftOut,
    Reversed,
    FirstLast,
    LastTwoSwapped,
    SectorFirst,
    PlaceForSector,
    OtherKind,
    NoEnd,
    LongEnd,
    FirstLeftOut,
    LastLeftOut,
    Twice,
    UnchangedLeftOut,
    LengthWithoutEnd,
    LengthInRecords,
    RestCleared,
    AtBack,
    ShortByOne,
    ShortAtExact,
    ShortUnlessLongest,
    ShortWithoutGrowth,
    ShortFirst,
    ShortBeforeRoom,
    WrittenWhenShort,
    FrontWhenShort,
    LengthWhenShort,
    BufferWhenRefused,
    LengthWhenRefused,
    ImageStays,
}

impl Listed {
    fn change(
        self,
        command: &Command,
        image: &mut [u8],
        numbers: Numbers,
        texts: [&[u8]; 2],
        writes: &mut [u8],
    ) -> Filled {
        let old = image.to_vec();
        let mut whole = vec![0; LONGEST_LIST];
        let filled = (OF_LIBRARY.change)(command, image, numbers, texts, &mut whole);
        if filled.number != 0 {
            return self.refused(filled.number, writes);
        }
        whole.truncate(filled.length as usize);
        let list = self.spoilt(whole, &old, image, numbers);
        let lent = writes.len();
        if self.is_short(lent, list.len(), command) {
            return self.short(image, &old, &list, writes);
        }
        if self == Listed::ImageStays {
            image.copy_from_slice(&old);
        }
        self.fill(&list, writes)
    }

    fn refused(self, number: u32, writes: &mut [u8]) -> Filled {
        let short = writes.len() < RECORD + 1;
        if let (Listed::BufferWhenRefused, [first, ..]) = (self, &mut *writes) {
            *first ^= 1;
        }
        match self {
            Listed::ShortFirst if short => refusal(SHORT),
            Listed::ShortBeforeRoom if short && number == ROOM => refusal(SHORT),
            Listed::LengthWhenRefused => Filled { number, length: 1 },
            _ => refusal(number),
        }
    }

    fn short(self, image: &mut [u8], old: &[u8], list: &[u8], writes: &mut [u8]) -> Filled {
        if self != Listed::WrittenWhenShort {
            image.copy_from_slice(old);
        }
        if self == Listed::FrontWhenShort {
            writes.copy_from_slice(&list[..writes.len()]);
        }
        let length = match self {
            Listed::LengthWhenShort => list.len() as u32,
            _ => 0,
        };
        Filled {
            number: SHORT,
            length,
        }
    }

    fn is_short(self, lent: usize, list: usize, command: &Command) -> bool {
        let least = match (self, command) {
            (Listed::ShortByOne, _) => list - 1,
            (Listed::ShortAtExact, _) => list + 1,
            (Listed::ShortUnlessLongest, Command::Save { .. }) => LONGEST_LIST,
            // Longer than any list of this sheet's without a new directory sector.
            (Listed::ShortWithoutGrowth, Command::Save { sheet, .. })
                if list > RECORD * (4 + sheet.len() / 253) =>
            {
                list - RECORD
            }
            _ => list,
        };
        lent < least
    }

    fn fill(self, list: &[u8], writes: &mut [u8]) -> Filled {
        let fitting = list.len().min(writes.len());
        let (front, rest) = match self {
            Listed::AtBack => {
                let at = writes.len() - fitting;
                let (rest, back) = writes.split_at_mut(at);
                (back, rest)
            }
            _ => writes.split_at_mut(fitting),
        };
        front.copy_from_slice(&list[..fitting]);
        if self == Listed::RestCleared {
            rest.fill(0);
        }
        let length = match self {
            Listed::LengthWithoutEnd => list.len() - 1,
            Listed::LengthInRecords => list.len() / RECORD,
            _ => list.len(),
        };
        Filled {
            number: 0,
            length: length as u32,
        }
    }

    fn spoilt(self, list: Vec<u8>, old: &[u8], new: &[u8], numbers: Numbers) -> Vec<u8> {
        let mut records: Vec<Vec<u8>> = list.chunks_exact(RECORD).map(<[u8]>::to_vec).collect();
        for record in &mut records {
            self.spoil(record, old, numbers);
        }
        let last = records.len() - 1;
        match self {
            Listed::Reversed => records.reverse(),
            Listed::FirstLast => records.rotate_left(1),
            Listed::LastTwoSwapped if last > 0 => records.swap(last - 1, last),
            Listed::FirstLeftOut => drop(records.remove(0)),
            Listed::LastLeftOut => drop(records.pop()),
            Listed::Twice => records.push(records[last].clone()),
            Listed::UnchangedLeftOut if old == new => records.clear(),
            _ => {}
        }
        let mut list = records.concat();
        list.extend(match self {
            Listed::NoEnd => &[][..],
            Listed::LongEnd => &[0, 0],
            _ => &[0],
        });
        list
    }

    fn spoil(self, record: &mut [u8], old: &[u8], numbers: Numbers) {
        let kind = numbers.kind().expect("accepted");
        match self {
            Listed::OldBytes => {
                let at = place(kind, record[1], record[2]);
                record[3..].copy_from_slice(&old[at..at + 256]);
            }
            Listed::LinkLeftOut => record[3..5].fill(0),
            Listed::SectorFirst => record.swap(1, 2),
            Listed::PlaceForSector => {
                let at = place(kind, record[1], record[2]) % kind.track_bytes();
                record[2] = (at / 256) as u8 + 1;
            }
            Listed::OtherKind => record[0] = 2,
            _ => {}
        }
    }
}

fn refusal(number: u32) -> Filled {
    Filled { number, length: 0 }
}

/// Where a sector stands in an image of this kind.
fn place(kind: Kind, track: u8, sector: u8) -> usize {
    const PASSING: [u8; 10] = [1, 4, 7, 10, 3, 6, 9, 2, 5, 8];
    let plain = usize::from(sector) - 1;
    let within = match kind {
        Kind::Moved => PASSING.iter().position(|&one| one == sector),
        _ => Some(plain),
    };
    usize::from(track) * kind.track_bytes() + 256 * within.unwrap_or(plain)
}

/// What is wrong with the replay.
#[derive(Clone, Copy, PartialEq)]
enum Replayed {
    Right,
    OtherKindTaken,
    CutTaken,
    NoEndTaken,
    NoBytesTaken,
    EndAloneRefused,
    AfterEndTaken,
    EarlyEndSkipped,
    OffDiscSkipped,
    TrackAfterLastTaken,
    SectorZeroSkipped,
    SectorTenSkipped,
    WrittenBeforeBad,
    FirstWriteWins,
    SystemRefused,
    SystemSkipped,
    UnsoundRefused,
    AlwaysPlain,
    BadListFirst,
    ListWritten,
    LinkKept,
    FirstRecordOnly,
    TwiceRefused,
    LongerThanDiscRefused,
    TrackBytesCut,
    ImageStays,
}

/// Track, sector and bytes of each record, and whether the list is taken.
type Read = (Vec<(u8, u8, Vec<u8>)>, bool);

impl Replayed {
    fn replay(self, image: &mut [u8], numbers: Numbers, list: &mut [u8]) -> u32 {
        let kind = numbers.kind().filter(|kind| kind.fits(image.len()));
        let tracks = image.len() / kind.unwrap_or(Kind::Ten).track_bytes();
        let (mut writes, good) = self.read(list, tracks, kind.unwrap_or(Kind::Ten));
        let kind = match kind {
            Some(kind) => kind,
            None if self == Replayed::BadListFirst && !good => return BAD_LIST,
            None => return SIZE,
        };
        let good = good && !self.refuses(&writes, image, kind);
        if let (Replayed::ListWritten, [first, ..]) = (self, list) {
            *first ^= 1;
        }
        match self {
            Replayed::FirstWriteWins => writes.reverse(),
            Replayed::FirstRecordOnly => writes.truncate(1),
            Replayed::ImageStays => writes.clear(),
            _ => {}
        }
        if good || self == Replayed::WrittenBeforeBad {
            for (track, sector, bytes) in &writes {
                self.write(image, kind, (*track, *sector), bytes);
            }
        }
        if good {
            0
        } else {
            BAD_LIST
        }
    }

    fn read(self, list: &[u8], tracks: usize, kind: Kind) -> Read {
        let (mut writes, mut left) = (Vec::new(), list);
        let good = loop {
            left = match left {
                [0] => break self != Replayed::EndAloneRefused || list.len() > 1,
                [] => break self.takes_end(list),
                [0, ..] if self == Replayed::EarlyEndSkipped && left.len() > RECORD => {
                    &left[RECORD..]
                }
                [0, ..] => break self == Replayed::AfterEndTaken,
                _ if left.len() < RECORD => break self == Replayed::CutTaken && left[0] == 3,
                [kind_byte, track, sector, ..] => {
                    let (here, later) = left.split_at(RECORD);
                    let off = !self.takes(*track, *sector, tracks, kind);
                    if (*kind_byte != 3 && self != Replayed::OtherKindTaken)
                        || (off && !self.skips(*sector, kind))
                    {
                        break false;
                    }
                    if !off {
                        writes.push((*track, *sector, here[3..].to_vec()));
                    }
                    later
                }
                _ => break false,
            };
        };
        (writes, good)
    }

    fn takes_end(self, list: &[u8]) -> bool {
        match self {
            Replayed::NoEndTaken => !list.is_empty(),
            Replayed::NoBytesTaken => list.is_empty(),
            _ => false,
        }
    }

    fn takes(self, track: u8, sector: u8, tracks: usize, kind: Kind) -> bool {
        let tracks = tracks + usize::from(self == Replayed::TrackAfterLastTaken);
        let track = match self {
            Replayed::TrackBytesCut => track & 0x7F,
            _ => track,
        };
        usize::from(track) < tracks && (1..=kind.sectors()).contains(&u32::from(sector))
    }

    fn skips(self, sector: u8, kind: Kind) -> bool {
        match self {
            Replayed::OffDiscSkipped => true,
            Replayed::SectorZeroSkipped => sector == 0,
            Replayed::SectorTenSkipped => kind == Kind::Nine && sector == 10,
            _ => false,
        }
    }

    fn refuses(self, writes: &[(u8, u8, Vec<u8>)], image: &[u8], kind: Kind) -> bool {
        let mut places: Vec<(u8, u8)> = writes.iter().map(|write| (write.0, write.1)).collect();
        places.sort_unstable();
        let twice = places.windows(2).any(|two| two[0] == two[1]);
        match self {
            Replayed::SystemRefused => places.contains(&(0, 1)),
            Replayed::TwiceRefused => twice,
            Replayed::LongerThanDiscRefused => writes.len() > image.len() / 256,
            Replayed::UnsoundRefused => !crate::met::is_sound(image, kind),
            _ => false,
        }
    }

    fn write(self, image: &mut [u8], kind: Kind, (track, sector): (u8, u8), bytes: &[u8]) {
        let kind = match self {
            Replayed::AlwaysPlain if kind == Kind::Moved => Kind::Ten,
            _ => kind,
        };
        let at = place(kind, track, sector);
        let kept = match self {
            Replayed::LinkKept => 2,
            Replayed::SystemSkipped if (track, sector) == (0, 1) => 256,
            _ => 0,
        };
        // A track after the last has no place.
        if let Some(place) = image.get_mut(at + kept..at + 256) {
            place.copy_from_slice(&bytes[kept..]);
        }
    }
}

macro_rules! listed {
    ($($fault:ident),*) => {
        [$((
            stringify!($fault),
            Writing {
                change: |command, image, numbers, texts, writes| {
                    Listed::$fault.change(command, image, numbers, texts, writes)
                },
                ..OF_LIBRARY
            },
        )),*]
    };
}

macro_rules! replayed {
    ($($fault:ident),*) => {
        [$((
            stringify!($fault),
            Writing {
                replay: |image, numbers, list| Replayed::$fault.replay(image, numbers, list),
                ..OF_LIBRARY
            },
        )),*]
    };
}

pub fn failures(writing: Writing) -> u64 {
    let mut driver = Driver {
        writing,
        ..Driver::new(SEED, false)
    };
    for number in 1..RUNS {
        driver.run(number);
        if driver.counts.failed > 0 {
            break;
        }
    }
    driver.counts.failed
}

#[test]
fn the_right_calls_pass() {
    let writing = Writing {
        change: listed!(Right)[0].1.change,
        replay: replayed!(Right)[0].1.replay,
        ..OF_LIBRARY
    };
    assert_eq!(failures(writing), 0);
}

#[test]
#[rustfmt::skip]
fn every_fault_planted_in_a_list_is_seen() {
    let faults = listed!(
        OldBytes, LinkLeftOut, Reversed, FirstLast, LastTwoSwapped, SectorFirst, PlaceForSector,
        OtherKind, NoEnd, LongEnd, FirstLeftOut, LastLeftOut, Twice, UnchangedLeftOut,
        LengthWithoutEnd, LengthInRecords, RestCleared, AtBack, ShortByOne, ShortAtExact,
        ShortUnlessLongest, ShortWithoutGrowth, ShortFirst, ShortBeforeRoom, WrittenWhenShort,
        FrontWhenShort, LengthWhenShort, BufferWhenRefused, LengthWhenRefused, ImageStays
    );
    for (name, writing) in faults {
        assert!(failures(writing) > 0, "{name}");
    }
}

#[test]
#[rustfmt::skip]
fn every_fault_planted_in_the_replay_is_seen() {
    let faults = replayed!(
        OtherKindTaken, CutTaken, NoEndTaken, NoBytesTaken, EndAloneRefused, AfterEndTaken,
        EarlyEndSkipped, OffDiscSkipped, TrackAfterLastTaken, SectorZeroSkipped, SectorTenSkipped,
        WrittenBeforeBad, FirstWriteWins, SystemRefused, SystemSkipped, UnsoundRefused,
        AlwaysPlain, BadListFirst, ListWritten, LinkKept, FirstRecordOnly, TwiceRefused,
        LongerThanDiscRefused, TrackBytesCut, ImageStays
    );
    for (name, writing) in faults {
        assert!(failures(writing) > 0, "{name}");
    }
}
