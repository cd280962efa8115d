//! Wrong saves, deletes and renames in place of the library's: the right call, with
//! one thing more or other than it should be.

use crate::calls::Call;
use crate::discs::{self, ATTRIBUTE, ENTRY_BYTES};
use crate::kind::{Kind, Numbers};
use crate::met::is_sound;
use crate::writing::{Writing, OF_LIBRARY, RECORD};
use reference::command::Command;
use reference::Filled;
use std::ops::Range;

const FREE_POINTER: usize = 0x10;
const FREE_COUNT: Range<usize> = 0x14..0x16;
const USED_COUNT: Range<usize> = 0x16..0x18;
const DISC_NAME: Range<usize> = 0x18..0x21;
const VERSION: Range<usize> = 0x40..0x51;
/// Of a directory sector, behind its slots.
const TRAILER: Range<usize> = 243..256;
const NAME_BYTES: usize = 9;

/// Track and sector.
type Place = [u8; 2];
type Slot = [u8; ENTRY_BYTES];

/// What is wrong with the calls of one command.
#[derive(Clone, Copy, Debug, PartialEq)]
pub enum Edit {
    Right,
    // Of any command: the disc stays sound, and its files are right.
    EndTrackCleared,
    LastBodyCleared,
    TrailersCleared,
    BootCleared,
    CountedInBoot,
    VersionWritten,
    DiscNameCleared,
    FreeByNumber,
    FreeReversed,
    EntriesMovedUp,
    EntriesSorted,
    ProtectionLifted,
    // Of a save.
    FromEnd,
    FirstSkipped,
    TakenReversed,
    LastSlot,
    Protected,
    // Of a delete.
    Behind,
    LastBehind,
    FileReversed,
    LastIntoGap,
    BodiesCleared,
    EndTrackWritten,
    SlotNumberLeft,
    PointerLeft,
    // Of a rename.
    FirstFreeSlot,
    ToFront,
    OldNameKept,
    ExtensionKept,
    TailKept,
    // Of several.
    FreeCountLeft,
    UsedCountLeft,
    Unchanged,
}

/// A disc after a right call and what it was before.
struct Disc<'a> {
    kind: Kind,
    old: &'a [u8],
    image: &'a mut [u8],
}

impl Edit {
    pub fn change(
        self,
        of: Call,
        command: &Command,
        image: &mut [u8],
        numbers: Numbers,
        texts: [&[u8]; 2],
        writes: &mut [u8],
    ) -> Filled {
        let kind = numbers.kind().filter(|&kind| is_sound(image, kind));
        let kind = kind.filter(|_| Call::of(command) == of);
        let old = image.to_vec();
        if let Some(kind) = kind {
            self.prepare(image, kind, texts[1].len());
        }
        let filled = (OF_LIBRARY.change)(command, image, numbers, texts, writes);
        match kind {
            Some(_) if filled.number != 0 => image.copy_from_slice(&old),
            Some(kind) => {
                let old = &old;
                self.edit(&mut Disc { kind, old, image });
                let list = &mut writes[..filled.length as usize];
                list_anew(list, image, kind);
            }
            None => {}
        }
        filled
    }

    /// Another order of the free chain, from whose head a sheet of so many bytes is
    /// then saved.
    fn prepare(self, image: &mut [u8], kind: Kind, length: usize) {
        let mut free = discs::free_sectors(image, kind);
        let taken = 1 + (length.max(245) - 245 + 252) / 253;
        if taken >= free.len() {
            return;
        }
        match self {
            Edit::FromEnd => free.rotate_right(taken),
            Edit::FirstSkipped => free[..=taken].rotate_left(1),
            Edit::TakenReversed => free[..taken].reverse(),
            _ => return,
        }
        thread(image, kind, &free);
    }

    fn edit(self, disc: &mut Disc<'_>) {
        match self {
            Edit::Unchanged => disc.image.copy_from_slice(disc.old),
            Edit::BootCleared => disc.image[..FREE_POINTER].fill(0),
            Edit::CountedInBoot => disc.image[0] = disc.image[0].wrapping_add(1),
            Edit::VersionWritten => disc.image[VERSION].copy_from_slice(b"TANDOS 65 IMAGE 1"),
            Edit::DiscNameCleared => disc.image[DISC_NAME].fill(b' '),
            Edit::FreeCountLeft => disc.leave(FREE_COUNT),
            Edit::UsedCountLeft => disc.leave(USED_COUNT),
            Edit::PointerLeft => disc.leave(FREE_POINTER..FREE_POINTER + 2),
            Edit::TrailersCleared | Edit::SlotNumberLeft | Edit::OldNameKept => {
                self.edit_directory(disc);
            }
            Edit::EndTrackCleared | Edit::LastBodyCleared | Edit::EndTrackWritten => {
                self.edit_end(disc);
            }
            Edit::BodiesCleared => {
                for place in disc.freed() {
                    let at = disc.at(place);
                    disc.image[at + 2..at + 256].fill(0);
                }
            }
            _ => {
                self.edit_chain(disc);
                self.edit_slots(disc);
            }
        }
    }

    fn edit_directory(self, disc: &mut Disc<'_>) {
        for place in discs::directory_sectors(disc.image, disc.kind) {
            let at = disc.at(place);
            match self {
                Edit::TrailersCleared => disc.image[at..at + 256][TRAILER].fill(0),
                Edit::SlotNumberLeft => disc.leave(at + 2..at + 3),
                _ => {}
            }
        }
        if let (Edit::OldNameKept, Some(slot)) = (self, disc.changed_slot()) {
            let at = disc.slots()[slot];
            let kept = at / 256 * 256 + TRAILER.start;
            disc.image[kept..kept + NAME_BYTES].copy_from_slice(&disc.old[at..at + NAME_BYTES]);
        }
    }

    /// The last free sector.
    fn edit_end(self, disc: &mut Disc<'_>) {
        let free = disc.free();
        let at = match free.last() {
            Some(&last) => disc.at(last),
            None => return,
        };
        match self {
            Edit::EndTrackCleared => disc.image[at] = 0,
            Edit::LastBodyCleared => disc.image[at + 2..at + 256].fill(0),
            _ if disc.freed().len() == free.len() => disc.image[at] = 0x55,
            _ => {}
        }
    }

    fn edit_chain(self, disc: &mut Disc<'_>) {
        let (mut free, freed) = (disc.free(), disc.freed().len());
        match self {
            Edit::FreeByNumber => free.sort_unstable(),
            Edit::FreeReversed => free.reverse(),
            Edit::Behind => free.rotate_left(freed),
            Edit::LastBehind => free[freed - 1..].rotate_left(1),
            Edit::FileReversed => free[..freed].reverse(),
            _ => return,
        }
        thread(disc.image, disc.kind, &free);
    }

    fn edit_slots(self, disc: &mut Disc<'_>) {
        let changed = disc.changed_slot();
        let before = changed.map(|slot| {
            let at = disc.slots()[slot];
            disc.old[at..at + ENTRY_BYTES].to_vec()
        });
        let mut slots = disc.contents();
        let is_free = |slot: &Slot| slot == &[0; ENTRY_BYTES];
        let first_free = slots.iter().position(is_free);
        let last_free = slots.iter().rposition(is_free);
        let last_used = slots.iter().rposition(|slot| !is_free(slot));
        match (self, changed) {
            (Edit::EntriesMovedUp, _) => slots.sort_by_key(is_free),
            (Edit::EntriesSorted, _) => slots.sort_by_key(|slot| (is_free(slot), *slot)),
            (Edit::ProtectionLifted, _) => slots.iter_mut().for_each(|slot| slot[ATTRIBUTE] = 0),
            (Edit::Protected, Some(new)) => slots[new][ATTRIBUTE] = 0x80,
            (Edit::LastSlot, Some(new)) => slots.swap(new, last_free.unwrap_or(new).max(new)),
            (Edit::LastIntoGap, Some(gap)) => slots.swap(gap, last_used.unwrap_or(gap).max(gap)),
            (Edit::FirstFreeSlot, Some(new)) => slots.swap(new, first_free.unwrap_or(new)),
            (Edit::ToFront, Some(new)) => slots.swap(new, 0),
            (Edit::ExtensionKept, Some(new)) => {
                slots[new][6..NAME_BYTES].copy_from_slice(&before.expect("changed")[6..NAME_BYTES]);
            }
            (Edit::TailKept, Some(new)) => {
                let names = slots[new].iter_mut().zip(before.expect("changed"));
                let padding = names.take(NAME_BYTES).filter(|(now, _)| **now == b' ');
                padding.for_each(|(now, was)| *now = was);
            }
            _ => return,
        }
        disc.put_contents(&slots);
    }
}

impl Disc<'_> {
    fn at(&self, [track, sector]: Place) -> usize {
        discs::place(self.image, self.kind, [sector, track])
    }

    fn leave(&mut self, bytes: Range<usize>) {
        self.image[bytes.clone()].copy_from_slice(&self.old[bytes]);
    }

    fn free(&self) -> Vec<Place> {
        discs::free_sectors(self.image, self.kind)
    }

    /// The sectors at the head of the free chain that a delete has put there.
    fn freed(&self) -> Vec<Place> {
        let mut free = self.free();
        let old = discs::free_sectors(self.old, self.kind).len();
        free.truncate(free.len().saturating_sub(old));
        free
    }

    fn slots(&self) -> Vec<usize> {
        discs::slots(self.image, self.kind)
    }

    fn contents(&self) -> Vec<Slot> {
        let content = |at: usize| std::array::from_fn(|byte| self.image[at + byte]);
        self.slots().into_iter().map(content).collect()
    }

    /// The place in directory order of the slot that the call has changed; none if
    /// the directory grew.
    fn changed_slot(&self) -> Option<usize> {
        let slots = discs::slots(self.old, self.kind);
        let bytes = |at: usize| at..at + ENTRY_BYTES;
        let changed = |&at: &usize| self.old[bytes(at)] != self.image[bytes(at)];
        slots.iter().position(changed)
    }

    /// Writes all slots, and how many of each sector are in use.
    fn put_contents(&mut self, slots: &[Slot]) {
        let at = self.slots();
        let sectors = at.chunks(discs::SLOTS_PER_DIRECTORY_SECTOR);
        for (at, slots) in sectors.zip(slots.chunks(discs::SLOTS_PER_DIRECTORY_SECTOR)) {
            for (&at, slot) in at.iter().zip(slots) {
                self.image[at..at + ENTRY_BYTES].copy_from_slice(slot);
            }
            let used = slots.iter().filter(|slot| **slot != [0; ENTRY_BYTES]);
            self.image[at[0] - 1] = used.count() as u8;
        }
    }
}

/// Makes the sectors of the free chain one in this order, which ends as it ended.
fn thread(image: &mut [u8], kind: Kind, order: &[Place]) {
    let at = |image: &[u8], [track, sector]: Place| discs::place(image, kind, [sector, track]);
    let old_end = discs::free_sectors(image, kind).last().copied();
    let (first, last, old_end) = match (order.first(), order.last(), old_end) {
        (Some(first), Some(last), Some(old_end)) => (first, *last, at(image, old_end)),
        _ => return,
    };
    let end = [image[old_end], image[old_end + 1]];
    for pair in order.windows(2) {
        let from = at(image, pair[0]);
        image[from..from + 2].copy_from_slice(&pair[1]);
    }
    let last = at(image, last);
    image[last..last + 2].copy_from_slice(&end);
    image[FREE_POINTER..FREE_POINTER + 2].copy_from_slice(&[first[1], first[0]]);
}

/// The sectors of a list as they now stand.
fn list_anew(list: &mut [u8], image: &[u8], kind: Kind) {
    for record in list.chunks_exact_mut(RECORD) {
        let at = discs::place(image, kind, [record[2], record[1]]);
        record[3..].copy_from_slice(&image[at..at + 256]);
    }
}

/// The faults of a command with the calls that have them in place of the library's.
macro_rules! planted {
    ($($call:ident: $($edit:ident),+;)+) => {
        vec![$($((
            concat!(stringify!($call), " ", stringify!($edit)),
            Writing {
                change: |command, image, numbers, texts, writes| {
                    let call = Call::$call;
                    Edit::$edit.change(call, command, image, numbers, texts, writes)
                },
                ..OF_LIBRARY
            },
        )),+),+]
    };
}

pub type Planted = Vec<(&'static str, Writing)>;

/// The frame of the faults without one.
pub fn right() -> Writing {
    Writing {
        change: |command, image, numbers, texts, writes| {
            let call = Call::of(command);
            Edit::Right.change(call, command, image, numbers, texts, writes)
        },
        ..OF_LIBRARY
    }
}

/// Those that leave a sound disc with the right files, against a law.
#[rustfmt::skip]
pub fn against_a_law() -> Planted {
    planted!(
        Save: EndTrackCleared, LastBodyCleared, TrailersCleared, BootCleared, CountedInBoot,
            VersionWritten, DiscNameCleared, FreeByNumber, FreeReversed, EntriesMovedUp,
            EntriesSorted, ProtectionLifted, FromEnd, FirstSkipped, TakenReversed;
        Delete: EndTrackCleared, LastBodyCleared, TrailersCleared, BootCleared, CountedInBoot,
            VersionWritten, DiscNameCleared, FreeByNumber, FreeReversed, EntriesMovedUp,
            EntriesSorted, ProtectionLifted, Behind, LastBehind, FileReversed, LastIntoGap;
        Rename: EndTrackCleared, LastBodyCleared, TrailersCleared, BootCleared, CountedInBoot,
            VersionWritten, DiscNameCleared, FreeByNumber, FreeReversed, EntriesMovedUp,
            EntriesSorted, ProtectionLifted, FirstFreeSlot, ToFront, OldNameKept;
    )
}

/// Those of which both laws say nothing.
pub fn left_open() -> Planted {
    planted!(Save: LastSlot; Delete: BodiesCleared, EndTrackWritten;)
}

/// Those after which the disc is not sound, or the files are not the right ones.
pub fn breaking() -> Planted {
    planted!(
        Save: FreeCountLeft, UsedCountLeft, Protected, Unchanged;
        Delete: FreeCountLeft, UsedCountLeft, SlotNumberLeft, PointerLeft, Unchanged;
        Rename: ExtensionKept, TailKept, Unchanged;
    )
}
