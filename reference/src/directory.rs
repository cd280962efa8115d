//! Directory sectors, slots and entries.

use crate::disc::{word, Address, Disc, DiscMut, Sector};
use crate::name::{Name, NAME_BYTES};

pub const ENTRIES_IN_USE: usize = 2;
const SLOTS: usize = 15;
const SLOT_BYTES: usize = 16;
const FIRST_SLOT: usize = 3;
const ATTRIBUTE: usize = 15;

pub const UNPROTECTED: u8 = 0x00;
pub const PROTECTED: u8 = 0x80;

/// One of the fifteen slots of a directory sector.
#[derive(Debug, Clone, Copy, PartialEq, Eq)]
pub struct Slot {
    pub sector: Sector,
    pub index: usize,
}

impl Slot {
    fn offset(self) -> usize {
        FIRST_SLOT + self.index * SLOT_BYTES
    }

    pub fn bytes<'a>(self, disc: Disc<'a>) -> &'a [u8] {
        &disc.sector(self.sector)[self.offset()..self.offset() + SLOT_BYTES]
    }

    pub fn bytes_mut<'a>(self, disc: &'a mut DiscMut<'_>) -> &'a mut [u8] {
        &mut disc.sector_mut(self.sector)[self.offset()..self.offset() + SLOT_BYTES]
    }

    pub fn put_name(self, disc: &mut DiscMut<'_>, name: Name) {
        self.bytes_mut(disc)[..NAME_BYTES].copy_from_slice(&name.0);
    }

    pub fn put_attribute(self, disc: &mut DiscMut<'_>, attribute: u8) {
        self.bytes_mut(disc)[ATTRIBUTE] = attribute;
    }
}

/// What a slot in use says of its file.
#[derive(Debug, Clone, Copy, PartialEq, Eq)]
pub struct Entry {
    pub name: Name,
    pub length: u16,
    pub first: Address,
    pub last: Address,
    pub attribute: u8,
}

impl Entry {
    /// A free slot, sixteen zeros, holds no entry.
    pub fn decode(slot: &[u8]) -> Option<Entry> {
        if slot.iter().all(|&byte| byte == 0) {
            return None;
        }
        Some(Entry {
            name: Name::stored(slot),
            length: word(slot, 9),
            first: Address::from_pointer(&slot[11..]),
            last: Address::from_pointer(&slot[13..]),
            attribute: slot[ATTRIBUTE],
        })
    }

    pub fn encode(&self) -> [u8; SLOT_BYTES] {
        let mut slot = [0; SLOT_BYTES];
        slot[..NAME_BYTES].copy_from_slice(&self.name.0);
        slot[9..11].copy_from_slice(&self.length.to_le_bytes());
        slot[11..13].copy_from_slice(&self.first.to_pointer());
        slot[13..15].copy_from_slice(&self.last.to_pointer());
        slot[ATTRIBUTE] = self.attribute;
        slot
    }

    pub fn is_protected(&self) -> bool {
        self.attribute == PROTECTED
    }
}

pub fn sectors(disc: Disc<'_>) -> impl Iterator<Item = Sector> + '_ {
    disc.chain(disc.directory_pointer())
}

pub fn slots_of(sector: Sector) -> impl Iterator<Item = Slot> {
    (0..SLOTS).map(move |index| Slot { sector, index })
}

/// Every slot in directory order.
pub fn slots(disc: Disc<'_>) -> impl Iterator<Item = Slot> + '_ {
    sectors(disc).flat_map(slots_of)
}

/// Every slot in use, in directory order, with its entry.
pub fn entries(disc: Disc<'_>) -> impl Iterator<Item = (Slot, Entry)> + '_ {
    slots(disc).filter_map(move |slot| Some((slot, Entry::decode(slot.bytes(disc))?)))
}

pub fn find(disc: Disc<'_>, name: Name) -> Option<(Slot, Entry)> {
    slots(disc)
        .find(|slot| slot.bytes(disc)[..NAME_BYTES] == name.0)
        .and_then(|slot| Some((slot, Entry::decode(slot.bytes(disc))?)))
}

/// The first slot in directory order that is free.
pub fn free_slot(disc: Disc<'_>) -> Option<Slot> {
    slots(disc).find(|slot| Entry::decode(slot.bytes(disc)).is_none())
}

/// Fills a slot and counts it in its sector's byte 2.
pub fn fill_slot(disc: &mut DiscMut<'_>, slot: Slot, entry: &Entry) {
    slot.bytes_mut(disc).copy_from_slice(&entry.encode());
    disc.sector_mut(slot.sector)[ENTRIES_IN_USE] += 1;
}

/// Clears a slot and takes it from its sector's byte 2.
pub fn clear_slot(disc: &mut DiscMut<'_>, slot: Slot) {
    slot.bytes_mut(disc).fill(0);
    disc.sector_mut(slot.sector)[ENTRIES_IN_USE] -= 1;
}
