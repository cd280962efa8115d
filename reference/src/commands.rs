//! The commands but save, each in the order of its refusals. Refusal 1 comes
//! first in all of them, when the caller opens the disc.

use crate::check::{self, require_sound};
use crate::directory::{self, Entry, Slot, PROTECTED, UNPROTECTED};
use crate::disc::{Address, Disc, DiscMut, Sector, DISC_NAME, FREE_COUNT, LINK_BYTES, VERSION};
use crate::module::{copy_bytes, plain_header};
use crate::name::{Name, NAME_BYTES};
use crate::refusal::Refusal;
use crate::writes::WriteList;
use crate::Reading;
use std::ops::Range;

const VERSION_TEXT: &[u8; 17] = b"TANDOS 65 IMAGE 1";
/// 0/4 comes directly after 0/1 in either passing order.
const PLACE_OF_BLANK_DIRECTORY: usize = 1;

const DISC_RECORD: u8 = 1;
const DISC_RECORD_BYTES: usize = 14;
const FILE_RECORD: u8 = 2;
const FILE_RECORD_BYTES: usize = 13;
const END_RECORD: u8 = 0;
const END_RECORD_BYTES: usize = 1;

/// The directory sector, the file's last sector and the system sector.
const WRITES_OF_DELETE: usize = 3;
/// Rename and protect write the entry's directory sector.
const WRITES_OF_ENTRY: usize = 1;

/// Gives the length of the records written.
pub fn list(disc: Disc<'_>, buffer: &mut [u8]) -> Result<usize, Refusal> {
    require_sound(disc)?;
    let files = directory::entries(disc).count();
    let length = DISC_RECORD_BYTES + files * FILE_RECORD_BYTES + END_RECORD_BYTES;
    let records = buffer.get_mut(..length).ok_or(Refusal::Short)?;
    let (disc_record, rest) = records.split_at_mut(DISC_RECORD_BYTES);
    let (file_records, end_record) = rest.split_at_mut(files * FILE_RECORD_BYTES);
    disc_record[0] = DISC_RECORD;
    disc_record[1..10].copy_from_slice(disc.disc_name());
    disc_record[10..14].copy_from_slice(&disc.system()[FREE_COUNT..FREE_COUNT + 4]);
    let chunks = file_records.chunks_exact_mut(FILE_RECORD_BYTES);
    for (record, (_, entry)) in chunks.zip(directory::entries(disc)) {
        record[0] = FILE_RECORD;
        record[1..10].copy_from_slice(&entry.name.0);
        record[10..12].copy_from_slice(&entry.length.to_le_bytes());
        record[12] = entry.attribute;
    }
    end_record[0] = END_RECORD;
    Ok(length)
}

pub fn read(disc: Disc<'_>, name: &[u8], buffer: &mut [u8]) -> Result<Reading, Refusal> {
    let (_, entry) = find_typed(disc, name)?;
    let header = plain_header(disc, &entry).ok_or(Refusal::NotPlain)?;
    let front = buffer.get_mut(..header.length()).ok_or(Refusal::Short)?;
    copy_bytes(disc, &entry, front);
    Ok(Reading {
        number: 0,
        page: u32::from(header.page),
        start: u32::from(header.start),
        end: u32::from(header.end),
        transfer: u32::from(header.transfer),
        length: header.length() as u32,
    })
}

/// Gives the length of the list of writes, as rename and protect do.
pub fn delete(mut disc: DiscMut<'_>, name: &[u8], writes: &mut [u8]) -> Result<usize, Refusal> {
    let before = disc.now();
    let (slot, entry) = find_typed(before, name)?;
    refuse_protected(&entry)?;
    let last = before.locate(entry.last).ok_or(Refusal::Unsound)?;
    let mut list = WriteList::lent(writes, WRITES_OF_DELETE)?;
    let freed = usize::from(entry.length);
    let old_free_pointer = before.free_pointer().or_zeros();
    let free_count = before.free_count() + freed;
    let used_count = before.used_count() - freed;
    directory::clear_slot(&mut disc, slot);
    list.add(disc.now(), slot.sector);
    disc.put_link(last, old_free_pointer);
    list.add(disc.now(), last);
    disc.put_free_pointer(entry.first);
    disc.put_counts(free_count, used_count);
    list.add(disc.now(), Sector::SYSTEM);
    Ok(list.end())
}

pub fn rename(
    mut disc: DiscMut<'_>,
    old: &[u8],
    new: &[u8],
    writes: &mut [u8],
) -> Result<usize, Refusal> {
    let new = Name::of_file(new).ok_or(Refusal::Name)?;
    let (slot, entry) = find_typed(disc.now(), old)?;
    refuse_protected(&entry)?;
    if directory::find(disc.now(), new).is_some() {
        return Err(Refusal::Taken);
    }
    let mut list = WriteList::lent(writes, WRITES_OF_ENTRY)?;
    slot.put_name(&mut disc, new);
    list.add(disc.now(), slot.sector);
    Ok(list.end())
}

/// The directory sector is listed even if its byte stood so before.
pub fn protect(
    mut disc: DiscMut<'_>,
    name: &[u8],
    on: u32,
    writes: &mut [u8],
) -> Result<usize, Refusal> {
    let (slot, _) = find_typed(disc.now(), name)?;
    let mut list = WriteList::lent(writes, WRITES_OF_ENTRY)?;
    slot.put_attribute(&mut disc, if on == 0 { UNPROTECTED } else { PROTECTED });
    list.add(disc.now(), slot.sector);
    Ok(list.end())
}

pub fn blank(mut disc: DiscMut<'_>, name: &[u8]) -> Result<(), Refusal> {
    let name = Name::of_disc(name).ok_or(Refusal::Name)?;
    let order = disc.now().format().passing_order();
    disc.clear();
    let system = disc.system_mut();
    system[DISC_NAME..DISC_NAME + NAME_BYTES].copy_from_slice(&name.0);
    system[VERSION..VERSION + VERSION_TEXT.len()].copy_from_slice(VERSION_TEXT);
    let directory = Address {
        track: 0,
        sector: order[PLACE_OF_BLANK_DIRECTORY],
    };
    disc.put_directory_pointer(directory);
    let directory = disc.now().locate(directory);
    let free = thread_free_chain(&mut disc, |sector| {
        sector == Sector::SYSTEM || Some(sector) == directory
    });
    disc.put_counts(free, 0);
    Ok(())
}

/// Makes the free chain and both counts anew from the directory and the files.
pub fn repair(mut disc: DiscMut<'_>) -> Result<(), Refusal> {
    let taken = check::taken(disc.now())?;
    let used = check::file_sectors(disc.now());
    let free = thread_free_chain(&mut disc, |sector| taken[sector.number()]);
    disc.put_counts(free, used);
    Ok(())
}

/// Links the sectors that aren't taken in the order of a blank disc, from the
/// last back to the first, points the free pointer at the first and gives how
/// many there are. Nothing but links and the free pointer is written.
fn thread_free_chain(disc: &mut DiscMut<'_>, taken: impl Fn(Sector) -> bool) -> usize {
    let (tracks, order) = (disc.now().tracks(), disc.now().format().passing_order());
    let (mut next, mut length) = (Address::END, 0);
    for track in (0..tracks).rev() {
        for &in_track in order.iter().rev() {
            let sector = Sector::numbered(track * order.len() + usize::from(in_track) - 1);
            if !taken(sector) {
                disc.put_link(sector, next);
                next = Address {
                    track: track as u8,
                    sector: in_track,
                };
                length += 1;
            }
        }
    }
    disc.put_free_pointer(next);
    length
}

/// Where the bytes after the link of any sector on the disc, sound or not, lie
/// in the image.
pub fn view(disc: Disc<'_>, track: u32, sector: u32) -> Result<Range<usize>, Refusal> {
    let sector = disc.on_disc(track, sector).ok_or(Refusal::NoSector)?;
    let Range { start, end } = disc.place(sector);
    Ok(start + LINK_BYTES..end)
}

/// Copies the sectors to a disc of the same size in another arrangement.
pub fn rearrange(disc: Disc<'_>, mut target: DiscMut<'_>) {
    for sector in (0..disc.sectors()).map(Sector::numbered) {
        target
            .sector_mut(sector)
            .copy_from_slice(disc.sector(sector));
    }
}

/// The refusals 2, 3 and 4 that the commands on a standing file share.
fn find_typed(disc: Disc<'_>, typed: &[u8]) -> Result<(Slot, Entry), Refusal> {
    let name = Name::of_file(typed).ok_or(Refusal::Name)?;
    require_sound(disc)?;
    directory::find(disc, name).ok_or(Refusal::Absent)
}

fn refuse_protected(entry: &Entry) -> Result<(), Refusal> {
    if entry.is_protected() {
        Err(Refusal::Protected)
    } else {
        Ok(())
    }
}
