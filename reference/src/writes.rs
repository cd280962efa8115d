//! The list of what a command wrote, sector by sector, and its replay.

use crate::disc::{Address, Disc, DiscMut, Sector, SECTOR_BYTES};
use crate::refusal::Refusal;

const WRITE: u8 = 3;
/// Kind, track and sector stand before a record's 256 bytes.
const WRITE_FRONT: usize = 3;
const WRITE_BYTES: usize = WRITE_FRONT + SECTOR_BYTES;
const END: u8 = 0;
const END_BYTES: usize = 1;

/// A list that grows, at the front of a buffer that will hold all of it.
pub struct WriteList<'a> {
    list: &'a mut [u8],
    filled: usize,
}

impl<'a> WriteList<'a> {
    /// The list of a command that is about to make so many writes. This is the
    /// last that can refuse it.
    pub fn lent(buffer: &'a mut [u8], writes: usize) -> Result<WriteList<'a>, Refusal> {
        let length = writes * WRITE_BYTES + END_BYTES;
        let list = buffer.get_mut(..length).ok_or(Refusal::Short)?;
        Ok(WriteList { list, filled: 0 })
    }

    /// Lists a sector, which the command has just written for the only time.
    pub fn add(&mut self, disc: Disc<'_>, sector: Sector) {
        let end = self.filled + WRITE_BYTES;
        let (front, bytes) = self.list[self.filled..end].split_at_mut(WRITE_FRONT);
        let address = disc.address(sector);
        front.copy_from_slice(&[WRITE, address.track, address.sector]);
        bytes.copy_from_slice(disc.sector(sector));
        self.filled = end;
    }

    /// Ends the list and gives its length.
    pub fn end(self) -> usize {
        self.list[self.filled] = END;
        self.filled + END_BYTES
    }
}

/// Writes the sectors of a list, once all of it is judged.
pub fn replay(mut disc: DiscMut<'_>, list: &[u8]) -> Result<(), Refusal> {
    let records = records(list).ok_or(Refusal::BadList)?;
    for record in records.chunks_exact(WRITE_BYTES) {
        target(disc.now(), record).ok_or(Refusal::BadList)?;
    }
    for record in records.chunks_exact(WRITE_BYTES) {
        if let Some(sector) = target(disc.now(), record) {
            disc.sector_mut(sector)
                .copy_from_slice(&record[WRITE_FRONT..]);
        }
    }
    Ok(())
}

/// What stands before the kind 0 at the end, if that may be whole records. A
/// kind 0 before the end is found when the records' kinds are.
fn records(list: &[u8]) -> Option<&[u8]> {
    let (&end, records) = list.split_last()?;
    (end == END && records.len() % WRITE_BYTES == 0).then_some(records)
}

/// The sector that a record writes, if it is of the right kind and on the disc.
fn target(disc: Disc<'_>, record: &[u8]) -> Option<Sector> {
    let address = Address::from_link(&record[1..]);
    disc.locate(address).filter(|_| record[0] == WRITE)
}
