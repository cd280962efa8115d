//! Load modules: their header, and how their bytes lie in a file's sectors.

use crate::directory::Entry;
use crate::disc::{word, Disc, LINK_BYTES, SECTOR_BYTES};

const FIRST_ROOM: usize = 245;
const LATER_ROOM: usize = 253;
const ADDRESSES: usize = 65_536;
const MAX_PAGE: u32 = 7;

const HEADER_MARK: u8 = 0xFF;
const HEADER_BYTES: usize = 8;

/// How many sectors a module of `length` bytes takes.
pub fn sectors_taken(length: usize) -> usize {
    let beyond_first = length.saturating_sub(FIRST_ROOM);
    1 + (beyond_first + LATER_ROOM - 1) / LATER_ROOM
}

/// The header of the first sector, its $FF apart.
#[derive(Debug, Clone, Copy, PartialEq, Eq)]
pub struct Header {
    pub page: u8,
    pub start: u16,
    pub end: u16,
    pub transfer: u16,
}

impl Header {
    /// The header for `length` bytes, if page and length are in range.
    pub fn new(page: u32, start: u16, transfer: u16, length: usize) -> Option<Header> {
        let fits = (1..=ADDRESSES - usize::from(start)).contains(&length);
        if page > MAX_PAGE || !fits {
            return None;
        }
        Some(Header {
            page: page as u8,
            start,
            end: (usize::from(start) + length - 1) as u16,
            transfer,
        })
    }

    /// The number of bytes that the addresses span. An end below the start
    /// belongs to no module, and `decode` lets none through.
    pub fn length(&self) -> usize {
        usize::from(self.end) - usize::from(self.start) + 1
    }

    fn encode(&self) -> [u8; HEADER_BYTES] {
        let mut bytes = [0; HEADER_BYTES];
        bytes[0] = HEADER_MARK;
        bytes[1] = self.page;
        bytes[2..4].copy_from_slice(&self.start.to_le_bytes());
        bytes[4..6].copy_from_slice(&self.end.to_le_bytes());
        bytes[6..8].copy_from_slice(&self.transfer.to_le_bytes());
        bytes
    }

    fn decode(sector: &[u8]) -> Option<Header> {
        let bytes = &sector[LINK_BYTES..];
        let header = Header {
            page: bytes[1],
            start: word(bytes, 2),
            end: word(bytes, 4),
            transfer: word(bytes, 6),
        };
        let right = bytes[0] == HEADER_MARK
            && u32::from(header.page) <= MAX_PAGE
            && header.start <= header.end;
        right.then_some(header)
    }
}

/// Where the length byte stands in the sector at `position` of a file.
fn length_byte(position: usize) -> usize {
    if position == 0 {
        LINK_BYTES + HEADER_BYTES
    } else {
        LINK_BYTES
    }
}

/// Writes all of a module's sector at `position` but its link, and gives the
/// bytes left for the sectors after it.
pub fn write_sector<'a>(
    sector: &mut [u8],
    position: usize,
    header: &Header,
    bytes: &'a [u8],
) -> &'a [u8] {
    let at = length_byte(position);
    if position == 0 {
        sector[LINK_BYTES..at].copy_from_slice(&header.encode());
    }
    let held = bytes.len().min(SECTOR_BYTES - at - 1);
    let (now, later) = bytes.split_at(held);
    let data = at + 1;
    sector[at] = held as u8;
    sector[data..data + held].copy_from_slice(now);
    sector[data + held..].fill(0);
    later
}

/// The header of a file whose sectors are, links apart, those of a module.
pub fn plain_header(disc: Disc<'_>, entry: &Entry) -> Option<Header> {
    let first = disc.locate(entry.first)?;
    let header = Header::decode(disc.sector(first))?;
    let mut left = header.length();
    if sectors_taken(left) != usize::from(entry.length) {
        return None;
    }
    for (position, sector) in disc.chain(entry.first).enumerate() {
        left -= plain_length(disc.sector(sector), position, left)?;
    }
    Some(header)
}

/// How many bytes a sector holds when `left` are still to come: filled if
/// they allow it, else the rest and zeros.
fn plain_length(sector: &[u8], position: usize, left: usize) -> Option<usize> {
    let at = length_byte(position);
    let held = left.min(SECTOR_BYTES - at - 1);
    let padding = &sector[at + 1 + held..];
    let plain = usize::from(sector[at]) == held && padding.iter().all(|&byte| byte == 0);
    plain.then_some(held)
}

/// Copies a plain file's bytes into a buffer of exactly their number.
pub fn copy_bytes(disc: Disc<'_>, entry: &Entry, buffer: &mut [u8]) {
    let mut rest = buffer;
    for (position, sector) in disc.chain(entry.first).enumerate() {
        let data = &disc.sector(sector)[length_byte(position) + 1..];
        let (now, later) = rest.split_at_mut(rest.len().min(data.len()));
        now.copy_from_slice(&data[..now.len()]);
        rest = later;
    }
}
