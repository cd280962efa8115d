//! A second, independent program for TANDOS 65 disc images.
//!
//! The public calls work on plain bytes and answer in numbers: 0 is done, any
//! other number is a refusal and leaves all lent memory as it was. Any bytes
//! may be handed in.
//!
//! Each call on an image is told how many sectors a track has, 9 or 10, and how
//! they are arranged in the image: 0 is plain, the sectors of each track by
//! number; 1 is moved, in passing order, which only discs of ten have. Any
//! other numbers are refused with 1, like a wrong length. The weekly totals are
//! of no image: their call is told neither.

#![forbid(unsafe_code)]

pub mod cancels;
mod check;
pub mod command;
mod commands;
pub mod cuts;
mod directory;
mod disc;
pub mod generate;
pub mod history;
mod module;
mod name;
mod refusal;
pub mod repair_book;
mod save;
mod totals;
pub mod totals_book;
mod writes;
pub mod writes_book;

use disc::{Disc, DiscMut};
use refusal::Refusal;
use std::ops::Range;

/// The check's answer: `rule` is the lowest broken rule, or 0 when sound.
#[derive(Debug, Clone, Copy, PartialEq, Eq)]
pub struct Checked {
    pub number: u32,
    pub rule: u32,
}

/// The answer of a list, or of a call that lists its writes: `length` bytes of
/// records stand at the front of the buffer.
#[derive(Debug, Clone, Copy, PartialEq, Eq)]
pub struct Filled {
    pub number: u32,
    pub length: u32,
}

/// A read's answer: `length` bytes of the module stand in the buffer.
#[derive(Debug, Clone, Copy, PartialEq, Eq)]
pub struct Reading {
    pub number: u32,
    pub page: u32,
    pub start: u32,
    pub end: u32,
    pub transfer: u32,
    pub length: u32,
}

/// Checks the eight rules of a sound image.
pub fn check(image: &[u8], sectors: u32, arrangement: u32) -> Checked {
    match Disc::open(image, sectors, arrangement) {
        Ok(disc) => Checked {
            number: 0,
            rule: check::broken_rule(disc),
        },
        Err(refusal) => Checked {
            number: refusal.number(),
            rule: 0,
        },
    }
}

/// Writes the disc's and the files' records to the front of the buffer.
pub fn list(image: &[u8], sectors: u32, arrangement: u32, buffer: &mut [u8]) -> Filled {
    let disc = Disc::open(image, sectors, arrangement);
    filled(disc.and_then(|disc| commands::list(disc, buffer)))
}

/// Reads a file's load module, its bytes to the front of the buffer.
pub fn read(
    image: &[u8],
    sectors: u32,
    arrangement: u32,
    name: &[u8],
    buffer: &mut [u8],
) -> Reading {
    let disc = Disc::open(image, sectors, arrangement);
    let reading = disc.and_then(|disc| commands::read(disc, name, buffer));
    reading.unwrap_or_else(|refusal| Reading {
        number: refusal.number(),
        page: 0,
        start: 0,
        end: 0,
        transfer: 0,
        length: 0,
    })
}

/// Saves a sheet of bytes as a new, unprotected file, and lists the writes.
#[allow(clippy::too_many_arguments)]
pub fn save(
    image: &mut [u8],
    sectors: u32,
    arrangement: u32,
    name: &[u8],
    page: u32,
    start: u16,
    transfer: u16,
    sheet: &[u8],
    writes: &mut [u8],
) -> Filled {
    let disc = DiscMut::open(image, sectors, arrangement);
    filled(disc.and_then(|disc| save::save(disc, name, page, start, transfer, sheet, writes)))
}

/// Deletes an unprotected file, and lists the writes; the file's sectors go to
/// the head of the free chain.
pub fn delete(
    image: &mut [u8],
    sectors: u32,
    arrangement: u32,
    name: &[u8],
    writes: &mut [u8],
) -> Filled {
    let disc = DiscMut::open(image, sectors, arrangement);
    filled(disc.and_then(|disc| commands::delete(disc, name, writes)))
}

/// Gives an unprotected file a name that does not stand yet, and lists the
/// write.
pub fn rename(
    image: &mut [u8],
    sectors: u32,
    arrangement: u32,
    old: &[u8],
    new: &[u8],
    writes: &mut [u8],
) -> Filled {
    let disc = DiscMut::open(image, sectors, arrangement);
    filled(disc.and_then(|disc| commands::rename(disc, old, new, writes)))
}

/// Protects a file, or with 0 lifts its protection, and lists the write.
pub fn protect(
    image: &mut [u8],
    sectors: u32,
    arrangement: u32,
    name: &[u8],
    on: u32,
    writes: &mut [u8],
) -> Filled {
    let disc = DiscMut::open(image, sectors, arrangement);
    filled(disc.and_then(|disc| commands::protect(disc, name, on, writes)))
}

/// The answer of a call that fills a lent buffer.
fn filled(outcome: Result<usize, Refusal>) -> Filled {
    match outcome {
        Ok(length) => Filled {
            number: 0,
            length: length as u32,
        },
        Err(refusal) => Filled {
            number: refusal.number(),
            length: 0,
        },
    }
}

/// Writes the sectors of a list of writes, in its order, to an image that need
/// not be sound.
pub fn replay(image: &mut [u8], sectors: u32, arrangement: u32, writes: &[u8]) -> u32 {
    let disc = DiscMut::open(image, sectors, arrangement);
    refusal::number(disc.and_then(|disc| writes::replay(disc, writes)))
}

/// Makes the whole image a blank data disc.
pub fn blank(image: &mut [u8], sectors: u32, arrangement: u32, name: &[u8]) -> u32 {
    let disc = DiscMut::open(image, sectors, arrangement);
    refusal::number(disc.and_then(|disc| commands::blank(disc, name)))
}

/// Threads every sector that neither the directory nor a file meets into a new
/// free chain and sets both counts, if rules 1 to 5 of the check hold.
pub fn repair(image: &mut [u8], sectors: u32, arrangement: u32) -> u32 {
    let disc = DiscMut::open(image, sectors, arrangement);
    refusal::number(disc.and_then(commands::repair))
}

/// The 254 bytes after a sector's link, in the image itself; empty if refused.
pub fn view(image: &[u8], sectors: u32, arrangement: u32, track: u32, sector: u32) -> &[u8] {
    viewed(image, sectors, arrangement, track, sector).map_or(&[], |shown| &image[shown])
}

/// The number that belongs to a view with the same arguments.
pub fn view_number(image: &[u8], sectors: u32, arrangement: u32, track: u32, sector: u32) -> u32 {
    refusal::number(viewed(image, sectors, arrangement, track, sector).map(|_| ()))
}

/// Where in the image the bytes of a view with the same arguments begin; 0 if
/// refused, since a link stands before every view.
pub fn view_start(image: &[u8], sectors: u32, arrangement: u32, track: u32, sector: u32) -> u32 {
    viewed(image, sectors, arrangement, track, sector).map_or(0, |shown| shown.start as u32)
}

fn viewed(
    image: &[u8],
    sectors: u32,
    arrangement: u32,
    track: u32,
    sector: u32,
) -> Result<Range<usize>, Refusal> {
    let disc = Disc::open(image, sectors, arrangement)?;
    commands::view(disc, track, sector)
}

/// Adds a sheet's pieces to the running totals of workers 1 to 500.
pub fn add_sheet(totals: &mut [u32], sheet: &[u8]) -> u32 {
    refusal::number(totals::add_sheet(totals, sheet))
}

/// The sectors of an image arranged as `from`, in the arrangement `to`; nothing
/// for a wrong length or number.
pub fn rearranged(image: &[u8], sectors: u32, from: u32, to: u32) -> Option<Vec<u8>> {
    let disc = Disc::open(image, sectors, from).ok()?;
    let mut other = vec![0; image.len()];
    commands::rearrange(disc, DiscMut::open(&mut other, sectors, to).ok()?);
    Some(other)
}
