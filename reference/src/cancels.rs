//! The two laws of request h, asked of the images of any library.
//!
//! The first: "If a save is accepted, needs no new directory sector, and the same
//! file is deleted by the next call, accepted too, every byte of the image is as
//! before except bytes 2 to 255 of the sectors that the file took, and the track
//! byte of the old end of the free chain where the save reached it."
//!
//! The second: "renaming A to B and directly then B to C, both accepted, gives
//! the image that A to C, lent the same as A to B, gives when C isn't A, and the
//! starting image when C is A."
//!
//! That the calls were accepted, and that none came between, is the caller's to
//! see. Only images are judged here, apart from the code of the commands.

use crate::disc::{Disc, Sector, FREE_POINTER, LINK_BYTES};
use crate::history::{follow, module_sectors, pointer, Book, WHOLE_PAGE};
use crate::name::Name;
use std::ops::Range;

/// The exceptions of the first law as places of the image, ascending: "bytes 2 to
/// 255 of the sectors that the file took, and the track byte of the old end of
/// the free chain where the save reached it". Each sector gives one range, and
/// the track byte one; ranges that touch are not joined.
///
/// None if no save of `length` bytes is accepted on this image, whatever its
/// other arguments, or if it needs a new directory sector.
pub fn excepted(
    before: &[u8],
    sectors: u32,
    arrangement: u32,
    length: usize,
) -> Option<Vec<Range<usize>>> {
    let book = Book::start(before, sectors, arrangement)?;
    let disc = Disc::open(before, sectors, arrangement).ok()?;
    let needed = sectors_without_growth(&book, length)?;
    let free = follow(disc, pointer(disc.system(), FREE_POINTER))?;
    let taken = free.get(..needed)?;
    let place = |number: usize| disc.place(Sector::numbered(number));
    let mut places: Vec<Range<usize>> = taken
        .iter()
        .map(|&number| place(number).start + LINK_BYTES..place(number).end)
        .collect();
    if taken.len() == free.len() {
        let old_end = place(*taken.last()?).start;
        places.push(old_end..old_end + 1);
    }
    places.sort_unstable_by_key(|place| place.start);
    Some(places)
}

/// The sectors that a module of so many bytes takes, if there is such a module
/// and its save needs no more than these.
fn sectors_without_growth(book: &Book, length: usize) -> Option<usize> {
    let is_module = (1..=WHOLE_PAGE).contains(&length);
    let needed = is_module.then(|| module_sectors(length))?;
    (book.need(length) == needed).then_some(needed)
}

/// The first law: "every byte of the image is as before" outside the exceptions.
/// Otherwise the lowest place that isn't. If the lengths differ, the first place
/// that only one of the images has is such a place too.
pub fn cancelled(before: &[u8], back: &[u8], excepted: &[Range<usize>]) -> Result<(), usize> {
    let both_have = before.len().min(back.len());
    let broken =
        |&at: &usize| before[at] != back[at] && !excepted.iter().any(|places| places.contains(&at));
    match (0..both_have).find(broken) {
        Some(at) => Err(at),
        None if before.len() != back.len() => Err(both_have),
        None => Ok(()),
    }
}

/// The second law: the image `after` both renames is "the image that A to C, lent
/// the same as A to B, gives when C isn't A, and the starting image when C is A".
/// Otherwise what is broken.
///
/// `direct` is what A to C answers on the image `before`, and the image after it.
/// If C isn't A it has to be accepted; if C is A the law says nothing of it, and
/// it isn't looked at. Names are handed in as typed, and compared as stored.
pub fn joined(
    before: &[u8],
    after: &[u8],
    direct: (u32, &[u8]),
    a: &[u8],
    c: &[u8],
) -> Result<(), String> {
    let names = Name::of_file(a).zip(Name::of_file(c));
    let (a, c) = names.ok_or("A or C is no name that a rename accepts")?;
    let (due, whose) = match direct {
        _ if a == c => (before, "at the start"),
        (0, image) => (image, "after A to C"),
        (number, _) => return Err(format!("A to C answers {number}")),
    };
    cancelled(due, after, &[])
        .map_err(|at| format!("byte {at} after both renames isn't as {whose}"))
}
