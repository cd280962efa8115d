//! That the laws of request h find wrong libraries: saves, deletes and renames
//! with one thing wrong each, and the place at which it is seen.

use crate::common::{delete_command, link, moved, moved_byte, position, put, save_command};
use crate::common::{small, DIRECTORY, LONG, MOVED, ONE_SLOT, PLAIN, TEN};
use reference::cancels::{cancelled, excepted, joined};
use reference::command::Command;

/// The slot that a save on `small` fills, between the two in use.
const NEW_SLOT: usize = ONE_SLOT + 16;

/// `small` with junk in its free sectors and a track byte at their chain's end.
fn before() -> Vec<u8> {
    let mut image = small();
    for sector in [5, 7, 8, 9, 10] {
        image[position(0, sector) + 2..position(0, sector) + 256].fill(0x99);
    }
    link(&mut image, (0, 10), (0x77, 0));
    image
}

/// What a right library makes of it with a save of so many bytes and the delete.
fn back(length: usize) -> Vec<u8> {
    let mut image = before();
    for command in [save_command("NEW", length), delete_command("NEW")] {
        assert!(command.run(&mut image, TEN, PLAIN).accepted());
    }
    image
}

fn judged(image: &[u8], length: usize) -> Result<(), usize> {
    let places = excepted(&before(), TEN, PLAIN, length).expect("room");
    cancelled(&before(), image, &places)
}

/// What a wrong library leaves otherwise than a right one, and the lowest place.
type Fault = (fn(&mut [u8]), usize);

fn found_at(length: usize, faults: &[Fault]) {
    assert_eq!(judged(&back(length), length), Ok(()));
    for (number, &(wrong, place)) in faults.iter().enumerate() {
        let mut image = back(length);
        wrong(&mut image);
        assert_eq!(judged(&image, length), Err(place), "fault {number}");
    }
}

/// The file of 246 bytes takes 0/5 and 0/7; 0/8, 0/9 and 0/10 stay free.
const SHORT: usize = 246;
/// This one takes all five.
const ALL: usize = 1257;

#[test]
fn wrong_deletes() {
    found_at(
        SHORT,
        &[
            // Byte 2 isn't lowered.
            (|image| image[DIRECTORY + 2] = 3, DIRECTORY + 2),
            // Part of the slot is left: all but the name, the pairs, the last pair.
            (
                |image| put(image, NEW_SLOT + 9, &[2, 0, 5, 0, 7, 0, 0]),
                NEW_SLOT + 9,
            ),
            (
                |image| put(image, NEW_SLOT + 11, &[5, 0, 7, 0]),
                NEW_SLOT + 11,
            ),
            (|image| put(image, NEW_SLOT + 13, &[7, 0]), NEW_SLOT + 13),
            // Only the first byte of the name is cleared.
            (|image| put(image, NEW_SLOT + 1, b"EW      "), NEW_SLOT + 1),
            // A slot too many is cleared, or the wrong one.
            (|image| image[ONE_SLOT..NEW_SLOT].fill(0), ONE_SLOT),
            // The free count, or the used count, is left.
            (|image| image[0x14] = 3, 0x14),
            (|image| image[0x16] = 5, 0x16),
            // The file's sectors come to the end of the free chain.
            (threaded_at_the_end, 0x10),
            // The free pointer is that of the last sector, or track first.
            (|image| put(image, 0x10, &[7, 0]), 0x10),
            (|image| put(image, 0x10, &[0, 5]), 0x10),
            // The last sector's link is left, or written sector first.
            (|image| link(image, (0, 7), (0, 0)), position(0, 7) + 1),
            (|image| link(image, (0, 7), (8, 0)), position(0, 7)),
            // The sectors are cleared, with their links.
            (|image| link(image, (0, 5), (0, 0)), position(0, 5) + 1),
        ],
    );
}

/// 8, 9, 10, 5, 7.
fn threaded_at_the_end(image: &mut [u8]) {
    put(image, 0x10, &[8, 0]);
    link(image, (0, 10), (0, 5));
    link(image, (0, 7), (0, 0));
}

/// 9, 10, 5, 7, 8.
fn taken_from_the_end(image: &mut [u8]) {
    put(image, 0x10, &[9, 0]);
    link(image, (0, 10), (0, 5));
    link(image, (0, 8), (0, 0));
}

/// 0/8 is made a directory sector though a slot is free.
fn directory_grown(image: &mut [u8]) {
    put(image, 0x14, &[4, 0]);
    link(image, (0, 7), (0, 9));
    link(image, (0, 4), (0, 8));
    image[position(0, 8)..position(0, 9)].fill(0);
}

#[test]
fn wrong_saves() {
    found_at(
        SHORT,
        &[
            // The end's track byte is cleared, but the save didn't reach it.
            (|image| image[position(0, 10)] = 0, position(0, 10)),
            (taken_from_the_end, 0x10),
            (directory_grown, 0x14),
            // Something of the first sector that stays free is written.
            (|image| link(image, (0, 8), (0, 0)), position(0, 8) + 1),
            (|image| image[position(0, 8) + 2] = 0, position(0, 8) + 2),
            // So are the ignored bytes of the directory sector, its link, 0/1.
            (|image| image[DIRECTORY + 243] = 1, DIRECTORY + 243),
            (|image| image[DIRECTORY] = 9, DIRECTORY),
            (|image| image[0x40] = b'X', 0x40),
        ],
    );
}

#[test]
fn wrong_calls_where_all_is_taken() {
    found_at(
        ALL,
        &[
            // A link within the file, and the sector byte of the end.
            (|image| link(image, (0, 9), (0, 8)), position(0, 9) + 1),
            (|image| image[position(0, 9)] = 7, position(0, 9)),
            (|image| link(image, (0, 10), (0, 5)), position(0, 10) + 1),
        ],
    );
    // The track byte of the end may be anything.
    for track in [0, 1, 0x77, 255] {
        let mut image = back(ALL);
        image[position(0, 10)] = track;
        assert_eq!(judged(&image, ALL), Ok(()));
    }
}

#[test]
fn every_place_in_either_arrangement() {
    for (length, file) in [(SHORT, &[5, 7][..]), (ALL, &[5, 7, 8, 9, 10])] {
        let places = excepted(&before(), TEN, PLAIN, length).expect("room");
        let of_moved = excepted(&moved(&before()), TEN, MOVED, length).expect("room");
        let (start, plain) = (before(), back(length));
        let (moved_start, moved_plain) = (moved(&start), moved(&plain));
        for at in 0..2560 {
            let free = file.contains(&(at / 256 + 1)) && at % 256 >= 2;
            let free = free || (length == ALL && at == position(0, 10));
            let mut image = plain.clone();
            image[at] = !start[at];
            let due = if free { Ok(()) } else { Err(at) };
            assert_eq!(cancelled(&start, &image, &places), due);
            let mut image = moved_plain.clone();
            image[moved_byte(at)] = !start[at];
            let due = due.map_err(moved_byte);
            assert_eq!(cancelled(&moved_start, &image, &of_moved), due);
        }
    }
}

#[test]
fn the_lowest_place_and_the_length() {
    let (start, places) = (
        before(),
        excepted(&before(), TEN, PLAIN, SHORT).expect("room"),
    );
    let right = back(SHORT);
    let mut wrong = right.clone();
    for at in [2559, 1025, 0x14] {
        wrong[at] ^= 1;
        assert_eq!(cancelled(&start, &wrong, &places), Err(at));
    }
    assert_eq!(cancelled(&start, &wrong[..2000], &places), Err(0x14));
    for length in [0, 1, 1100, 2559] {
        let shorter = cancelled(&start, &right[..length], &places);
        assert_eq!(shorter, Err(length));
    }
    let longer = [&right[..], &[0]].concat();
    assert_eq!(cancelled(&start, &longer, &places), Err(2560));
    assert_eq!(
        cancelled(&start, &longer, &[1026..1280, 1538..4000]),
        Err(2560)
    );
    assert_eq!(cancelled(&[], &[], &[]), Ok(()));
}

/// A rename without refusals, of stored names.
type Rename = fn(&mut [u8], &[u8; 9], &[u8; 9]);

fn slot_of(image: &[u8], name: &[u8]) -> usize {
    let mut slots = (0..15).map(|index| ONE_SLOT + 16 * index);
    slots
        .find(|&slot| image[slot..].starts_with(name))
        .expect("a slot")
}

fn right_rename(image: &mut [u8], old: &[u8; 9], new: &[u8; 9]) {
    let slot = slot_of(image, old);
    put(image, slot, new);
}

/// To the first free slot.
fn moves_the_entry(image: &mut [u8], old: &[u8; 9], new: &[u8; 9]) {
    let (from, to) = (slot_of(image, old), slot_of(image, &[0; 16]));
    image.copy_within(from..from + 16, to);
    put(image, from, &[0; 16]);
    put(image, to, new);
}

/// The last that is free: the fifteenth, and then the one before it.
fn moves_it_to_the_last_slot(image: &mut [u8], old: &[u8; 9], new: &[u8; 9]) {
    let is_free = |slot: &usize| image[*slot..slot + 16] == [0; 16];
    let mut slots = (0..15).rev().map(|index| ONE_SLOT + 16 * index);
    let to = slots.find(is_free).expect("a free slot");
    let from = slot_of(image, old);
    image.copy_within(from..from + 16, to);
    put(image, from, &[0; 16]);
    put(image, to, new);
}

fn changes_the_attribute(image: &mut [u8], old: &[u8; 9], new: &[u8; 9]) {
    right_rename(image, old, new);
    image[slot_of(image, new) + 15] += 1;
}

/// Spaces are not written.
fn leaves_the_rest_of_the_old_name(image: &mut [u8], old: &[u8; 9], new: &[u8; 9]) {
    let slot = slot_of(image, old);
    for (at, &byte) in new.iter().enumerate().filter(|(_, &byte)| byte != b' ') {
        image[slot + at] = byte;
    }
}

/// As if it were an entry more.
fn raises_byte_2(image: &mut [u8], old: &[u8; 9], new: &[u8; 9]) {
    right_rename(image, old, new);
    image[DIRECTORY + 2] += 1;
}

fn leaves_the_old_entry(image: &mut [u8], old: &[u8; 9], new: &[u8; 9]) {
    let (from, to) = (slot_of(image, old), slot_of(image, &[0; 16]));
    image.copy_within(from..from + 16, to);
    put(image, to, new);
}

/// How a library's renames of ONE to LONGER and on to C, UN or again ONE, are
/// judged.
fn renames_judged(rename: Rename, back_to_one: bool) -> Result<(), String> {
    const A: &[u8; 9] = b"ONE      ";
    const B: &[u8; 9] = b"LONGER   ";
    let (c, typed): (&[u8; 9], &[u8]) = if back_to_one {
        (A, b"ONE")
    } else {
        (b"UN       ", b"UN")
    };
    let (mut image, mut direct) = (before(), before());
    rename(&mut image, A, B);
    rename(&mut image, B, c);
    rename(&mut direct, A, c);
    joined(&before(), &image, (0, &direct), b"ONE", typed)
}

fn broken(at: usize, whose: &str) -> Result<(), String> {
    Err(format!("byte {at} after both renames isn't as {whose}"))
}

#[test]
fn wrong_renames() {
    let last_but_one = ONE_SLOT + 16 * 13;
    let faults: [(Rename, usize, Option<usize>); 6] = [
        // From slot to slot and back; A to C leaves the first slot free.
        (moves_the_entry, ONE_SLOT, None),
        (moves_it_to_the_last_slot, last_but_one, Some(ONE_SLOT)),
        (changes_the_attribute, ONE_SLOT + 15, Some(ONE_SLOT + 15)),
        // UNNGER and UNE; ONEGER and ONE.
        (
            leaves_the_rest_of_the_old_name,
            ONE_SLOT + 2,
            Some(ONE_SLOT + 3),
        ),
        (raises_byte_2, DIRECTORY + 2, Some(DIRECTORY + 2)),
        // The slots are ONE, LONGER, TWO.X, and C; A to C has it after ONE.
        (leaves_the_old_entry, NEW_SLOT, Some(NEW_SLOT)),
    ];
    for (number, (rename, on_to_c, back_to_a)) in faults.into_iter().enumerate() {
        let on = renames_judged(rename, false);
        assert_eq!(on, broken(on_to_c, "after A to C"), "fault {number}");
        let back = back_to_a.map_or(Ok(()), |at| broken(at, "at the start"));
        assert_eq!(renames_judged(rename, true), back, "fault {number}");
    }
}

#[test]
fn the_right_rename_is_the_reference_s() {
    let mut image = before();
    right_rename(&mut image, b"ONE      ", b"UN       ");
    let mut due = before();
    let command = Command::Rename {
        old: b"ONE".to_vec(),
        new: b"UN".to_vec(),
        writes: LONG,
    };
    assert!(command.run(&mut due, TEN, PLAIN).accepted());
    assert_eq!(image, due);
    assert_eq!(renames_judged(right_rename, false), Ok(()));
    assert_eq!(renames_judged(right_rename, true), Ok(()));
}

#[test]
fn wrong_answers_of_the_direct_rename() {
    let (start, mut image) = (before(), before());
    right_rename(&mut image, b"ONE      ", b"UN       ");
    let judged =
        |direct, a: &str, c: &str| joined(&start, &image, direct, a.as_bytes(), c.as_bytes());
    assert_eq!(judged((0, &image), "ONE", "UN"), Ok(()));
    for number in [1, 2, 3, 4, 5, 6, 10] {
        let due = Err(format!("A to C answers {number}"));
        assert_eq!(judged((number, &start), "ONE", "UN"), due);
        assert_eq!(judged((number, &image), "ONE", "UN"), due);
    }
    // Accepted, but nothing done, or not all of an image left.
    assert_eq!(
        judged((0, &start), "ONE", "UN"),
        broken(ONE_SLOT, "after A to C")
    );
    let cut = judged((0, &image[..2559]), "ONE", "UN");
    assert_eq!(cut, broken(2559, "after A to C"));
    // Of A to A the law asks nothing, but the starting image is due.
    for number in [0, 5] {
        let judged = judged((number, &image), "ONE", "ONE");
        assert_eq!(judged, broken(ONE_SLOT, "at the start"));
        let right = joined(&start, &start, (number, &image), b"ONE", b"ONE");
        assert_eq!(right, Ok(()));
    }
}

#[test]
fn names_are_compared_as_stored() {
    let (start, mut image) = (before(), before());
    image[ONE_SLOT] = b'X';
    let judged = |a: &[u8], c: &[u8]| joined(&start, &start, (0, &image), a, c);
    for name in [&b"A"[..], b"A.B", b"SIXCHR.EXT", b"0.0"] {
        assert_eq!(judged(name, name), Ok(()));
    }
    for (a, c) in [(&b"AB"[..], &b"A.B"[..]), (b"A", b"A.A"), (b"A.A", b"AA")] {
        assert_eq!(judged(a, c), broken(ONE_SLOT, "after A to C"));
        assert_eq!(judged(c, a), broken(ONE_SLOT, "after A to C"));
    }
    for name in [&b""[..], b"SEVENCH", b"A.", b".A", b"A B", b"A "] {
        assert!(judged(name, name).is_err());
        assert!(judged(b"A", name).is_err() && judged(name, b"A").is_err());
    }
}
