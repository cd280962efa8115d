//! Every refusal of every command, every pair that can hold at once, and
//! that a refusal leaves all lent memory as it was.

use crate::common::{delete, position, protect, rename, save, small, ONE_SLOT, PLAIN, TEN};
use reference::{blank, check, list, read, repair, view, view_number};
use reference::{Checked, Filled, Reading};

/// Wrong by one byte, and otherwise like `small`.
fn wrong_size() -> Vec<u8> {
    let mut image = small();
    image.push(0);
    image
}

/// Rule 7 is broken; every name and chain stands as in `small`.
fn unsound() -> Vec<u8> {
    let mut image = small();
    image[0x16] = 9;
    image
}

/// ONE is no load module: its first byte is not $FF.
fn not_plain() -> Vec<u8> {
    let mut image = small();
    image[position(0, 2) + 2] = 0xFE;
    image
}

fn unsound_not_plain() -> Vec<u8> {
    let mut image = not_plain();
    image[0x16] = 9;
    image
}

/// A command's number, once it is sure that a refusal changed no byte.
fn number_of(image: &[u8], command: impl Fn(&mut [u8]) -> u32) -> u32 {
    let mut after = image.to_vec();
    let number = command(&mut after);
    assert!(number == 0 || after == image, "refusal {number} wrote");
    number
}

fn saved(image: &[u8], name: &[u8], page: u32, start: u16, length: usize) -> u32 {
    number_of(image, |after| {
        save(after, TEN, PLAIN, name, page, start, 0, &vec![1; length])
    })
}

fn deleted(image: &[u8], name: &[u8]) -> u32 {
    number_of(image, |after| delete(after, TEN, PLAIN, name))
}

fn renamed(image: &[u8], old: &[u8], new: &[u8]) -> u32 {
    number_of(image, |after| rename(after, TEN, PLAIN, old, new))
}

/// Both turns of protect, which must agree.
fn protected(image: &[u8], name: &[u8]) -> u32 {
    let on = number_of(image, |after| protect(after, TEN, PLAIN, name, 1));
    let off = number_of(image, |after| protect(after, TEN, PLAIN, name, 0));
    assert_eq!(on, off);
    on
}

fn blanked(image: &[u8], name: &[u8]) -> u32 {
    number_of(image, |after| blank(after, TEN, PLAIN, name))
}

fn repaired(image: &[u8]) -> u32 {
    number_of(image, |lent| repair(lent, TEN, PLAIN))
}

fn read_number(image: &[u8], name: &[u8], lent: usize) -> u32 {
    let mut buffer = vec![0xA5; lent];
    let reading = read(image, TEN, PLAIN, name, &mut buffer);
    if reading.number != 0 {
        assert_eq!(buffer, vec![0xA5; lent]);
        let expected = Reading {
            number: reading.number,
            page: 0,
            start: 0,
            end: 0,
            transfer: 0,
            length: 0,
        };
        assert_eq!(reading, expected);
    }
    reading.number
}

fn list_number(image: &[u8], lent: usize) -> u32 {
    let mut buffer = vec![0xA5; lent];
    let listed = list(image, TEN, PLAIN, &mut buffer);
    if listed.number != 0 {
        assert_eq!(buffer, vec![0xA5; lent]);
        assert_eq!(listed.length, 0);
    }
    listed.number
}

fn viewed(image: &[u8], track: u32, sector: u32) -> u32 {
    let number = view_number(image, TEN, PLAIN, track, sector);
    let length = if number == 0 { 254 } else { 0 };
    assert_eq!(view(image, TEN, PLAIN, track, sector).len(), length);
    number
}

#[test]
fn save_alone() {
    assert_eq!(saved(&wrong_size(), b"NEW", 0, 0, 1), 1);
    assert_eq!(saved(&small(), b"new", 0, 0, 1), 2);
    assert_eq!(saved(&unsound(), b"NEW", 0, 0, 1), 3);
    assert_eq!(saved(&small(), b"ONE", 0, 0, 1), 5);
    assert_eq!(saved(&small(), b"TWO.X", 0, 0, 1), 5);
    assert_eq!(saved(&small(), b"NEW", 0, 0, 1258), 8);
    assert_eq!(saved(&small(), b"NEW", 0, 0, 1257), 0);
}

#[test]
fn save_of_a_module_out_of_range() {
    for page in [8, 9, 255, 256, 263, 65_536, u32::MAX] {
        assert_eq!(saved(&small(), b"NEW", page, 0, 1), 7, "{page}");
    }
    for page in 0..=7 {
        assert_eq!(saved(&small(), b"NEW", page, 0, 1), 0, "{page}");
    }
    assert_eq!(saved(&small(), b"NEW", 0, 0, 0), 7);
    assert_eq!(saved(&small(), b"NEW", 0, 0xFFFF, 0), 7);
    for (start, most) in [(0xFFFF, 1), (0xFFFE, 2), (0xFF00, 256)] {
        assert_eq!(saved(&small(), b"NEW", 0, start, most), 0, "{start}");
        assert_eq!(saved(&small(), b"NEW", 0, start, most + 1), 7, "{start}");
    }
    assert_eq!(saved(&small(), b"NEW", 0, 0, 65_536), 8);
    assert_eq!(saved(&small(), b"NEW", 0, 0, 65_537), 7);
}

#[test]
fn save_pairs() {
    assert_eq!(saved(&wrong_size(), b"new", 0, 0, 1), 1);
    assert_eq!(saved(&wrong_size(), b"NEW", 8, 0, 1), 1);
    assert_eq!(saved(&wrong_size(), b"ONE", 0, 0, 1), 1);
    assert_eq!(saved(&small(), b"new", 8, 0, 1), 2);
    assert_eq!(saved(&small(), b"new", 0, 0, 0), 2);
    assert_eq!(saved(&unsound(), b"new", 0, 0, 1), 2);
    assert_eq!(saved(&small(), b"new", 0, 0, 1258), 2);
    assert_eq!(saved(&unsound(), b"NEW", 8, 0, 1), 7);
    assert_eq!(saved(&unsound(), b"NEW", 0, 0, 0), 7);
    assert_eq!(saved(&small(), b"ONE", 8, 0, 1), 7);
    assert_eq!(saved(&small(), b"NEW", 0, 0, 65_537), 7);
    assert_eq!(saved(&small(), b"NEW", 8, 0, 1258), 7);
    assert_eq!(saved(&unsound(), b"ONE", 0, 0, 1), 3);
    assert_eq!(saved(&unsound(), b"NEW", 0, 0, 1258), 3);
    assert_eq!(saved(&small(), b"ONE", 0, 0, 1258), 5);
}

#[test]
fn read_alone() {
    assert_eq!(read_number(&wrong_size(), b"ONE", 3), 1);
    assert_eq!(read_number(&small(), b"ONE.", 3), 2);
    assert_eq!(read_number(&unsound(), b"ONE", 3), 3);
    assert_eq!(read_number(&small(), b"NONE", 3), 4);
    assert_eq!(read_number(&not_plain(), b"ONE", 3), 9);
    assert_eq!(read_number(&small(), b"ONE", 2), 10);
    assert_eq!(read_number(&small(), b"ONE", 0), 10);
    assert_eq!(read_number(&small(), b"ONE", 3), 0);
}

#[test]
fn read_pairs() {
    assert_eq!(read_number(&wrong_size(), b"one", 3), 1);
    assert_eq!(read_number(&wrong_size(), b"ONE", 0), 1);
    assert_eq!(read_number(&unsound(), b"one", 3), 2);
    assert_eq!(read_number(&small(), b"one", 0), 2);
    assert_eq!(read_number(&unsound(), b"NONE", 3), 3);
    assert_eq!(read_number(&unsound_not_plain(), b"ONE", 3), 3);
    assert_eq!(read_number(&unsound(), b"ONE", 2), 3);
    assert_eq!(read_number(&small(), b"NONE", 0), 4);
    assert_eq!(read_number(&not_plain(), b"ONE", 0), 9);
}

#[test]
fn list_alone_and_in_pairs() {
    assert_eq!(list_number(&wrong_size(), 41), 1);
    assert_eq!(list_number(&unsound(), 41), 3);
    assert_eq!(list_number(&small(), 40), 10);
    assert_eq!(list_number(&small(), 0), 10);
    assert_eq!(list_number(&small(), 41), 0);
    assert_eq!(list_number(&wrong_size(), 0), 1);
    assert_eq!(list_number(&unsound(), 40), 3);
}

#[test]
fn delete_alone_and_in_pairs() {
    assert_eq!(deleted(&wrong_size(), b"ONE"), 1);
    assert_eq!(deleted(&small(), b"ONE!"), 2);
    assert_eq!(deleted(&unsound(), b"ONE"), 3);
    assert_eq!(deleted(&small(), b"NONE"), 4);
    assert_eq!(deleted(&small(), b"TWO"), 4);
    assert_eq!(deleted(&small(), b"TWO.X"), 6);
    assert_eq!(deleted(&small(), b"ONE"), 0);
    assert_eq!(deleted(&wrong_size(), b"ONE!"), 1);
    assert_eq!(deleted(&unsound(), b"ONE!"), 2);
    assert_eq!(deleted(&unsound(), b"NONE"), 3);
    assert_eq!(deleted(&unsound(), b"TWO.X"), 3);
}

#[test]
fn rename_alone() {
    assert_eq!(renamed(&wrong_size(), b"ONE", b"NEW"), 1);
    assert_eq!(renamed(&small(), b"one", b"NEW"), 2);
    assert_eq!(renamed(&small(), b"ONE", b"new"), 2);
    assert_eq!(renamed(&unsound(), b"ONE", b"NEW"), 3);
    assert_eq!(renamed(&small(), b"NONE", b"NEW"), 4);
    assert_eq!(renamed(&small(), b"TWO.X", b"NEW"), 6);
    assert_eq!(renamed(&small(), b"ONE", b"TWO.X"), 5);
    assert_eq!(renamed(&small(), b"ONE", b"TWO"), 0);
}

#[test]
fn rename_pairs() {
    assert_eq!(renamed(&wrong_size(), b"one", b"NEW"), 1);
    assert_eq!(renamed(&wrong_size(), b"ONE", b"new"), 1);
    assert_eq!(renamed(&unsound(), b"one", b"NEW"), 2);
    assert_eq!(renamed(&unsound(), b"ONE", b"new"), 2);
    assert_eq!(renamed(&small(), b"NONE", b"new"), 2);
    assert_eq!(renamed(&small(), b"TWO.X", b"new"), 2);
    assert_eq!(renamed(&small(), b"one", b"TWO.X"), 2);
    assert_eq!(renamed(&small(), b"one", b"new"), 2);
    assert_eq!(renamed(&unsound(), b"NONE", b"NEW"), 3);
    assert_eq!(renamed(&unsound(), b"TWO.X", b"NEW"), 3);
    assert_eq!(renamed(&unsound(), b"ONE", b"TWO.X"), 3);
    assert_eq!(renamed(&small(), b"NONE", b"ONE"), 4);
    assert_eq!(renamed(&small(), b"NONE", b"NONE"), 4);
    assert_eq!(renamed(&small(), b"TWO.X", b"ONE"), 6);
    assert_eq!(renamed(&small(), b"TWO.X", b"TWO.X"), 6);
}

#[test]
fn protect_alone_and_in_pairs() {
    assert_eq!(protected(&wrong_size(), b"ONE"), 1);
    assert_eq!(protected(&small(), b"ONE.LONG"), 2);
    assert_eq!(protected(&unsound(), b"ONE"), 3);
    assert_eq!(protected(&small(), b"NONE"), 4);
    assert_eq!(protected(&small(), b"TWO.X"), 0);
    assert_eq!(protected(&wrong_size(), b"ONE.LONG"), 1);
    assert_eq!(protected(&unsound(), b"ONE.LONG"), 2);
    assert_eq!(protected(&unsound(), b"NONE"), 3);
}

#[test]
fn blank_alone_and_in_pairs() {
    assert_eq!(blanked(&wrong_size(), b"D"), 1);
    assert_eq!(blanked(&small(), b"D.X"), 2);
    assert_eq!(blanked(&wrong_size(), b"D.X"), 1);
    assert_eq!(blanked(&unsound(), b"D"), 0);
    assert_eq!(blanked(&unsound(), b""), 2);
}

#[test]
fn view_alone_and_in_pairs() {
    let off = [
        (0, 0),
        (0, 11),
        (1, 1),
        (0, 255),
        (0, 256),
        (0, 257),
        (256, 1),
        (65_536, 1),
        (0, 65_537),
        (u32::MAX, 1),
        (0, u32::MAX),
        (429_496_730, 1),
    ];
    for (track, sector) in off {
        assert_eq!(viewed(&small(), track, sector), 11, "{track}/{sector}");
        assert_eq!(viewed(&unsound(), track, sector), 11, "{track}/{sector}");
        assert_eq!(viewed(&wrong_size(), track, sector), 1, "{track}/{sector}");
    }
    assert_eq!(viewed(&wrong_size(), 0, 1), 1);
    assert_eq!(viewed(&unsound(), 0, 1), 0);
    assert_eq!(viewed(&vec![0xFF; 80 * 2560], 79, 10), 0);
    assert_eq!(viewed(&vec![0xFF; 80 * 2560], 80, 1), 11);
}

#[test]
fn every_command_refuses_every_wrong_size() {
    for length in [0, 1, 255, 2_559, 2_561, 5_119, 204_801, 207_360, 256_000] {
        let image = vec![0; length];
        assert_eq!(check(&image, TEN, PLAIN), Checked { number: 1, rule: 0 });
        let refused = Filled {
            number: 1,
            length: 0,
        };
        assert_eq!(list(&image, TEN, PLAIN, &mut [0; 100]), refused);
        assert_eq!(read_number(&image, b"ONE", 3), 1);
        assert_eq!(saved(&image, b"NEW", 0, 0, 1), 1);
        assert_eq!(deleted(&image, b"ONE"), 1);
        assert_eq!(renamed(&image, b"ONE", b"NEW"), 1);
        assert_eq!(protected(&image, b"ONE"), 1);
        assert_eq!(blanked(&image, b"D"), 1);
        assert_eq!(repaired(&image), 1);
        assert_eq!(viewed(&image, 0, 1), 1);
    }
}

#[test]
fn every_broken_rule_gives_3() {
    // One image for each rule from 1 to 8.
    let changes: [(usize, u8); 7] = [
        (0x12, 0),
        (position(0, 4) + 1, 4),
        (position(0, 4) + 2, 3),
        (ONE_SLOT + 11, 1),
        (0x14, 4),
        (0x16, 4),
        (position(0, 2) + 1, 5),
    ];
    let mut images: Vec<Vec<u8>> = changes
        .iter()
        .map(|&(at, byte)| {
            let mut image = small();
            image[at] = byte;
            image
        })
        .collect();
    let mut twice = small();
    twice.copy_within(ONE_SLOT..ONE_SLOT + 9, ONE_SLOT + 32);
    let mut lost = small();
    lost[0x10] = 7;
    lost[0x14] = 4;
    images.extend([twice, lost]);
    let rules: Vec<u32> = images
        .iter()
        .map(|image| check(image, TEN, PLAIN).rule)
        .collect();
    assert_eq!(rules, [1, 2, 3, 5, 6, 7, 5, 4, 8]);
    for (image, rule) in images.into_iter().zip(rules) {
        assert_eq!(repaired(&image), if rule <= 5 { 3 } else { 0 });
        assert_eq!(saved(&image, b"NEW", 0, 0, 1), 3);
        assert_eq!(read_number(&image, b"ONE", 3), 3);
        assert_eq!(list_number(&image, 41), 3);
        assert_eq!(deleted(&image, b"ONE"), 3);
        assert_eq!(renamed(&image, b"ONE", b"NEW"), 3);
        assert_eq!(protected(&image, b"ONE"), 3);
        assert_eq!(blanked(&image, b"D"), 0);
        assert_eq!(viewed(&image, 0, 10), 0);
    }
}
