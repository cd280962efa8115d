//! Which files are load modules, byte for byte, and which only nearly.

use crate::common::{link, position, put, rule, small, ONE_SLOT, PLAIN, TEN, TWO_SLOT};
use reference::read;

/// What read answers for a file after bytes of `small` are overwritten. The
/// disc must stay sound, since only the file's inside may matter.
fn number_with(name: &[u8], changes: &[(usize, &[u8])]) -> u32 {
    let mut image = small();
    for &(at, bytes) in changes {
        put(&mut image, at, bytes);
    }
    assert_eq!(rule(&image), 0);
    read(&image, TEN, PLAIN, name, &mut vec![0; 65_536]).number
}

fn one_with(at: usize, bytes: &[u8]) -> u32 {
    number_with(b"ONE", &[(position(0, 2) + at, bytes)])
}

#[test]
fn header_mark_and_page() {
    for mark in [0x00, 0x7F, 0xFE] {
        assert_eq!(one_with(2, &[mark]), 9);
    }
    for page in 0..=7 {
        assert_eq!(one_with(3, &[page]), 0);
    }
    for page in [8, 16, 128, 255] {
        assert_eq!(one_with(3, &[page]), 9);
    }
}

#[test]
fn addresses() {
    // ONE holds three bytes, $2000 to $2002.
    assert_eq!(one_with(4, &[0xFF, 0x1F, 0x01, 0x20]), 0);
    assert_eq!(one_with(4, &[0xFD, 0xFF, 0xFF, 0xFF]), 0);
    assert_eq!(one_with(4, &[0x01, 0x20]), 9);
    assert_eq!(one_with(6, &[0x01, 0x20]), 9);
    assert_eq!(one_with(6, &[0x03, 0x20]), 9);
    assert_eq!(one_with(6, &[0xFF, 0x1F]), 9);
    assert_eq!(one_with(6, &[0x02, 0x21]), 9);
    // An end below the start, three bytes on if addresses wrapped round.
    assert_eq!(one_with(4, &[0xFF, 0xFF, 0x01, 0x00]), 9);
    for transfer in [[0, 0], [0xFF, 0xFF]] {
        assert_eq!(one_with(8, &transfer), 0);
    }
}

#[test]
fn length_byte_and_padding() {
    for length in [0, 2, 4, 245, 255] {
        assert_eq!(one_with(10, &[length]), 9);
    }
    for at in [14, 15, 100, 254, 255] {
        assert_eq!(one_with(at, &[1]), 9, "byte {at}");
    }
    for at in [11, 12, 13] {
        assert_eq!(one_with(at, &[0]), 0, "byte {at}");
    }
}

#[test]
fn later_sectors() {
    let first = position(0, 3);
    let second = position(0, 6);
    assert_eq!(number_with(b"TWO.X", &[]), 0);
    assert_eq!(number_with(b"TWO.X", &[(first + 10, &[0xF4])]), 9);
    assert_eq!(number_with(b"TWO.X", &[(second + 2, &[0])]), 9);
    assert_eq!(number_with(b"TWO.X", &[(second + 2, &[2])]), 9);
    for at in [4, 255] {
        assert_eq!(number_with(b"TWO.X", &[(second + at, &[9])]), 9);
    }
    // 498 bytes fill both sectors: $1000 to $11F1.
    let full: [(usize, &[u8]); 2] = [(first + 6, &[0xF1, 0x11]), (second + 2, &[0xFD])];
    assert_eq!(number_with(b"TWO.X", &full), 0);
    // 499 need a third.
    let beyond: [(usize, &[u8]); 2] = [(first + 6, &[0xF2, 0x11]), (second + 2, &[0xFE])];
    assert_eq!(number_with(b"TWO.X", &beyond), 9);
}

#[test]
fn a_sector_that_is_not_filled() {
    // 244 and 2 bytes make 246, with every length byte true, but no module.
    let changes: [(usize, &[u8]); 3] = [
        (position(0, 3) + 10, &[0xF4]),
        (position(0, 3) + 255, &[0]),
        (position(0, 6) + 2, &[2, 0x11, 0x22]),
    ];
    assert_eq!(number_with(b"TWO.X", &changes), 9);
}

#[test]
fn a_sector_too_many_or_too_few() {
    // ONE with an empty second sector, 0/5.
    let mut image = small();
    link(&mut image, (0, 2), (0, 5));
    link(&mut image, (0, 5), (0, 0));
    put(&mut image, ONE_SLOT + 9, &[2, 0, 2, 0, 5, 0]);
    put(&mut image, 0x10, &[7, 0, 4, 0, 4, 0, 4, 0]);
    assert_eq!(rule(&image), 0);
    assert_eq!(read(&image, TEN, PLAIN, b"ONE", &mut [0; 300]).number, 9);
    // TWO.X without its second sector, which goes to the free chain.
    let mut image = small();
    link(&mut image, (0, 3), (0, 0));
    link(&mut image, (0, 6), (0, 5));
    put(&mut image, TWO_SLOT + 9, &[1, 0, 3, 0, 3, 0]);
    put(&mut image, 0x10, &[6, 0, 4, 0, 6, 0, 2, 0]);
    assert_eq!(rule(&image), 0);
    assert_eq!(read(&image, TEN, PLAIN, b"TWO.X", &mut [0; 300]).number, 9);
}

#[test]
fn links_do_not_count() {
    let mut image = small();
    link(&mut image, (0, 2), (0xFF, 0));
    link(&mut image, (0, 6), (0x12, 0));
    assert_eq!(read(&image, TEN, PLAIN, b"ONE", &mut [0; 3]).number, 0);
    assert_eq!(read(&image, TEN, PLAIN, b"TWO.X", &mut [0; 246]).number, 0);
}
