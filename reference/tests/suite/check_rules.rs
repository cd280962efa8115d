//! Each rule of the check broken alone, and the lowest of several reported.

use crate::common::{link, position, put, rule, small, DIRECTORY, ONE_SLOT, PLAIN, TEN, TWO_SLOT};
use reference::{check, Checked};

/// The rule reported after bytes of `small` are overwritten.
fn rule_with(changes: &[(usize, &[u8])]) -> u32 {
    let mut image = small();
    for &(at, bytes) in changes {
        put(&mut image, at, bytes);
    }
    rule(&image)
}

#[test]
fn the_hand_made_disc_is_sound() {
    assert_eq!(rule(&small()), 0);
}

#[test]
fn rule_1_directory_pointer() {
    for pointer in [[0, 0], [1, 0], [11, 0], [4, 1], [255, 0], [4, 255], [0, 4]] {
        assert_eq!(rule_with(&[(0x12, &pointer)]), 1, "{pointer:?}");
    }
}

#[test]
fn rule_2_directory_chain() {
    // Itself, 0/1, off the disc by sector and by track.
    for link in [[0, 4], [0, 1], [0, 11], [1, 4], [255, 255]] {
        assert_eq!(rule_with(&[(DIRECTORY, &link)]), 2, "{link:?}");
    }
    // A longer circle: 0/4 to 0/5 and back.
    let circle: [(usize, &[u8]); 2] = [(DIRECTORY, &[0, 5]), (position(0, 5), &[0, 4])];
    assert_eq!(rule_with(&circle), 2);
}

#[test]
fn rule_3_count_of_entries() {
    for count in [0, 1, 3, 15, 255] {
        assert_eq!(rule_with(&[(DIRECTORY + 2, &[count])]), 3, "{count}");
    }
}

#[test]
fn rule_3_names() {
    let names: [&[u8; 9]; 10] = [
        b"one      ",
        b" ONE     ",
        b"O E      ",
        b"ONE     X",
        b"ONE    X ",
        b"ONE\0\0\0   ",
        b"ONE.     ",
        b"ONE   X X",
        b"         ",
        b"ON\xC5      ",
    ];
    for name in names {
        assert_eq!(rule_with(&[(ONE_SLOT, name)]), 3, "{name:?}");
    }
    for name in [b"ABCDEF012", b"0        ", b"Z     9  "] {
        assert_eq!(rule_with(&[(ONE_SLOT, name)]), 0, "{name:?}");
    }
}

#[test]
fn rule_3_length_and_attribute() {
    assert_eq!(rule_with(&[(ONE_SLOT + 9, &[0, 0])]), 3);
    for attribute in [0x01, 0x7F, 0x81, 0xC0, 0xFF] {
        assert_eq!(rule_with(&[(ONE_SLOT + 15, &[attribute])]), 3);
    }
    assert_eq!(rule_with(&[(ONE_SLOT + 15, &[0x80])]), 0);
}

#[test]
fn rule_3_a_slot_is_free_only_if_all_zeros() {
    // Any byte of the free slot makes an entry of it, and not a right one.
    for at in 0..16 {
        let slot = ONE_SLOT + 16 + at;
        assert_eq!(rule_with(&[(slot, &[0x41])]), 3, "byte {at}");
        let counted: [(usize, &[u8]); 2] = [(slot, &[0x41]), (DIRECTORY + 2, &[3])];
        assert_eq!(rule_with(&counted), 3, "byte {at}");
    }
}

#[test]
fn rule_4_names_twice() {
    assert_eq!(rule_with(&[(TWO_SLOT, b"ONE      ")]), 4);
    // Bytes that differ in one place only are different names.
    assert_eq!(rule_with(&[(TWO_SLOT, b"ONE   X  ")]), 0);
}

#[test]
fn rule_4_across_directory_sectors() {
    let mut image = small();
    // 0/5 becomes a second directory sector with TWO.X's entry in it.
    link(&mut image, (0, 4), (0, 5));
    let entry = image[TWO_SLOT..TWO_SLOT + 16].to_vec();
    put(&mut image, TWO_SLOT, &[0; 16]);
    image[DIRECTORY + 2] = 1;
    put(&mut image, position(0, 5), &[0, 0, 1]);
    put(&mut image, position(0, 5) + 3 + 14 * 16, &entry);
    put(&mut image, 0x10, &[7, 0, 4, 0, 4, 0]);
    assert_eq!(rule(&image), 0);
    put(&mut image, position(0, 5) + 3 + 14 * 16, b"ONE      ");
    assert_eq!(rule(&image), 4);
}

#[test]
fn rule_5_first_and_last_sector() {
    // Wrong sector, off the disc, TEN, none, 0/1, and a right sector turned round.
    for first in [
        [5, 0],
        [11, 0],
        [3, 1],
        [0, 0],
        [1, 0],
        [0, 3],
        [4, 0],
        [2, 0],
    ] {
        assert_eq!(rule_with(&[(TWO_SLOT + 11, &first)]), 5, "{first:?}");
    }
    for last in [[3, 0], [6, 1], [0, 0], [0, 6], [1, 0], [10, 0], [16, 0]] {
        assert_eq!(rule_with(&[(TWO_SLOT + 13, &last)]), 5, "{last:?}");
    }
}

#[test]
fn rule_5_length() {
    for length in [[1, 0], [3, 0], [2, 1], [255, 255]] {
        assert_eq!(rule_with(&[(TWO_SLOT + 9, &length)]), 5, "{length:?}");
    }
}

#[test]
fn rule_5_links() {
    let first = position(0, 3);
    let last = position(0, 6);
    // An end before the last; off the disc; through 0/1, the directory, the
    // other file and its own first sector.
    for link in [[0, 0], [0, 11], [1, 6], [0, 1], [0, 4], [0, 2], [0, 3]] {
        assert_eq!(rule_with(&[(first, &link)]), 5, "{link:?}");
    }
    for link in [[0, 3], [0, 6], [0, 1], [0, 2], [0, 4], [0, 5], [1, 1]] {
        assert_eq!(rule_with(&[(last, &link)]), 5, "{link:?}");
    }
}

#[test]
fn rule_5_a_file_passing_through_the_system_sector() {
    let mut image = small();
    // 0/3, 0/1, 0/6 with all lengths and counts to match.
    link(&mut image, (0, 3), (0, 1));
    link(&mut image, (0, 1), (0, 6));
    put(&mut image, TWO_SLOT + 9, &[3, 0]);
    image[0x16] = 4;
    assert_eq!(rule(&image), 5);
}

#[test]
fn rule_6_free_count() {
    for count in [[4, 0], [6, 0], [0, 0], [5, 1]] {
        assert_eq!(rule_with(&[(0x14, &count)]), 6, "{count:?}");
    }
}

#[test]
fn rule_6_free_pointer() {
    // Off the disc; 0/1; the directory; a file; none while five are counted.
    for pointer in [
        [11, 0],
        [5, 1],
        [1, 0],
        [4, 0],
        [2, 0],
        [6, 0],
        [0, 0],
        [0, 5],
    ] {
        assert_eq!(rule_with(&[(0x10, &pointer)]), 6, "{pointer:?}");
    }
}

#[test]
fn rule_6_links() {
    let last = position(0, 10);
    for link in [
        [0, 10],
        [0, 5],
        [0, 9],
        [0, 1],
        [0, 4],
        [0, 2],
        [0, 6],
        [0, 11],
        [1, 1],
    ] {
        assert_eq!(rule_with(&[(last, &link)]), 6, "{link:?}");
    }
    assert_eq!(rule_with(&[(position(0, 8), &[0, 0])]), 6);
}

#[test]
fn rule_7_used_count() {
    for count in [[2, 0], [4, 0], [0, 0], [3, 1]] {
        assert_eq!(rule_with(&[(0x16, &count)]), 7, "{count:?}");
    }
}

#[test]
fn rule_8_lost_sectors() {
    // The head, the last, and all of the free chain.
    assert_eq!(rule_with(&[(0x10, &[7, 0, 4, 0, 4, 0])]), 8);
    let last: [(usize, &[u8]); 2] = [(position(0, 9), &[0, 0]), (0x14, &[4, 0])];
    assert_eq!(rule_with(&last), 8);
    assert_eq!(rule_with(&[(0x10, &[0, 0, 4, 0, 0, 0])]), 8);
    assert_eq!(rule_with(&[(0x10, &[0, 77, 4, 0, 0, 0])]), 8);
}

/// A change that breaks one rule of `small` and, with all those of higher
/// rules made as well, still leaves the lower ones alone.
const BREAKERS: [(u32, usize, &[u8]); 7] = [
    (1, 0x12, &[0, 0]),
    (2, DIRECTORY, &[0, 4]),
    (3, ONE_SLOT + 15, &[1]),
    (4, TWO_SLOT, b"ONE      "),
    (5, TWO_SLOT + 13, &[3, 0]),
    (6, 0x15, &[1]),
    (7, 0x16, &[9]),
];

#[test]
fn the_lowest_of_several_is_reported() {
    // Every set of broken rules 1 to 7.
    for set in 1..1 << BREAKERS.len() {
        let broken = || (0..BREAKERS.len()).filter(move |at| set >> at & 1 == 1);
        let changes: Vec<(usize, &[u8])> = broken()
            .map(|at| (BREAKERS[at].1, BREAKERS[at].2))
            .collect();
        let lowest = broken().map(|at| BREAKERS[at].0).min();
        assert_eq!(Some(rule_with(&changes)), lowest, "set {set:b}");
    }
}

#[test]
fn a_lost_sector_comes_last() {
    let lost: (usize, &[u8]) = (0x10, &[7, 0, 4, 0, 4, 0]);
    assert_eq!(rule_with(&[lost]), 8);
    for (number, at, bytes) in BREAKERS {
        assert_eq!(rule_with(&[lost, (at, bytes)]), number);
    }
}

#[test]
fn ignored_bytes_break_nothing() {
    let mut image = small();
    // The system sector's other bytes, the disc name, the bytes after the
    // slots, and the insides of file and free sectors.
    image[..0x10].fill(0xFF);
    image[0x18..256].fill(0xAA);
    image[DIRECTORY + 243..DIRECTORY + 256].fill(0x55);
    for sector in [2, 3, 5, 6, 7, 8, 9, 10] {
        image[position(0, sector) + 2..position(0, sector) + 256].fill(0x33);
    }
    assert_eq!(rule(&image), 0);
}

#[test]
fn an_empty_free_chain_may_have_any_track_byte() {
    let mut image = small();
    // The five free sectors go to TWO.X.
    link(&mut image, (0, 6), (0, 5));
    put(&mut image, TWO_SLOT + 9, &[7, 0, 3, 0, 10, 0]);
    put(&mut image, 0x10, &[0, 99, 4, 0, 0, 0, 8, 0]);
    assert_eq!(rule(&image), 0);
    image[0x14] = 1;
    assert_eq!(rule(&image), 6);
}

#[test]
fn the_check_refuses_wrong_sizes_only() {
    let refused = Checked { number: 1, rule: 0 };
    for length in [0, 1, 256, 2_559, 2_561, 2_816, 204_799, 204_801, 207_360] {
        assert_eq!(check(&vec![0; length], TEN, PLAIN), refused, "{length}");
    }
    for tracks in 1..=80 {
        let broken = Checked { number: 0, rule: 1 };
        assert_eq!(
            check(&vec![0; 2_560 * tracks], TEN, PLAIN),
            broken,
            "{tracks}"
        );
    }
}
