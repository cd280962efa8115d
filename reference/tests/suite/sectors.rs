//! The early discs of nine sectors a track: which numbers and lengths are
//! taken, expected bytes at places counted by hand, lengths that fit both
//! numbers, and commands on a nine-sector disc against those on a ten-sector
//! one that holds the same.

use crate::common::{
    delete, protect, put, refused_by_every_call, rename, rule_of, save, small, MOVED, NINE, PLAIN,
    TEN,
};
use reference::command::{Answer, Buffer, Command};
use reference::generate::{
    command, command_list, damaged_disc, sound_disc, sound_disc_of, wrong_length, Random, Replays,
};
use reference::history::{moment_fault, Book, Reference};
use reference::{blank, check, list, read, rearranged, view, view_number, view_start, Checked};

/// Numbers that state neither nine nor ten; some do in their low bytes.
const NEITHER: [u32; 12] = [
    0,
    1,
    8,
    11,
    18,
    255,
    265,
    266,
    65_545,
    65_546,
    0x8000_000A,
    u32::MAX,
];

/// Where track t, sector s starts in an image of nine sectors a track.
fn at(track: usize, sector: usize) -> usize {
    256 * (9 * track + sector - 1)
}

fn link(image: &mut [u8], (track, sector): (u8, u8), to: (u8, u8)) {
    put(image, at(track.into(), sector.into()), &[to.0, to.1]);
}

fn linked(image: &mut [u8], chain: &[(u8, u8)]) {
    for pair in chain.windows(2) {
        link(image, pair[0], pair[1]);
    }
}

fn rule(image: &[u8]) -> u32 {
    rule_of(image, NINE)
}

fn blanked(tracks: usize, name: &[u8]) -> Vec<u8> {
    let mut image = vec![0xEE; tracks * 2304];
    assert_eq!(blank(&mut image, NINE, PLAIN, name), 0);
    image
}

fn saved(image: &mut [u8], name: &[u8], length: usize) -> u32 {
    save(image, NINE, PLAIN, name, 0, 0, 0, &vec![5; length])
}

fn counts(image: &[u8]) -> (u16, u16) {
    let word = |at: usize| u16::from_le_bytes([image[at], image[at + 1]]);
    (word(0x14), word(0x16))
}

/// Whether the numbers and the length are taken; an image of zeros breaks rule 1.
fn taken(length: usize, sectors: u32, arrangement: u32) -> bool {
    let image = vec![0; length];
    let checked = check(&image, sectors, arrangement);
    let numbers = (checked.number, checked.rule);
    assert!(numbers == (0, 1) || numbers == (1, 0), "{numbers:?}");
    assert_eq!(
        view_number(&image, sectors, arrangement, 0, 1),
        checked.number
    );
    checked.number == 0
}

#[test]
fn lengths_of_nine() {
    for (length, right) in [
        (0, false),
        (256, false),
        (1_152, false),
        (2_048, false),
        (2_303, false),
        (2_304, true),
        (2_305, false),
        (2_560, false),
        (3_456, false),
        (4_608, true),
        (92_160, true),
        (102_400, false),
        (184_319, false),
        (184_320, true),
        (184_321, false),
        (186_624, false),
        (204_800, false),
        (207_360, false),
    ] {
        assert_eq!(taken(length, NINE, PLAIN), right, "{length}");
    }
}

#[test]
fn every_number_of_whole_sectors() {
    let (mut of_nine, mut of_ten, mut of_both) = (0, 0, 0);
    for number in 0..=820 {
        let nine = number % 9 == 0 && (9..=720).contains(&number);
        let ten = number % 10 == 0 && (10..=800).contains(&number);
        assert_eq!(taken(256 * number, NINE, PLAIN), nine, "{number}");
        assert_eq!(taken(256 * number, TEN, PLAIN), ten, "{number}");
        assert_eq!(taken(256 * number, TEN, MOVED), ten, "{number}");
        of_nine += usize::from(nine);
        of_ten += usize::from(ten);
        of_both += usize::from(nine && ten);
    }
    // Eight lengths fit both: 23,040 times 1 to 8.
    assert_eq!((of_nine, of_ten, of_both), (80, 80, 8));
}

#[test]
fn any_other_number_of_sectors_is_refused_first_of_all() {
    // Among the lengths are whole tracks of 8, 9, 10, 11 and 18 sectors.
    for length in [0, 256, 2_048, 2_304, 2_560, 2_816, 4_608, 23_040, 67_840] {
        let image = vec![0; length];
        for sectors in NEITHER {
            for arrangement in [PLAIN, MOVED, 2] {
                refused_by_every_call(&image, sectors, arrangement);
            }
        }
    }
    for sectors in NEITHER {
        refused_by_every_call(&small(), sectors, PLAIN);
        refused_by_every_call(&blanked(1, b"D"), sectors, PLAIN);
    }
}

#[test]
fn nine_has_no_other_arrangement() {
    for image in [blanked(1, b"D"), blanked(10, b"D"), vec![0; 2_304], small()] {
        for arrangement in [MOVED, 2, 9, 10, 256, 257, 65_536, u32::MAX] {
            refused_by_every_call(&image, NINE, arrangement);
        }
    }
}

#[test]
fn wrong_lengths_are_refused_by_every_call() {
    for length in [0, 2_303, 2_305, 2_560, 5_120, 186_624, 204_800] {
        refused_by_every_call(&vec![0; length], NINE, PLAIN);
    }
    for length in [2_304, 2_559, 4_608, 92_160 - 256, 207_360] {
        refused_by_every_call(&vec![0; length], TEN, PLAIN);
        refused_by_every_call(&vec![0; length], TEN, MOVED);
    }
    // A sound disc of ten, stated as nine.
    refused_by_every_call(&small(), NINE, PLAIN);
}

#[test]
fn rearranged_of_nine() {
    let image = Random::new(1).bytes(23_040);
    assert_eq!(rearranged(&image, NINE, PLAIN, PLAIN), Some(image.clone()));
    for (from, to) in [(PLAIN, MOVED), (MOVED, PLAIN), (MOVED, MOVED), (PLAIN, 2)] {
        assert_eq!(rearranged(&image, NINE, from, to), None);
    }
    for sectors in NEITHER {
        assert_eq!(rearranged(&image, sectors, PLAIN, PLAIN), None);
        assert_eq!(rearranged(&image, sectors, PLAIN, MOVED), None);
    }
    assert_eq!(rearranged(&image[..2_560], NINE, PLAIN, PLAIN), None);
    assert!(rearranged(&image, TEN, PLAIN, MOVED).is_some());
}

/// All but the links of a blank disc.
fn unlinked(tracks: usize, name: &[u8; 9], free: u16) -> Vec<u8> {
    let mut image = vec![0; tracks * 2304];
    put(&mut image, 0x10, &[7, 0, 4, 0]);
    put(&mut image, 0x14, &free.to_le_bytes());
    put(&mut image, 0x18, name);
    put(&mut image, 0x40, b"TANDOS 65 IMAGE 1");
    image
}

#[test]
fn blank_of_one_track() {
    let mut expected = unlinked(1, b"B1       ", 7);
    // 0/7, 0/2, 0/5, 0/8, 0/3 and 0/6; 0/9 at 2048 ends the chain.
    put(&mut expected, 1536, &[0, 2]);
    put(&mut expected, 256, &[0, 5]);
    put(&mut expected, 1024, &[0, 8]);
    put(&mut expected, 1792, &[0, 3]);
    put(&mut expected, 512, &[0, 6]);
    put(&mut expected, 1280, &[0, 9]);
    assert_eq!(blanked(1, b"B1"), expected);
    assert_eq!(rule(&expected), 0);
}

#[test]
fn blank_of_two_tracks() {
    let mut expected = unlinked(2, b"NINECHARS", 16);
    for (at, to) in [
        (1536, [0, 2]),
        (256, [0, 5]),
        (1024, [0, 8]),
        (1792, [0, 3]),
        (512, [0, 6]),
        (1280, [0, 9]),
        (2048, [1, 1]),
        // Track 1 starts at 2304; 1/9 at 4352 ends the chain.
        (2304, [1, 4]),
        (3072, [1, 7]),
        (3840, [1, 2]),
        (2560, [1, 5]),
        (3328, [1, 8]),
        (4096, [1, 3]),
        (2816, [1, 6]),
        (3584, [1, 9]),
    ] {
        put(&mut expected, at, &to);
    }
    assert_eq!(blanked(2, b"NINECHARS"), expected);
    assert_eq!(rule(&expected), 0);
}

#[test]
fn blanks_of_more_tracks() {
    for (tracks, free) in [(10, 88), (25, 223), (40, 358), (80, 718)] {
        let mut expected = unlinked(tracks, b"D        ", free);
        let mut passed: Vec<(u8, u8)> = (0..tracks)
            .flat_map(|track| [1, 4, 7, 2, 5, 8, 3, 6, 9].map(|sector| (track as u8, sector)))
            .collect();
        passed.drain(..2);
        linked(&mut expected, &passed);
        assert!(blanked(tracks, b"D") == expected, "{tracks}");
        assert_eq!(rule(&expected), 0);
    }
    // 358 is $0166; the last sector of 40 tracks is 39/9, at 91,904.
    let image = blanked(40, b"D");
    assert_eq!(image[0x14..0x18], [0x66, 0x01, 0, 0]);
    assert_eq!(image[at(38, 9)..at(38, 9) + 2], [39, 1]);
    assert_eq!(image[91_904..91_906], [0, 0]);
    assert_eq!(image[at(39, 6)..at(39, 6) + 2], [39, 9]);
}

#[test]
fn one_track_holds_1763_bytes() {
    let empty = blanked(1, b"D");
    for length in [1_764, 2_016, 2_017, 65_536] {
        let mut image = empty.clone();
        assert_eq!(saved(&mut image, b"F", length), 8, "{length}");
        assert_eq!(image, empty);
    }
    let mut image = empty;
    assert_eq!(saved(&mut image, b"F", 1_763), 0);
    assert_eq!(image[0x10..0x18], [0, 0, 4, 0, 0, 0, 7, 0]);
    // 0/7 to 0/9, seven sectors.
    assert_eq!(image[771..787], *b"F        \x07\x00\x07\x00\x09\x00\x00");
    assert_eq!(image[at(0, 9)..at(0, 9) + 3], [0, 0, 253]);
    assert_eq!(rule(&image), 0);
    assert_eq!(saved(&mut image, b"G", 1), 8);
}

#[test]
fn the_piece_of_thursday_on_nine() {
    let sheet: Vec<u8> = (0..300).map(|at| (at % 251) as u8).collect();
    let mut expected = blanked(40, b"PIECES");
    // 0/7 at 1536 and 0/2 at 256, so that 0/5 is the next free one.
    put(&mut expected, 0x10, &[5, 0, 4, 0, 0x64, 0x01, 2, 0]);
    expected[770] = 1;
    let entry = [
        0x54, 0x48, 0x55, 0x20, 0x20, 0x20, 0x50, 0x43, 0x53, 0x02, 0x00, 0x07, 0x00, 0x02, 0x00,
        0x00,
    ];
    put(&mut expected, 771, &entry);
    let header = [0, 2, 0xFF, 0, 0x00, 0x20, 0x2B, 0x21, 0, 0, 0xF5];
    put(&mut expected, 1536, &header);
    put(&mut expected, 1547, &sheet[..245]);
    put(&mut expected, 256, &[0, 0, 55]);
    put(&mut expected, 259, &sheet[245..]);
    let mut image = blanked(40, b"PIECES");
    let answer = save(&mut image, NINE, PLAIN, b"THU.PCS", 0, 0x2000, 0, &sheet);
    assert_eq!(answer, 0);
    assert!(image == expected);

    let mut buffer = [0; 300];
    let reading = read(&image, NINE, PLAIN, b"THU.PCS", &mut buffer);
    assert_eq!((reading.number, reading.end), (0, 0x212B));
    assert_eq!(buffer[..], sheet[..]);
    let mut records = [0xCC; 30];
    assert_eq!(list(&image, NINE, PLAIN, &mut records).length, 28);
    let listed = [
        0x01, 0x50, 0x49, 0x45, 0x43, 0x45, 0x53, 0x20, 0x20, 0x20, 0x64, 0x01, 0x02, 0x00, 0x02,
        0x54, 0x48, 0x55, 0x20, 0x20, 0x20, 0x50, 0x43, 0x53, 0x02, 0x00, 0x00, 0x00, 0xCC, 0xCC,
    ];
    assert_eq!(records, listed);
}

#[test]
fn views_of_nine() {
    let mut image = vec![0; 40 * 2304];
    for (number, sector) in image.chunks_mut(256).enumerate() {
        sector[2] = number as u8;
        sector[255] = (number / 256) as u8;
    }
    for (number, (track, sector)) in (0..40)
        .flat_map(|track| (1..=9).map(move |sector| (track, sector)))
        .enumerate()
    {
        let shown = view(&image, NINE, PLAIN, track, sector);
        assert_eq!(view_number(&image, NINE, PLAIN, track, sector), 0);
        assert_eq!(shown.len(), 254);
        assert_eq!(
            usize::from(shown[0]) + 256 * usize::from(shown[253]),
            number
        );
        let start = view_start(&image, NINE, PLAIN, track, sector);
        assert_eq!(start as usize, 256 * number + 2);
        assert_eq!(shown.as_ptr(), image[256 * number + 2..].as_ptr());
    }
    assert_eq!(view_start(&image, NINE, PLAIN, 1, 1), 2_306);
    assert_eq!(view_start(&image, NINE, PLAIN, 39, 9), 91_906);
}

#[test]
fn views_off_a_disc_of_nine() {
    let image = vec![0; 40 * 2304];
    for (track, sector) in [
        (0, 0),
        (0, 10),
        (38, 10),
        (39, 10),
        (39, 11),
        (40, 1),
        (0, 265),
        (256, 1),
        (0, 256),
        (u32::MAX, 9),
        (477_218_589, 1),
        (0, u32::MAX),
    ] {
        assert_eq!(view_number(&image, NINE, PLAIN, track, sector), 11);
        assert_eq!(view_start(&image, NINE, PLAIN, track, sector), 0);
        assert!(view(&image, NINE, PLAIN, track, sector).is_empty());
    }
}

/// The first slot of the directory sector 0/4.
const SLOT: usize = 771;

/// A sound disc of two tracks. Directory 0/4 and `second`; F.X, of two sectors,
/// in 0/2 and 1/9; free 0/3, 0/5 to 0/9, then 1/1 to 1/8, without `second`.
fn two_tracks(second: Option<(u8, u8)>) -> Vec<u8> {
    let mut image = vec![0; 4608];
    let directory: Vec<(u8, u8)> = [(0, 4)].into_iter().chain(second).collect();
    let free: Vec<(u8, u8)> = [(0, 3), (0, 5), (0, 6), (0, 7), (0, 8), (0, 9)]
        .into_iter()
        .chain((1..=8).map(|sector| (1, sector)))
        .filter(|&free| second != Some(free))
        .collect();
    linked(&mut image, &directory);
    linked(&mut image, &free);
    link(&mut image, (0, 2), (1, 9));
    image[770] = 1;
    put(&mut image, SLOT, b"F     X  \x02\x00\x02\x00\x09\x01\x00");
    put(&mut image, 0x10, &[3, 0, 4, 0, free.len() as u8, 0, 2, 0]);
    image
}

#[test]
fn the_hand_made_discs_are_sound() {
    let image = two_tracks(None);
    assert_eq!(rule(&image), 0);
    assert_eq!(counts(&image), (14, 2));
    let image = two_tracks(Some((1, 1)));
    assert_eq!(rule(&image), 0);
    assert_eq!(counts(&image), (13, 2));
    assert_eq!(image[at(0, 4)..at(0, 4) + 2], [1, 1]);
}

#[test]
fn rule_1_sector_10_is_not_on_a_disc_of_nine() {
    // Counted on over the end of the track, 0/10 would be 1/1 and 1/10 nothing.
    for (pointer, broken) in [
        ([1, 1], 0),
        ([10, 0], 1),
        ([10, 1], 1),
        ([11, 0], 1),
        ([4, 2], 1),
        ([1, 0], 1),
        ([0, 1], 1),
    ] {
        let mut image = vec![0; 4608];
        // Directory 1/1, and all others free in order of number.
        let mut free: Vec<(u8, u8)> = (2..=9).map(|sector| (0, sector)).collect();
        free.extend((2..=9).map(|sector| (1, sector)));
        linked(&mut image, &free);
        put(&mut image, 0x10, &[2, 0, pointer[0], pointer[1], 16, 0]);
        assert_eq!(rule(&image), broken, "{pointer:?}");
    }
}

#[test]
fn rule_2_a_link_to_sector_10() {
    for to in [(0, 10), (1, 10), (0, 11), (2, 1), (0, 1), (0, 4)] {
        let mut image = two_tracks(Some((1, 1)));
        link(&mut image, (0, 4), to);
        assert_eq!(rule(&image), 2, "{to:?}");
    }
}

#[test]
fn rule_5_a_link_to_sector_10() {
    // F.X in 0/2 and 1/1, with 1/9 free in its place.
    let mut image = two_tracks(None);
    link(&mut image, (0, 2), (1, 1));
    put(&mut image, SLOT + 13, &[1, 1]);
    link(&mut image, (0, 9), (1, 2));
    link(&mut image, (1, 8), (1, 9));
    link(&mut image, (1, 1), (0, 0));
    assert_eq!(rule(&image), 0);
    for to in [(0, 10), (1, 10), (0, 11), (2, 1), (0, 9), (1, 0)] {
        let mut broken = image.clone();
        link(&mut broken, (0, 2), to);
        assert_eq!(rule(&broken), 5, "{to:?}");
    }
    for last in [[10, 0], [10, 1], [9, 1], [2, 0], [0, 1]] {
        let mut broken = image.clone();
        put(&mut broken, SLOT + 13, &last);
        assert_eq!(rule(&broken), 5, "{last:?}");
    }
    // A file of the one sector 1/1, named as 0/10.
    put(&mut image, SLOT + 9, &[1, 0, 1, 1, 1, 1]);
    link(&mut image, (0, 2), (0, 3));
    put(&mut image, 0x10, &[2, 0, 4, 0, 15, 0, 1, 0]);
    assert_eq!(rule(&image), 0);
    for first in [[10, 0], [10, 1], [11, 0]] {
        let mut broken = image.clone();
        put(&mut broken, SLOT + 11, &first);
        assert_eq!(rule(&broken), 5, "{first:?}");
    }
}

#[test]
fn rule_6_a_link_to_sector_10() {
    for to in [(0, 10), (1, 10), (2, 1), (1, 9), (1, 2), (0, 0)] {
        let mut image = two_tracks(None);
        link(&mut image, (0, 9), to);
        assert_eq!(rule(&image), 6, "{to:?}");
    }
    // The free chain from 1/1 on, after 0/3 to 0/9 have gone to the file.
    let mut image = two_tracks(None);
    link(&mut image, (0, 2), (0, 3));
    link(&mut image, (0, 9), (1, 9));
    put(&mut image, SLOT + 9, &[8, 0]);
    put(&mut image, 0x10, &[1, 1, 4, 0, 8, 0, 8, 0]);
    assert_eq!(rule(&image), 0);
    for pointer in [[10, 0], [10, 1], [11, 0], [1, 2], [0, 0]] {
        put(&mut image, 0x10, &pointer);
        assert_eq!(rule(&image), 6, "{pointer:?}");
    }
}

#[test]
fn rules_7_and_8_on_nine() {
    let mut image = two_tracks(None);
    image[0x16] = 3;
    assert_eq!(rule(&image), 7);
    // 1/8 is lost, the last sector but one.
    let mut image = two_tracks(None);
    link(&mut image, (1, 7), (0, 0));
    image[0x14] = 13;
    assert_eq!(rule(&image), 8);
    // 1/9 is lost, the very last.
    let mut image = two_tracks(None);
    link(&mut image, (0, 2), (0, 0));
    put(&mut image, SLOT + 9, &[1, 0, 2, 0, 2, 0]);
    image[0x16] = 1;
    assert_eq!(rule(&image), 8);
}

/// A blank disc of three tracks with F0 to F14, of one sector each.
fn fifteen_files() -> Vec<u8> {
    let mut image = blanked(3, b"D");
    for file in 0..15 {
        assert_eq!(saved(&mut image, format!("F{file}").as_bytes(), 1), 0);
    }
    image
}

#[test]
fn save_grows_the_directory() {
    // Two tracks have 16 free: the sixteenth file would need two, one is left.
    let mut image = blanked(2, b"D");
    for file in 0..15 {
        assert_eq!(saved(&mut image, format!("F{file}").as_bytes(), 1), 0);
    }
    assert_eq!(counts(&image), (1, 15));
    let before = image.clone();
    assert_eq!(saved(&mut image, b"F15", 1), 8);
    assert_eq!(image, before);
    // Three tracks have 25: F14 is in 1/6, F15 in 1/9, the directory in 2/1.
    let mut image = fifteen_files();
    assert_eq!(image[0x10..0x18], [9, 1, 4, 0, 10, 0, 15, 0]);
    image[at(2, 1) + 2..at(2, 2)].fill(0xEE);
    let mut expected = image.clone();
    put(&mut expected, 0x10, &[4, 2, 4, 0, 8, 0, 16, 0]);
    link(&mut expected, (0, 4), (2, 1));
    let mut grown = [0; 256];
    grown[2] = 1;
    put(&mut grown, 3, b"F15      \x01\x00\x09\x01\x09\x01\x00");
    put(&mut expected, 4608, &grown);
    put(
        &mut expected,
        4352,
        &[0, 0, 0xFF, 0, 0, 0, 0, 0, 0, 0, 1, 5],
    );
    assert_eq!(saved(&mut image, b"F15", 1), 0);
    assert_eq!(image, expected);
    assert_eq!(rule(&image), 0);
}

#[test]
fn delete_rename_and_protect_on_nine() {
    let mut image = two_tracks(None);
    let mut expected = image.clone();
    assert_eq!(rename(&mut image, NINE, PLAIN, b"F.X", b"G"), 0);
    put(&mut expected, SLOT, b"G        ");
    assert_eq!(protect(&mut image, NINE, PLAIN, b"G", 1), 0);
    expected[SLOT + 15] = 0x80;
    assert_eq!(image, expected);
    assert_eq!(delete(&mut image, NINE, PLAIN, b"G"), 6);
    assert_eq!(protect(&mut image, NINE, PLAIN, b"G", 0), 0);
    // 1/9, at 4352, links to the old head 0/3.
    assert_eq!(delete(&mut image, NINE, PLAIN, b"G"), 0);
    expected[770] = 0;
    put(&mut expected, SLOT, &[0; 16]);
    put(&mut expected, 4352, &[0, 3]);
    put(&mut expected, 0x10, &[2, 0, 4, 0, 16, 0, 0, 0]);
    assert_eq!(image, expected);
    assert_eq!(rule(&image), 0);
}

#[test]
fn the_largest_disc_of_nine() {
    let mut image = blanked(80, b"D");
    assert_eq!(saved(&mut image, b"A", 65_536), 0);
    assert_eq!(saved(&mut image, b"B", 65_536), 0);
    // 718 - 520 = 198 sectors hold 245 + 197 * 253 bytes.
    assert_eq!(saved(&mut image, b"C", 50_087), 8);
    assert_eq!(saved(&mut image, b"C", 50_086), 0);
    assert_eq!(image[0x10..0x18], [0, 0, 4, 0, 0, 0, 0xCE, 0x02]);
    // C ends in 79/9.
    assert_eq!(image[SLOT + 32 + 13..SLOT + 32 + 15], [9, 79]);
    assert_eq!(rule(&image), 0);
    assert_eq!(delete(&mut image, NINE, PLAIN, b"B"), 0);
    assert_eq!(counts(&image), (260, 458));
    assert_eq!(rule(&image), 0);
}

#[test]
fn lengths_that_fit_both_are_read_as_stated() {
    let mut image = vec![0; 23_040];
    for (number, sector) in image.chunks_mut(256).enumerate() {
        sector.fill(number as u8);
    }
    // 1/1, 3/4 and 8/9 have the numbers 9, 30 and 80 with nine, else 10, 33, 88.
    for (track, sector, nine, ten) in [(1, 1, 9, 10), (3, 4, 30, 33), (8, 9, 80, 88)] {
        assert_eq!(view(&image, NINE, PLAIN, track, sector), [nine; 254]);
        assert_eq!(view(&image, TEN, PLAIN, track, sector), [ten; 254]);
    }
    // Ten tracks of nine, and nine tracks of ten.
    for (track, sector, nine, ten) in [(9, 1, 0, 11), (9, 9, 0, 11), (8, 10, 11, 0)] {
        assert_eq!(view_number(&image, NINE, PLAIN, track, sector), nine);
        assert_eq!(view_number(&image, TEN, PLAIN, track, sector), ten);
    }
}

#[test]
fn blanks_that_fit_both() {
    // Both have 88 free, but other links.
    let nine = blanked(10, b"D");
    let mut ten = vec![0xEE; 23_040];
    assert_eq!(blank(&mut ten, TEN, PLAIN, b"D"), 0);
    assert_eq!(nine[..256], ten[..256]);
    assert_eq!(nine[0x10..0x18], [7, 0, 4, 0, 88, 0, 0, 0]);
    assert_eq!((nine[1537], ten[1537]), (2, 10));
    // With ten stated, the chain of nine leaves the disc for 9/6; with nine
    // stated, the chain of ten goes from 0/7 to 0/10.
    assert_eq!((rule_of(&nine, NINE), rule_of(&nine, TEN)), (0, 6));
    assert_eq!((rule_of(&ten, TEN), rule_of(&ten, NINE)), (0, 6));
    for (mut image, wrong) in [(nine, TEN), (ten, NINE)] {
        let before = image.clone();
        assert_eq!(save(&mut image, wrong, PLAIN, b"F", 0, 0, 0, &[1]), 3);
        assert_eq!(list(&image, wrong, PLAIN, &mut [0; 15]).number, 3);
        assert_eq!(read(&image, wrong, PLAIN, b"F", &mut [0; 1]).number, 3);
        assert_eq!(image, before);
        assert_eq!(Book::start(&image, wrong, PLAIN), None);
        assert_eq!(blank(&mut image, wrong, PLAIN, b"D"), 0);
        assert_eq!(rule_of(&image, wrong), 0);
    }
}

#[test]
fn the_largest_length_that_fits_both() {
    // 80 tracks of nine are 72 of ten; both have 718 free.
    let mut image = blanked(80, b"D");
    assert_eq!(check(&image, TEN, PLAIN), Checked { number: 0, rule: 6 });
    assert_eq!(blank(&mut image, TEN, PLAIN, b"D"), 0);
    assert_eq!(counts(&image), (718, 0));
    assert_eq!(check(&image, TEN, PLAIN), Checked { number: 0, rule: 0 });
    assert_eq!(check(&image, NINE, PLAIN), Checked { number: 0, rule: 6 });
    assert_eq!(view_number(&image, TEN, PLAIN, 71, 10), 0);
    assert_eq!(view_number(&image, TEN, PLAIN, 72, 1), 11);
    assert_eq!(view_number(&image, NINE, PLAIN, 79, 9), 0);
    assert_eq!(view_number(&image, NINE, PLAIN, 71, 10), 11);
}

/// Where each of 89 sectors leads, by place in the image: a pair that both
/// numbers have, or (0, 0).
type Links = [(u8, u8); 90];

/// How long the chain from a place is and where it ends; nothing if it comes
/// round. Only pairs with a sector byte lead on.
fn chain(links: &Links, sectors: usize, head: usize) -> Option<(usize, usize)> {
    let (mut length, mut place) = (1, head);
    while links[place].1 != 0 {
        place = usize::from(links[place].0) * sectors + usize::from(links[place].1) - 1;
        length += 1;
        if length > 90 {
            return None;
        }
    }
    Some((length, place))
}

/// Writes a directory sector with nine files of one number, F and the heads'
/// order in each name, and gives how many sectors they have.
fn nine_files(image: &mut [u8], links: &Links, sectors: usize, heads: [usize; 9]) -> Option<usize> {
    let directory = 256 * sectors;
    let mut all = 0;
    image[directory + 2] = 9;
    for (index, head) in heads.into_iter().enumerate() {
        let (length, last) = chain(links, sectors, head)?;
        let pointer = |place: usize| [(place % sectors + 1) as u8, (place / sectors) as u8];
        let slot = directory + 3 + 16 * index;
        put(image, slot, b"F        ");
        image[slot + 1] = b'0' + index as u8;
        image[slot + 9] = length as u8;
        put(image, slot + 11, &pointer(head));
        put(image, slot + 13, &pointer(last));
        all += length;
    }
    Some(all)
}

/// 23,040 bytes that are sound as nine and as ten. The directory is 1/1, at
/// place 9 or 10. Sector 10 of a track and all of track 9 exist for one number
/// only, so that only entries lead there: each number has nine files that begin
/// there, and every pair that both have leads to one sector. Which does is drawn
/// until no chain of either number comes round.
fn sound_as_both(random: &mut Random) -> Vec<u8> {
    loop {
        let mut pairs: Vec<(u8, u8)> = (0..=8)
            .flat_map(|track| (1..=9).map(move |sector| (track, sector)))
            .filter(|pair| ![(0, 1), (1, 1)].contains(pair))
            .chain([(0, 0); 8])
            .collect();
        random.shuffle(&mut pairs);
        let mut links = [(0, 0); 90];
        let places = (1..9).chain(11..90);
        for (place, pair) in places.zip(pairs) {
            links[place] = pair;
        }
        let mut image = vec![0; 23_040];
        for (sector, link) in image.chunks_mut(256).zip(links) {
            sector[..2].copy_from_slice(&[link.0, link.1]);
        }
        put(&mut image, 0x10, &[0, 0, 1, 1, 0, 0, 88, 0]);
        let of_ten = [9, 19, 29, 39, 49, 59, 69, 79, 89];
        let of_nine = [81, 82, 83, 84, 85, 86, 87, 88, 89];
        let ten = nine_files(&mut image, &links, 10, of_ten);
        let nine = nine_files(&mut image, &links, 9, of_nine);
        if (ten, nine) == (Some(88), Some(88)) {
            return image;
        }
    }
}

#[test]
fn a_disc_that_is_sound_as_both() {
    for seed in 0..20 {
        let image = sound_as_both(&mut Random::new(seed));
        assert_eq!((rule_of(&image, NINE), rule_of(&image, TEN)), (0, 0));
        let listing = |sectors| {
            let mut records = [0; 132];
            assert_eq!(list(&image, sectors, PLAIN, &mut records).length, 132);
            records
        };
        assert_ne!(listing(NINE), listing(TEN));
        for (sectors, first) in [(NINE, [1, 9]), (TEN, [10, 0])] {
            let mut after = image.clone();
            assert_eq!(delete(&mut after, sectors, PLAIN, b"F0"), 0);
            assert_eq!(after[0x10..0x14], [first[0], first[1], 1, 1]);
            assert_eq!(rule_of(&after, sectors), 0);
            let book = Book::start(&image, sectors, PLAIN).expect("sound");
            assert_eq!((book.free(), book.standing().len()), (0, 9));
            assert_eq!(moment_fault(&Reference, &image, &book), None);
        }
    }
}

#[test]
fn the_sum_of_nine() {
    let mut image = fifteen_files();
    let mut book = Book::start(&image, NINE, PLAIN).expect("sound");
    assert_eq!((book.sectors(), book.arrangement()), (NINE, PLAIN));
    // 27 - 1 - 1 - 15.
    assert_eq!((book.directory(), book.file_sectors()), (1, 15));
    assert_eq!((book.free(), book.need(245)), (10, 2));
    let grow = Command::Save {
        name: b"G".to_vec(),
        page: 1,
        start: 0x1000,
        transfer: 0,
        sheet: vec![7; 499],
        writes: Buffer {
            length: 259 * 6 + 1,
            fill: 0,
        },
    };
    assert!(grow.run(&mut image, NINE, PLAIN).accepted());
    book.record(&grow, true);
    // 27 - 1 - 2 - 18.
    assert_eq!((book.directory(), book.file_sectors()), (2, 18));
    assert_eq!((book.free(), counts(&image)), (6, (6, 18)));
    assert_eq!(moment_fault(&Reference, &image, &book), None);
    let again = Command::Blank {
        name: b"D".to_vec(),
    };
    assert_eq!(again.run(&mut image, NINE, PLAIN), Answer::Number(0));
    book.record(&again, true);
    assert_eq!(book.free(), 25);
    assert_eq!(moment_fault(&Reference, &image, &book), None);
    assert_eq!(Book::start(&image, NINE, PLAIN), Some(book));
}

#[test]
fn the_number_of_a_run_is_one_throughout() {
    let nine = blanked(10, b"D");
    let mut ten = nine.clone();
    assert_eq!(blank(&mut ten, TEN, PLAIN, b"D"), 0);
    let of_nine = Book::start(&nine, NINE, PLAIN).expect("sound");
    let of_ten = Book::start(&ten, TEN, PLAIN).expect("sound");
    assert_eq!((of_nine.sectors(), of_ten.sectors()), (NINE, TEN));
    assert_eq!((of_nine.free(), of_ten.free()), (88, 88));
    assert_eq!(moment_fault(&Reference, &nine, &of_nine), None);
    assert_eq!(moment_fault(&Reference, &ten, &of_ten), None);
    // An image that goes over to the other number is none of the run's.
    assert!(moment_fault(&Reference, &ten, &of_nine).is_some());
    assert!(moment_fault(&Reference, &nine, &of_ten).is_some());
    for sectors in NEITHER {
        assert_eq!(Book::start(&nine, sectors, PLAIN), None);
    }
}

#[test]
fn faults_of_a_run_on_nine_are_found() {
    let image = two_tracks(None);
    let book = Book::start(&image, NINE, PLAIN).expect("sound");
    assert_eq!(moment_fault(&Reference, &image, &book), None);
    for (at, byte) in [(0x14, 13), (0x10, 10), (0x12, 10), (2049, 10), (SLOT, b'X')] {
        let mut other = image.clone();
        other[at] = byte;
        assert!(moment_fault(&Reference, &other, &book).is_some(), "{at}");
    }
    // 0/9 links to 1/1; 0/10 is no name for it.
    let mut other = image;
    link(&mut other, (0, 9), (0, 10));
    assert!(moment_fault(&Reference, &other, &book).is_some());
}

/// A ten-sector disc that holds a sound one of nine: every sector stands at its
/// track and sector, and the tenth ones follow at the end of the free chain.
fn lifted(nine: &[u8]) -> Vec<u8> {
    let tracks = nine.len() / 2304;
    let mut ten: Vec<u8> = nine
        .chunks(2304)
        .flat_map(|track| track.iter().copied().chain([0; 256]))
        .collect();
    // The last pair that leads on along the free chain, sector byte first.
    let (mut sector_byte, mut track_byte) = (0x10, 0x11);
    while ten[sector_byte] != 0 {
        let (track, sector) = (ten[track_byte], ten[sector_byte]);
        let start = 256 * (10 * usize::from(track) + usize::from(sector) - 1);
        (track_byte, sector_byte) = (start, start + 1);
    }
    for track in 0..tracks {
        (ten[track_byte], ten[sector_byte]) = (track as u8, 10);
        let start = 2560 * track + 2304;
        (track_byte, sector_byte) = (start, start + 1);
    }
    let free = (counts(nine).0 + tracks as u16).to_le_bytes();
    put(&mut ten, 0x14, &free);
    ten
}

/// A list of writes without the free pointer and count of 0/1, and for a delete
/// without the link that gets the old pointer.
fn comparable_writes(command: &Command, list: &mut [u8]) {
    let deleted = matches!(command, Command::Delete { .. });
    for (at, record) in list.chunks_exact_mut(259).enumerate() {
        let sector = &mut record[1..];
        if sector[..2] == [0, 1] {
            sector[2 + 0x10..2 + 0x12].fill(0);
            sector[2 + 0x14..2 + 0x16].fill(0);
        } else if deleted && at == 1 {
            sector[2..4].fill(0);
        }
    }
}

/// The answer without what must differ on the disc of ten: the free count in a
/// list, it and the free pointer in a view of 0/1 and in what is written, and
/// where a view lies.
fn comparable(command: &Command, answer: Answer) -> Answer {
    match (command, answer) {
        (Command::List { .. }, Answer::Listed(listed, mut lent)) if listed.number == 0 => {
            lent[10..12].fill(0);
            Answer::Listed(listed, lent)
        }
        (command, Answer::Wrote(filled, mut lent)) => {
            comparable_writes(command, &mut lent[..filled.length as usize]);
            Answer::Wrote(filled, lent)
        }
        (Command::View { track, sector }, Answer::Viewed { number, bytes, .. }) => {
            let mut bytes = bytes;
            if (number, *track, *sector) == (0, 0, 1) {
                // A view begins with byte 2; the pointer of an empty chain leads
                // on to 0/10.
                bytes[0x10 - 2..0x12 - 2].fill(0);
                bytes[0x14 - 2..0x16 - 2].fill(0);
            }
            Answer::Viewed {
                number,
                start: 0,
                bytes,
            }
        }
        (_, other) => other,
    }
}

/// Whether a command may rightly do otherwise on the disc of ten.
fn looks_at_the_difference(command: &Command, on_nine: &Answer, tracks: u32) -> bool {
    match command {
        Command::Blank { .. } => true,
        Command::Save { .. } => on_nine.number() == 8,
        Command::View { track, sector } => *track < tracks && *sector == 10,
        _ => false,
    }
}

#[test]
fn nine_in_step_with_ten() {
    let (mut accepted, mut tenth) = (0, 0);
    for seed in 0..750 {
        let mut random = Random::new(seed);
        let mut nine = sound_disc(&mut random, 5, NINE, PLAIN);
        let mut ten = lifted(&nine);
        assert_eq!((rule_of(&nine, NINE), rule_of(&ten, TEN)), (0, 0));
        for _ in 0..24 {
            let command = command(&mut random, &nine, NINE, PLAIN);
            let before = nine.clone();
            let on_nine = command.run(&mut nine, NINE, PLAIN);
            if looks_at_the_difference(&command, &on_nine, before.len() as u32 / 2304) {
                tenth += usize::from(on_nine.number() == 11);
                nine = before;
                continue;
            }
            let on_ten = command.run(&mut ten, TEN, PLAIN);
            accepted += usize::from(on_nine.accepted());
            let on_nine = comparable(&command, on_nine);
            assert_eq!(comparable(&command, on_ten), on_nine, "{command:?}");
            assert!(ten == lifted(&nine), "seed {seed} {command:?}");
        }
    }
    assert!(accepted > 6000 && tenth > 20, "{accepted} {tenth}");
}

#[test]
fn generated_discs_have_the_stated_number() {
    let (mut fit_both, mut largest) = (0, 0);
    for seed in 0..200 {
        for (sectors, track_bytes) in [(NINE, 2304), (TEN, 2560)] {
            let image = sound_disc(&mut Random::new(seed), 80, sectors, PLAIN);
            assert_eq!(image.len() % track_bytes, 0);
            assert_eq!(rule_of(&image, sectors), 0);
            fit_both += usize::from(image.len() % 23_040 == 0);
            largest += usize::from(image.len() == 80 * track_bytes);
        }
        let make =
            |sectors, arrangement| sound_disc(&mut Random::new(seed), 12, sectors, arrangement);
        for sectors in [0, 8, 266, u32::MAX] {
            assert!(make(sectors, MOVED) == make(TEN, PLAIN));
        }
        assert!(make(NINE, MOVED) == make(NINE, PLAIN));
        assert!(make(NINE, u32::MAX) == make(NINE, PLAIN));
    }
    assert!(fit_both > 20 && largest > 20, "{fit_both} {largest}");
}

#[test]
fn discs_of_the_other_number_are_generated() {
    for (sectors, other, track_bytes) in [(NINE, TEN, 2304), (TEN, NINE, 2560)] {
        let (mut fitting, mut unfit) = (0, 0);
        for seed in 0..2000 {
            let image = damaged_disc(&mut Random::new(seed), 20, sectors, PLAIN);
            let of_other = check(&image, other, PLAIN) == Checked { number: 0, rule: 0 };
            if of_other && image.len() % track_bytes == 0 {
                assert_ne!(rule_of(&image, sectors), 0);
                fitting += 1;
            }
            // Eight tracks of either are never as long as whole ones of the other.
            let short = damaged_disc(&mut Random::new(seed), 8, sectors, PLAIN);
            let of_other = check(&short, other, PLAIN) == Checked { number: 0, rule: 0 };
            unfit += usize::from(of_other && check(&short, sectors, PLAIN).number == 1);
        }
        assert!(fitting > 100 && unfit > 100, "{fitting} {unfit}");
    }
}

#[test]
fn wrong_lengths_are_wrong_for_the_number() {
    let mut met_81 = [0; 2];
    for seed in 0..200 {
        for (at, (sectors, track_bytes)) in [(NINE, 2304), (TEN, 2560)].into_iter().enumerate() {
            let mut random = Random::new(seed);
            let tracks = random.between(1, 80);
            let mut image = sound_disc_of(&mut random, tracks, sectors, PLAIN);
            assert_eq!(image.len(), tracks * track_bytes);
            wrong_length(&mut random, &mut image, sectors);
            assert_eq!(check(&image, sectors, PLAIN).number, 1);
            met_81[at] += usize::from(image.len() == 81 * track_bytes);
        }
    }
    assert!(met_81.iter().all(|&times| times > 10), "{met_81:?}");
}

#[test]
fn generated_views_reach_beyond_the_track() {
    for sectors in [NINE, TEN] {
        let mut met = [0; 3];
        for seed in 0..150 {
            let mut random = Random::new(seed);
            let start = sound_disc(&mut random, 4, sectors, PLAIN);
            for command in command_list(&mut random, &start, sectors, PLAIN, 40, Replays::none()) {
                if let Command::View { sector, .. } = command {
                    for (times, number) in met.iter_mut().zip([9, 10, 11]) {
                        *times += usize::from(sector == number);
                    }
                }
            }
        }
        assert!(met.iter().all(|&times| times > 10), "{sectors} {met:?}");
    }
}
