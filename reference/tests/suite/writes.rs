//! The list of what was written (request e): whole lists made by hand, the
//! refusal 10, and what the book says of lists.

use crate::common::{
    link, moved, position, put, rewritten, rule_of, small, start_of, DIRECTORY, FORMATS, MOVED,
    NINE, ONE_SLOT, PLAIN, TEN, TWO_SLOT,
};
use reference::command::{Answer, Buffer, Command};
use reference::generate::{command_list, sound_disc, Random, Replays};
use reference::history::{answer_fault, Book};
use reference::writes_book::{list_fault, list_length, replayed};
use reference::{blank, delete, protect, rename, replay, save, Filled};

/// A record: kind 3, track, sector, and the sector's 256 bytes.
fn record(track: u8, sector: u8, bytes: &[u8]) -> Vec<u8> {
    assert_eq!(bytes.len(), 256);
    [&[3, track, sector], bytes].concat()
}

/// A list of the named sectors as they stand in a plain image of ten.
fn list_of(image: &[u8], sectors: &[(u8, u8)]) -> Vec<u8> {
    let mut list = Vec::new();
    for &(track, sector) in sectors {
        let at = position(track.into(), sector.into());
        list.extend(record(track, sector, &image[at..at + 256]));
    }
    list.push(0);
    list
}

fn done(length: usize) -> Filled {
    Filled {
        number: 0,
        length: length as u32,
    }
}

fn refused(number: u32) -> Filled {
    Filled { number, length: 0 }
}

/// A call on an image and a buffer for its list.
type Call<'a> = &'a dyn Fn(&mut [u8], &mut [u8]) -> Filled;

/// Runs a call that is to be accepted with exactly this list, lent exactly
/// enough and more; then that one byte less, and no byte, gives 10 and leaves
/// all. Gives the new image.
fn lists(image: &[u8], call: Call<'_>, list: &[u8]) -> Vec<u8> {
    let mut after = Vec::new();
    for spare in [0, 1, 300] {
        after = image.to_vec();
        let mut lent = vec![0xC9; list.len() + spare];
        assert_eq!(call(&mut after, &mut lent), done(list.len()));
        assert!(lent[..list.len()] == *list, "another list");
        assert!(lent[list.len()..].iter().all(|&byte| byte == 0xC9));
    }
    for short in [list.len() - 1, 259, 1, 0] {
        assert_eq!(kept(image, call, short), 10);
    }
    after
}

/// The number of a refused call with a buffer of this length; that all stays.
fn kept(image: &[u8], call: Call<'_>, length: usize) -> u32 {
    let mut after = image.to_vec();
    let mut lent = vec![0x5C; length];
    let filled = call(&mut after, &mut lent);
    assert_eq!(filled, refused(filled.number));
    assert!(after == image, "a refusal wrote to the image");
    assert_eq!(lent, vec![0x5C; length]);
    filled.number
}

/// That replaying the list on the old image gives the new one.
fn replays(old: &[u8], list: &[u8], new: &[u8]) {
    let mut image = old.to_vec();
    assert_eq!(replay(&mut image, TEN, PLAIN, list), 0);
    assert!(image == new);
}

/// The four sectors that the save of THU.PCS writes: 0/1, 0/7, 0/10 and 0/4.
fn thursday(sheet: &[u8]) -> [[u8; 256]; 4] {
    let [mut system, mut first, mut second, mut directory] = [[0; 256]; 4];
    // Free pointer 0/3, directory 0/4, 396 free, 2 used.
    put(&mut system, 0x10, &[3, 0, 4, 0, 0x8C, 0x01, 2, 0]);
    put(&mut system, 0x18, b"PIECES   ");
    put(&mut system, 0x40, b"TANDOS 65 IMAGE 1");
    let header = [0, 10, 0xFF, 0, 0x00, 0x20, 0x2B, 0x21, 0x34, 0x12, 0xF5];
    put(&mut first, 0, &header);
    put(&mut first, 11, &sheet[..245]);
    put(&mut second, 0, &[0, 0, 55]);
    put(&mut second, 3, &sheet[245..]);
    directory[2] = 1;
    let entry = [
        0x54, 0x48, 0x55, 0x20, 0x20, 0x20, 0x50, 0x43, 0x53, 0x02, 0x00, 0x07, 0x00, 0x0A, 0x00,
        0x00,
    ];
    put(&mut directory, 3, &entry);
    [system, first, second, directory]
}

#[test]
fn the_writes_of_thursday() {
    let sheet: Vec<u8> = (0..300).map(|at| (at % 251) as u8).collect();
    let mut image = vec![0xEE; 40 * 2560];
    assert_eq!(blank(&mut image, TEN, PLAIN, b"PIECES"), 0);
    let [system, first, second, directory] = thursday(&sheet);
    let list = [
        record(0, 1, &system),
        record(0, 7, &first),
        record(0, 10, &second),
        record(0, 4, &directory),
        vec![0],
    ]
    .concat();
    assert_eq!(list.len(), 1037);
    let name = b"THU.PCS";
    let call: Call<'_> =
        &|image, lent| save(image, TEN, PLAIN, name, 0, 0x2000, 0x1234, &sheet, lent);
    let after = lists(&image, call, &list);
    replays(&image, &list, &after);
    assert!(rewritten(&image, TEN, PLAIN, &list) == after);
}

/// `small` with the free sectors filled, so that what a save clears shows.
fn littered() -> Vec<u8> {
    let mut image = small();
    for sector in [5, 7, 8, 9, 10] {
        image[position(0, sector) + 2..position(0, sector) + 256].fill(0xEE);
    }
    image
}

#[test]
fn a_save_of_one_byte() {
    let image = littered();
    let mut expected = image.clone();
    put(&mut expected, 0x10, &[7, 0, 4, 0, 4, 0, 4, 0]);
    expected[DIRECTORY + 2] = 3;
    let slot = ONE_SLOT + 16;
    put(
        &mut expected,
        slot,
        b"N        \x01\x00\x05\x00\x05\x00\x00",
    );
    expected[position(0, 5)..position(0, 6)].fill(0);
    let header = b"\x00\x00\xFF\x07\xFF\xFF\xFF\xFF\x00\x00\x01Z";
    put(&mut expected, position(0, 5), header);
    let list = list_of(&expected, &[(0, 1), (0, 5), (0, 4)]);
    assert_eq!(list.len(), 778);
    let call: Call<'_> = &|image, lent| save(image, TEN, PLAIN, b"N", 7, 0xFFFF, 0, b"Z", lent);
    assert_eq!(lists(&image, call, &list), expected);
    replays(&image, &list, &expected);
}

#[test]
fn a_save_that_takes_the_last_free_sector() {
    let mut image = littered();
    // Zeros go into the free pointer, whatever track the end link has.
    link(&mut image, (0, 10), (77, 0));
    let mut expected = image.clone();
    put(&mut expected, 0x10, &[0, 0, 4, 0, 0, 0, 8, 0]);
    expected[DIRECTORY + 2] = 3;
    let slot = ONE_SLOT + 16;
    put(
        &mut expected,
        slot,
        b"ALL      \x05\x00\x05\x00\x0A\x00\x00",
    );
    let header = b"\x00\x07\xFF\x00\x00\x00\xE8\x04\x00\x00\xF5";
    put(&mut expected, position(0, 5), header);
    expected[position(0, 5) + 11..position(0, 6)].fill(6);
    for (sector, next) in [(7, 8), (8, 9), (9, 10), (10, 0)] {
        let at = position(0, sector);
        put(&mut expected, at, &[0, next, 253]);
        expected[at + 3..at + 256].fill(6);
    }
    let order = [(0, 1), (0, 5), (0, 7), (0, 8), (0, 9), (0, 10), (0, 4)];
    let list = list_of(&expected, &order);
    let call: Call<'_> = &|image, lent| save(image, TEN, PLAIN, b"ALL", 0, 0, 0, &[6; 1257], lent);
    assert_eq!(lists(&image, call, &list), expected);
    replays(&image, &list, &expected);
}

/// A disc of two tracks and one full directory sector, 0/2: FA to FO of one
/// sector each, from 0/3 to 1/7. Free, in this order: 1/10, 1/8, 1/9.
fn full_directory() -> Vec<u8> {
    let mut image = vec![0; 2 * 2560];
    put(&mut image, 0x10, &[10, 1, 2, 0, 3, 0, 15, 0]);
    let directory = position(0, 2);
    put(&mut image, directory, &[9, 0, 15]);
    image[directory + 243..directory + 256].fill(0x99);
    let homes = (3..=10).map(|s| (0, s)).chain((1..=7).map(|s| (1, s)));
    for (at, (track, sector)) in homes.enumerate() {
        let slot = directory + 3 + 16 * at;
        put(&mut image, slot, b"F        \x01\x00");
        image[slot + 1] = b'A' + at as u8;
        put(&mut image, slot + 11, &[sector, track, sector, track, 0]);
    }
    link(&mut image, (1, 10), (1, 8));
    link(&mut image, (1, 8), (1, 9));
    for sector in [8, 9, 10] {
        image[position(1, sector) + 2..position(1, sector) + 256].fill(0xEE);
    }
    image
}

#[test]
fn a_save_that_grows_the_directory() {
    let image = full_directory();
    assert_eq!(rule_of(&image, TEN), 0);
    let mut expected = image.clone();
    put(&mut expected, 0x10, &[9, 1, 2, 0, 1, 0, 16, 0]);
    // The old sector changes by its link only, and is listed last of all.
    link(&mut expected, (0, 2), (1, 8));
    let mut grown = [0; 256];
    grown[2] = 1;
    put(&mut grown, 3, b"G        \x01\x00\x0A\x01\x0A\x01\x00");
    put(&mut expected, position(1, 8), &grown);
    expected[position(1, 10)..position(1, 10) + 256].fill(0);
    let header = b"\x00\x00\xFF\x00\x10\x00\x11\x00\x00\x00\x02\x03\x03";
    put(&mut expected, position(1, 10), header);
    let list = list_of(&expected, &[(0, 1), (1, 10), (1, 8), (0, 2)]);
    let call: Call<'_> = &|image, lent| save(image, TEN, PLAIN, b"G", 0, 0x10, 0, &[3; 2], lent);
    assert_eq!(lists(&image, call, &list), expected);
    replays(&image, &list, &expected);
    assert_eq!(rule_of(&expected, TEN), 0);
}

#[test]
fn growth_that_takes_the_last_free_sector() {
    let image = full_directory();
    let sheet = [3; 498];
    let call: Call<'_> = &|image, lent| save(image, TEN, PLAIN, b"G", 0, 0, 0, &sheet, lent);
    let mut after = image.clone();
    let mut lent = vec![0; 2000];
    assert_eq!(call(&mut after, &mut lent), done(5 * 259 + 1));
    assert_eq!(
        after[0x10..0x18],
        [0, 0, 2, 0, 0, 0, 17, 0],
        "no free sector"
    );
    let list = list_of(&after, &[(0, 1), (1, 10), (1, 8), (1, 9), (0, 2)]);
    assert_eq!(lists(&image, call, &list), after);
    let more: Call<'_> = &|image, lent| save(image, TEN, PLAIN, b"G", 0, 0, 0, &[3; 499], lent);
    for length in [0, 1295, 1296, 1554, 1555, 5000] {
        assert_eq!(kept(&image, more, length), 8);
    }
}

#[test]
fn a_save_into_an_earlier_directory_sector() {
    // FG's slot is cleared after the directory has grown to 1/8.
    let mut image = full_directory();
    let mut lent = vec![0; 2000];
    assert_eq!(
        save(&mut image, TEN, PLAIN, b"G", 0, 0, 0, &[3], &mut lent).number,
        0
    );
    assert_eq!(delete(&mut image, TEN, PLAIN, b"FG", &mut lent), done(778));
    let call: Call<'_> = &|image, lent| save(image, TEN, PLAIN, b"H", 0, 0, 0, &[4], lent);
    let mut expected = image.clone();
    // FG's 0/9 is the head of the free chain, before 1/9.
    put(&mut expected, 0x10, &[9, 1, 2, 0, 1, 0, 16, 0]);
    let header = b"\x00\x00\xFF\x00\x00\x00\x00\x00\x00\x00\x01\x04";
    put(&mut expected, position(0, 9), header);
    expected[position(0, 2) + 2] = 15;
    let slot = position(0, 2) + 3 + 16 * 6;
    put(
        &mut expected,
        slot,
        b"H        \x01\x00\x09\x00\x09\x00\x00",
    );
    let list = list_of(&expected, &[(0, 1), (0, 9), (0, 2)]);
    assert_eq!(lists(&image, call, &list), expected);
}

#[test]
fn a_delete() {
    let mut image = small();
    image[TWO_SLOT + 15] = 0;
    let mut expected = image.clone();
    put(&mut expected, TWO_SLOT, &[0; 16]);
    expected[DIRECTORY + 2] = 1;
    link(&mut expected, (0, 6), (0, 5));
    put(&mut expected, 0x10, &[3, 0, 4, 0, 7, 0, 1, 0]);
    // TWO.X has 0/3 and 0/6; only the last is written.
    let list = list_of(&expected, &[(0, 4), (0, 6), (0, 1)]);
    assert_eq!(list.len(), 778);
    let call: Call<'_> = &|image, lent| delete(image, TEN, PLAIN, b"TWO.X", lent);
    assert_eq!(lists(&image, call, &list), expected);
    replays(&image, &list, &expected);
}

#[test]
fn a_delete_on_a_full_disc() {
    let mut image = small();
    link(&mut image, (0, 6), (0, 5));
    link(&mut image, (0, 10), (88, 0));
    put(&mut image, TWO_SLOT + 9, &[7, 0, 3, 0, 10, 0, 0]);
    put(&mut image, 0x10, &[0, 99, 4, 0, 0, 0, 8, 0]);
    let mut expected = image.clone();
    put(&mut expected, TWO_SLOT, &[0; 16]);
    expected[DIRECTORY + 2] = 1;
    link(&mut expected, (0, 10), (0, 0));
    put(&mut expected, 0x10, &[3, 0, 4, 0, 7, 0, 1, 0]);
    let list = list_of(&expected, &[(0, 4), (0, 10), (0, 1)]);
    let call: Call<'_> = &|image, lent| delete(image, TEN, PLAIN, b"TWO.X", lent);
    assert_eq!(lists(&image, call, &list), expected);
}

#[test]
fn a_rename() {
    let mut expected = small();
    put(&mut expected, ONE_SLOT, b"TEN      ");
    let list = list_of(&expected, &[(0, 4)]);
    assert_eq!(list.len(), 260);
    let call: Call<'_> = &|image, lent| rename(image, TEN, PLAIN, b"ONE", b"TEN", lent);
    assert_eq!(lists(&small(), call, &list), expected);
    replays(&small(), &list, &expected);
}

#[test]
fn a_protect_that_changes_a_byte_or_none() {
    for (name, on, attribute) in [
        (&b"ONE"[..], 1, (ONE_SLOT, 0x80)),
        (b"ONE", 0, (ONE_SLOT, 0)),
        (b"TWO.X", 256, (TWO_SLOT, 0x80)),
        (b"TWO.X", 0, (TWO_SLOT, 0)),
    ] {
        let mut expected = small();
        expected[attribute.0 + 15] = attribute.1;
        let list = list_of(&expected, &[(0, 4)]);
        let call: Call<'_> = &|image, lent| protect(image, TEN, PLAIN, name, on, lent);
        assert_eq!(lists(&small(), call, &list), expected, "{name:?} {on}");
        replays(&small(), &list, &expected);
    }
}

#[test]
fn the_entry_s_sector_of_a_long_directory() {
    // A second directory sector, 1/8, holds G only.
    let mut image = full_directory();
    let mut lent = vec![0; 2000];
    assert_eq!(
        save(&mut image, TEN, PLAIN, b"G", 0, 0, 0, &[3], &mut lent).number,
        0
    );
    let on: Call<'_> = &|image, lent| protect(image, TEN, PLAIN, b"G", 1, lent);
    let mut expected = image.clone();
    expected[position(1, 8) + 3 + 15] = 0x80;
    lists(&image, on, &list_of(&expected, &[(1, 8)]));
    let new: Call<'_> = &|image, lent| rename(image, TEN, PLAIN, b"FO", b"X", lent);
    let mut expected = image.clone();
    put(
        &mut expected,
        position(0, 2) + 3 + 14 * 16,
        b"X        \x01\x00\x07\x01\x07\x01\x00",
    );
    lists(&image, new, &list_of(&expected, &[(0, 2)]));
    let gone: Call<'_> = &|image, lent| delete(image, TEN, PLAIN, b"G", lent);
    let mut expected = image.clone();
    put(&mut expected, position(1, 8) + 2, &[0; 17]);
    link(&mut expected, (1, 10), (1, 9));
    put(&mut expected, 0x10, &[10, 1, 2, 0, 2, 0, 15, 0]);
    lists(
        &image,
        gone,
        &list_of(&expected, &[(1, 8), (1, 10), (0, 1)]),
    );
}

#[test]
fn the_longest_list() {
    let mut image = vec![0; 80 * 2560];
    assert_eq!(blank(&mut image, TEN, PLAIN, b"BIG"), 0);
    let sheet = Random::new(4).bytes(65_536);
    let call: Call<'_> = &|image, lent| save(image, TEN, PLAIN, b"PAGE", 0, 0, 0, &sheet, lent);
    // 260 sectors, 0/1 and 0/4.
    let mut lent = vec![0; 262 * 259 + 1];
    let mut after = image.clone();
    assert_eq!(call(&mut after, &mut lent), done(67_859));
    assert!(rewritten(&image, TEN, PLAIN, &lent) == after);
    assert_eq!(kept(&image, call, 67_858), 10);
}

/// Rule 7 is broken.
fn unsound() -> Vec<u8> {
    let mut image = small();
    image[0x16] = 9;
    image
}

/// Wrong by one byte, and otherwise like `small`.
fn wrong_size() -> Vec<u8> {
    [small(), vec![0]].concat()
}

/// That each call is refused with its number, whatever length is lent.
fn all_before_10(cases: &[(&[u8], Call<'_>, u32)]) {
    for (at, &(image, call, number)) in cases.iter().enumerate() {
        for length in [0, 1, 259, 260, 777, 778, 5000] {
            assert_eq!(kept(image, call, length), number, "case {at}, {length}");
        }
    }
}

#[test]
fn every_other_refusal_of_save_comes_before_10() {
    let saving = |name: &'static [u8], page: u32, length: usize| {
        move |image: &mut [u8], lent: &mut [u8]| {
            save(image, TEN, PLAIN, name, page, 0, 0, &vec![1; length], lent)
        }
    };
    all_before_10(&[
        (&wrong_size(), &saving(b"NEW", 0, 1), 1),
        (&small(), &saving(b"new", 0, 1), 2),
        (&small(), &saving(b"NEW", 8, 1), 7),
        (&small(), &saving(b"NEW", 0, 0), 7),
        (&unsound(), &saving(b"NEW", 0, 1), 3),
        (&small(), &saving(b"ONE", 0, 1), 5),
        (&small(), &saving(b"NEW", 0, 1258), 8),
        (&full_directory(), &saving(b"NEW", 0, 499), 8),
    ]);
}

#[test]
fn every_other_refusal_of_delete_and_protect_comes_before_10() {
    let deleting = |name: &'static [u8]| {
        move |image: &mut [u8], lent: &mut [u8]| delete(image, TEN, PLAIN, name, lent)
    };
    let protecting = |name: &'static [u8]| {
        move |image: &mut [u8], lent: &mut [u8]| protect(image, TEN, PLAIN, name, 1, lent)
    };
    let stated = |image: &mut [u8], lent: &mut [u8]| delete(image, NINE, MOVED, b"ONE", lent);
    all_before_10(&[
        (&wrong_size(), &deleting(b"ONE"), 1),
        (&small(), &stated, 1),
        (&small(), &deleting(b"one"), 2),
        (&unsound(), &deleting(b"ONE"), 3),
        (&small(), &deleting(b"NONE"), 4),
        (&small(), &deleting(b"TWO.X"), 6),
        (&wrong_size(), &protecting(b"ONE"), 1),
        (&small(), &protecting(b""), 2),
        (&unsound(), &protecting(b"ONE"), 3),
        (&small(), &protecting(b"NONE"), 4),
    ]);
}

#[test]
fn every_other_refusal_of_rename_comes_before_10() {
    let renaming = |old: &'static [u8], new: &'static [u8]| {
        move |image: &mut [u8], lent: &mut [u8]| rename(image, TEN, PLAIN, old, new, lent)
    };
    all_before_10(&[
        (&wrong_size(), &renaming(b"ONE", b"NEW"), 1),
        (&small(), &renaming(b"one", b"NEW"), 2),
        (&small(), &renaming(b"ONE", b"new"), 2),
        (&unsound(), &renaming(b"ONE", b"NEW"), 3),
        (&small(), &renaming(b"NONE", b"NEW"), 4),
        (&small(), &renaming(b"TWO.X", b"NEW"), 6),
        (&small(), &renaming(b"TWO.X", b"ONE"), 6),
        (&small(), &renaming(b"ONE", b"ONE"), 5),
        (&small(), &renaming(b"ONE", b"TWO.X"), 5),
    ]);
}

#[test]
fn ten_alone_at_every_length() {
    let calls: [(Call<'_>, usize); 4] = [
        (
            &|image, lent| save(image, TEN, PLAIN, b"NEW", 0, 0, 0, &[1], lent),
            778,
        ),
        (&|image, lent| delete(image, TEN, PLAIN, b"ONE", lent), 778),
        (
            &|image, lent| rename(image, TEN, PLAIN, b"ONE", b"NEW", lent),
            260,
        ),
        (
            &|image, lent| protect(image, TEN, PLAIN, b"TWO.X", 1, lent),
            260,
        ),
    ];
    for (call, exact) in calls {
        for length in 0..exact {
            assert_eq!(kept(&small(), call, length), 10, "{length}");
        }
        let mut lent = vec![0; exact];
        assert_eq!(call(&mut small(), &mut lent), done(exact));
    }
}

/// The four calls on `small` or its moved form.
fn four_lists(image: &[u8], sectors: u32, arrangement: u32) -> Vec<(Vec<u8>, Vec<u8>)> {
    let (s, a) = (sectors, arrangement);
    let calls: [Call<'_>; 4] = [
        &|image, lent| save(image, s, a, b"NEW", 1, 2, 3, &[9; 800], lent),
        &|image, lent| delete(image, s, a, b"ONE", lent),
        &|image, lent| rename(image, s, a, b"ONE", b"NEW", lent),
        &|image, lent| protect(image, s, a, b"ONE", 1, lent),
    ];
    calls
        .into_iter()
        .map(|call| {
            let (mut after, mut lent) = (image.to_vec(), vec![0; 3000]);
            let filled = call(&mut after, &mut lent);
            assert_eq!(filled.number, 0);
            lent.truncate(filled.length as usize);
            (after, lent)
        })
        .collect()
}

#[test]
fn both_arrangements_give_the_same_list() {
    let plain = four_lists(&small(), TEN, PLAIN);
    let other = four_lists(&moved(&small()), TEN, MOVED);
    for ((plain_after, plain_list), (after, list)) in plain.into_iter().zip(other) {
        assert!(list == plain_list);
        assert!(after == moved(&plain_after));
        let mut image = moved(&small());
        assert_eq!(replay(&mut image, TEN, MOVED, &list), 0);
        assert!(image == after);
    }
}

#[test]
fn the_writes_of_a_nine_sector_disc() {
    let mut image = vec![0xEE; 3 * 2304];
    assert_eq!(blank(&mut image, NINE, PLAIN, b"D"), 0);
    // Free: 0/7, 0/2, 0/5, 0/8, 0/3, 0/6, 0/9, then 1/1, 1/4.
    let sheet = vec![5; 245 + 253 * 8];
    let mut after = image.clone();
    let mut lent = vec![0x77; 11 * 259 + 1];
    let filled = save(&mut after, NINE, PLAIN, b"F", 0, 0, 0, &sheet, &mut lent);
    assert_eq!(filled, done(11 * 259 + 1));
    let order: Vec<(u8, u8)> = lent.chunks_exact(259).map(|r| (r[1], r[2])).collect();
    let expected = [
        (0, 1),
        (0, 7),
        (0, 2),
        (0, 5),
        (0, 8),
        (0, 3),
        (0, 6),
        (0, 9),
        (1, 1),
        (1, 4),
        (0, 4),
    ];
    assert_eq!(order, expected);
    for (at, (track, sector)) in expected.into_iter().enumerate() {
        let from = start_of(NINE, PLAIN, (track.into(), sector.into()));
        assert!(lent[259 * at + 3..259 * at + 259] == after[from..from + 256]);
        assert_eq!(lent[259 * at], 3);
    }
    assert_eq!(after[0x10..0x18], [7, 1, 4, 0, 16, 0, 9, 0]);
    assert_eq!(lent[11 * 259], 0);
    let mut again = image.clone();
    assert_eq!(replay(&mut again, NINE, PLAIN, &lent), 0);
    assert!(again == after);
    let call: Call<'_> = &|image, lent| save(image, NINE, PLAIN, b"F", 0, 0, 0, &sheet, lent);
    assert_eq!(kept(&image, call, 11 * 259), 10);
}

#[test]
fn every_list_replayed_on_the_old_image_gives_the_new() {
    let mut listed = [0; 4];
    for (seed, (sectors, arrangement)) in (0..450).zip(FORMATS.into_iter().cycle()) {
        let mut random = Random::new(seed);
        let mut image = sound_disc(&mut random, 4, sectors, arrangement);
        for command in command_list(
            &mut random,
            &image,
            sectors,
            arrangement,
            20,
            Replays::none(),
        ) {
            let old = image.clone();
            let answer = command.run(&mut image, sectors, arrangement);
            let list = match &answer {
                Answer::Wrote(filled, lent) if filled.number == 0 => {
                    &lent[..filled.length as usize]
                }
                _ => continue,
            };
            let mut again = old.clone();
            assert_eq!(replay(&mut again, sectors, arrangement, list), 0);
            assert!(again == image, "seed {seed} {command:?}");
            assert!(rewritten(&old, sectors, arrangement, list) == image);
            assert_eq!(replayed(&old, sectors, arrangement, list), Some(again));
            let fault = list_fault(&command, (sectors, arrangement), (&old, &image), list);
            assert_eq!(fault, None, "seed {seed} {command:?}");
            listed[kind(&command)] += 1;
        }
    }
    assert!(listed.iter().all(|&times| times > 200), "{listed:?}");
}

fn kind(command: &Command) -> usize {
    match command {
        Command::Save { .. } => 0,
        Command::Delete { .. } => 1,
        Command::Rename { .. } => 2,
        _ => 3,
    }
}

fn save_command(name: &[u8], length: usize, lent: usize) -> Command {
    Command::Save {
        name: name.to_vec(),
        page: 0,
        start: 0,
        transfer: 0,
        sheet: vec![8; length],
        writes: Buffer {
            length: lent,
            fill: 0x31,
        },
    }
}

#[test]
fn the_book_tells_8_and_10() {
    let book = Book::start(&full_directory(), TEN, PLAIN).expect("sound");
    // 0/1, one sector, the new directory sector, the old one.
    assert_eq!((book.need(1), book.writes_of_save(1)), (2, 4));
    assert_eq!(book.save_due(1, 1036), refused(10));
    assert_eq!(book.save_due(1, 1037), done(1037));
    assert_eq!(book.save_due(1, 9999), done(1037));
    assert_eq!(book.save_due(498, 1295), refused(10));
    assert_eq!(book.save_due(498, 1296), done(1296));
    assert_eq!(book.save_due(499, 0), refused(8));
    assert_eq!(book.save_due(499, 9999), refused(8));
    let book = Book::start(&small(), TEN, PLAIN).expect("sound");
    assert_eq!((book.need(246), book.writes_of_save(246)), (2, 4));
    assert_eq!(list_length(4), 1037);
    assert_eq!(book.due(&save_command(b"N", 1257, 9999)), Some(done(1814)));
    assert_eq!(book.due(&save_command(b"N", 1258, 9999)), Some(refused(8)));
    assert_eq!(book.due(&save_command(b"N", 1257, 1813)), Some(refused(10)));
    let name = b"ONE".to_vec();
    for (length, due) in [(777, refused(10)), (778, done(778))] {
        let name = name.clone();
        let writes = Buffer { length, fill: 0 };
        assert_eq!(book.due(&Command::Delete { name, writes }), Some(due));
    }
    for (length, due) in [(259, refused(10)), (260, done(260))] {
        let (name, on) = (name.clone(), 1);
        let writes = Buffer { length, fill: 0 };
        assert_eq!(book.due(&Command::Protect { name, on, writes }), Some(due));
    }
    assert_eq!(book.due(&Command::Check), None);
}

#[test]
fn a_wrong_answer_is_found_by_the_book() {
    let book = Book::start(&small(), TEN, PLAIN).expect("sound");
    let command = save_command(b"N", 300, 1040);
    let mut new = small();
    let right = command.run(&mut new, TEN, PLAIN);
    assert_eq!(
        answer_fault(&book, &command, &right, (&small(), &new)),
        None
    );
    let buffer = match right {
        Answer::Wrote(_, buffer) => buffer,
        other => panic!("{other:?}"),
    };
    let found = |filled: Filled, change: &dyn Fn(&mut Vec<u8>), after: &[u8]| {
        let mut changed = buffer.clone();
        change(&mut changed);
        let answer = Answer::Wrote(filled, changed);
        answer_fault(&book, &command, &answer, (&small(), after)).is_some()
    };
    let none = |_: &mut Vec<u8>| {};
    assert!(!found(done(1037), &none, &new));
    assert!(found(done(1036), &none, &new), "length");
    assert!(found(done(5000), &none, &new), "length beyond the buffer");
    assert!(found(refused(10), &|lent| lent.fill(0x31), &small()), "10");
    assert!(found(refused(8), &|lent| lent.fill(0x31), &small()), "8");
    assert!(found(done(1037), &|lent| lent[1037] = 0, &new), "the rest");
    assert!(found(done(1037), &|lent| lent[3] ^= 1, &new), "a byte");
    assert!(found(done(1037), &none, &small()), "the image");
    // Of refusals that the book can't judge only that they change nothing.
    assert!(!found(refused(5), &|lent| lent.fill(0x31), &small()));
    assert!(found(refused(5), &|lent| lent.fill(0x31), &new));
    assert!(found(refused(5), &none, &small()));
}

#[test]
fn records_out_of_order_are_found() {
    let command = save_command(b"N", 300, 1037);
    let mut new = small();
    let list = match command.run(&mut new, TEN, PLAIN) {
        Answer::Wrote(_, lent) => lent,
        other => panic!("{other:?}"),
    };
    let fault = |list: &[u8]| list_fault(&command, (TEN, PLAIN), (&small(), &new), list);
    assert_eq!(fault(&list), None);
    for (one, other) in [(0, 1), (1, 2), (2, 3), (0, 3)] {
        let mut records: Vec<&[u8]> = list.chunks(259).collect();
        records.swap(one, other);
        let swapped = records.concat();
        let replays_alike = rewritten(&small(), TEN, PLAIN, &swapped) == new;
        assert!(replays_alike && fault(&swapped).is_some(), "{one} {other}");
    }
    let twice = [&list[..259], &list].concat();
    assert!(fault(&twice).is_some());
    assert!(fault(&list[259..]).is_some());
    assert!(fault(&list[..1036]).is_some());
    assert!(fault(&[&list[..], &[0]].concat()).is_some());
    let mut other = list.clone();
    other[900] ^= 1;
    assert!(fault(&other).is_some());
}

#[test]
fn generators_reach_every_length_of_buffer() {
    let mut seen = [[0; 4]; 4];
    for seed in 0..200 {
        let mut random = Random::new(seed);
        let mut image = sound_disc(&mut random, 3, TEN, PLAIN);
        let mut book = Book::start(&image, TEN, PLAIN).expect("sound");
        for command in command_list(&mut random, &image, TEN, PLAIN, 20, Replays::none()) {
            let exact = match &command {
                Command::Save { sheet, .. } => list_length(book.writes_of_save(sheet.len())),
                Command::Delete { .. } => 778,
                _ => 260,
            };
            if let Some(lent) = command.lent_for_writes() {
                let times = &mut seen[kind(&command)];
                times[0] += usize::from(lent.length == 0);
                times[1] += usize::from(lent.length == exact - 1);
                times[2] += usize::from(lent.length == exact);
                times[3] += usize::from(lent.length > exact);
            }
            let accepted = command.run(&mut image, TEN, PLAIN).accepted();
            book.record(&command, accepted);
        }
    }
    let enough = seen.iter().flatten().all(|&times| times >= 15);
    assert!(enough, "{seen:?}");
}
