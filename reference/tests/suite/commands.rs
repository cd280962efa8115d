//! What each command writes, as whole images made by hand.

use crate::common::{
    delete, link, position, protect, put, rename, rule, save, small, DIRECTORY, ONE_SLOT, PLAIN,
    TEN, TWO_SLOT,
};
use reference::{blank, list, read, view, view_number, Reading};

#[test]
fn blank_of_one_track() {
    let mut expected = vec![0; 2560];
    put(&mut expected, 0x10, &[7, 0, 4, 0, 8, 0, 0, 0]);
    put(&mut expected, 0x18, b"B1       ");
    put(&mut expected, 0x40, b"TANDOS 65 IMAGE 1");
    for (from, to) in [(7, 10), (10, 3), (3, 6), (6, 9), (9, 2), (2, 5), (5, 8)] {
        link(&mut expected, (0, from), (0, to));
    }
    let mut image = vec![0xFF; 2560];
    assert_eq!(blank(&mut image, TEN, PLAIN, b"B1"), 0);
    assert_eq!(image, expected);
}

#[test]
fn blank_of_80_tracks() {
    let mut expected = vec![0; 80 * 2560];
    put(&mut expected, 0x10, &[7, 0, 4, 0, 0x1E, 0x03, 0, 0]);
    put(&mut expected, 0x18, b"NINECHARS");
    put(&mut expected, 0x40, b"TANDOS 65 IMAGE 1");
    let order = [1, 4, 7, 10, 3, 6, 9, 2, 5, 8];
    for track in 0..80 {
        for pair in order.windows(2) {
            link(
                &mut expected,
                (track, pair[0]),
                (track as u8, pair[1] as u8),
            );
        }
        if track < 79 {
            link(&mut expected, (track, 8), (track as u8 + 1, 1));
        }
    }
    link(&mut expected, (0, 1), (0, 0));
    link(&mut expected, (0, 4), (0, 0));
    let mut image = vec![0xFF; 80 * 2560];
    assert_eq!(blank(&mut image, TEN, PLAIN, b"NINECHARS"), 0);
    assert!(image == expected);
    assert_eq!(rule(&image), 0);
}

#[test]
fn blank_names() {
    for name in [&b"A"[..], b"0", b"ABCDEFGHI", b"Z9"] {
        assert_eq!(blank(&mut vec![1; 2560], TEN, PLAIN, name), 0, "{name:?}");
    }
    for name in [&b""[..], b"TENCHARS10", b"A.B", b"a", b"A ", b" A", b"\0"] {
        assert_eq!(blank(&mut vec![1; 2560], TEN, PLAIN, name), 2, "{name:?}");
    }
}

#[test]
fn save_takes_the_head_of_the_free_chain() {
    let sheet: Vec<u8> = (1..=255).chain(1..=45).collect();
    let mut image = small();
    image[position(0, 5) + 2..position(0, 6)].fill(0xEE);
    image[position(0, 7) + 2..position(0, 8)].fill(0xEE);
    let mut expected = image.clone();
    put(&mut expected, 0x10, &[8, 0, 4, 0, 3, 0, 5, 0]);
    expected[DIRECTORY + 2] = 3;
    // The free slot between the two entries.
    put(
        &mut expected,
        ONE_SLOT + 16,
        b"NEW   A1 \x02\x00\x05\x00\x07\x00\x00",
    );
    let header = b"\x00\x07\xFF\x07\xD4\xFE\xFF\xFF\xCD\xAB\xF5";
    put(&mut expected, position(0, 5), header);
    put(&mut expected, position(0, 5) + 11, &sheet[..245]);
    put(&mut expected, position(0, 7), &[0, 0, 55]);
    put(&mut expected, position(0, 7) + 3, &sheet[245..]);
    expected[position(0, 7) + 58..position(0, 8)].fill(0);
    assert_eq!(
        save(&mut image, TEN, PLAIN, b"NEW.A1", 7, 0xFED4, 0xABCD, &sheet),
        0
    );
    assert_eq!(image, expected);
}

#[test]
fn save_that_empties_the_free_chain() {
    let mut image = small();
    // The end link's track byte is not copied into the free pointer.
    link(&mut image, (0, 10), (77, 0));
    let mut expected = image.clone();
    put(&mut expected, 0x10, &[0, 0, 4, 0, 0, 0, 8, 0]);
    expected[DIRECTORY + 2] = 3;
    put(
        &mut expected,
        ONE_SLOT + 16,
        b"ALL      \x05\x00\x05\x00\x0A\x00\x00",
    );
    put(
        &mut expected,
        position(0, 5),
        b"\x00\x07\xFF\x00\x00\x00\xE8\x04\x00\x00\xF5",
    );
    expected[position(0, 5) + 11..position(0, 6)].fill(6);
    for (sector, next) in [(7, 8), (8, 9), (9, 10), (10, 0)] {
        let at = position(0, sector);
        put(&mut expected, at, &[0, next, 253]);
        expected[at + 3..at + 256].fill(6);
    }
    assert_eq!(save(&mut image, TEN, PLAIN, b"ALL", 0, 0, 0, &[6; 1257]), 0);
    assert_eq!(image, expected);
    assert_eq!(save(&mut image, TEN, PLAIN, b"MORE", 0, 0, 0, &[6]), 8);
    assert_eq!(image, expected);
}

/// A sound disc of three tracks whose only directory sector is full: FA to FO
/// of one sector each, but FB of three.
fn full_directory() -> Vec<u8> {
    let mut image = vec![0; 3 * 2560];
    put(&mut image, 0x10, &[10, 1, 4, 0, 11, 0, 15, 0]);
    image[DIRECTORY + 2] = 15;
    image[DIRECTORY + 243..DIRECTORY + 256].fill(0x99);
    let homes = [(0, 2), (0, 3)]
        .into_iter()
        .chain((5..=10).map(|sector| (0, sector)))
        .chain((1..=7).map(|sector| (1, sector)));
    for (at, (track, sector)) in homes.enumerate() {
        let slot = DIRECTORY + 3 + 16 * at;
        put(&mut image, slot, b"F        \x01\x00");
        image[slot + 1] = b'A' + at as u8;
        put(&mut image, slot + 11, &[sector, track, sector, track, 0]);
    }
    // Free: 1/10, 1/9, 1/8, 2/10, 2/9 down to 2/3.
    let mut free = vec![(1_u8, 10_u8), (1, 9), (1, 8)];
    free.extend((3..=10).rev().map(|sector| (2, sector)));
    for pair in free.windows(2) {
        let (track, sector) = pair[0];
        link(&mut image, (track.into(), sector.into()), pair[1]);
    }
    // FB goes on in 2/1 and 2/2.
    image[0x16] = 17;
    link(&mut image, (0, 3), (2, 1));
    link(&mut image, (2, 1), (2, 2));
    put(&mut image, DIRECTORY + 3 + 16 + 9, &[3, 0, 3, 0, 2, 2]);
    image
}

#[test]
fn save_grows_the_directory_after_the_module() {
    let mut image = full_directory();
    assert_eq!(rule(&image), 0);
    image[position(1, 8) + 2..position(1, 9)].fill(0xEE);
    let mut expected = image.clone();
    put(&mut expected, 0x10, &[10, 2, 4, 0, 8, 0, 19, 0]);
    link(&mut expected, (0, 4), (1, 8));
    let mut grown = [0; 256];
    grown[2] = 1;
    put(&mut grown, 3, b"G        \x02\x00\x0A\x01\x09\x01\x00");
    put(&mut expected, position(1, 8), &grown);
    put(
        &mut expected,
        position(1, 10),
        b"\x01\x09\xFF\x00\x10\x00\x05\x01\x00\x00\xF5",
    );
    expected[position(1, 10) + 11..position(2, 1)].fill(3);
    put(&mut expected, position(1, 9), &[0, 0, 1, 3]);
    assert_eq!(save(&mut image, TEN, PLAIN, b"G", 0, 0x10, 0, &[3; 246]), 0);
    assert_eq!(image, expected);
    assert_eq!(rule(&image), 0);
}

#[test]
fn delete_frees_the_chain_in_front() {
    let mut image = small();
    let mut expected = small();
    put(&mut expected, ONE_SLOT, &[0; 16]);
    expected[DIRECTORY + 2] = 1;
    link(&mut expected, (0, 2), (0, 5));
    put(&mut expected, 0x10, &[2, 0, 4, 0, 6, 0, 2, 0]);
    assert_eq!(delete(&mut image, TEN, PLAIN, b"ONE"), 0);
    assert_eq!(image, expected);
    image[TWO_SLOT + 15] = 0;
    assert_eq!(delete(&mut image, TEN, PLAIN, b"TWO.X"), 0);
    put(&mut expected, TWO_SLOT, &[0; 16]);
    expected[DIRECTORY + 2] = 0;
    link(&mut expected, (0, 6), (0, 2));
    put(&mut expected, 0x10, &[3, 0, 4, 0, 8, 0, 0, 0]);
    assert_eq!(image, expected);
    assert_eq!(rule(&image), 0);
}

#[test]
fn delete_on_a_full_disc_writes_a_zero_link() {
    let mut image = small();
    link(&mut image, (0, 6), (0, 5));
    link(&mut image, (0, 10), (88, 0));
    put(&mut image, TWO_SLOT + 9, &[7, 0, 3, 0, 10, 0, 0]);
    put(&mut image, 0x10, &[0, 99, 4, 0, 0, 0, 8, 0]);
    let mut expected = image.clone();
    put(&mut expected, TWO_SLOT, &[0; 16]);
    expected[DIRECTORY + 2] = 1;
    link(&mut expected, (0, 10), (0, 0));
    put(&mut expected, 0x10, &[3, 0, 4, 0, 7, 0, 1, 0]);
    assert_eq!(delete(&mut image, TEN, PLAIN, b"TWO.X"), 0);
    assert_eq!(image, expected);
}

#[test]
fn an_emptied_directory_sector_stays() {
    let mut image = full_directory();
    assert_eq!(save(&mut image, TEN, PLAIN, b"G", 0, 0, 0, &[1]), 0);
    // G is in 1/10, its directory sector in 1/9.
    assert_eq!(delete(&mut image, TEN, PLAIN, b"G"), 0);
    assert_eq!(image[position(0, 4)..position(0, 4) + 2], [1, 9]);
    assert_eq!(image[position(1, 9)..position(1, 9) + 19], [0; 19]);
    assert_eq!(image[0x10..0x18], [10, 1, 4, 0, 10, 0, 17, 0]);
    assert_eq!(rule(&image), 0);
    assert_eq!(save(&mut image, TEN, PLAIN, b"H", 0, 0, 0, &[1]), 0);
    assert_eq!(image[position(1, 9) + 2..position(1, 9) + 4], [1, b'H']);
    assert_eq!(image[0x14], 9);
}

#[test]
fn rename_changes_nine_bytes() {
    let mut image = small();
    let mut expected = small();
    put(&mut expected, ONE_SLOT, b"ABCDEFXYZ");
    assert_eq!(rename(&mut image, TEN, PLAIN, b"ONE", b"ABCDEF.XYZ"), 0);
    assert_eq!(image, expected);
    put(&mut expected, ONE_SLOT, b"Q        ");
    assert_eq!(rename(&mut image, TEN, PLAIN, b"ABCDEF.XYZ", b"Q"), 0);
    assert_eq!(image, expected);
}

#[test]
fn protect_on_and_off() {
    for on in [1, 2, 0x80, 256, u32::MAX] {
        let mut image = small();
        let mut expected = small();
        expected[ONE_SLOT + 15] = 0x80;
        assert_eq!(protect(&mut image, TEN, PLAIN, b"ONE", on), 0);
        assert_eq!(image, expected, "{on}");
        assert_eq!(protect(&mut image, TEN, PLAIN, b"ONE", on), 0);
        assert_eq!(image, expected, "{on}");
        assert_eq!(protect(&mut image, TEN, PLAIN, b"ONE", 0), 0);
        assert_eq!(image, small(), "{on}");
    }
    let mut image = small();
    assert_eq!(protect(&mut image, TEN, PLAIN, b"ONE", 0), 0);
    assert_eq!(protect(&mut image, TEN, PLAIN, b"TWO.X", 7), 0);
    assert_eq!(image, small());
}

#[test]
fn read_gives_the_module() {
    let mut buffer = [0xEE; 5];
    let reading = read(&small(), TEN, PLAIN, b"ONE", &mut buffer);
    let expected = Reading {
        number: 0,
        page: 3,
        start: 0x2000,
        end: 0x2002,
        transfer: 0x1234,
        length: 3,
    };
    assert_eq!(reading, expected);
    assert_eq!(buffer, *b"ABC\xEE\xEE");
}

#[test]
fn read_of_a_whole_page() {
    let sheet: Vec<u8> = (0..65_536_u32).map(|at| (at * 7 / 3) as u8).collect();
    let mut image = vec![0; 35 * 2560];
    assert_eq!(blank(&mut image, TEN, PLAIN, b"D"), 0);
    assert_eq!(save(&mut image, TEN, PLAIN, b"PAGE", 0, 1, 0, &sheet), 7);
    assert_eq!(
        save(&mut image, TEN, PLAIN, b"PAGE", 0, 0, 0xFFFF, &sheet),
        0
    );
    let mut buffer = vec![0; 65_540];
    let reading = read(&image, TEN, PLAIN, b"PAGE", &mut buffer);
    assert_eq!((reading.start, reading.end), (0, 0xFFFF));
    assert_eq!((reading.transfer, reading.length), (0xFFFF, 65_536));
    assert!(buffer[..65_536] == sheet[..]);
    assert_eq!(buffer[65_536..], [0; 4]);
    assert_eq!(
        read(&image, TEN, PLAIN, b"PAGE", &mut buffer[..65_535]).number,
        10
    );
}

#[test]
fn save_at_the_top_of_memory() {
    let mut image = small();
    assert_eq!(
        save(&mut image, TEN, PLAIN, b"TOP", 0, 0xFFFF, 0, &[1, 2]),
        7
    );
    assert_eq!(save(&mut image, TEN, PLAIN, b"TOP", 0, 0xFFFF, 0, &[1]), 0);
    let reading = read(&image, TEN, PLAIN, b"TOP", &mut [0]);
    assert_eq!(
        (reading.start, reading.end, reading.length),
        (0xFFFF, 0xFFFF, 1)
    );
}

#[test]
fn list_is_in_directory_order() {
    let mut buffer = [0xCC; 45];
    let listed = list(&small(), TEN, PLAIN, &mut buffer);
    assert_eq!((listed.number, listed.length), (0, 41));
    let mut expected = Vec::new();
    expected.extend(b"\x01BENCH    \x05\x00\x03\x00");
    expected.extend(b"\x02ONE      \x01\x00\x00");
    expected.extend(b"\x02TWO   X  \x02\x00\x80");
    expected.extend(b"\x00\xCC\xCC\xCC\xCC");
    assert_eq!(buffer[..], expected[..]);
}

#[test]
fn view_of_every_sector() {
    let mut image = vec![0; 2 * 2560];
    for number in 0..20 {
        image[number * 256..number * 256 + 256].fill(number as u8);
        image[number * 256 + 2] = 100;
        image[number * 256 + 255] = 200;
    }
    for (number, (track, sector)) in (0..2)
        .flat_map(|track| (1..=10).map(move |sector| (track, sector)))
        .enumerate()
    {
        let bytes = view(&image, TEN, PLAIN, track, sector);
        assert_eq!(view_number(&image, TEN, PLAIN, track, sector), 0);
        assert_eq!(bytes.len(), 254);
        assert_eq!((bytes[0], bytes[1], bytes[253]), (100, number as u8, 200));
        assert_eq!(bytes.as_ptr(), image[number * 256 + 2..].as_ptr());
    }
}
