//! The examples on the boundaries, and the slips to guard against.

use crate::common::{delete, link, position, put, rename, rule, save, small, ONE_SLOT, PLAIN, TEN};
use reference::{blank, check, list, read, view, view_number};

const THU_ENTRY: [u8; 16] = [
    0x54, 0x48, 0x55, 0x20, 0x20, 0x20, 0x50, 0x43, 0x53, 0x02, 0x00, 0x07, 0x00, 0x0A, 0x00, 0x00,
];

fn blank_disc(tracks: usize, name: &[u8]) -> Vec<u8> {
    let mut image = vec![0xEE; tracks * 2560];
    assert_eq!(blank(&mut image, TEN, PLAIN, name), 0);
    image
}

fn free_count(image: &[u8]) -> u16 {
    u16::from_le_bytes([image[0x14], image[0x15]])
}

/// Saves one byte under a name and gives the first slot's name bytes.
fn stored_name(typed: &[u8]) -> Vec<u8> {
    let mut image = blank_disc(1, b"D");
    assert_eq!(save(&mut image, TEN, PLAIN, typed, 0, 0, 0, &[1]), 0);
    image[position(0, 4) + 3..position(0, 4) + 12].to_vec()
}

/// How many sectors a saved module of this length takes by the used count.
fn sectors_of(length: usize) -> u16 {
    let mut image = blank_disc(40, b"D");
    assert_eq!(
        save(&mut image, TEN, PLAIN, b"F", 0, 0, 0, &vec![9; length]),
        0
    );
    u16::from_le_bytes([image[0x16], image[0x17]])
}

#[test]
fn names_are_padded_and_kept_apart() {
    assert_eq!(stored_name(b"X"), b"X        ");
    assert_eq!(stored_name(b"ABC"), b"ABC      ");
    assert_eq!(stored_name(b"A.BC"), b"A     BC ");
    assert_eq!(stored_name(b"ABCDEF.012"), b"ABCDEF012");
}

#[test]
fn illegal_names_give_2() {
    let texts: [&[u8]; 12] = [
        b"SEVENCH",
        b"X.",
        b".A",
        b"",
        b".",
        b"A.BCDE",
        b"A.B.C",
        b"a",
        b"A ",
        b"A\0",
        b"\xC1",
        b"ABCDEF.01-",
    ];
    for text in texts {
        let mut image = blank_disc(1, b"D");
        assert_eq!(
            save(&mut image, TEN, PLAIN, text, 0, 0, 0, &[1]),
            2,
            "{text:?}"
        );
    }
}

#[test]
fn modules_take_these_sectors() {
    let counts = [
        (1, 1),
        (245, 1),
        (246, 2),
        (498, 2),
        (499, 3),
        (751, 3),
        (752, 4),
        (65_536, 260),
    ];
    for (length, sectors) in counts {
        assert_eq!(sectors_of(length), sectors, "L = {length}");
    }
}

#[test]
fn sectors_start_where_the_paper_says() {
    let mut image = vec![0; 40 * 2560];
    image[1_536 + 2] = 0x77;
    image[102_144 + 255] = 0x99;
    assert_eq!(view(&image, TEN, PLAIN, 0, 7)[0], 0x77);
    assert_eq!(view(&image, TEN, PLAIN, 39, 10)[253], 0x99);
    assert_eq!(view(&image, TEN, PLAIN, 39, 10).len(), 254);
    assert_eq!(
        view(&image, TEN, PLAIN, 39, 10).as_ptr(),
        image[102_146..].as_ptr()
    );
    assert_eq!(view_number(&image, TEN, PLAIN, 39, 10), 0);
}

#[test]
fn free_sectors_of_blank_discs() {
    assert_eq!(free_count(&blank_disc(40, b"D")), 398);
    assert_eq!(free_count(&blank_disc(1, b"D")), 8);
    assert_eq!(free_count(&blank_disc(80, b"D")), 798);
}

#[test]
fn one_track_holds_2016_bytes() {
    let mut image = blank_disc(1, b"D");
    assert_eq!(save(&mut image, TEN, PLAIN, b"F", 0, 0, 0, &[5; 2_017]), 8);
    assert_eq!(image, blank_disc(1, b"D"));
    assert_eq!(save(&mut image, TEN, PLAIN, b"F", 0, 0, 0, &[5; 2_016]), 0);
    assert_eq!(free_count(&image), 0);
    assert_eq!(image[0x10..0x12], [0, 0]);
    assert_eq!(rule(&image), 0);
}

#[test]
fn free_chain_of_a_blank_disc() {
    let image = blank_disc(40, b"D");
    assert_eq!(image[0x10..0x14], [7, 0, 4, 0]);
    let passed = [
        (0, 7),
        (0, 10),
        (0, 3),
        (0, 6),
        (0, 9),
        (0, 2),
        (0, 5),
        (0, 8),
        (1, 1),
        (1, 4),
    ];
    for pair in passed.windows(2) {
        let at = position(pair[0].0, pair[0].1);
        let next = [pair[1].0 as u8, pair[1].1 as u8];
        assert_eq!(image[at..at + 2], next, "{pair:?}");
    }
    assert_eq!(image[position(38, 8)..position(38, 8) + 2], [39, 1]);
    assert_eq!(image[position(39, 8)..position(39, 8) + 2], [0, 0]);
}

#[test]
fn the_piece_of_thursday() {
    let mut image = blank_disc(40, b"PIECES");
    let sheet: Vec<u8> = (0..300).map(|at| (at % 251) as u8).collect();
    assert_eq!(
        save(&mut image, TEN, PLAIN, b"THU.PCS", 0, 0x2000, 0, &sheet),
        0
    );
    assert_eq!(image[0x10..0x12], [3, 0]);
    let slot = position(0, 4) + 3;
    assert_eq!(image[slot..slot + 16], THU_ENTRY);
    let first = position(0, 7);
    let header = [0, 10, 0xFF, 0, 0x00, 0x20, 0x2B, 0x21, 0, 0, 0xF5];
    assert_eq!(image[first..first + 11], header);
    assert_eq!(image[first + 11..first + 256], sheet[..245]);
    let second = position(0, 10);
    assert_eq!(image[second..second + 3], [0, 0, 55]);
    assert_eq!(image[second + 3..second + 58], sheet[245..]);
    assert_eq!(image[second + 58..second + 256], [0; 198]);
    let mut buffer = [0; 300];
    assert_eq!(
        read(&image, TEN, PLAIN, b"THU.PCS", &mut buffer).end,
        0x212B
    );
    assert_eq!(buffer[..], sheet[..]);
}

#[test]
fn the_whole_list_is_28_bytes() {
    let mut image = blank_disc(40, b"PIECES");
    assert_eq!(
        save(&mut image, TEN, PLAIN, b"THU.PCS", 0, 0x2000, 0, &[1; 300]),
        0
    );
    let mut buffer = [0xCC; 30];
    let listed = list(&image, TEN, PLAIN, &mut buffer);
    assert_eq!((listed.number, listed.length), (0, 28));
    let expected = [
        0x01, 0x50, 0x49, 0x45, 0x43, 0x45, 0x53, 0x20, 0x20, 0x20, 0x8C, 0x01, 0x02, 0x00, 0x02,
        0x54, 0x48, 0x55, 0x20, 0x20, 0x20, 0x50, 0x43, 0x53, 0x02, 0x00, 0x00, 0x00, 0xCC, 0xCC,
    ];
    assert_eq!(buffer, expected);
}

/// A blank disc of `tracks` with one-sector files F00, F01 and so on.
fn with_files(tracks: usize, files: usize) -> Vec<u8> {
    let mut image = blank_disc(tracks, b"D");
    for file in 0..files {
        let name = format!("F{file:02}");
        assert_eq!(
            save(&mut image, TEN, PLAIN, name.as_bytes(), 0, 0, 0, &[1]),
            0
        );
    }
    image
}

#[test]
fn the_sixteenth_file_needs_a_directory_sector() {
    let mut image = with_files(4, 14);
    assert_eq!(free_count(&image), 38 - 14);
    assert_eq!(save(&mut image, TEN, PLAIN, b"F14", 0, 0, 0, &[1]), 0);
    assert_eq!(free_count(&image), 38 - 15);
    assert_eq!(save(&mut image, TEN, PLAIN, b"F15", 0, 0, 0, &[1]), 0);
    assert_eq!(free_count(&image), 38 - 17);
    assert_eq!(delete(&mut image, TEN, PLAIN, b"F03"), 0);
    assert_eq!(save(&mut image, TEN, PLAIN, b"G", 0, 0, 0, &[1]), 0);
    assert_eq!(free_count(&image), 38 - 17);
    assert_eq!(rule(&image), 0);
}

#[test]
fn rename_to_its_own_name() {
    let mut image = small();
    assert_eq!(rename(&mut image, TEN, PLAIN, b"ONE", b"ONE"), 5);
    assert_eq!(rename(&mut image, TEN, PLAIN, b"TWO.X", b"TWO.X"), 6);
    assert_eq!(image, small());
}

#[test]
fn slip_a_link_on_track_0_is_no_end() {
    // TWO.X goes on from 0/3 by link 00 06, the free chain from 0/5 by 00 07.
    let mut buffer = [0; 246];
    let reading = read(&small(), TEN, PLAIN, b"TWO.X", &mut buffer);
    assert_eq!((reading.number, reading.length), (0, 246));
    assert_eq!(buffer[245], 0x22);
    assert_eq!(
        save(&mut small(), TEN, PLAIN, b"NEW", 0, 0, 0, &[1; 1257]),
        0
    );
}

#[test]
fn slip_any_track_byte_ends_a_chain() {
    let mut image = small();
    link(&mut image, (0, 4), (200, 0));
    link(&mut image, (0, 2), (9, 0));
    link(&mut image, (0, 6), (255, 0));
    link(&mut image, (0, 10), (1, 0));
    assert_eq!(rule(&image), 0);
    assert_eq!(read(&image, TEN, PLAIN, b"ONE", &mut [0; 3]).number, 0);
}

#[test]
fn slip_pair_order_in_links_and_entries() {
    // The sixteenth file's module goes to 1/2 and its directory sector to 1/5.
    let image = with_files(2, 16);
    assert_eq!(image[position(0, 4)..position(0, 4) + 3], [1, 5, 15]);
    let slot = position(1, 5) + 3;
    assert_eq!(
        image[slot..slot + 16],
        *b"F15      \x01\x00\x02\x01\x02\x01\x00"
    );
    assert_eq!(image[0x10..0x12], [8, 1]);
    // An entry's pair read the wrong way round would not be on the disc.
    let mut turned = image;
    put(&mut turned, slot + 11, &[1, 2, 1, 2]);
    assert_eq!(rule(&turned), 5);
}

#[test]
fn slip_a_cleared_slot_comes_before_growth() {
    let mut image = with_files(4, 30);
    let directory = position(0, 4);
    assert_eq!(delete(&mut image, TEN, PLAIN, b"F07"), 0);
    let slot = directory + 3 + 7 * 16;
    assert_eq!(image[slot..slot + 16], [0; 16]);
    let free = free_count(&image);
    assert_eq!(save(&mut image, TEN, PLAIN, b"G", 0, 0, 0, &[1]), 0);
    assert_eq!(image[slot..slot + 9], *b"G        ");
    assert_eq!(image[directory + 2], 15);
    assert_eq!(free_count(&image), free - 1);
}

#[test]
fn slip_room_is_for_module_and_directory_sector() {
    // 15 files on two tracks leave three sectors and no slot.
    let image = with_files(2, 15);
    assert_eq!(free_count(&image), 3);
    for (length, number) in [(1, 0), (245, 0), (246, 0), (498, 0), (499, 8), (751, 8)] {
        let mut after = image.clone();
        let answer = save(&mut after, TEN, PLAIN, b"NEW", 0, 0, 0, &vec![1; length]);
        assert_eq!(answer, number, "L = {length}");
        assert_eq!(rule(&after), 0);
        assert_eq!(after == image, number != 0);
    }
}

#[test]
fn slip_a_chain_that_goes_on_past_the_length() {
    let mut image = small();
    // ONE says one sector, and its last sector is right, but 0/2 goes on.
    link(&mut image, (0, 2), (0, 5));
    assert_eq!(rule(&image), 5);
    // Even if nothing is wrong with the sectors that follow.
    let mut longer = small();
    put(&mut longer, 0x10, &[7, 0]);
    longer[0x14] = 4;
    link(&mut longer, (0, 2), (0, 5));
    link(&mut longer, (0, 5), (0, 0));
    assert_eq!(rule(&longer), 5);
    put(&mut longer, ONE_SLOT + 9, &[2, 0, 2, 0, 5, 0]);
    longer[0x16] = 4;
    assert_eq!(check(&longer, TEN, PLAIN).rule, 0);
}
