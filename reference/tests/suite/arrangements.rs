//! The two arrangements: expected bytes at places counted by hand, numbers
//! that state neither, and the claim that each call gives on a moved image the
//! answer of the plain one and the moved form of its result.

use crate::common::{
    delete, moved, moved_byte, moved_position, position, protect, put, refused_by_every_call,
    rename, rule, save, small, MOVED, ONE_SLOT, PLAIN, TEN,
};
use reference::command::{Answer, Command};
use reference::generate::{
    break_rule, command, damage, damaged_disc, flip_byte, sound_disc, Random, Replays,
};
use reference::{blank, check, list, read, rearranged, view, view_number, view_start, Checked};

/// Numbers that state no arrangement; some are 0 or 1 in their low bytes.
const NONE: [u32; 9] = [
    2,
    3,
    255,
    256,
    257,
    65_536,
    65_537,
    0x8000_0001,
    4_294_967_295,
];

/// Sector by place of a moved track.
const ORDER: [usize; 10] = [1, 4, 7, 10, 3, 6, 9, 2, 5, 8];

#[test]
fn the_order_of_a_moved_image() {
    let mut plain = vec![0; 3 * 2560];
    for (number, sector) in plain.chunks_mut(256).enumerate() {
        sector.fill(number as u8);
    }
    let image = rearranged(&plain, TEN, PLAIN, MOVED).expect("a right size");
    let numbers: Vec<u8> = image.chunks(256).map(|sector| sector[255]).collect();
    let expected = [
        0, 3, 6, 9, 2, 5, 8, 1, 4, 7, 10, 13, 16, 19, 12, 15, 18, 11, 14, 17, 20, 23, 26, 29, 22,
        25, 28, 21, 24, 27,
    ];
    assert_eq!(numbers, expected);
    assert_eq!(image, moved(&plain));
    assert_eq!(rearranged(&image, TEN, MOVED, PLAIN), Some(plain.clone()));
    assert_eq!(rearranged(&image, TEN, MOVED, MOVED), Some(image.clone()));
    assert_eq!(rearranged(&plain, TEN, PLAIN, PLAIN), Some(plain));
}

#[test]
fn the_order_is_within_each_track_of_80() {
    let plain = Random::new(80).bytes(80 * 2560);
    let image = rearranged(&plain, TEN, PLAIN, MOVED).expect("a right size");
    for track in 0..80 {
        for (place, sector) in ORDER.iter().enumerate() {
            let at = 2560 * track + 256 * place;
            let from = position(track, *sector);
            assert_eq!(image[at..at + 256], plain[from..from + 256]);
        }
    }
}

#[test]
fn only_right_sizes_and_numbers_are_rearranged() {
    for none in NONE {
        assert_eq!(rearranged(&small(), TEN, none, PLAIN), None);
        assert_eq!(rearranged(&small(), TEN, MOVED, none), None);
        assert_eq!(rearranged(&small(), TEN, none, none), None);
    }
    for length in [0, 256, 2_559, 2_561, 207_360] {
        assert_eq!(rearranged(&vec![0; length], TEN, PLAIN, MOVED), None);
    }
}

/// A moved blank disc: from 0/7, in the third place, each sector but the last
/// links to the one in the next place.
fn moved_blank(tracks: usize, name: &[u8; 9], free: u16) -> Vec<u8> {
    let mut image = vec![0; tracks * 2560];
    put(&mut image, 0x10, &[7, 0, 4, 0]);
    put(&mut image, 0x14, &free.to_le_bytes());
    put(&mut image, 0x18, name);
    put(&mut image, 0x40, b"TANDOS 65 IMAGE 1");
    for place in 2..tracks * 10 - 1 {
        let next = place + 1;
        let link = [(next / 10) as u8, ORDER[next % 10] as u8];
        put(&mut image, 256 * place, &link);
    }
    image
}

#[test]
fn moved_blank_of_one_track() {
    let mut expected = vec![0; 2560];
    put(&mut expected, 0x10, &[7, 0, 4, 0, 8, 0, 0, 0]);
    put(&mut expected, 0x18, b"B1       ");
    put(&mut expected, 0x40, b"TANDOS 65 IMAGE 1");
    // 0/7, 0/10, 0/3, 0/6, 0/9, 0/2 and 0/5; 0/8 at 2304 ends the chain.
    put(&mut expected, 512, &[0, 10]);
    put(&mut expected, 768, &[0, 3]);
    put(&mut expected, 1024, &[0, 6]);
    put(&mut expected, 1280, &[0, 9]);
    put(&mut expected, 1536, &[0, 2]);
    put(&mut expected, 1792, &[0, 5]);
    put(&mut expected, 2048, &[0, 8]);
    let mut image = vec![0xFF; 2560];
    assert_eq!(blank(&mut image, TEN, MOVED, b"B1"), 0);
    assert_eq!(image, expected);
    assert_eq!(moved_blank(1, b"B1       ", 8), expected);
    assert_eq!(check(&image, TEN, MOVED), Checked { number: 0, rule: 0 });
}

#[test]
fn moved_blanks_of_more_tracks() {
    for (tracks, free) in [(2, 18), (25, 248), (40, 398), (80, 798)] {
        let mut image = vec![0xFF; tracks * 2560];
        assert_eq!(blank(&mut image, TEN, MOVED, b"NINECHARS"), 0);
        assert!(image == moved_blank(tracks, b"NINECHARS", free), "{tracks}");
        assert_eq!(check(&image, TEN, MOVED), Checked { number: 0, rule: 0 });
    }
}

#[test]
fn the_moved_piece_of_thursday() {
    let sheet: Vec<u8> = (0..300).map(|at| (at % 251) as u8).collect();
    let mut expected = moved_blank(40, b"PIECES   ", 396);
    put(&mut expected, 0x10, &[3, 0, 4, 0, 0x8C, 0x01, 2, 0]);
    // 0/4 is in the second place, at 256.
    expected[258] = 1;
    let entry = [
        0x54, 0x48, 0x55, 0x20, 0x20, 0x20, 0x50, 0x43, 0x53, 0x02, 0x00, 0x07, 0x00, 0x0A, 0x00,
        0x00,
    ];
    put(&mut expected, 259, &entry);
    // 0/7 at 512 and 0/10 at 768.
    let header = [0, 10, 0xFF, 0, 0x00, 0x20, 0x2B, 0x21, 0, 0, 0xF5];
    put(&mut expected, 512, &header);
    put(&mut expected, 523, &sheet[..245]);
    put(&mut expected, 768, &[0, 0, 55]);
    put(&mut expected, 771, &sheet[245..]);
    let mut image = vec![0xEE; 40 * 2560];
    assert_eq!(blank(&mut image, TEN, MOVED, b"PIECES"), 0);
    assert_eq!(
        save(&mut image, TEN, MOVED, b"THU.PCS", 0, 0x2000, 0, &sheet),
        0
    );
    assert!(image == expected);

    let mut buffer = [0; 300];
    let reading = read(&image, TEN, MOVED, b"THU.PCS", &mut buffer);
    assert_eq!((reading.number, reading.end), (0, 0x212B));
    assert_eq!(buffer[..], sheet[..]);
    let mut records = [0xCC; 30];
    assert_eq!(list(&image, TEN, MOVED, &mut records).length, 28);
    let listed = [
        0x01, 0x50, 0x49, 0x45, 0x43, 0x45, 0x53, 0x20, 0x20, 0x20, 0x8C, 0x01, 0x02, 0x00, 0x02,
        0x54, 0x48, 0x55, 0x20, 0x20, 0x20, 0x50, 0x43, 0x53, 0x02, 0x00, 0x00, 0x00, 0xCC, 0xCC,
    ];
    assert_eq!(records, listed);
}

#[test]
fn the_other_commands_on_a_moved_image() {
    // In the moved `small`, 0/4 is at 256, ONE's 0/2 at 1792.
    let mut image = moved(&small());
    let mut expected = image.clone();
    assert_eq!(rename(&mut image, TEN, MOVED, b"ONE", b"NEW.A"), 0);
    put(&mut expected, 259, b"NEW   A  ");
    assert_eq!(image, expected);
    assert_eq!(protect(&mut image, TEN, MOVED, b"NEW.A", 7), 0);
    expected[259 + 15] = 0x80;
    assert_eq!(image, expected);
    assert_eq!(delete(&mut image, TEN, MOVED, b"NEW.A"), 6);
    assert_eq!(protect(&mut image, TEN, MOVED, b"NEW.A", 0), 0);
    assert_eq!(delete(&mut image, TEN, MOVED, b"NEW.A"), 0);
    put(&mut expected, 259, &[0; 16]);
    expected[258] = 1;
    put(&mut expected, 1792, &[0, 5]);
    put(&mut expected, 0x10, &[2, 0, 4, 0, 6, 0, 2, 0]);
    assert_eq!(image, expected);
}

#[test]
fn views_lie_at_their_places() {
    let image = Random::new(3).bytes(40 * 2560);
    // Sectors 1 to 10 of track 0, past the link.
    let starts = [2, 1794, 1026, 258, 2050, 1282, 514, 2306, 1538, 770];
    for track in [0, 1, 39] {
        for (sector, start) in (1..=10).zip(starts) {
            let start = start + 2560 * track;
            let at = start as usize;
            let shown = view(&image, TEN, MOVED, track, sector);
            assert_eq!(view_number(&image, TEN, MOVED, track, sector), 0);
            assert_eq!(view_start(&image, TEN, MOVED, track, sector), start);
            assert_eq!(*shown, image[at..at + 254]);
            assert_eq!(shown.as_ptr(), image[at..].as_ptr());
        }
    }
    assert_eq!(view_start(&image, TEN, MOVED, 39, 10), 100_610);
    assert_eq!(view_start(&image, TEN, PLAIN, 39, 10), 102_146);
    assert_eq!(view_start(&image, TEN, MOVED, 0, 7), 514);
    assert_eq!(view_start(&image, TEN, PLAIN, 0, 7), 1_538);
    for (number, (track, sector)) in (0..40)
        .flat_map(|track| (1..=10).map(move |sector| (track, sector)))
        .enumerate()
    {
        let start = view_start(&image, TEN, PLAIN, track, sector);
        assert_eq!(start as usize, 256 * number + 2);
    }
}

#[test]
fn refused_views_start_nowhere() {
    for arrangement in [PLAIN, MOVED] {
        for (track, sector) in [(0, 0), (0, 11), (1, 1), (256, 1), (0, 257), (u32::MAX, 1)] {
            assert_eq!(view_number(&small(), TEN, arrangement, track, sector), 11);
            assert_eq!(view_start(&small(), TEN, arrangement, track, sector), 0);
            assert!(view(&small(), TEN, arrangement, track, sector).is_empty());
        }
        let short = &small()[1..];
        assert_eq!(view_number(short, TEN, arrangement, 0, 1), 1);
        assert_eq!(view_start(short, TEN, arrangement, 0, 1), 0);
    }
}

#[test]
fn any_other_number_is_refused_first_of_all() {
    let mut unsound = small();
    unsound[0x16] = 9;
    let images = [
        small(),
        moved(&small()),
        unsound,
        small()[..2559].to_vec(),
        Vec::new(),
    ];
    for image in images {
        for none in NONE {
            refused_by_every_call(&image, TEN, none);
        }
    }
}

#[test]
fn the_wrong_one_of_the_two_is_seen() {
    // Plain, 0/4 would go on to 0/3 and 0/10, both empty, and the free chain
    // from 0/7 to 0/2, where it ends after two sectors of eight.
    let image = moved_blank(1, b"D        ", 8);
    assert_eq!(rule(&image), 6);
    // Moved, the directory of `small` would be ONE's sector, whose byte 2 is $FF.
    assert_eq!(check(&small(), TEN, MOVED).rule, 3);
    assert_eq!(read(&small(), TEN, MOVED, b"ONE", &mut [0; 3]).number, 3);
}

/// The answer that a moved image is to give: only a view starts elsewhere.
fn moved_answer(plain: Answer) -> Answer {
    match plain {
        Answer::Viewed {
            number: 0,
            start,
            bytes,
        } => Answer::Viewed {
            number: 0,
            start: moved_byte(start as usize) as u32,
            bytes,
        },
        other => other,
    }
}

fn right_size(image: &[u8]) -> bool {
    image.len() % 2560 == 0 && (1..=80).contains(&(image.len() / 2560))
}

/// The moved form; an image of a wrong size has none and stays.
fn moved_form(plain: &[u8]) -> Vec<u8> {
    if right_size(plain) {
        moved(plain)
    } else {
        plain.to_vec()
    }
}

/// Runs commands on a plain image and its moved form side by side, and gives
/// how many were accepted. Every second command is made for the moved image.
fn side_by_side(random: &mut Random, start: &[u8], commands: usize) -> usize {
    let mut plain = start.to_vec();
    let mut image = moved_form(start);
    let mut accepted = 0;
    for at in 0..commands {
        let command = if at % 2 == 0 {
            command(random, &plain, TEN, PLAIN)
        } else {
            command(random, &image, TEN, MOVED)
        };
        let answer = command.run(&mut plain, TEN, PLAIN);
        accepted += usize::from(answer.accepted());
        assert_eq!(
            command.run(&mut image, TEN, MOVED),
            moved_answer(answer),
            "{command:?}"
        );
        assert!(image == moved_form(&plain), "{command:?}");
        if right_size(&plain) {
            assert!(rearranged(&plain, TEN, PLAIN, MOVED).as_ref() == Some(&image));
            assert!(rearranged(&image, TEN, MOVED, PLAIN).as_ref() == Some(&plain));
        }
    }
    accepted
}

#[test]
fn the_claim_on_sound_discs() {
    let mut accepted = 0;
    for seed in 0..500 {
        let mut random = Random::new(seed);
        let start = sound_disc(&mut random, 5, TEN, PLAIN);
        accepted += side_by_side(&mut random, &start, 24);
    }
    assert!(accepted > 4000, "only {accepted} commands were accepted");
}

#[test]
fn the_claim_on_damaged_discs() {
    for seed in 0..800 {
        let mut random = Random::new(seed);
        let start = damaged_disc(&mut random, 5, TEN, PLAIN);
        side_by_side(&mut random, &start, 10);
    }
}

#[test]
fn the_claim_on_arbitrary_bytes() {
    for seed in 0..400 {
        let mut random = Random::new(seed);
        let length = 2560 * random.between(1, 4);
        let mut start = random.bytes(length);
        if random.one_in(2) {
            // Small numbers, so that links and pointers stay on the disc.
            start.iter_mut().for_each(|byte| *byte %= 12);
        }
        if seed % 2 == 1 {
            // The bytes are the moved image, and its plain form is the start.
            let plain = rearranged(&start, TEN, MOVED, PLAIN).expect("a right size");
            assert_eq!(moved(&plain), start);
            start = plain;
        }
        side_by_side(&mut random, &start, 10);
    }
}

#[test]
fn the_claim_on_the_largest_disc() {
    let mut random = Random::new(9);
    let mut start = vec![0; 80 * 2560];
    assert_eq!(blank(&mut start, TEN, PLAIN, b"BIG"), 0);
    assert!(side_by_side(&mut random, &start, 120) > 20);
}

/// Every view of an image, in either arrangement.
fn views(image: &[u8], arrangement: u32) -> Vec<&[u8]> {
    (1..=10)
        .map(|sector| view(image, TEN, arrangement, 0, sector))
        .collect()
}

#[test]
fn a_damaged_byte_on_both() {
    let mut rules = [0; 9];
    for at in 0..2560 {
        for change in [1, 4, 0x80, 0xFF] {
            let mut plain = small();
            plain[at] ^= change;
            let mut image = moved(&small());
            image[moved_byte(at)] ^= change;
            let checked = check(&plain, TEN, PLAIN);
            assert_eq!(check(&image, TEN, MOVED), checked, "{at}");
            rules[checked.rule as usize] += 1;
            assert_eq!(views(&image, MOVED), views(&plain, PLAIN), "{at}");
            for name in [&b"ONE"[..], b"TWO.X"] {
                let (mut one, mut other) = ([0; 246], [0; 246]);
                assert_eq!(
                    read(&image, TEN, MOVED, name, &mut one),
                    read(&plain, TEN, PLAIN, name, &mut other)
                );
                assert_eq!(one, other, "{at}");
            }
            let sheet = [3; 300];
            let saved = save(&mut plain, TEN, PLAIN, b"NEW", 0, 0, 0, &sheet);
            assert_eq!(save(&mut image, TEN, MOVED, b"NEW", 0, 0, 0, &sheet), saved);
            assert_eq!(image, moved(&plain), "{at}");
        }
    }
    // One byte breaks each rule but 4 (two names alike) and 8 (its count with
    // its chain).
    let met: Vec<usize> = (0..9).filter(|&number| rules[number] > 0).collect();
    assert_eq!(met, [0, 1, 2, 3, 5, 6, 7]);
}

#[test]
fn generated_discs_of_a_seed_are_each_other_s_form() {
    for seed in 0..300 {
        let make = |arrangement| sound_disc(&mut Random::new(seed), 6, TEN, arrangement);
        assert!(make(MOVED) == moved(&make(PLAIN)), "seed {seed}");
        assert!(make(2) == make(PLAIN), "seed {seed}");
        let make = |arrangement| damaged_disc(&mut Random::new(seed), 6, TEN, arrangement);
        assert!(make(MOVED) == moved_form(&make(PLAIN)), "seed {seed}");
        assert_eq!(
            check(&make(MOVED), TEN, MOVED),
            check(&make(PLAIN), TEN, PLAIN)
        );
    }
}

#[test]
fn damage_finds_its_place_on_a_moved_disc() {
    for seed in 0..600 {
        let make = |arrangement| {
            let mut random = Random::new(seed);
            let mut image = sound_disc(&mut random, 5, TEN, arrangement);
            match seed % 3 {
                0 => flip_byte(&mut random, &mut image, TEN, arrangement),
                1 => break_rule(
                    &mut random,
                    &mut image,
                    TEN,
                    arrangement,
                    seed as usize % 8 + 1,
                ),
                _ => damage(&mut random, &mut image, TEN, arrangement),
            }
            image
        };
        let plain = make(PLAIN);
        if right_size(&plain) {
            assert!(make(MOVED) == moved(&plain), "seed {seed}");
        }
    }
}

#[test]
fn commands_of_a_seed_are_the_same() {
    for seed in 0..200 {
        let make = |arrangement| -> Vec<Command> {
            let mut random = Random::new(seed);
            let start = sound_disc(&mut random, 4, TEN, arrangement);
            reference::generate::command_list(
                &mut random,
                &start,
                TEN,
                arrangement,
                10,
                Replays::none(),
            )
        };
        assert_eq!(make(PLAIN), make(MOVED), "seed {seed}");
    }
}

#[test]
fn the_slots_of_the_hand_made_disc_move() {
    // What the tests above rely on: 0/4 is second, and byte for byte there.
    let image = moved(&small());
    assert_eq!(moved_position(0, 4), 256);
    assert_eq!(moved_byte(ONE_SLOT), 259);
    assert_eq!(image[259..262], *b"ONE");
    assert_eq!(image[..256], small()[..256]);
}
