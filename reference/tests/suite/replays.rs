//! The replayer (request e): every reason for 14, and that it needs no sound
//! image.

use crate::common::{moved, moved_position, position, put, small, MOVED, NINE, PLAIN, TEN};
use reference::command::Command;
use reference::generate::{command_list, sound_disc, Random, Replays};
use reference::replay;
use reference::writes_book::replay_fault;

/// A record of a sector filled with one byte.
fn record(track: u8, sector: u8, fill: u8) -> Vec<u8> {
    [&[3, track, sector][..], &[fill; 256]].concat()
}

fn list(records: &[(u8, u8, u8)]) -> Vec<u8> {
    let mut list: Vec<u8> = records
        .iter()
        .flat_map(|&(track, sector, fill)| record(track, sector, fill))
        .collect();
    list.push(0);
    list
}

/// A replay on the image, and that a refused one writes nothing.
fn number(image: &[u8], sectors: u32, arrangement: u32, list: &[u8]) -> u32 {
    let mut after = image.to_vec();
    let number = replay(&mut after, sectors, arrangement, list);
    assert!(number == 0 || after == image, "refusal {number} wrote");
    number
}

fn bad(list: &[u8]) -> bool {
    // The first record is good in most lists here: it must not be written.
    match number(&small(), TEN, PLAIN, list) {
        14 => true,
        0 => false,
        other => panic!("{other}"),
    }
}

#[test]
fn records_are_written_where_they_say() {
    let mut image = small();
    let mut expected = small();
    expected[position(0, 10)..2560].fill(0xA1);
    expected[position(0, 2)..position(0, 3)].fill(0xA2);
    let records = list(&[(0, 10, 0xA1), (0, 2, 0xA2)]);
    assert_eq!(replay(&mut image, TEN, PLAIN, &records), 0);
    assert_eq!(image, expected);
    let mut image = moved(&small());
    assert_eq!(replay(&mut image, TEN, MOVED, &records), 0);
    assert_eq!(image, moved(&expected));
    let at = moved_position(0, 10);
    assert_eq!(image[at..at + 256], [0xA1; 256]);
}

#[test]
fn all_256_bytes_are_written() {
    let bytes: Vec<u8> = (0..=255).collect();
    let records = [&[3, 1, 9][..], &bytes, &[0]].concat();
    let mut image = vec![0x55; 2 * 2560];
    let mut expected = image.clone();
    put(&mut expected, position(1, 9), &bytes);
    assert_eq!(replay(&mut image, TEN, PLAIN, &records), 0);
    assert_eq!(image, expected);
    let mut nine = vec![0x55; 2 * 2304];
    let mut expected = nine.clone();
    put(&mut expected, 256 * 17, &bytes);
    assert_eq!(replay(&mut nine, NINE, PLAIN, &records), 0);
    assert_eq!(nine, expected);
}

#[test]
fn a_kind_0_alone_is_a_list() {
    for image in [small(), vec![0xFF; 2560], vec![0; 80 * 2560]] {
        let mut after = image.clone();
        assert_eq!(replay(&mut after, TEN, PLAIN, &[0]), 0);
        assert!(after == image);
    }
}

#[test]
fn the_system_sector_may_be_written() {
    let mut image = small();
    assert_eq!(replay(&mut image, TEN, PLAIN, &list(&[(0, 1, 7)])), 0);
    assert_eq!(image[..256], [7; 256]);
    assert_eq!(image[256..], small()[256..]);
}

#[test]
fn the_later_of_two_writes_to_a_sector_wins() {
    let mut image = small();
    let records = list(&[(0, 5, 1), (0, 6, 2), (0, 5, 3), (0, 5, 4)]);
    assert_eq!(replay(&mut image, TEN, PLAIN, &records), 0);
    assert_eq!(image[position(0, 5)..position(0, 6)], [4; 256]);
    assert_eq!(image[position(0, 6)..position(0, 7)], [2; 256]);
}

#[test]
fn another_kind_is_bad() {
    for kind in (0..=255).filter(|&kind| kind != 3) {
        for at in [0, 259, 518] {
            let mut records = list(&[(0, 5, 1), (0, 6, 2), (0, 7, 3)]);
            records[at] = kind;
            assert!(bad(&records), "{kind} at {at}");
        }
        if kind != 0 {
            assert!(bad(&[kind]));
            let mut records = list(&[(0, 5, 1)]);
            records[259] = kind;
            assert!(bad(&records), "{kind} for the end");
        }
    }
}

#[test]
fn a_cut_record_is_bad() {
    let records = list(&[(0, 5, 0), (0, 6, 0)]);
    for length in 0..records.len() {
        // Also where the cut leaves a zero at the end: it is the record's.
        assert!(bad(&records[..length]), "{length}");
    }
    assert!(!bad(&records));
    for missing in 1..259 {
        let cut = [&records[..518 - missing], &[0]].concat();
        assert!(bad(&cut), "{missing}");
    }
}

#[test]
fn no_kind_0_at_the_end_is_bad() {
    assert!(bad(&[]));
    assert!(bad(&record(0, 5, 1)));
    assert!(bad(&record(0, 5, 0)));
    assert!(bad(&[record(0, 5, 0), record(0, 6, 0)].concat()));
    assert!(bad(&[&record(0, 5, 0)[..], &[3]].concat()));
}

#[test]
fn bytes_after_the_first_kind_0_are_bad() {
    assert!(bad(&[0, 0]));
    assert!(bad(&[0, 3]));
    for after in [&[0][..], &[3], &[0, 0], &[0; 259], &list(&[(0, 6, 1)])] {
        assert!(bad(&[&[0][..], after].concat()));
        assert!(bad(&[&list(&[(0, 5, 1)])[..], after].concat()));
    }
    // A record of kind 0 and whole records after it, ended again.
    let mut records = list(&[(0, 5, 1), (0, 6, 2)]);
    records[0] = 0;
    assert!(bad(&records));
    // Zeros within a record are no kind.
    assert!(!bad(&list(&[(0, 5, 0)])));
}

#[test]
fn sectors_off_the_disc_are_bad() {
    for (track, sector) in [
        (0, 0),
        (0, 11),
        (0, 255),
        (1, 1),
        (1, 0),
        (255, 1),
        (255, 255),
        (80, 1),
        // The pair the other way round.
        (5, 0),
    ] {
        assert!(bad(&list(&[(track, sector, 9)])), "{track}/{sector}");
        assert!(bad(&list(&[(0, 5, 1), (track, sector, 9)])));
        assert!(bad(&list(&[(track, sector, 9), (0, 5, 1)])));
    }
    for tracks in [1, 2, 40, 79, 80] {
        let image = vec![0; 2560 * tracks];
        let last = (tracks - 1) as u8;
        assert_eq!(number(&image, TEN, PLAIN, &list(&[(last, 10, 0)])), 0);
        assert_eq!(number(&image, TEN, PLAIN, &list(&[(last + 1, 1, 0)])), 14);
        assert_eq!(number(&image, TEN, MOVED, &list(&[(last, 10, 0)])), 0);
        assert_eq!(number(&image, TEN, MOVED, &list(&[(last, 11, 0)])), 14);
    }
}

#[test]
fn sector_10_is_off_a_nine_sector_disc() {
    // 23,040 bytes are 9 tracks of ten and 10 tracks of nine.
    let image = vec![0x44; 23_040];
    for (track, sector, of_ten, of_nine) in [
        (0, 9, 0, 0),
        (0, 10, 0, 14),
        (8, 10, 0, 14),
        (9, 1, 14, 0),
        (9, 9, 14, 0),
        (9, 10, 14, 14),
        (10, 1, 14, 14),
    ] {
        let records = list(&[(0, 2, 1), (track, sector, 2)]);
        assert_eq!(number(&image, TEN, PLAIN, &records), of_ten);
        assert_eq!(number(&image, NINE, PLAIN, &records), of_nine);
    }
}

#[test]
fn size_comes_before_the_list() {
    let good = list(&[(0, 5, 1)]);
    let off = list(&[(99, 5, 1)]);
    for length in [0, 1, 2_559, 2_561, 2_304, 207_360] {
        let image = vec![1; length];
        for records in [&good[..], &off, &[], &[1], &[0], &[0, 0]] {
            assert_eq!(number(&image, TEN, PLAIN, records), 1, "{length}");
        }
    }
    for (sectors, arrangement) in [(NINE, MOVED), (8, 0), (266, 0), (10, 2), (10, 256)] {
        for records in [&good[..], &off, &[], &[1], &[0]] {
            assert_eq!(number(&small(), sectors, arrangement, records), 1);
        }
    }
}

#[test]
fn no_sound_image_is_needed() {
    for fill in [0, 1, 0xEE, 0xFF] {
        let mut image = vec![fill; 3 * 2560];
        let mut expected = image.clone();
        expected[position(2, 3)..position(2, 4)].fill(0x12);
        let records = list(&[(2, 3, 0x12)]);
        assert_eq!(replay(&mut image, TEN, PLAIN, &records), 0);
        assert!(image == expected);
        assert_eq!(number(&image, TEN, PLAIN, &list(&[(3, 3, 1)])), 14);
    }
    let mut unsound = small();
    unsound[0x16] = 9;
    assert_eq!(number(&unsound, TEN, PLAIN, &list(&[(0, 1, 0)])), 0);
    assert_eq!(number(&unsound, TEN, PLAIN, &[]), 14);
}

#[test]
fn a_sector_may_be_written_as_it_stands() {
    let at = position(0, 3);
    let records = [&[3, 0, 3][..], &small()[at..at + 256], &[0]].concat();
    let mut image = small();
    assert_eq!(replay(&mut image, TEN, PLAIN, &records), 0);
    assert_eq!(image, small());
}

#[test]
fn a_list_may_be_longer_than_the_disc() {
    let records: Vec<(u8, u8, u8)> = (0..=200).map(|fill| (0, fill % 10 + 1, fill)).collect();
    let mut image = small();
    assert_eq!(replay(&mut image, TEN, PLAIN, &list(&records)), 0);
    let firsts: Vec<u8> = image.chunks(256).map(|sector| sector[0]).collect();
    assert_eq!(firsts, [200, 191, 192, 193, 194, 195, 196, 197, 198, 199]);
}

/// What is first wrong with a list, read from its front.
fn first_fault(mut left: &[u8], tracks: u8, sectors: u8) -> &'static str {
    let mut met = Vec::new();
    loop {
        match left {
            [] => return "no kind 0",
            [0] if met.is_empty() => return "kind 0 alone",
            [0] => {
                met.sort_unstable();
                let twice = met.windows(2).any(|pair| pair[0] == pair[1]);
                return if twice { "a sector twice" } else { "good" };
            }
            [0, ..] => return "bytes after",
            [3, track, sector, ..] if left.len() >= 259 => {
                if *track >= tracks || !(1..=sectors).contains(sector) {
                    return "off the disc";
                }
                met.push((*track, *sector));
                left = &left[259..];
            }
            [3, ..] => return "a cut record",
            _ => return "another kind",
        }
    }
}

#[test]
fn generators_reach_every_kind_of_list() {
    const ALL: [&str; 8] = [
        "good",
        "a sector twice",
        "kind 0 alone",
        "no kind 0",
        "bytes after",
        "a cut record",
        "another kind",
        "off the disc",
    ];
    for (sectors, arrangement) in crate::common::FORMATS {
        let mut seen = [0; 8];
        for seed in 0..150 {
            let mut random = Random::new(seed);
            let start = sound_disc(&mut random, 4, sectors, arrangement);
            let tracks = start.len() / 256 / sectors as usize;
            let replays = Replays::one_in(2);
            for command in command_list(&mut random, &start, sectors, arrangement, 30, replays) {
                if let Command::Replay { writes } = command {
                    let fault = first_fault(&writes, tracks as u8, sectors as u8);
                    seen[ALL.iter().position(|&name| name == fault).expect("one")] += 1;
                }
            }
        }
        assert!(seen.iter().all(|&times| times >= 40), "{seen:?}");
    }
}

#[test]
fn replays_on_arbitrary_bytes() {
    let mut answers = [0; 15];
    for seed in 0..300 {
        let mut random = Random::new(seed);
        let format = random.pick(&crate::common::FORMATS);
        let length = match random.below(4) {
            0 => random.below(6000),
            _ => 256 * format.0 as usize * random.between(1, 3),
        };
        let mut image = random.bytes(length);
        let mut replays = Replays::one_in(1);
        for _ in 0..8 {
            let command = replays.command(&mut random, &image, format.0, format.1);
            if let Command::Replay { writes } = command {
                let old = image.clone();
                let number = replay(&mut image, format.0, format.1, &writes);
                let fault = replay_fault(format, (&old, &image), &writes, number);
                assert_eq!(fault, None, "seed {seed}");
                answers[number as usize] += 1;
            }
        }
    }
    for number in [0, 1, 14] {
        assert!(answers[number] > 200, "{answers:?}");
    }
}
