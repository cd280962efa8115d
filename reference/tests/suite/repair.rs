//! Repair (request g): its bytes worked out by hand, its refusals, and generated
//! discs of every kind.

use crate::common::{link, moved, position, put, rule, rule_of, small, start_of};
use crate::common::{DIRECTORY, FORMATS, MOVED, NINE, ONE_SLOT, PLAIN, TEN, TWO_SLOT};
use reference::generate::{break_rule, damage_free, fill_up, repair_disc, sound_disc};
use reference::generate::{Random, FREE_DAMAGES};
use reference::repair_book::{repair_due, repair_fault};
use reference::{blank, check, repair};

/// `small` repaired. Its free sectors are 0/5 and 0/7 to 0/10; in 1, 4, 7, 10, 3,
/// 6, 9, 2, 5, 8 they stand as 7, 10, 9, 5, 8.
fn small_repaired() -> Vec<u8> {
    let mut image = small();
    put(&mut image, 0x10, &[7, 0, 4, 0, 5, 0, 3, 0]);
    link(&mut image, (0, 7), (0, 10));
    link(&mut image, (0, 10), (0, 9));
    link(&mut image, (0, 9), (0, 5));
    link(&mut image, (0, 5), (0, 8));
    link(&mut image, (0, 8), (0, 0));
    image
}

/// `small` with bytes overwritten.
fn small_with(changes: &[(usize, &[u8])]) -> Vec<u8> {
    let mut image = small();
    for &(at, bytes) in changes {
        put(&mut image, at, bytes);
    }
    image
}

/// The image after a repair that is accepted.
fn repaired(image: &[u8], sectors: u32, arrangement: u32) -> Vec<u8> {
    let mut after = image.to_vec();
    assert_eq!(repair(&mut after, sectors, arrangement), 0);
    after
}

/// The number of a repair that must leave the image as it is.
fn refusal(image: &[u8], sectors: u32, arrangement: u32) -> u32 {
    let mut after = image.to_vec();
    let number = repair(&mut after, sectors, arrangement);
    assert_ne!(number, 0);
    assert!(after == image, "refusal {number} wrote");
    number
}

#[test]
fn the_hand_made_disc() {
    assert_eq!(repaired(&small(), TEN, PLAIN), small_repaired());
    assert_eq!(
        repaired(&moved(&small()), TEN, MOVED),
        moved(&small_repaired())
    );
    assert_eq!(rule(&small_repaired()), 0);
    // A repair of a repaired disc changes nothing.
    assert_eq!(repaired(&small_repaired(), TEN, PLAIN), small_repaired());
}

#[test]
fn a_wrong_free_pointer() {
    // None, 0/1, the directory, each file, a lost part, off the disc.
    for pointer in [
        [0, 0],
        [0, 9],
        [1, 0],
        [4, 0],
        [2, 0],
        [3, 0],
        [6, 0],
        [7, 0],
        [10, 0],
        [11, 0],
        [5, 1],
        [5, 255],
        [255, 255],
    ] {
        let image = small_with(&[(0x10, &pointer)]);
        assert_eq!(rule(&image), 6, "{pointer:?}");
        assert_eq!(repaired(&image, TEN, PLAIN), small_repaired());
        assert_eq!(
            repaired(&moved(&image), TEN, MOVED),
            moved(&small_repaired())
        );
    }
}

#[test]
fn wrong_links_of_the_free_chain() {
    // To itself and back, into 0/1, the directory and the files, off the disc,
    // an end too early, another order.
    for (sector, to) in [
        (5, [0, 5]),
        (10, [0, 5]),
        (9, [0, 7]),
        (7, [0, 1]),
        (7, [0, 4]),
        (8, [0, 2]),
        (8, [0, 6]),
        (9, [0, 11]),
        (9, [1, 1]),
        (10, [255, 255]),
        (5, [0, 0]),
        (8, [7, 0]),
        (5, [0, 9]),
    ] {
        let image = small_with(&[(position(0, sector), &to)]);
        assert_eq!(rule(&image), 6, "{sector} {to:?}");
        assert_eq!(repaired(&image, TEN, PLAIN), small_repaired());
    }
    // The end with another track byte is sound, but not what is written.
    let image = small_with(&[(position(0, 10), &[9, 0])]);
    assert_eq!(rule(&image), 0);
    assert_eq!(repaired(&image, TEN, PLAIN), small_repaired());
    // 0/8 is the last of the new chain, whatever it held.
    let image = small_with(&[(position(0, 8), &[0xEE, 0xEE])]);
    assert_eq!(repaired(&image, TEN, PLAIN), small_repaired());
}

#[test]
fn wrong_counts() {
    for (free, used, broken) in [
        ([4, 0], [3, 0], 6),
        ([6, 0], [3, 0], 6),
        ([0, 5], [3, 0], 6),
        ([5, 1], [3, 0], 6),
        ([0, 0], [0, 0], 6),
        ([255, 255], [255, 255], 6),
        ([5, 0], [2, 0], 7),
        ([5, 0], [4, 0], 7),
        ([5, 0], [3, 1], 7),
        ([5, 0], [0, 0], 7),
    ] {
        let image = small_with(&[(0x14, &free), (0x16, &used)]);
        assert_eq!(rule(&image), broken, "{free:?} {used:?}");
        assert_eq!(repaired(&image, TEN, PLAIN), small_repaired());
    }
}

#[test]
fn lost_sectors() {
    // The first, the last, two in the middle, all; the count follows.
    for changes in [
        &[(0x10, &[7][..]), (0x14, &[4])][..],
        &[(position(0, 9), &[0, 0]), (0x14, &[4])],
        &[(position(0, 5), &[0, 9]), (0x14, &[3])],
        &[(0x10, &[0]), (0x14, &[0])],
    ] {
        let image = small_with(changes);
        assert_eq!(rule(&image), 8, "{changes:?}");
        assert_eq!(repaired(&image, TEN, PLAIN), small_repaired());
    }
}

#[test]
fn only_links_pointer_and_counts_are_written() {
    let mut image = small();
    let mut expected = small_repaired();
    for image in [&mut image, &mut expected] {
        image[..0x10].fill(0x61);
        image[0x18..256].fill(0x62);
        image[DIRECTORY + 243..DIRECTORY + 256].fill(0x63);
        // The directory's and the files' end links have a track byte of their own.
        image[DIRECTORY] = 0x64;
        image[position(0, 2)] = 0x65;
        image[position(0, 6)] = 0x66;
        for sector in [5, 7, 8, 9, 10] {
            for at in 2..256 {
                image[position(0, sector) + at] = (sector * 31 + at) as u8;
            }
        }
    }
    assert_eq!(rule(&image), 0);
    assert_eq!(repaired(&image, TEN, PLAIN), expected);
    assert_eq!(repaired(&moved(&image), TEN, MOVED), moved(&expected));
}

/// One track that is full: the directory 0/4 and one file of the other eight.
fn full() -> Vec<u8> {
    let mut image = vec![0x5A; 2560];
    put(&mut image, 0x10, &[0, 0, 4, 0, 0, 0, 8, 0]);
    image[DIRECTORY..DIRECTORY + 243].fill(0);
    image[DIRECTORY + 2] = 1;
    put(
        &mut image,
        ONE_SLOT,
        b"ALL      \x08\x00\x02\x00\x0A\x00\x00",
    );
    for (from, to) in [(2, 3), (3, 5), (5, 6), (6, 7), (7, 8), (8, 9), (9, 10)] {
        link(&mut image, (0, from), (0, to));
    }
    link(&mut image, (0, 10), (0x5A, 0));
    image
}

#[test]
fn a_full_disc_has_zeros_for_a_pointer() {
    assert_eq!(rule(&full()), 0);
    assert_eq!(repaired(&full(), TEN, PLAIN), full());
    assert_eq!(repaired(&moved(&full()), TEN, MOVED), moved(&full()));
    for (pointer, broken) in [([0, 7], 0), ([3, 0], 6), ([11, 9], 6), ([255, 255], 6)] {
        let mut image = full();
        put(&mut image, 0x10, &pointer);
        assert_eq!(rule(&image), broken, "{pointer:?}");
        assert_eq!(repaired(&image, TEN, PLAIN), full());
        put(&mut image, 0x14, &[1, 2, 3, 4]);
        assert_eq!(repaired(&image, TEN, PLAIN), full());
    }
}

/// The links of a disc that is all zeros but for them and 0/1.
fn linked(image: &mut [u8], (sectors, arrangement): (u32, u32), chain: &[(u8, u8)]) {
    for pair in chain.windows(2) {
        let from = (usize::from(pair[0].0), usize::from(pair[0].1));
        let at = start_of(sectors, arrangement, from);
        put(image, at, &[pair[1].0, pair[1].1]);
    }
}

/// Two tracks with the directory in 0/8 and 1/1 and two files: A in 0/7 and 1/8,
/// B in 1/4. The free links are all 0xEE, the counts too.
fn two_tracks(sectors: u32, arrangement: u32) -> Vec<u8> {
    let format = (sectors, arrangement);
    let mut image = vec![0; 512 * sectors as usize];
    for track in 0..2 {
        for sector in 1..=sectors as usize {
            let at = start_of(sectors, arrangement, (track, sector));
            put(&mut image, at, &[0xEE, 0xEE]);
        }
    }
    put(
        &mut image,
        0x10,
        &[0xEE, 0xEE, 8, 0, 0xEE, 0xEE, 0xEE, 0xEE],
    );
    for end in [(1, 1), (1, 8), (1, 4)] {
        put(&mut image, start_of(sectors, arrangement, end), &[0, 0]);
    }
    linked(&mut image, format, &[(0, 8), (1, 1)]);
    linked(&mut image, format, &[(0, 7), (1, 8)]);
    let first = start_of(sectors, arrangement, (0, 8));
    image[first + 2] = 1;
    let slot = b"A        \x02\x00\x07\x00\x08\x01\x80";
    put(&mut image, first + 3 + 16 * 14, slot);
    let second = start_of(sectors, arrangement, (1, 1));
    image[second + 2] = 1;
    let slot = b"B        \x01\x00\x04\x01\x04\x01\x00";
    put(&mut image, second + 3 + 16 * 6, slot);
    image
}

/// What the repair makes of it, with this chain.
fn two_tracks_repaired(sectors: u32, arrangement: u32, chain: &[(u8, u8)]) -> Vec<u8> {
    let mut image = two_tracks(sectors, arrangement);
    let (first, last) = (chain[0], chain[chain.len() - 1]);
    put(&mut image, 0x10, &[first.1, first.0]);
    put(&mut image, 0x14, &[chain.len() as u8, 0, 3, 0]);
    linked(&mut image, (sectors, arrangement), chain);
    let last = (usize::from(last.0), usize::from(last.1));
    put(&mut image, start_of(sectors, arrangement, last), &[0, 0]);
    image
}

#[test]
fn from_track_to_track_on_ten() {
    // 0/1, 0/7, 0/8 and 1/1, 1/4, 1/8 are left out of 1, 4, 7, 10, 3, 6, 9, 2, 5, 8.
    let chain = [
        (0, 4),
        (0, 10),
        (0, 3),
        (0, 6),
        (0, 9),
        (0, 2),
        (0, 5),
        (1, 7),
        (1, 10),
        (1, 3),
        (1, 6),
        (1, 9),
        (1, 2),
        (1, 5),
    ];
    for arrangement in [PLAIN, MOVED] {
        let image = two_tracks(TEN, arrangement);
        let expected = two_tracks_repaired(TEN, arrangement, &chain);
        assert_eq!(check(&image, TEN, arrangement).rule, 6);
        assert_eq!(repaired(&image, TEN, arrangement), expected);
        assert_eq!(check(&expected, TEN, arrangement).rule, 0);
    }
}

#[test]
fn from_track_to_track_on_nine() {
    // The same are left out of 1, 4, 7, 2, 5, 8, 3, 6, 9.
    let chain = [
        (0, 4),
        (0, 2),
        (0, 5),
        (0, 3),
        (0, 6),
        (0, 9),
        (1, 7),
        (1, 2),
        (1, 5),
        (1, 3),
        (1, 6),
        (1, 9),
    ];
    let image = two_tracks(NINE, PLAIN);
    let expected = two_tracks_repaired(NINE, PLAIN, &chain);
    assert_eq!(rule_of(&image, NINE), 6);
    assert_eq!(repaired(&image, NINE, PLAIN), expected);
    assert_eq!(rule_of(&expected, NINE), 0);
}

#[test]
fn a_blank_disc_is_repaired_to_itself() {
    for (sectors, arrangement) in FORMATS {
        for tracks in [1, 2, 3, 25, 40, 79, 80] {
            let mut image = vec![0; 256 * sectors as usize * tracks];
            assert_eq!(blank(&mut image, sectors, arrangement, b"PIECES"), 0);
            assert!(repaired(&image, sectors, arrangement) == image);
            // All of it lost: 0/1 and the directory alone say what is free.
            let mut lost = image.clone();
            for (number, sector) in lost.chunks_mut(256).enumerate() {
                if number > 0 {
                    sector[..2].fill(0);
                }
            }
            put(&mut lost, 0x10, &[0, 0]);
            put(&mut lost, 0x14, &[0, 0, 0xFF, 0xFF]);
            assert!(repaired(&lost, sectors, arrangement) == image);
        }
    }
}

#[test]
fn counts_beyond_a_byte() {
    // 40 tracks, one file of 300 sectors (1/1 to 30/10 by number): 98 free.
    let mut image = vec![0; 40 * 2560];
    assert_eq!(blank(&mut image, TEN, PLAIN, b"WIDE"), 0);
    for number in 10..310 {
        let next = number + 1;
        put(
            &mut image,
            256 * number,
            &[(next / 10) as u8, (next % 10 + 1) as u8],
        );
    }
    put(&mut image, position(30, 10), &[0, 0]);
    image[DIRECTORY + 2] = 1;
    put(
        &mut image,
        ONE_SLOT,
        b"WIDE     \x2C\x01\x01\x01\x0A\x1E\x00",
    );
    let after = repaired(&image, TEN, PLAIN);
    assert_eq!(rule(&after), 0);
    assert_eq!(after[0x10..0x18], [7, 0, 4, 0, 98, 0, 0x2C, 0x01]);
    // The chain leaps over the tracks that are taken: 0/8 to 31/1.
    assert_eq!(after[position(0, 8)..position(0, 8) + 2], [31, 1]);
    // And with the file gone: 398 free.
    image[DIRECTORY + 2..DIRECTORY + 243].fill(0);
    let after = repaired(&image, TEN, PLAIN);
    assert_eq!(after[0x10..0x18], [7, 0, 4, 0, 0x8E, 0x01, 0, 0]);
    assert_eq!(after[position(0, 8)..position(0, 8) + 2], [1, 1]);
}

#[test]
fn an_emptied_directory_sector_is_not_free() {
    let mut image = vec![0; 2560];
    assert_eq!(blank(&mut image, TEN, PLAIN, b"TWO"), 0);
    // 0/4 leads to 0/7, which has no entry; all else is free.
    link(&mut image, (0, 4), (0, 7));
    link(&mut image, (0, 7), (0, 0));
    let mut expected = image.clone();
    put(&mut expected, 0x10, &[10, 0]);
    put(&mut expected, 0x14, &[7, 0]);
    assert_eq!(repaired(&image, TEN, PLAIN), expected);
}

/// `small` with one of rules 1 to 5 broken, in several ways each.
fn broken_1_to_5() -> Vec<(u32, Vec<u8>)> {
    let with = |rule: u32, changes: &[(usize, &[u8])]| (rule, small_with(changes));
    vec![
        with(1, &[(0x12, &[0, 0])]),
        with(1, &[(0x12, &[1, 0])]),
        with(1, &[(0x12, &[11, 0])]),
        with(1, &[(0x12, &[4, 1])]),
        with(2, &[(DIRECTORY, &[0, 4])]),
        with(2, &[(DIRECTORY, &[0, 1])]),
        with(2, &[(DIRECTORY, &[0, 11])]),
        with(3, &[(DIRECTORY + 2, &[1])]),
        with(3, &[(ONE_SLOT, b"one")]),
        with(3, &[(ONE_SLOT + 9, &[0])]),
        with(3, &[(ONE_SLOT + 15, &[1])]),
        with(4, &[(TWO_SLOT, b"ONE      ")]),
        with(5, &[(ONE_SLOT + 9, &[2])]),
        with(5, &[(TWO_SLOT + 9, &[1])]),
        with(5, &[(ONE_SLOT + 11, &[3, 0])]),
        with(5, &[(ONE_SLOT + 13, &[3, 0])]),
        with(5, &[(position(0, 2), &[0, 5])]),
        with(5, &[(position(0, 3), &[0, 4])]),
        with(5, &[(position(0, 6), &[0, 3])]),
    ]
}

#[test]
fn rules_1_to_5_are_refused() {
    for (broken, image) in broken_1_to_5() {
        assert_eq!(rule(&image), broken);
        assert_eq!(refusal(&image, TEN, PLAIN), 3, "rule {broken}");
        assert_eq!(refusal(&moved(&image), TEN, MOVED), 3, "rule {broken}");
        // With rules 6, 7 and 8 broken as well.
        let mut worse = image.clone();
        put(&mut worse, 0x10, &[99, 99]);
        put(&mut worse, 0x14, &[9, 9, 9, 9]);
        assert_eq!(refusal(&worse, TEN, PLAIN), 3, "rule {broken}");
    }
    for fill in [0, 1, 0xEE, 0xFF] {
        assert_eq!(refusal(&vec![fill; 5120], TEN, PLAIN), 3);
        assert_eq!(refusal(&vec![fill; 4608], NINE, PLAIN), 3);
    }
}

#[test]
fn sector_10_of_nine_is_off_the_disc() {
    let mut image = vec![0; 4608];
    assert_eq!(blank(&mut image, NINE, PLAIN, b"NINE"), 0);
    put(&mut image, 0x12, &[10, 0]);
    assert_eq!(refusal(&image, NINE, PLAIN), 3);
}

#[test]
fn size_comes_first() {
    let unsound = vec![0xFF; 2560];
    for length in [0, 1, 255, 256, 2_304, 2_559, 2_561, 81 * 2560, 160 * 2560] {
        for fill in [0, 0xFF] {
            assert_eq!(refusal(&vec![fill; length], TEN, PLAIN), 1, "{length}");
        }
        let mut cut_short = small();
        cut_short.resize(length, 0);
        assert_eq!(refusal(&cut_short, TEN, PLAIN), 1, "{length}");
        assert_eq!(refusal(&cut_short, TEN, MOVED), 1, "{length}");
    }
    for length in [0, 2_303, 2_305, 2_560, 81 * 2304] {
        assert_eq!(refusal(&vec![0; length], NINE, PLAIN), 1, "{length}");
    }
    for (sectors, arrangement) in [
        (0, 0),
        (8, 0),
        (11, 0),
        (265, 0),
        (266, 0),
        (u32::MAX, 0),
        (10, 2),
        (10, 256),
        (10, 257),
        (10, u32::MAX),
        (9, 1),
        (9, 2),
    ] {
        // 23,040 bytes fit nine and ten.
        for image in [&small(), &unsound, &vec![0; 2304], &vec![0; 23_040]] {
            assert_eq!(refusal(image, sectors, arrangement), 1);
        }
    }
}

/// What of a generated disc is looked for.
#[derive(Debug, Default)]
struct Seen {
    /// By the rule that the check reports, 0 for sound; 9 for a wrong size.
    rules: [usize; 10],
    full: usize,
    grown: usize,
    junk_kept: usize,
    reordered: usize,
}

/// The same count in both places, and every free sector's bytes after the link.
fn look(seen: &mut Seen, old: &[u8], new: &[u8], (sectors, arrangement): (u32, u32)) {
    let checked = check(old, sectors, arrangement);
    let kind = if checked.number == 1 { 9 } else { checked.rule };
    seen.rules[kind as usize] += 1;
    if matches!(kind, 0 | 6..=8) {
        assert_eq!(check(new, sectors, arrangement).rule, 0);
        seen.full += usize::from(new[0x14..0x16] == [0, 0]);
        seen.reordered += usize::from(kind == 0 && old != new);
        let directory = (usize::from(new[0x13]), usize::from(new[0x12]));
        seen.grown += usize::from(new[start_of(sectors, arrangement, directory) + 1] != 0);
        let first = (usize::from(new[0x11]), usize::from(new[0x10]));
        if first.1 != 0 {
            let at = start_of(sectors, arrangement, first);
            seen.junk_kept += usize::from(new[at + 2..at + 256] != [0; 254]);
        }
    }
}

#[test]
fn generated_discs() {
    for format in FORMATS {
        let mut seen = Seen::default();
        for seed in 0..1500 {
            let mut random = Random::new(seed);
            let old = repair_disc(&mut random, 6, format.0, format.1);
            let mut new = old.clone();
            let number = repair(&mut new, format.0, format.1);
            assert_eq!(repair_fault(format, (&old, &new), number), None, "{seed}");
            let expected = match check(&old, format.0, format.1) {
                checked if checked.number == 1 => 1,
                checked if (1..=5).contains(&checked.rule) => 3,
                _ => 0,
            };
            assert_eq!(number, expected, "{seed}");
            look(&mut seen, &old, &new, format);
            let once = new.clone();
            assert_eq!(repair(&mut new, format.0, format.1), number);
            assert!(new == once, "{seed}");
        }
        assert!(seen.rules.iter().all(|&times| times >= 8), "{seen:?}");
        let kinds = [seen.full, seen.grown, seen.junk_kept, seen.reordered];
        assert!(kinds.iter().all(|&times| times > 50), "{seen:?}");
    }
}

#[test]
fn large_generated_discs() {
    for (seed, format) in (0..30).zip(FORMATS.into_iter().cycle()) {
        let mut random = Random::new(9000 + seed);
        let old = repair_disc(&mut random, 80, format.0, format.1);
        let mut new = old.clone();
        let number = repair(&mut new, format.0, format.1);
        assert_eq!(repair_fault(format, (&old, &new), number), None, "{seed}");
    }
}

#[test]
fn either_arrangement_gives_the_same() {
    for seed in 0..300 {
        let plain = repair_disc(&mut Random::new(seed), 5, TEN, PLAIN);
        let mut other = repair_disc(&mut Random::new(seed), 5, TEN, MOVED);
        let mut after = plain.clone();
        let number = repair(&mut after, TEN, PLAIN);
        assert_eq!(repair(&mut other, TEN, MOVED), number);
        if number != 1 {
            assert!(other == moved(&after), "{seed}");
        }
    }
}

#[test]
fn arbitrary_bytes() {
    for seed in 0..400 {
        let mut random = Random::new(seed);
        let format = random.pick(&FORMATS);
        let length = 256 * format.0 as usize * random.between(1, 4);
        let mut old = random.bytes(length);
        put(&mut old, 0x12, &[random.between(1, 9) as u8, 0]);
        let mut new = old.clone();
        let number = repair(&mut new, format.0, format.1);
        assert_eq!(repair_fault(format, (&old, &new), number), None, "{seed}");
    }
}

#[test]
fn damage_to_the_free_space_leaves_rules_1_to_5() {
    for format in FORMATS {
        for damage in FREE_DAMAGES {
            let mut unsound = 0;
            for seed in 0..60 {
                let mut random = Random::new(seed);
                let mut image = sound_disc(&mut random, 4, format.0, format.1);
                if seed % 5 == 0 {
                    fill_up(&mut random, &mut image, format.0, format.1);
                    assert_eq!(check(&image, format.0, format.1).rule, 0);
                    assert_eq!(image[0x14..0x16], [0, 0]);
                }
                damage_free(&mut random, &mut image, format.0, format.1, damage);
                let rule = check(&image, format.0, format.1).rule;
                assert!(matches!(rule, 0 | 6..=8), "{damage:?} {rule}");
                unsound += usize::from(rule != 0);
            }
            assert!(unsound > 25, "{damage:?} {unsound}");
        }
    }
}

#[test]
fn every_rule_of_1_to_5_alone_and_with_a_wrong_free_space() {
    for (sectors, arrangement) in FORMATS {
        let mut seen = [0; 6];
        for seed in 0..400 {
            let mut random = Random::new(seed);
            let mut image = sound_disc(&mut random, 4, sectors, arrangement);
            let rule = random.between(1, 5);
            break_rule(&mut random, &mut image, sectors, arrangement, rule);
            let broken = check(&image, sectors, arrangement).rule;
            if (1..=5).contains(&broken) {
                seen[broken as usize] += 1;
                assert_eq!(refusal(&image, sectors, arrangement), 3);
                image[0x14..0x18].fill(0xFF);
                assert_eq!(refusal(&image, sectors, arrangement), 3);
            }
        }
        assert!(seen[1..].iter().all(|&times| times > 20), "{seen:?}");
    }
}

#[test]
fn the_book_of_the_hand_made_disc() {
    assert_eq!(repair_due(&small(), TEN, PLAIN), (0, small_repaired()));
    assert_eq!(repair_due(&full(), TEN, PLAIN), (0, full()));
    for (_, image) in broken_1_to_5() {
        assert_eq!(repair_due(&image, TEN, PLAIN), (3, image));
    }
    assert_eq!(repair_due(&small(), NINE, PLAIN), (1, small()));
    assert_eq!(repair_due(&small(), TEN, 2), (1, small()));
}

#[test]
fn faulty_repairs_are_found() {
    let format = (TEN, PLAIN);
    let fault = |old: &[u8], new: &[u8], number| repair_fault(format, (old, new), number);
    let right = small_repaired();
    assert_eq!(fault(&small(), &right, 0), None);
    for number in [1, 3, 14] {
        assert!(fault(&small(), &right, number).is_some());
        assert!(fault(&small(), &small(), number).is_some());
    }
    for at in 0..right.len() {
        let mut wrong = right.clone();
        wrong[at] ^= 1;
        assert!(fault(&small(), &wrong, 0).is_some(), "byte {at}");
    }
    assert!(fault(&small(), &right[..2559], 0).is_some());
    let (_, refused) = &broken_1_to_5()[0];
    assert_eq!(fault(refused, refused, 3), None);
    assert!(fault(refused, refused, 0).is_some());
    assert!(fault(refused, &right, 3).is_some());
}
