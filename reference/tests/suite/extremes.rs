//! The largest discs, the longest chains, circles, and arbitrary bytes.

use crate::common::{delete, link, position, put, rule, rule_of, save, NINE, PLAIN, TEN};
use reference::generate::{
    break_rule, command, command_list, damaged_disc, flip_byte, sound_disc, Random, Replays,
};
use reference::history::Book;
use reference::{blank, check, list, read};

/// Links sectors by number, each to the next, and ends the last one.
fn link_numbers(image: &mut [u8], numbers: &[usize]) {
    for pair in numbers.windows(2) {
        let next = ((pair[1] / 10) as u8, (pair[1] % 10 + 1) as u8);
        link(image, (pair[0] / 10, pair[0] % 10 + 1), next);
    }
    if let Some(last) = numbers.last() {
        link(image, (last / 10, last % 10 + 1), (0, 0));
    }
}

/// 80 tracks: directory 0/2, and one file of all 798 others, last to first.
fn one_great_file() -> Vec<u8> {
    let mut image = vec![0; 80 * 2560];
    put(&mut image, 0x10, &[0, 0, 2, 0, 0, 0, 0x1E, 0x03]);
    image[position(0, 2) + 2] = 1;
    let entry = b"GREAT    \x1E\x03\x0A\x4F\x03\x00\x00";
    put(&mut image, position(0, 2) + 3, entry);
    let numbers: Vec<usize> = (2..800).rev().collect();
    link_numbers(&mut image, &numbers);
    image
}

#[test]
fn a_file_as_long_as_the_disc() {
    let mut image = one_great_file();
    assert_eq!(rule(&image), 0);
    assert_eq!(read(&image, TEN, PLAIN, b"GREAT", &mut [0; 10]).number, 9);
    assert_eq!(save(&mut image, TEN, PLAIN, b"F", 0, 0, 0, &[1]), 8);
    assert_eq!(delete(&mut image, TEN, PLAIN, b"GREAT"), 0);
    assert_eq!(image[0x10..0x18], [10, 79, 2, 0, 0x1E, 0x03, 0, 0]);
    assert_eq!(rule(&image), 0);
    assert_eq!(save(&mut image, TEN, PLAIN, b"F", 0, 0, 0, &[1]), 0);
    assert_eq!(image[0x10..0x18], [9, 79, 2, 0, 0x1D, 0x03, 1, 0]);
}

#[test]
fn circles_in_the_great_file() {
    for to in [(79, 10), (40, 5), (0, 3), (0, 2), (0, 1)] {
        let mut image = one_great_file();
        link(&mut image, (0, 3), to);
        assert_eq!(rule(&image), 5, "{to:?}");
    }
}

/// 80 tracks, all of them directory; its entries, if any, are set later.
fn all_directory() -> Vec<u8> {
    let mut image = vec![0; 80 * 2560];
    put(&mut image, 0x10, &[0, 0, 10, 79, 0, 0, 0, 0]);
    let numbers: Vec<usize> = (1..800).rev().collect();
    link_numbers(&mut image, &numbers);
    image
}

#[test]
fn a_directory_as_long_as_the_disc() {
    let mut image = all_directory();
    assert_eq!(rule(&image), 0);
    assert_eq!(list(&image, TEN, PLAIN, &mut [0; 15]).length, 15);
    assert_eq!(save(&mut image, TEN, PLAIN, b"F", 0, 0, 0, &[1]), 8);
    for to in [(0, 2), (79, 10), (0, 1), (80, 1)] {
        link(&mut image, (0, 2), to);
        assert_eq!(rule(&image), 2, "{to:?}");
    }
}

#[test]
fn a_directory_with_every_slot_in_use() {
    let mut image = all_directory();
    for number in 1..800 {
        image[number * 256 + 2] = 15;
        for index in 0..15 {
            let name = format!("{:06}X  ", number * 15 + index);
            let slot = number * 256 + 3 + 16 * index;
            put(&mut image, slot, name.as_bytes());
            put(&mut image, slot + 9, &[1, 0, 2, 0, 2, 0, 0]);
        }
    }
    assert_eq!(rule(&image), 5);
    // The very last name in the directory repeats the very first.
    let first = image[799 * 256 + 3..799 * 256 + 12].to_vec();
    put(&mut image, 256 + 3 + 14 * 16, &first);
    assert_eq!(rule(&image), 4);
}

#[test]
fn circles_in_the_free_chain() {
    let mut image = vec![0; 80 * 2560];
    assert_eq!(blank(&mut image, TEN, PLAIN, b"D"), 0);
    for to in [(79, 8), (0, 7), (40, 1), (0, 4), (0, 1), (80, 1), (79, 11)] {
        let mut circle = image.clone();
        link(&mut circle, (79, 8), to);
        assert_eq!(rule(&circle), 6, "{to:?}");
    }
}

#[test]
fn only_the_very_last_sector_is_lost() {
    for tracks in [1, 2, 40, 80] {
        let mut image = vec![0; tracks * 2560];
        put(&mut image, 0x10, &[3, 0, 2, 0]);
        let all = tracks * 10;
        let numbers: Vec<usize> = (2..all - 1).collect();
        link_numbers(&mut image, &numbers);
        put(&mut image, 0x14, &((all - 3) as u16).to_le_bytes());
        assert_eq!(rule(&image), 8, "{tracks}");
        let numbers: Vec<usize> = (2..all).collect();
        link_numbers(&mut image, &numbers);
        put(&mut image, 0x14, &((all - 2) as u16).to_le_bytes());
        assert_eq!(rule(&image), 0, "{tracks}");
    }
}

#[test]
fn a_disc_full_of_small_files() {
    let mut image = vec![0; 80 * 2560];
    assert_eq!(blank(&mut image, TEN, PLAIN, b"FULL"), 0);
    let mut files = 0;
    while save(
        &mut image,
        TEN,
        PLAIN,
        format!("F{files}").as_bytes(),
        0,
        0,
        0,
        &[1],
    ) == 0
    {
        files += 1;
    }
    // 799 = files + files / 15 rounded up: 749 files in 50 directory sectors.
    assert_eq!(files, 749);
    assert_eq!(image[0x10..0x18], [0, 0, 4, 0, 0, 0, 0xED, 0x02]);
    assert_eq!(rule(&image), 0);
    assert_eq!(list(&image, TEN, PLAIN, &mut vec![0; 9752]).length, 9752);
    assert_eq!(list(&image, TEN, PLAIN, &mut vec![0; 9751]).number, 10);
}

/// Runs generated commands on an image that need not be sound.
fn batter(random: &mut Random, image: &mut [u8], sectors: u32, commands: usize) {
    for _ in 0..commands {
        let before = image.to_vec();
        let command = command(random, image, sectors, PLAIN);
        let answer = command.run(image, sectors, PLAIN);
        assert!(answer.number() <= 11);
        assert!(answer.accepted() || image == before, "{command:?}");
    }
}

#[test]
fn arbitrary_bytes_are_met_calmly() {
    for seed in 0..400 {
        let mut random = Random::new(seed);
        let sectors = random.pick(&[NINE, TEN]);
        let length = match random.below(3) {
            0 => random.below(6000),
            _ => 256 * sectors as usize * random.between(1, 4),
        };
        let mut image = random.bytes(length);
        if random.one_in(2) {
            // Small numbers, so that links and pointers stay on the disc.
            image.iter_mut().for_each(|byte| *byte %= 12);
        }
        batter(&mut random, &mut image, sectors, 20);
    }
}

#[test]
fn damaged_discs_are_met_calmly() {
    for (seed, sectors) in (0..1200).zip([NINE, TEN].into_iter().cycle()) {
        let mut random = Random::new(seed);
        let mut image = damaged_disc(&mut random, 12, sectors, PLAIN);
        batter(&mut random, &mut image, sectors, 8);
    }
}

#[test]
fn generators_reach_every_rule() {
    for sectors in [NINE, TEN] {
        let mut seen = [0; 9];
        for seed in 0..3000 {
            let image = damaged_disc(&mut Random::new(seed), 6, sectors, PLAIN);
            let checked = check(&image, sectors, PLAIN);
            if checked.number == 0 {
                seen[checked.rule as usize] += 1;
            }
        }
        assert!(seen.iter().all(|&times| times >= 30), "{seen:?}");
    }
}

#[test]
fn a_rule_broken_on_purpose_is_the_lowest() {
    for (seed, sectors) in (0..4000).zip([NINE, TEN].into_iter().cycle()) {
        let mut random = Random::new(seed);
        let mut image = sound_disc(&mut random, 4, sectors, PLAIN);
        let rule_number = random.between(1, 8);
        break_rule(&mut random, &mut image, sectors, PLAIN, rule_number);
        let reported = rule_of(&image, sectors) as usize;
        // Damage to one place may spare its rule but never breaks a lower one.
        assert!(reported == 0 || reported >= rule_number, "seed {seed}");
    }
}

#[test]
fn generated_discs_are_sound() {
    let (mut not_plain, mut plain, mut full, mut grown) = (0, 0, 0, 0);
    for (seed, sectors) in (0..4000).zip([NINE, TEN].into_iter().cycle()) {
        let mut random = Random::new(seed);
        let image = sound_disc(&mut random, 8, sectors, PLAIN);
        assert_eq!(rule_of(&image, sectors), 0, "seed {seed}");
        let book = Book::start(&image, sectors, PLAIN).expect("sound");
        full += usize::from(book.free() == 0);
        grown += usize::from(book.directory() > 1);
        for file in book.standing() {
            match file.reading {
                reference::history::BookReading::NotPlain => not_plain += 1,
                reference::history::BookReading::Module(..) => plain += 1,
            }
        }
    }
    assert!(not_plain > 1000 && plain > 2000, "{not_plain} {plain}");
    assert!(full > 100 && grown > 1000, "{full} {grown}");
}

#[test]
fn the_same_seed_gives_the_same_run() {
    let make = |seed, sectors| {
        let mut random = Random::new(seed);
        let image = sound_disc(&mut random, 5, sectors, PLAIN);
        let commands = command_list(&mut random, &image, sectors, PLAIN, 20, Replays::none());
        (image, commands)
    };
    for sectors in [NINE, TEN] {
        assert_eq!(make(7, sectors), make(7, sectors));
        assert_ne!(make(7, sectors), make(8, sectors));
    }
}

#[test]
fn flipped_bytes_change_the_image() {
    let mut changed = 0;
    for seed in 0..100 {
        let mut random = Random::new(seed);
        let image = sound_disc(&mut random, 3, TEN, PLAIN);
        let mut flipped = image.clone();
        flip_byte(&mut random, &mut flipped, TEN, PLAIN);
        let differences = image.iter().zip(&flipped).filter(|(a, b)| a != b).count();
        assert!(differences <= 1);
        changed += differences;
    }
    assert!(changed > 80, "{changed}");
}
