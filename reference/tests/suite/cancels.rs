//! Request h: the exceptions of the first law worked out by hand, what happens
//! where its conditions don't hold, and both laws on generated runs.

use crate::common::{delete, delete_command, link, moved, position, put, rule, save};
use crate::common::{save_command, small, start_of, FORMATS, MOVED, NINE, PLAIN, TEN};
use reference::cancels::{cancelled, excepted, joined};
use reference::command::{Answer, Command};
use reference::generate::{cancels_run, CancelsRun, Random};
use reference::{blank, check};
use std::ops::Range;

/// What no sector of a saved module holds here, its header included.
const JUNK: u8 = 0x99;
const END_TRACK: u8 = 0x77;

/// A module that fills so many sectors to the last byte.
fn filling(sectors: usize) -> usize {
    245 + 253 * (sectors - 1)
}

/// Links sectors of an image of any format; the end gets a track byte of its own.
fn thread(image: &mut [u8], (sectors, arrangement): (u32, u32), chain: &[(u8, u8)], end: u8) {
    for (at, &(track, sector)) in chain.iter().enumerate() {
        let (to_track, to_sector) = chain.get(at + 1).copied().unwrap_or((end, 0));
        let from = (usize::from(track), usize::from(sector));
        let start = start_of(sectors, arrangement, from);
        put(image, start, &[to_track, to_sector]);
    }
}

/// The free sectors of `bench`, in the order of their chain.
const FREE: [(u8, u8); 4] = [(1, 3), (0, 9), (0, 5), (1, 8)];

/// A sound disc of two tracks: the directory in 0/4, the four free sectors, and
/// one file of all others. All that no rule looks at is junk.
fn bench((sectors, arrangement): (u32, u32)) -> Vec<u8> {
    let format = (sectors, arrangement);
    let mut image = vec![JUNK; 512 * sectors as usize];
    let rest: Vec<(u8, u8)> = (0..2)
        .flat_map(|track| (1..=sectors as u8).map(move |sector| (track, sector)))
        .filter(|at| ![(0, 1), (0, 4)].contains(at) && !FREE.contains(at))
        .collect();
    thread(&mut image, format, &rest, JUNK);
    thread(&mut image, format, &FREE, END_TRACK);
    put(&mut image, 0x10, &[3, 1, 4, 0, 4, 0, rest.len() as u8, 0]);
    let directory = start_of(sectors, arrangement, (0, 4));
    image[directory + 1..directory + 243].fill(0);
    image[directory + 2] = 1;
    let (first, last) = (rest[0], rest[rest.len() - 1]);
    let numbers = [rest.len() as u8, 0, first.1, first.0, last.1, last.0, 0];
    let entry = [&b"REST     "[..], &numbers].concat();
    put(&mut image, directory + 3 + 16, &entry);
    assert_eq!(check(&image, sectors, arrangement).rule, 0);
    image
}

/// The exceptions of a file in these sectors.
fn by_hand(
    (sectors, arrangement): (u32, u32),
    file: &[(u8, u8)],
    reached: bool,
) -> Vec<Range<usize>> {
    let start = |&(track, sector): &(u8, u8)| {
        start_of(
            sectors,
            arrangement,
            (usize::from(track), usize::from(sector)),
        )
    };
    let mut places: Vec<Range<usize>> = file
        .iter()
        .map(|at| start(at) + 2..start(at) + 256)
        .collect();
    if reached {
        let end = start(&file[file.len() - 1]);
        places.push(end..end + 1);
    }
    places.sort_by_key(|place| place.start);
    places
}

/// The image after a save of so many bytes and the delete of the same file.
fn saved_and_deleted(before: &[u8], (sectors, arrangement): (u32, u32), length: usize) -> Vec<u8> {
    let mut image = before.to_vec();
    for command in [save_command("NEW", length), delete_command("NEW")] {
        assert!(command.run(&mut image, sectors, arrangement).accepted());
    }
    image
}

fn places_that_differ(one: &[u8], other: &[u8]) -> Vec<usize> {
    assert_eq!(one.len(), other.len());
    (0..one.len()).filter(|&at| one[at] != other[at]).collect()
}

#[test]
fn every_excepted_byte_may_differ_and_no_other_does() {
    for format in FORMATS {
        let before = bench(format);
        let end = start_of(format.0, format.1, (1, 8));
        for count in 1..=4 {
            let places = by_hand(format, &FREE[..count], count == 4);
            let length = filling(count);
            let found = excepted(&before, format.0, format.1, length);
            assert_eq!(found.as_ref(), Some(&places), "{format:?} {count}");
            let back = saved_and_deleted(&before, format, length);
            let every_place: Vec<usize> = places.iter().cloned().flatten().collect();
            assert_eq!(places_that_differ(&before, &back), every_place);
            assert_eq!(cancelled(&before, &back, &places), Ok(()));
            let end_now = if count == 4 { 0 } else { END_TRACK };
            assert_eq!((back[end], back[end + 1]), (end_now, 0));
        }
    }
}

#[test]
fn the_places_of_the_hand_made_disc() {
    let of = |image: &[u8], arrangement, length| excepted(image, TEN, arrangement, length);
    // 0/5 and 0/7 start at 1,024 and 1,536, in the moved image at 2,048 and 512.
    for length in [246, 300, 498] {
        let plain = vec![1026..1280, 1538..1792];
        assert_eq!(of(&small(), PLAIN, length), Some(plain));
        let in_moved = vec![514..768, 2050..2304];
        assert_eq!(of(&moved(&small()), MOVED, length), Some(in_moved));
    }
    // One more byte takes 0/8 as well; one byte less than 246 only 0/5.
    let three = vec![1026..1280, 1538..1792, 1794..2048];
    assert_eq!(of(&small(), PLAIN, 499), Some(three));
    for length in [1, 245] {
        assert_eq!(of(&small(), PLAIN, length), Some(vec![1026..1280; 1]));
    }
    // All five, with the track byte of 0/10 at 2,304 directly behind 0/9.
    for length in [1005, 1257] {
        let all = vec![
            1026..1280,
            1538..1792,
            1794..2048,
            2050..2304,
            2304..2305,
            2306..2560,
        ];
        assert_eq!(of(&small(), PLAIN, length), Some(all));
    }
}

#[test]
fn byte_2_and_byte_255_of_the_first_and_the_last_sector() {
    let mut before = small();
    for sector in [5, 7] {
        before[position(0, sector) + 2..position(0, sector + 1)].fill(JUNK);
    }
    link(&mut before, (0, 10), (END_TRACK, 0));
    let back = saved_and_deleted(&before, (TEN, PLAIN), 498);
    for (at, now) in [(1026, 0xFF), (1279, 0x42), (1538, 0xFD), (1791, 0x42)] {
        assert_eq!((before[at], back[at]), (JUNK, now), "{at}");
    }
    // The save stopped at 0/7, two sectors before the end.
    assert_eq!(back[position(0, 10)], END_TRACK);
    let back = saved_and_deleted(&before, (TEN, PLAIN), 1005);
    assert_eq!(back[position(0, 10)], 0);
    let places = excepted(&before, TEN, PLAIN, 1005).expect("room");
    assert_eq!(cancelled(&before, &back, &places), Ok(()));
    assert_eq!(cancelled(&before, &back, &places[..4]), Err(2304));
}

#[test]
fn no_exceptions_where_no_save_is_accepted() {
    for length in [0, 1258, 65_536, 65_537, usize::MAX] {
        assert_eq!(excepted(&small(), TEN, PLAIN, length), None, "{length}");
    }
    for (at, byte) in [(0x14, 4), (0x16, 2), (0x10, 11), (position(0, 10) + 1, 5)] {
        let mut unsound = small();
        unsound[at] = byte;
        assert_ne!(rule(&unsound), 0);
        assert_eq!(excepted(&unsound, TEN, PLAIN, 1), None, "{at}");
    }
    for (sectors, arrangement) in [(9, 0), (9, 1), (10, 1), (10, 2), (8, 0), (266, 0)] {
        assert_eq!(excepted(&small(), sectors, arrangement, 1), None);
    }
    for length in [0, 2559, 2561, 2304] {
        let mut image = small();
        image.resize(length, 0);
        assert_eq!(excepted(&image, TEN, PLAIN, 1), None, "{length}");
    }
    let mut full = small();
    assert_eq!(save(&mut full, TEN, PLAIN, b"ALL", 0, 0, 0, &[1; 1257]), 0);
    assert_eq!(excepted(&full, TEN, PLAIN, 1), None);
}

#[test]
fn the_number_of_sectors_is_the_one_stated() {
    // 92,160 bytes are 36 tracks of ten and 40 of nine.
    for (sectors, other) in [(TEN, NINE), (NINE, TEN)] {
        let mut image = vec![0; 92_160];
        assert_eq!(blank(&mut image, sectors, PLAIN, b"WIDE"), 0);
        assert_eq!(excepted(&image, other, PLAIN, 1), None);
        let places = excepted(&image, sectors, PLAIN, 65_536).expect("room");
        assert_eq!((places.len(), places[0].clone()), (260, 258..512));
        assert!(places.iter().all(|place| place.len() == 254));
        assert_eq!(excepted(&image, sectors, PLAIN, 65_537), None);
    }
}

/// Two tracks of ten with fifteen files of one sector each, which leave no slot.
fn fifteen_files() -> Vec<u8> {
    let mut image = vec![0; 5120];
    assert_eq!(blank(&mut image, TEN, PLAIN, b"FULL"), 0);
    for file in 0..15 {
        let name = format!("F{file}");
        let saved = save(&mut image, TEN, PLAIN, name.as_bytes(), 0, 0, 0, b"F");
        assert_eq!(saved, 0);
    }
    image
}

#[test]
fn a_new_directory_sector_does_not_cancel() {
    let before = fifteen_files();
    // 0/7 to 0/8 of the chain hold eight files, 1/1 to 1/9 seven; 1/2, 1/5 and 1/8
    // are left.
    let free = [(1, 2), (1, 5), (1, 8)];
    assert_eq!(before[0x10..0x16], [2, 1, 4, 0, 3, 0]);
    for count in 1..=2 {
        let length = filling(count);
        assert_eq!(excepted(&before, TEN, PLAIN, length), None);
        let back = saved_and_deleted(&before, (TEN, PLAIN), length);
        // The new sector stays, so that one less is free.
        let places = by_hand((TEN, PLAIN), &free[..count], false);
        assert_eq!(cancelled(&before, &back, &places), Err(0x14));
        let differ = places_that_differ(&before, &back);
        // The old directory sector, 0/4, links to the new one.
        assert!(differ.contains(&768) && differ.contains(&769));
    }
    // With a slot free again the same save cancels.
    let mut before = before;
    assert_eq!(delete(&mut before, TEN, PLAIN, b"F7"), 0);
    let places = excepted(&before, TEN, PLAIN, 1).expect("a slot is free");
    let back = saved_and_deleted(&before, (TEN, PLAIN), 1);
    assert_eq!(cancelled(&before, &back, &places), Ok(()));
}

#[test]
fn a_call_between_does_not_cancel() {
    let before = small();
    let mut back = before.clone();
    for command in [
        save_command("NEW", 1),
        save_command("OTHER", 1),
        delete_command("NEW"),
    ] {
        assert!(command.run(&mut back, TEN, PLAIN).accepted());
    }
    let places = excepted(&before, TEN, PLAIN, 1).expect("room");
    assert_eq!(cancelled(&before, &back, &places), Err(0x14));
}

/// How often what the laws speak of was met.
#[derive(Debug, Default)]
struct Seen {
    reached: usize,
    /// Reached, with a track byte that wasn't zero and now is.
    end_changed: usize,
    /// Every byte of every free sector taken is filled.
    filled_all: usize,
    not_reached: usize,
    other_name: usize,
    c_is_a: usize,
}

/// The sectors of the file that the list of a save's writes names.
fn file_of(list: &[u8]) -> Vec<(u8, u8)> {
    let records: Vec<&[u8]> = list.chunks_exact(259).collect();
    records[1..records.len() - 1]
        .iter()
        .map(|record| (record[1], record[2]))
        .collect()
}

fn accepted(command: &Command, image: &mut [u8], (sectors, arrangement): (u32, u32)) -> Vec<u8> {
    let answer: Answer = command.run(image, sectors, arrangement);
    answer.list_of_writes().expect("accepted").to_vec()
}

fn look_at_save(
    seen: &mut Seen,
    before: &[u8],
    format: (u32, u32),
    (save, length, delete): (&Command, usize, &Command),
) {
    let mut image = before.to_vec();
    let file = file_of(&accepted(save, &mut image, format));
    let reached = image[0x14..0x16] == [0, 0];
    let places = by_hand(format, &file, reached);
    let found = excepted(before, format.0, format.1, length);
    assert_eq!(found.as_ref(), Some(&places));
    accepted(delete, &mut image, format);
    assert_eq!(cancelled(before, &image, &places), Ok(()));
    let (track, sector) = file[file.len() - 1];
    let last = start_of(
        format.0,
        format.1,
        (usize::from(track), usize::from(sector)),
    );
    seen.reached += usize::from(reached);
    seen.not_reached += usize::from(!reached);
    seen.end_changed += usize::from(reached && before[last] != image[last]);
    seen.filled_all += usize::from(reached && length == filling(file.len()));
}

fn look_at_renames(
    seen: &mut Seen,
    before: &[u8],
    format: (u32, u32),
    [a_to_b, b_to_c, a_to_c]: [&Command; 3],
) {
    let (mut image, mut direct) = (before.to_vec(), before.to_vec());
    accepted(a_to_b, &mut image, format);
    accepted(b_to_c, &mut image, format);
    let number = a_to_c.run(&mut direct, format.0, format.1).number();
    let (a, c) = match a_to_c {
        Command::Rename { old, new, .. } => (old, new),
        other => panic!("no rename: {other:?}"),
    };
    assert_eq!(a_to_c.lent_for_writes(), a_to_b.lent_for_writes());
    assert_eq!(number, if a == c { 5 } else { 0 });
    assert_eq!(joined(before, &image, (number, &direct), a, c), Ok(()));
    assert_eq!(image == before, a == c);
    seen.c_is_a += usize::from(a == c);
    seen.other_name += usize::from(a != c);
}

fn look_at(seen: &mut Seen, seed: u64, max_tracks: usize, format: (u32, u32)) {
    let (image, run) = cancels_run(&mut Random::new(seed), max_tracks, format.0, format.1);
    match &run {
        CancelsRun::SaveAndDelete {
            save,
            length,
            delete,
        } => look_at_save(seen, &image, format, (save, *length, delete)),
        CancelsRun::Renames {
            a_to_b,
            b_to_c,
            a_to_c,
        } => look_at_renames(seen, &image, format, [a_to_b, b_to_c, a_to_c]),
    }
}

#[test]
fn generated_runs() {
    for format in FORMATS {
        let mut seen = Seen::default();
        (0..2000).for_each(|seed| look_at(&mut seen, seed, 4, format));
        let saves = seen.reached + seen.not_reached;
        assert_eq!(saves + seen.c_is_a + seen.other_name, 2000);
        assert!(seen.reached > 500 && seen.not_reached > 300, "{seen:?}");
        assert!(seen.end_changed > 250 && seen.filled_all > 200, "{seen:?}");
        assert!(seen.c_is_a > 150 && seen.other_name > 300, "{seen:?}");
    }
}

#[test]
fn generated_runs_on_large_discs() {
    for format in FORMATS {
        let mut seen = Seen::default();
        (5000..5060).for_each(|seed| look_at(&mut seen, seed, 80, format));
        assert!(seen.reached > 5 && seen.not_reached > 5, "{seen:?}");
    }
}
