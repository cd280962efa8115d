//! Images written by hand from the layouts, byte by byte. They are plain and
//! have ten sectors a track.

use reference::command::{Buffer, Command};
use reference::history::Book;
use reference::{
    blank, check, list, read, repair, replay, view, view_number, view_start, Checked, Filled,
    Reading,
};

/// The numbers of sectors a track.
pub const NINE: u32 = 9;
pub const TEN: u32 = 10;

/// The numbers of the two arrangements.
pub const PLAIN: u32 = 0;
pub const MOVED: u32 = 1;

/// The numbers that may be stated together.
pub const FORMATS: [(u32, u32); 3] = [(TEN, PLAIN), (TEN, MOVED), (NINE, PLAIN)];

/// Where track t, sector s starts in the image.
pub fn position(track: usize, sector: usize) -> usize {
    256 * (10 * track + sector - 1)
}

/// The place that each of the sectors 1 to 10 has in its track of a moved
/// image, counted off by hand in 1, 4, 7, 10, 3, 6, 9, 2, 5, 8.
const MOVED_PLACES: [usize; 10] = [0, 7, 4, 1, 8, 5, 2, 9, 6, 3];

/// Where track t, sector s starts in a moved image.
pub fn moved_position(track: usize, sector: usize) -> usize {
    256 * (10 * track + MOVED_PLACES[sector - 1])
}

/// Where the byte at a position of a plain image lies in the moved one.
pub fn moved_byte(at: usize) -> usize {
    moved_position(at / 2560, at / 256 % 10 + 1) + at % 256
}

/// The moved form of a plain image, worked out without the program.
pub fn moved(plain: &[u8]) -> Vec<u8> {
    let mut image = plain.to_vec();
    for (at, &byte) in plain.iter().enumerate() {
        image[moved_byte(at)] = byte;
    }
    image
}

pub fn put(image: &mut [u8], at: usize, bytes: &[u8]) {
    image[at..at + bytes.len()].copy_from_slice(bytes);
}

/// Links a sector to the next one, track byte first.
pub fn link(image: &mut [u8], (track, sector): (usize, usize), to: (u8, u8)) {
    put(image, position(track, sector), &[to.0, to.1]);
}

/// The directory sector of `small`.
pub const DIRECTORY: usize = 768;
/// Its slots in use.
pub const ONE_SLOT: usize = DIRECTORY + 3;
pub const TWO_SLOT: usize = DIRECTORY + 35;

/// A sound disc of one track. Directory 0/4 with a free slot between two in
/// use; ONE in 0/2; TWO.X, protected, in 0/3 and 0/6; free 0/5, 0/7, 0/8, 0/9
/// and 0/10. ONE is page 3, start $2000, transfer $1234, `ABC`; TWO.X is page
/// 0, start $1000, 245 times $11 and one $22.
pub fn small() -> Vec<u8> {
    let mut image = vec![0; 2560];
    put(&mut image, 0x10, &[5, 0, 4, 0, 5, 0, 3, 0]);
    put(&mut image, 0x18, b"BENCH    ");
    image[DIRECTORY + 2] = 2;
    put(
        &mut image,
        ONE_SLOT,
        b"ONE      \x01\x00\x02\x00\x02\x00\x00",
    );
    put(
        &mut image,
        TWO_SLOT,
        b"TWO   X  \x02\x00\x03\x00\x06\x00\x80",
    );
    put(
        &mut image,
        position(0, 2),
        b"\x00\x00\xFF\x03\x00\x20\x02\x20\x34\x12\x03ABC",
    );
    put(
        &mut image,
        position(0, 3),
        b"\x00\x06\xFF\x00\x00\x10\xF5\x10\x00\x00\xF5",
    );
    image[position(0, 3) + 11..position(0, 4)].fill(0x11);
    put(&mut image, position(0, 6), &[0, 0, 1, 0x22]);
    link(&mut image, (0, 5), (0, 7));
    link(&mut image, (0, 7), (0, 8));
    link(&mut image, (0, 8), (0, 9));
    link(&mut image, (0, 9), (0, 10));
    image
}

/// What lent buffers for lists hold in the calls below.
const FILL: u8 = 0xB7;

/// Where track t, sector s starts in an image with these numbers stated.
pub fn start_of(sectors: u32, arrangement: u32, (track, sector): (usize, usize)) -> usize {
    match (sectors, arrangement) {
        (TEN, PLAIN) => position(track, sector),
        (TEN, MOVED) => moved_position(track, sector),
        (NINE, PLAIN) => 256 * (9 * track + sector - 1),
        other => panic!("{other:?} is no format"),
    }
}

/// The image that a good list of writes makes of an old one, read off by hand.
pub fn rewritten(old: &[u8], sectors: u32, arrangement: u32, list: &[u8]) -> Vec<u8> {
    let mut image = old.to_vec();
    let (end, records) = list.split_last().expect("a kind 0");
    assert_eq!((*end, records.len() % 259), (0, 0));
    for record in records.chunks(259) {
        assert_eq!(record[0], 3);
        let address = (usize::from(record[1]), usize::from(record[2]));
        put(
            &mut image,
            start_of(sectors, arrangement, address),
            &record[3..],
        );
    }
    image
}

/// The number of a call that is lent more than any list on the image needs. Its
/// list must give the new image, a refusal must leave all, and the rest of the
/// buffer stays.
fn listed(
    image: &mut [u8],
    sectors: u32,
    arrangement: u32,
    call: impl FnOnce(&mut [u8], &mut [u8]) -> Filled,
) -> u32 {
    let old = image.to_vec();
    let mut lent = vec![FILL; old.len() / 256 * 259 + 4];
    let filled = call(image, &mut lent);
    let (list, rest) = lent.split_at(filled.length as usize);
    assert!(rest.iter().all(|&byte| byte == FILL));
    if filled.number == 0 {
        assert!(rewritten(&old, sectors, arrangement, list) == image);
    } else {
        assert!(list.is_empty() && image == old);
    }
    filled.number
}

#[allow(clippy::too_many_arguments)]
pub fn save(
    image: &mut [u8],
    sectors: u32,
    arrangement: u32,
    name: &[u8],
    page: u32,
    start: u16,
    transfer: u16,
    sheet: &[u8],
) -> u32 {
    listed(image, sectors, arrangement, |image, lent| {
        reference::save(
            image,
            sectors,
            arrangement,
            name,
            page,
            start,
            transfer,
            sheet,
            lent,
        )
    })
}

pub fn delete(image: &mut [u8], sectors: u32, arrangement: u32, name: &[u8]) -> u32 {
    listed(image, sectors, arrangement, |image, lent| {
        reference::delete(image, sectors, arrangement, name, lent)
    })
}

pub fn rename(image: &mut [u8], sectors: u32, arrangement: u32, old: &[u8], new: &[u8]) -> u32 {
    listed(image, sectors, arrangement, |image, lent| {
        reference::rename(image, sectors, arrangement, old, new, lent)
    })
}

pub fn protect(image: &mut [u8], sectors: u32, arrangement: u32, name: &[u8], on: u32) -> u32 {
    listed(image, sectors, arrangement, |image, lent| {
        reference::protect(image, sectors, arrangement, name, on, lent)
    })
}

/// The rule that the check reports for an image of a right size.
pub fn rule(image: &[u8]) -> u32 {
    rule_of(image, TEN)
}

/// The same for a plain image of either number.
pub fn rule_of(image: &[u8], sectors: u32) -> u32 {
    let checked = check(image, sectors, PLAIN);
    assert_eq!(checked.number, 0);
    checked.rule
}

/// That every call refuses the stated numbers with 1, whatever else is handed
/// in, and that all lent memory stays.
pub fn refused_by_every_call(image: &[u8], sectors: u32, arrangement: u32) {
    let refused = Checked { number: 1, rule: 0 };
    assert_eq!(check(image, sectors, arrangement), refused);
    assert!(Book::start(image, sectors, arrangement).is_none());
    for lent in [0, 41, 300] {
        refused_with_a_buffer(image, sectors, arrangement, lent);
    }
    refused_by_writing_calls(image, sectors, arrangement);
    for (track, sector) in [
        (0, 1),
        (0, 7),
        (0, 0),
        (0, 11),
        (1, 1),
        (u32::MAX, u32::MAX),
    ] {
        assert_eq!(view_number(image, sectors, arrangement, track, sector), 1);
        assert_eq!(view_start(image, sectors, arrangement, track, sector), 0);
        assert!(view(image, sectors, arrangement, track, sector).is_empty());
    }
}

fn refused_with_a_buffer(image: &[u8], sectors: u32, arrangement: u32, lent: usize) {
    let mut buffer = vec![0xA5; lent];
    let listed = Filled {
        number: 1,
        length: 0,
    };
    assert_eq!(list(image, sectors, arrangement, &mut buffer), listed);
    let reading = Reading {
        number: 1,
        page: 0,
        start: 0,
        end: 0,
        transfer: 0,
        length: 0,
    };
    for name in [&b"ONE"[..], b"NONE", b"one", b""] {
        let answer = read(image, sectors, arrangement, name, &mut buffer);
        assert_eq!(answer, reading);
    }
    assert_eq!(buffer, vec![0xA5; lent]);
}

fn refused_by_writing_calls(image: &[u8], sectors: u32, arrangement: u32) {
    let mut lent = image.to_vec();
    for name in [&b"NEW"[..], b"ONE", b"TWO.X", b"new", b""] {
        for (page, length) in [(0, 1), (8, 1), (0, 0), (0, 3_000)] {
            let sheet = vec![1; length];
            let saved = save(&mut lent, sectors, arrangement, name, page, 0, 0, &sheet);
            assert_eq!(saved, 1);
        }
        assert_eq!(delete(&mut lent, sectors, arrangement, name), 1);
        assert_eq!(rename(&mut lent, sectors, arrangement, name, b"OTHER"), 1);
        assert_eq!(rename(&mut lent, sectors, arrangement, b"ONE", name), 1);
        assert_eq!(protect(&mut lent, sectors, arrangement, name, 1), 1);
        assert_eq!(blank(&mut lent, sectors, arrangement, name), 1);
    }
    for list in [&b"\0"[..], b"", b"\x03", b"\0\0"] {
        assert_eq!(replay(&mut lent, sectors, arrangement, list), 1);
    }
    assert_eq!(repair(&mut lent, sectors, arrangement), 1);
    assert_eq!(lent, image);
}

/// Longer than any list of the commands below.
pub const LONG: Buffer = Buffer {
    length: 10_000,
    fill: 0xC3,
};

pub fn save_command(name: &str, length: usize) -> Command {
    Command::Save {
        name: name.as_bytes().to_vec(),
        page: 2,
        start: 0x1000,
        transfer: 0x1001,
        sheet: vec![0x42; length],
        writes: LONG,
    }
}

pub fn delete_command(name: &str) -> Command {
    Command::Delete {
        name: name.as_bytes().to_vec(),
        writes: LONG,
    }
}
