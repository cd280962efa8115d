//! Bytes around what is lent stay, and what is only read stays as well.

use crate::common::{delete, protect, rename, save, small, ONE_SLOT, PLAIN, TEN};
use reference::{blank, list, read, repair};

const GUARD: usize = 600;

/// Runs a command on an image between guard bytes, and gives its number.
fn guarded(image: &[u8], command: impl Fn(&mut [u8]) -> u32) -> u32 {
    let mut memory = vec![0xBD; GUARD];
    memory.extend(image);
    memory.extend([0xBD; GUARD]);
    let end = GUARD + image.len();
    let number = command(&mut memory[GUARD..end]);
    assert!(memory[..GUARD].iter().all(|&byte| byte == 0xBD));
    assert!(memory[end..].iter().all(|&byte| byte == 0xBD));
    number
}

#[test]
fn writing_commands_keep_the_guard_bytes() {
    let image = small();
    let sheet = [4; 1257];
    assert_eq!(
        guarded(&image, |lent| save(lent, TEN, PLAIN, b"N", 0, 0, 0, &sheet)),
        0
    );
    assert_eq!(guarded(&image, |lent| delete(lent, TEN, PLAIN, b"ONE")), 0);
    assert_eq!(
        guarded(&image, |lent| rename(lent, TEN, PLAIN, b"ONE", b"N")),
        0
    );
    assert_eq!(
        guarded(&image, |lent| protect(lent, TEN, PLAIN, b"ONE", 1)),
        0
    );
    assert_eq!(guarded(&image, |lent| blank(lent, TEN, PLAIN, b"N")), 0);
    assert_eq!(
        guarded(&image[..2559], |lent| blank(lent, TEN, PLAIN, b"N")),
        1
    );
    assert_eq!(guarded(&image, |lent| repair(lent, TEN, PLAIN)), 0);
    assert_eq!(guarded(&image[..2559], |lent| repair(lent, TEN, PLAIN)), 1);
    assert_eq!(guarded(&[0; 2560], |lent| repair(lent, TEN, PLAIN)), 3);
}

#[test]
fn read_and_list_write_the_front_only() {
    for extra in [0, 1, 300] {
        let mut memory = vec![0xBD; GUARD + 246 + extra];
        let reading = read(&small(), TEN, PLAIN, b"TWO.X", &mut memory[GUARD..]);
        assert_eq!((reading.number, reading.length), (0, 246));
        assert!(memory[..GUARD].iter().all(|&byte| byte == 0xBD));
        assert_eq!(memory[GUARD..GUARD + 245], [0x11; 245]);
        assert_eq!(memory[GUARD + 245], 0x22);
        assert!(memory[GUARD + 246..].iter().all(|&byte| byte == 0xBD));
        let mut memory = vec![0xBD; GUARD + 41 + extra];
        assert_eq!(list(&small(), TEN, PLAIN, &mut memory[GUARD..]).length, 41);
        assert!(memory[..GUARD].iter().all(|&byte| byte == 0xBD));
        assert_eq!(memory[GUARD + 40], 0);
        assert!(memory[GUARD + 41..].iter().all(|&byte| byte == 0xBD));
    }
}

#[test]
fn bytes_of_no_meaning_are_kept() {
    let mut image = small();
    image[..0x10].fill(0x61);
    image[0x21..256].fill(0x62);
    image[768 + 243..768 + 256].fill(0x63);
    let before = image.clone();
    assert_eq!(save(&mut image, TEN, PLAIN, b"N", 0, 0, 0, &[1; 300]), 0);
    assert_eq!(rename(&mut image, TEN, PLAIN, b"ONE", b"M"), 0);
    assert_eq!(protect(&mut image, TEN, PLAIN, b"M", 1), 0);
    assert_eq!(protect(&mut image, TEN, PLAIN, b"M", 0), 0);
    assert_eq!(delete(&mut image, TEN, PLAIN, b"M"), 0);
    assert_eq!(image[..0x10], before[..0x10]);
    assert_eq!(image[0x18..256], before[0x18..256]);
    assert_eq!(image[768 + 243..1024], before[768 + 243..1024]);
    assert_eq!(image[ONE_SLOT..ONE_SLOT + 16], [0; 16]);
    // ONE's sector keeps all but its link.
    assert_eq!(image[258..512], before[258..512]);
}
