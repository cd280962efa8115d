//! Names as typed: legal, illegal, and those standing on an image.

use super::Random;
use crate::directory;
use crate::disc::Disc;

const LEGAL: &[u8; 36] = b"ABCDEFGHIJKLMNOPQRSTUVWXYZ0123456789";

/// A legal name, from so few that lists of commands meet them again.
pub fn fresh_name(random: &mut Random) -> Vec<u8> {
    let letters = if random.one_in(6) { 36 } else { 3 };
    let most = if random.one_in(4) { 6 } else { 2 };
    let mut name = characters(random, letters, most);
    if random.one_in(3) {
        name.push(b'.');
        name.extend(characters(random, letters, 3));
    }
    name
}

fn characters(random: &mut Random, letters: usize, most: usize) -> Vec<u8> {
    (0..random.between(1, most))
        .map(|_| LEGAL[random.below(letters)])
        .collect()
}

/// A name that breaks the rule of file names, often by one byte only.
pub fn illegal_name(random: &mut Random) -> Vec<u8> {
    const FIXED: [&[u8]; 14] = [
        b"",
        b".",
        b"X.",
        b".A",
        b"SEVENCH",
        b"A.BCDE",
        b"A.B.C",
        b"A..B",
        b"x",
        b"A B",
        b"A ",
        b" A",
        b"X\0",
        b"SEVENCH.ABCD",
    ];
    if random.one_in(2) {
        return random.pick(&FIXED).to_vec();
    }
    let mut name = fresh_name(random);
    let at = random.below(name.len());
    name[at] = random.pick(b"@[`{/:a\xC1\x00 -");
    name
}

/// The typed forms of the names standing on an image; none if its size or a
/// stated number is wrong or its directory pointer leads nowhere.
pub fn standing_names(image: &[u8], sectors: u32, arrangement: u32) -> Vec<Vec<u8>> {
    Disc::open(image, sectors, arrangement).map_or_else(
        |_| Vec::new(),
        |disc| {
            directory::entries(disc)
                .map(|(_, entry)| typed_form(&entry.name.0))
                .collect()
        },
    )
}

/// The name that is stored as these nine bytes.
pub fn typed_form(stored: &[u8; 9]) -> Vec<u8> {
    let unpadded =
        |field: &[u8]| -> Vec<u8> { field.iter().copied().filter(|&byte| byte != b' ').collect() };
    let mut typed = unpadded(&stored[..6]);
    let extension = unpadded(&stored[6..]);
    if !extension.is_empty() {
        typed.push(b'.');
        typed.extend(extension);
    }
    typed
}
