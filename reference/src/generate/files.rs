//! What a generated file holds: each sector's 254 bytes after the link.
//!
//! Written on its own from the layouts, without the code of the commands.

use super::Random;

pub type Body = Vec<u8>;

const BODY_BYTES: usize = 254;
const NEAR_MISSES: usize = 11;

/// A module, a near-miss of one, or bytes that are no module at all.
pub fn bodies(random: &mut Random, most_sectors: usize) -> Vec<Body> {
    let mut bodies = match random.below(8) {
        0 => junk(random, most_sectors),
        1 | 2 => near_miss(random, most_sectors),
        _ => module(random, most_sectors),
    };
    bodies.truncate(most_sectors);
    bodies
}

fn junk(random: &mut Random, most_sectors: usize) -> Vec<Body> {
    let sectors = random.between(1, most_sectors.min(4));
    (0..sectors).map(|_| random.bytes(BODY_BYTES)).collect()
}

/// How many bytes fit `sectors` sectors.
pub fn capacity(sectors: usize) -> usize {
    245 + 253 * (sectors - 1)
}

/// A module's length, at most `most` and often on a boundary.
pub fn module_length(random: &mut Random, most: usize) -> usize {
    const BOUNDARIES: [usize; 14] = [
        1, 2, 244, 245, 246, 247, 497, 498, 499, 500, 751, 752, 1004, 1005,
    ];
    let length = match random.below(6) {
        0 => random.between(1, 240),
        1 => random.between(1, 3000),
        _ => random.pick(&BOUNDARIES),
    };
    length.min(most)
}

fn module(random: &mut Random, most_sectors: usize) -> Vec<Body> {
    let length = module_length(random, capacity(most_sectors));
    let mut sheet = random.bytes(length);
    if random.one_in(4) {
        // Zeros at the end look like padding but belong to the module.
        let zeros = random.below(length + 1);
        sheet[length - zeros..].fill(0);
    }
    let start = random.below(65_536 - length + 1);
    lay_out(random, start, &sheet, 245)
}

/// The sectors of a module; the first holds `first_room` bytes at most.
fn lay_out(random: &mut Random, start: usize, sheet: &[u8], first_room: usize) -> Vec<Body> {
    let end = start + sheet.len() - 1;
    let (now, later) = sheet.split_at(sheet.len().min(first_room));
    let mut first = vec![0xFF, random.below(8) as u8];
    first.extend((start as u16).to_le_bytes());
    first.extend((end as u16).to_le_bytes());
    first.extend((random.draw() as u16).to_le_bytes());
    first.push(now.len() as u8);
    first.extend(now);
    let mut bodies = vec![first];
    for chunk in later.chunks(253) {
        let mut body = vec![chunk.len() as u8];
        body.extend(chunk);
        bodies.push(body);
    }
    for body in &mut bodies {
        body.resize(BODY_BYTES, 0);
    }
    bodies
}

/// A module with one thing wrong.
fn near_miss(random: &mut Random, most_sectors: usize) -> Vec<Body> {
    let mut bodies = module(random, most_sectors);
    let last = bodies.len() - 1;
    let length_byte = if last == 0 { 8 } else { 0 };
    match random.below(NEAR_MISSES) {
        0 => bodies[0][0] = random.pick(&[0xFE, 0x00, 0x7F]),
        1 => bodies[0][1] = random.pick(&[8, 15, 128, 255]),
        2 => bodies[0][2] = bodies[0][2].wrapping_add(1),
        3 => bodies[0][4] = bodies[0][4].wrapping_sub(1),
        4 => bodies[0].swap(3, 5),
        5 => bodies[0][8] = bodies[0][8].wrapping_sub(1),
        6 => bodies[last][length_byte] = bodies[last][length_byte].wrapping_add(1),
        7 => bodies[last][BODY_BYTES - 1] ^= random.pick(&[1, 128]),
        8 => bodies.push(vec![0; BODY_BYTES]),
        9 if last > 0 => {
            bodies.pop();
        }
        _ => bodies = unfilled(random, most_sectors),
    }
    bodies
}

/// Every byte and every length byte right, but a sector that isn't the last
/// isn't filled.
fn unfilled(random: &mut Random, most_sectors: usize) -> Vec<Body> {
    let length = random.between(245, 500).min(capacity(most_sectors));
    let sheet = random.bytes(length);
    lay_out(random, 0x2000, &sheet, 244)
}
