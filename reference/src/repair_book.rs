//! What a repair must answer and leave by the paper, and what the request claims
//! of every cut, read apart from the code of the commands. The check alone is
//! taken from them: it says which rules hold.

use crate::command::Command;
use crate::cuts::{counts_as_done, cut_image, write_count};
use crate::disc::{word, Disc, Sector};
use crate::generate::typed_form;
use crate::history::{follow, pointer, slots_in_use, stored, Program};
use crate::{check, list, Reading};

const ORDER_OF_TEN: [u32; 10] = [1, 4, 7, 10, 3, 6, 9, 2, 5, 8];
const ORDER_OF_NINE: [u32; 9] = [1, 4, 7, 2, 5, 8, 3, 6, 9];
/// Kind, nine name bytes, length and attribute of a file in a list.
const FILE_RECORD: usize = 13;
/// Kind, nine name bytes and both counts at a list's front.
const DISC_RECORD: usize = 14;

/// The number that a repair of an image must answer, and the image after it.
pub fn repair_due(old: &[u8], sectors: u32, arrangement: u32) -> (u32, Vec<u8>) {
    let unchanged = old.to_vec();
    let disc = match Disc::open(old, sectors, arrangement) {
        Ok(disc) => disc,
        Err(_) => return (1, unchanged),
    };
    let rule = check(old, sectors, arrangement).rule;
    match taken(disc).filter(|_| !(1..=5).contains(&rule)) {
        Some(taken) => (0, repaired(disc, unchanged, sectors, &taken)),
        None => (3, unchanged),
    }
}

/// The sectors met by the directory, and those met by files.
struct Taken {
    directory: Vec<usize>,
    files: Vec<usize>,
}

fn taken(disc: Disc<'_>) -> Option<Taken> {
    let directory = follow(disc, pointer(disc.system(), 0x12))?;
    let slots = directory
        .iter()
        .flat_map(|&number| slots_in_use(disc, number));
    let chains: Option<Vec<Vec<usize>>> =
        slots.map(|slot| follow(disc, pointer(slot, 11))).collect();
    Some(Taken {
        directory,
        files: chains?.concat(),
    })
}

/// The free sectors in the order of a blank disc, from the first on, are linked
/// each to the one after it.
fn repaired(disc: Disc<'_>, mut image: Vec<u8>, sectors: u32, taken: &Taken) -> Vec<u8> {
    let order: &[u32] = match sectors {
        9 => &ORDER_OF_NINE,
        _ => &ORDER_OF_TEN,
    };
    let passing = (0..disc.tracks() as u32)
        .flat_map(|track| order.iter().map(move |&sector| (track, sector)))
        .filter_map(|(track, sector)| {
            let number = disc.on_disc(track, sector)?.number();
            Some((number, [track as u8, sector as u8]))
        });
    let free: Vec<(usize, [u8; 2])> = passing
        .filter(|(number, _)| {
            *number != 0 && !taken.directory.contains(number) && !taken.files.contains(number)
        })
        .collect();
    for (at, (number, _)) in free.iter().enumerate() {
        let link = free.get(at + 1).map_or([0, 0], |(_, next)| *next);
        let start = disc.place(Sector::numbered(*number)).start;
        image[start..start + 2].copy_from_slice(&link);
    }
    let [track, sector] = free.first().map_or([0, 0], |(_, first)| *first);
    let system = disc.place(Sector::SYSTEM).start;
    image[system + 0x10..system + 0x12].copy_from_slice(&[sector, track]);
    image[system + 0x14..system + 0x16].copy_from_slice(&(free.len() as u16).to_le_bytes());
    image[system + 0x16..system + 0x18].copy_from_slice(&(taken.files.len() as u16).to_le_bytes());
    image
}

/// What a repair's number, or the image after it, lacks.
pub fn repair_fault(
    (sectors, arrangement): (u32, u32),
    (old, new): (&[u8], &[u8]),
    number: u32,
) -> Option<String> {
    let (due, image) = repair_due(old, sectors, arrangement);
    if number != due {
        Some(format!("repair answers {number}, not {due}"))
    } else if new.len() != image.len() {
        Some(format!("the image has {} bytes after a repair", new.len()))
    } else {
        let at = (0..new.len()).find(|&at| new[at] != image[at])?;
        let (is, due) = (new[at], image[at]);
        Some(format!("byte {at} is {is} after a repair, not {due}"))
    }
}

/// What a program lacks of the request's claims on the list of an accepted
/// command, which made `new` of `old`: after each cut, from no write to all, and
/// a repair, the disc is sound, every file that the command doesn't name is as
/// before, and the named one as the command counts, done or not.
pub fn cuts_fault(
    program: &impl Program,
    mut repair: impl FnMut(&mut [u8], u32, u32) -> u32,
    command: &Command,
    (sectors, arrangement): (u32, u32),
    (old, new): (&[u8], &[u8]),
    list: &[u8],
) -> Option<String> {
    let files = |image: &[u8]| Files::of(program, image, (sectors, arrangement), command);
    let (before, after) = (files(old), files(new));
    let writes = match write_count(old, sectors, arrangement, list) {
        Some(writes) => writes,
        None => return Some("the list is bad".to_string()),
    };
    (0..=writes).find_map(|made| {
        let cut = cut_image(old, sectors, arrangement, list, made)?;
        let mut image = cut.clone();
        let number = repair(&mut image, sectors, arrangement);
        let named = match counts_as_done(command, writes, made) {
            Some(true) => &after.named,
            _ => &before.named,
        };
        let now = files(&image);
        repair_fault((sectors, arrangement), (&cut, &image), number)
            .or_else(|| soundness_fault(&image, sectors, arrangement))
            .or_else(|| (now.others != before.others).then(|| "another file differs".to_string()))
            .or_else(|| (now.named != *named).then(|| "the named file is otherwise".to_string()))
            .map(|fault| format!("cut after {made} of {writes} writes: {fault}"))
    })
}

fn soundness_fault(image: &[u8], sectors: u32, arrangement: u32) -> Option<String> {
    let checked = check(image, sectors, arrangement);
    ((checked.number, checked.rule) != (0, 0)).then(|| format!("{checked:?}"))
}

/// A file's record in a list, and what a read of it gives.
type File = (Vec<u8>, Reading, Vec<u8>);

/// The files of an image in directory order: those that a command names, by
/// either name of a rename, and the others.
#[derive(PartialEq, Eq)]
struct Files {
    named: Vec<File>,
    others: Vec<File>,
}

impl Files {
    fn of(
        program: &impl Program,
        image: &[u8],
        (sectors, arrangement): (u32, u32),
        command: &Command,
    ) -> Files {
        let names = names_of(command);
        let mut records = vec![0; image.len() + DISC_RECORD];
        let listed = list(image, sectors, arrangement, &mut records);
        // A refused list has no records at all, and a good one ends with kind 0.
        let end = (listed.length as usize).saturating_sub(1).max(DISC_RECORD);
        let files = records[DISC_RECORD..end]
            .chunks_exact(FILE_RECORD)
            .map(|record| {
                let name: [u8; 9] = std::array::from_fn(|at| record[at + 1]);
                let mut buffer = vec![0; 253 * usize::from(word(record, 10))];
                let typed = typed_form(&name);
                let reading = program.read(image, sectors, arrangement, &typed, &mut buffer);
                (record.to_vec(), reading, buffer)
            });
        let (named, others) =
            files.partition(|(record, ..)| names.iter().any(|name| record[1..10] == name[..]));
        Files { named, others }
    }
}

/// The stored names that an accepted command names.
fn names_of(command: &Command) -> Vec<[u8; 9]> {
    match command {
        Command::Save { name, .. }
        | Command::Delete { name, .. }
        | Command::Protect { name, .. } => vec![stored(name)],
        Command::Rename { old, new, .. } => vec![stored(old), stored(new)],
        _ => Vec::new(),
    }
}
