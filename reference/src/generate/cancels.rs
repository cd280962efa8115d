//! Runs for the two laws of request h: a save and the delete of the same file,
//! and two renames of a file with the one that they come to.

use super::commands::Target;
use super::damage::some_of;
use super::files::capacity;
use super::{fresh_name, sound_disc, typed_form, Random};
use crate::command::{Buffer, Command};
use crate::directory;
use crate::disc::Disc;
use crate::history::WHOLE_PAGE;
use crate::module::sectors_taken;
use crate::name::Name;
use crate::writes_book::list_length;

const WRITES_OF_DELETE: usize = 3;
const WRITES_OF_RENAME: usize = 1;

/// The commands of a run. All but a direct rename of A to A are accepted with
/// the numbers that the disc was made with.
#[derive(Debug, Clone, PartialEq, Eq)]
pub enum CancelsRun {
    /// A save of `length` bytes, which needs no new directory sector, and the
    /// delete of the same file.
    SaveAndDelete {
        save: Command,
        length: usize,
        delete: Command,
    },
    /// A to B, then B to C; and for the starting image A to C, lent the same as
    /// A to B.
    Renames {
        a_to_b: Command,
        b_to_c: Command,
        a_to_c: Command,
    },
}

/// A sound image of at most `max_tracks` tracks, mostly small, and a run for it.
/// Discs are drawn until one has the room and the slot, or the unprotected file.
pub fn cancels_run(
    random: &mut Random,
    max_tracks: usize,
    sectors: u32,
    arrangement: u32,
) -> (Vec<u8>, CancelsRun) {
    loop {
        let image = sound_disc(random, max_tracks, sectors, arrangement);
        let renamed = random.one_in(3);
        let disc = Target::new(&image, sectors, arrangement).disc();
        let run = disc.and_then(|disc| {
            if renamed {
                renames(random, disc)
            } else {
                save_and_delete(random, disc)
            }
        });
        if let Some(run) = run {
            return (image, run);
        }
    }
}

fn save_and_delete(random: &mut Random, disc: Disc<'_>) -> Option<CancelsRun> {
    directory::free_slot(disc)?;
    let length = length_with_room(random, disc.free_count())?;
    let name = absent_name(random, disc, None);
    let save = Command::Save {
        name: name.clone(),
        page: random.below(8) as u32,
        start: random.between(0, WHOLE_PAGE - length) as u16,
        transfer: random.draw() as u16,
        sheet: random.bytes(length),
        writes: ample(random, 2 + sectors_taken(length)),
    };
    let delete = Command::Delete {
        name,
        writes: ample(random, WRITES_OF_DELETE),
    };
    Some(CancelsRun::SaveAndDelete {
        save,
        length,
        delete,
    })
}

/// The length of a module for which there is room. At least half of them take all
/// the free sectors, or as many as any module takes; often the last sector taken
/// is filled to the last byte, or holds one byte alone.
fn length_with_room(random: &mut Random, free: usize) -> Option<usize> {
    let most = free.min(sectors_taken(WHOLE_PAGE));
    if most == 0 {
        return None;
    }
    let sectors = if random.one_in(2) {
        most
    } else {
        random.between(1, most)
    };
    let least = if sectors == 1 {
        1
    } else {
        capacity(sectors - 1) + 1
    };
    let greatest = capacity(sectors).min(WHOLE_PAGE);
    let any = random.between(least, greatest);
    Some(random.pick(&[least, greatest, any]))
}

/// In a third of the runs C is A.
fn renames(random: &mut Random, disc: Disc<'_>) -> Option<CancelsRun> {
    let unprotected: Vec<Name> = directory::entries(disc)
        .filter(|(_, entry)| !entry.is_protected())
        .map(|(_, entry)| entry.name)
        .collect();
    let a = typed_form(&some_of(random, &unprotected)?.0);
    let b = absent_name(random, disc, None);
    let c = if random.one_in(3) {
        a.clone()
    } else {
        absent_name(random, disc, Name::of_file(&b))
    };
    let lent = ample(random, WRITES_OF_RENAME);
    let rename = |old: &[u8], new: &[u8], writes| Command::Rename {
        old: old.to_vec(),
        new: new.to_vec(),
        writes,
    };
    Some(CancelsRun::Renames {
        a_to_b: rename(&a, &b, lent),
        b_to_c: rename(&b, &c, ample(random, WRITES_OF_RENAME)),
        a_to_c: rename(&a, &c, lent),
    })
}

/// A legal name that neither stands nor is `apart`. There are far more names than
/// a disc has slots, so one is soon found.
fn absent_name(random: &mut Random, disc: Disc<'_>, apart: Option<Name>) -> Vec<u8> {
    loop {
        let typed = fresh_name(random);
        let name = Name::of_file(&typed);
        let stands = name.map_or(true, |name| directory::find(disc, name).is_some());
        if !stands && name != apart {
            return typed;
        }
    }
}

/// A lent buffer that holds a list of so many writes, now and then with bytes to
/// spare.
fn ample(random: &mut Random, writes: usize) -> Buffer {
    let spare = if random.one_in(3) {
        random.between(1, 300)
    } else {
        0
    };
    Buffer {
        length: list_length(writes) + spare,
        fill: random.byte(),
    }
}
