//! Seeded generators of discs, sound and damaged, of command lists with cards
//! pulled or not, of runs whose calls cancel, and of runs of weekly totals.
//!
//! A seed gives discs for either number of sectors. They are laid out plain and
//! arranged at the end, so that a seed gives the same disc in either
//! arrangement. Where the stated numbers are no format, the disc is plain, of
//! nine sectors if nine is stated and else of ten, and its commands are made for
//! that, so that only the numbers are wrong.

mod cancels;
mod commands;
mod cuts;
mod damage;
mod discs;
mod files;
mod names;
mod random;
mod repairs;
mod replays;
mod sheets;

pub use cancels::{cancels_run, CancelsRun};
pub use commands::{command, command_list};
pub use cuts::{step_list, Cuts};
pub use damage::{break_rule, damage, damaged_disc, flip_byte, wrong_length};
pub use discs::{sound_disc, sound_disc_of};
pub use files::capacity;
pub use names::{fresh_name, illegal_name, standing_names, typed_form};
pub use random::Random;
pub use repairs::{damage_free, fill_up, repair_disc, FreeDamage, FREE_DAMAGES};
pub use replays::Replays;
pub use sheets::{edge_sheet, good_sheet, spoil, table, totals_run, wrong_table};
pub use sheets::{Spoil, TotalsRun};

use crate::disc::Format;

const NINE: u32 = 9;
const TEN: u32 = 10;
const PLAIN: u32 = 0;

/// The numbers of the disc that is made when these are stated.
fn numbers_made(sectors: u32, arrangement: u32) -> (u32, u32) {
    if Format::stated(sectors, arrangement).is_some() {
        (sectors, arrangement)
    } else if sectors == NINE {
        (NINE, PLAIN)
    } else {
        (TEN, PLAIN)
    }
}

/// Nine for ten, and ten for nine.
fn other_number(sectors: u32) -> u32 {
    NINE + TEN - sectors
}

/// A number of tracks whose length fits both numbers of sectors, at most
/// `max_tracks` of either: 23,040 bytes are 9 tracks of ten and 10 of nine.
fn tracks_fitting_both(random: &mut Random, max_tracks: usize, sectors: u32) -> Option<usize> {
    let most = max_tracks / TEN as usize;
    (most > 0).then(|| other_number(sectors) as usize * random.between(1, most))
}

/// A plain image in the arrangement stated; a wrong length or number leaves it.
fn arranged(plain: Vec<u8>, sectors: u32, arrangement: u32) -> Vec<u8> {
    crate::rearranged(&plain, sectors, PLAIN, arrangement).unwrap_or(plain)
}
