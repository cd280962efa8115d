//! A card that is pulled: the image after the first whole writes of a list, and
//! whether its command counts as done then.
//!
//! Lists are read as in `writes_book.rs`, apart from the code of the commands.

use crate::command::{Answer, Command};
use crate::disc::{Disc, Sector};
use crate::writes_book::writes;

/// How many writes a list holds; nothing if it is bad for a disc with these
/// numbers, or the image is of a wrong size.
pub fn write_count(image: &[u8], sectors: u32, arrangement: u32, list: &[u8]) -> Option<usize> {
    let disc = Disc::open(image, sectors, arrangement).ok()?;
    Some(writes(disc, list)?.len())
}

/// What an old image is after the first `made` whole writes of a list; nothing
/// if the list is bad or has fewer, or the image is of a wrong size.
pub fn cut_image(
    old: &[u8],
    sectors: u32,
    arrangement: u32,
    list: &[u8],
    made: usize,
) -> Option<Vec<u8>> {
    let disc = Disc::open(old, sectors, arrangement).ok()?;
    let writes = writes(disc, list)?;
    let mut image = old.to_vec();
    for (number, bytes) in writes.get(..made)? {
        image[disc.place(Sector::numbered(*number))].copy_from_slice(bytes);
    }
    Some(image)
}

/// Whether an accepted command counts as done when the card was pulled after
/// `made` of its `writes` writes: a save with its last write, which makes the
/// entry known to the directory, and delete, rename and protect with their
/// first, the entry's directory sector. Nothing for a command without a list.
pub fn counts_as_done(command: &Command, writes: usize, made: usize) -> Option<bool> {
    match command {
        Command::Save { .. } => Some(made >= writes),
        Command::Delete { .. } | Command::Rename { .. } | Command::Protect { .. } => Some(made > 0),
        _ => None,
    }
}

/// One step of a run: a command, and after how many of its writes the card is
/// pulled, if it is. A refused command gives no list, so nothing is cut then.
#[derive(Debug, Clone, PartialEq, Eq)]
pub struct Step {
    pub command: Command,
    pub cut: Option<usize>,
}

impl Step {
    pub fn whole(command: Command) -> Step {
        Step { command, cut: None }
    }

    /// Runs the command and, if the card is pulled, leaves the image as that
    /// left it. The answer is the command's in either case.
    pub fn run(&self, image: &mut [u8], sectors: u32, arrangement: u32) -> Answer {
        let old = image.to_vec();
        let answer = self.command.run(image, sectors, arrangement);
        if let (Some(made), Some(list)) = (self.cut, answer.list_of_writes()) {
            if let Some(cut) = cut_image(&old, sectors, arrangement, list, made) {
                image.copy_from_slice(&cut);
            }
        }
        answer
    }
}
