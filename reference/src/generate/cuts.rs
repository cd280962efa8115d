//! Cards pulled within a run: cuts of the run's own lists, repairs with and
//! without a cut, and what may come between the two.

use super::commands::{blank, Target};
use super::{Random, Replays};
use crate::command::{Answer, Command};
use crate::cuts::{write_count, Step};

/// Which commands of a run are cut, and when a repair comes.
#[derive(Debug, Clone)]
pub struct Cuts {
    /// One command in so many is cut; 0 for none, and then no repair either.
    one_in: usize,
    /// A cut was made and nothing after which demand 3 speaks came since.
    pulled: bool,
}

impl Cuts {
    pub fn none() -> Cuts {
        Cuts::one_in(0)
    }

    /// Of the commands that list their writes one in so many is cut; none for 0.
    pub fn one_in(chances: usize) -> Cuts {
        Cuts {
            one_in: chances,
            pulled: false,
        }
    }

    /// The next step of a run, for an image of any length.
    pub fn step(
        &self,
        random: &mut Random,
        replays: &mut Replays,
        image: &[u8],
        sectors: u32,
        arrangement: u32,
    ) -> Step {
        if self.one_in == 0 {
            return Step::whole(replays.command(random, image, sectors, arrangement));
        }
        let target = Target::new(image, sectors, arrangement);
        if random.one_in(self.chances_of_a_repair(target)) {
            return Step::whole(Command::Repair);
        }
        if self.pulled && random.one_in(16) {
            return Step::whole(blank(random));
        }
        let command = replays.command(random, image, sectors, arrangement);
        // A second cut before the repair is to be met often enough.
        let chances = if self.pulled { 2 } else { self.one_in };
        let cut = if random.one_in(chances) {
            place(random, target, &command)
        } else {
            None
        };
        Step { command, cut }
    }

    fn chances_of_a_repair(&self, target: Target<'_>) -> usize {
        let checked = crate::check(target.image, target.sectors, target.arrangement);
        if self.pulled {
            3
        } else if (checked.number, checked.rule) != (0, 0) {
            5
        } else {
            4 * self.one_in
        }
    }

    /// Keeps in mind whether a repair is due.
    pub fn heard(&mut self, step: &Step, answer: &Answer) {
        if !answer.accepted() {
            return;
        }
        match step.command {
            Command::Repair | Command::Replay { .. } | Command::Blank { .. } => self.pulled = false,
            _ => self.pulled |= step.cut.is_some(),
        }
    }
}

/// After how many writes a command's list is cut: none, all or between. Nothing for
/// a command that would be refused or lists no writes.
fn place(random: &mut Random, target: Target<'_>, command: &Command) -> Option<usize> {
    let (sectors, arrangement) = (target.sectors, target.arrangement);
    let answer = command.run(&mut target.image.to_vec(), sectors, arrangement);
    let list = answer.list_of_writes()?;
    let writes = write_count(target.image, sectors, arrangement, list)?;
    Some(match random.below(5) {
        0 => 0,
        1 => writes,
        _ if writes > 1 => random.between(1, writes - 1),
        _ => random.below(writes + 1),
    })
}

/// A list of steps made for a starting image, each with the image before it in
/// view.
pub fn step_list(
    random: &mut Random,
    start: &[u8],
    (sectors, arrangement): (u32, u32),
    count: usize,
    mut replays: Replays,
    mut cuts: Cuts,
) -> Vec<Step> {
    let mut image = start.to_vec();
    (0..count)
        .map(|_| {
            let step = cuts.step(random, &mut replays, &image, sectors, arrangement);
            let answer = step.run(&mut image, sectors, arrangement);
            replays.heard(&answer);
            cuts.heard(&step, &answer);
            step
        })
        .collect()
}
