//! Runs: an image and a list of commands, or a table of totals and sheets, each
//! run from its own seed.

mod draw;
mod totals;

#[cfg(test)]
mod planted;
#[cfg(test)]
mod planted_changes;
#[cfg(test)]
mod planted_lists;
#[cfg(test)]
mod planted_repairs;

use crate::calls::{Call, SIZE};
use crate::count::Counts;
use crate::difference::describe;
use crate::discs;
use crate::kind::{Kind, Numbers, Stated};
use crate::laws::{by_both, Accepted};
use crate::list_tally::Made;
use crate::met::{is_sound, Met};
use crate::pair::Pair;
use crate::runs::Runs;
use crate::several::Case;
use crate::table::{self, AddSheet};
use crate::twin::Twin;
use crate::writing::{Writing, OF_LIBRARY};
use draw::{largest_disc_command, listing_command, misstated_disc_command};
use draw::{replay_command, restoring_command};
use reference::command::{Answer, Command};
use reference::generate::{Random, Replays};
use std::fmt;

pub use draw::{any_command, small_file_command, some_room, Draw};

const MOST_REPORTS: u64 = 10;
const CASES_IN_A_RUN: usize = 16;
/// Of so many shapes of runs the first are lists of commands, then come cases,
/// and the rest are runs of the weekly totals.
const SHAPES: usize = 40;
const LISTS: usize = 30;
const LISTS_AND_CASES: usize = 35;
/// One run in so many states no kind of disc throughout.
const NO_KIND_IN: usize = 6;
/// One image in so many of these has whole tracks of the number stated.
const FITTED_IN: usize = 3;
/// One command of a run in so many is called with other numbers first.
const ASIDE_IN: usize = 8;
/// One run in so many has replays, and one command of it in so many is drawn for
/// that.
const REPLAYS_IN: usize = 3;
/// Of the commands that the second program draws there, one in so many replays.
const REPLAYS_OF_SECOND_IN: usize = 2;
/// One run in so many has cards pulled and repairs, and of its commands with a
/// list one in so many is cut.
const CUTS_IN: usize = 3;
const PULLED_IN: usize = 2;
/// One command of such a run in so many is a repair, where the image is sound and
/// where it is not.
const REPAIRS_OF_SOUND_IN: usize = 8;
const REPAIRS_IN: usize = 3;
/// One call in so many is made on the other arrangement too.
const TWIN_IN: usize = 3;
/// Of accepted saves of longer sheets, whose law takes much time, one in so many is
/// asked for it; all others and all renames are.
const SHORT_SHEET: usize = 10_000;
const LONG_SHEETS_ASKED_IN: usize = 8;

pub struct Driver {
    seed: u64,
    /// Prints each command before it is run.
    verbose: bool,
    /// The library's, unless a test plants another; so is `writing`.
    add_sheet: AddSheet,
    writing: Writing,
    pub counts: Counts,
}

/// A list of commands yet to be drawn.
struct Run {
    number: u64,
    length: usize,
    image: Vec<u8>,
    /// For which commands are drawn; the calls of the run need not state it.
    kind: Kind,
    numbers: Numbers,
    draw: Draw,
    with_replays: bool,
    with_cuts: bool,
}

impl Run {
    fn next(&self, random: &mut Random, image: &[u8], replays: &mut Replays) -> Command {
        if self.with_cuts && self.restores(random, image) {
            restoring_command(random, image, self.kind)
        } else if self.with_replays && random.one_in(REPLAYS_IN) {
            replay_command(random, image, self.kind, replays)
        } else {
            (self.draw)(random, image, self.kind)
        }
    }

    fn restores(&self, random: &mut Random, image: &[u8]) -> bool {
        random.one_in(match is_sound(image, self.kind) {
            true => REPAIRS_OF_SOUND_IN,
            false => REPAIRS_IN,
        })
    }
}

/// A command to be made and compared.
#[derive(Clone, Copy)]
struct Asked<'a> {
    command: &'a Command,
    /// The card is pulled amid its writes.
    pulled: bool,
    /// The answer, where it is known without either program.
    expected: Option<u32>,
}

impl<'a> Asked<'a> {
    fn whole(command: &'a Command) -> Asked<'a> {
        Asked {
            command,
            pulled: false,
            expected: None,
        }
    }

    /// The answer, and the cut if there was one.
    fn make(
        self,
        random: &mut Random,
        pair: &mut Pair,
    ) -> Result<(Answer, Option<(usize, usize)>), String> {
        if self.pulled {
            pair.cut(random, self.command)
        } else {
            let answer = pair.step(random, self.command)?;
            Ok((answer, None))
        }
    }

    fn describe(self, numbers: Numbers) -> String {
        let call = describe(self.command, numbers);
        if self.pulled {
            format!("{call}, the card pulled")
        } else {
            call
        }
    }
}

/// Where a command stands, to find it again.
#[derive(Debug, Clone, Copy)]
struct Place {
    run: u64,
    command: usize,
}

impl Driver {
    pub fn new(seed: u64, verbose: bool) -> Driver {
        Driver {
            seed,
            verbose,
            add_sheet: table::of_library,
            writing: OF_LIBRARY,
            counts: Counts::default(),
        }
    }

    /// A check, whose moment is that of the start, then drawn commands. The
    /// run ends with the first difference, since the images differ from there.
    fn list(&mut self, random: &mut Random, run: Run) {
        let mut pair = Pair::new(random, run.image.clone(), run.numbers, self.writing);
        let mut replays = Replays::one_in(REPLAYS_OF_SECOND_IN);
        let mut next = Command::Check;
        for command in 0..run.length {
            let place = Place {
                run: run.number,
                command,
            };
            if random.one_in(ASIDE_IN) {
                self.aside(random, &pair, &next, place);
            }
            let asked = Asked {
                pulled: run.with_cuts && random.one_in(PULLED_IN),
                ..Asked::whole(&next)
            };
            match self.step(random, &mut pair, asked, place) {
                Some(answer) => replays.heard(&answer),
                None => break,
            }
            next = run.next(random, pair.image(), &mut replays);
        }
    }

    /// The command called with other numbers than the run's, on a copy: such a
    /// call is none of the run, whose history goes on without it.
    fn aside(&mut self, random: &mut Random, pair: &Pair, command: &Command, place: Place) {
        let of_run = pair.numbers().stated();
        let stated = of_run.another(random);
        let numbers = stated.numbers(random);
        let mut copy = Pair::new(random, pair.image().to_vec(), numbers, self.writing);
        let asked = Asked::whole(command);
        if self.step(random, &mut copy, asked, place).is_some() {
            self.counts.of(of_run).aside(stated);
        }
    }

    /// Commands to which several refusals apply, each on its own image.
    fn cases(&mut self, random: &mut Random, run: u64) {
        for command in 0..CASES_IN_A_RUN {
            let case = Case::draw(random);
            let expected = case.expected_number();
            let mut pair = Pair::new(random, case.image, case.numbers, self.writing);
            let place = Place { run, command };
            let asked = Asked {
                expected: Some(expected),
                ..Asked::whole(&case.command)
            };
            if self.step(random, &mut pair, asked, place).is_some() {
                self.counts
                    .of(case.numbers.stated())
                    .refusals(Call::of(&case.command), &case.refusals);
            }
        }
    }

    /// Runs a command on both programs; the answer, if all was as it should be.
    fn step(
        &mut self,
        random: &mut Random,
        pair: &mut Pair,
        asked: Asked<'_>,
        place: Place,
    ) -> Option<Answer> {
        let call = asked.describe(pair.numbers());
        self.announce(&call, place);
        match self.compare(random, pair, asked) {
            Ok(answer) => {
                self.counts.passed += 1;
                Some(answer)
            }
            Err(text) => {
                self.fail(&call, &text, place);
                None
            }
        }
    }

    fn announce(&self, call: &str, place: Place) {
        if self.verbose {
            println!("command {}: {call}", place.command);
        }
    }

    fn fail(&mut self, call: &str, text: &str, place: Place) {
        self.counts.failed += 1;
        self.report(call, text, place);
    }

    fn compare(
        &mut self,
        random: &mut Random,
        pair: &mut Pair,
        asked: Asked<'_>,
    ) -> Result<Answer, String> {
        let twin = some_twin(random, pair, asked);
        let before = disc_for_laws(random, pair, asked);
        let answer = self.count(random, pair, asked)?;
        let number = answer.number();
        let stated = pair.numbers().stated();
        match first_to_apply(stated, asked.expected) {
            Some(first) if first != number => {
                return Err(wrongly_first(number, first));
            }
            _ => {}
        }
        let tally = self.counts.of(stated);
        if let Some(twin) = twin {
            tally.twin(Call::of(asked.command), number);
            let (writing, image) = (pair.writing(), pair.image());
            if let Some(text) = twin.fault(random, writing, asked.command, answer.clone(), image) {
                return Err(text);
            }
        }
        if let (Some((kind, before)), true) = (before, answer.accepted()) {
            self.laws(random, pair, asked.command, (kind, &before))?;
        }
        let tally = self.counts.of(stated);
        tally.moments += u64::from(pair.has_history());
        pair.moment_fault().map_or(Ok(answer), Err)
    }

    /// What a law asks for after an accepted command, drawn from a copy as well.
    fn laws(
        &mut self,
        random: &Random,
        pair: &Pair,
        command: &Command,
        (kind, before): (Kind, &[u8]),
    ) -> Result<(), String> {
        let accepted = Accepted {
            kind,
            writing: pair.writing(),
            command,
            before,
            after: pair.image(),
            on_copy: by_both,
        };
        let laws = &mut self.counts.of(Stated::Kind(kind)).laws;
        accepted.ask(&mut random.clone(), laws)
    }

    /// Makes a command on both programs and counts what it shows.
    fn count(
        &mut self,
        random: &mut Random,
        pair: &mut Pair,
        asked: Asked<'_>,
    ) -> Result<Answer, String> {
        let command = asked.command;
        let met = Met::by(pair.image(), pair.numbers());
        let (said, rule) = (pair.said(command), pair.rule());
        let (answer, cut) = asked.make(random, pair)?;
        let tally = self.counts.of(pair.numbers().stated());
        tally.call(command, &answer, met);
        tally.made(Made {
            command,
            number: answer.number(),
            tracks: met.tracks,
            said,
            rule,
            cut,
            changed: pair.changed(),
            none_free: pair.image().len() >= 256 && discs::free_count(pair.image()) == 0,
            history: pair.has_history(),
        });
        Ok(answer)
    }

    fn report(&self, call: &str, text: &str, place: Place) {
        let Place { run, command: at } = place;
        match self.counts.failed {
            reports if reports <= MOST_REPORTS => {
                println!("FAILED: seed {}, run {run}, command {at}", self.seed);
                println!("  {call}");
                println!("  {text}");
            }
            reports if reports == MOST_REPORTS + 1 => println!("further failures are only counted"),
            _ => {}
        }
    }
}

impl Runs for Driver {
    /// Further failures are only counted.
    const MOST_FAILURES: u64 = u64::MAX;

    fn run(&mut self, number: u64) {
        let random = &mut random_of(self.seed, number);
        if number == 0 {
            return self.every_worker(random, number);
        }
        let shape = random.below(SHAPES);
        if shape >= LISTS_AND_CASES {
            return self.totals(random, number);
        }
        if shape >= LISTS {
            return self.cases(random, number);
        }
        let numbers = Stated::draw(random, NO_KIND_IN).numbers(random);
        let kind = numbers.of_image(random);
        let (mut image, draw, most): (_, Draw, _) = match shape {
            0..=3 => (discs::sound(random, kind), any_command, 50),
            4 => (discs::sound(random, kind), listing_command, 50),
            5..=6 => (discs::nearly_full(random, kind), any_command, 40),
            7..=8 => (discs::small_files(random, kind), small_file_command, 40),
            9 => (discs::wide_directory(random, kind), any_command, 20),
            10..=11 => (discs::largest(random, kind), largest_disc_command, 30),
            12..=13 => (discs::misstated(random, kind), misstated_disc_command, 12),
            14..=26 => (discs::damaged(random, kind), any_command, 6),
            _ => (discs::any_bytes(random, kind), any_command, 6),
        };
        if random.one_in(FITTED_IN) {
            discs::fit_wrong_number(&mut image, numbers);
        }
        let run = Run {
            number,
            length: random.between(2, most),
            image,
            kind,
            numbers,
            draw,
            with_replays: random.one_in(REPLAYS_IN),
            with_cuts: random.one_in(CUTS_IN),
        };
        self.list(random, run);
    }

    fn made(&self) -> u64 {
        self.counts.calls()
    }

    fn failed(&self) -> u64 {
        self.counts.failed
    }

    fn missing(&self) -> Vec<String> {
        self.counts.missing()
    }

    fn verdict(&self, failed: u64) -> String {
        format!("{} passed, {failed} failed", self.counts.passed)
    }
}

impl fmt::Display for Driver {
    fn fmt(&self, out: &mut fmt::Formatter<'_>) -> fmt::Result {
        writeln!(out, "calls {}", self.counts.calls())?;
        self.counts.fmt(out)
    }
}

/// The source of a run's numbers.
pub fn random_of(seed: u64, number: u64) -> Random {
    Random::new(Random::new(seed ^ number.wrapping_mul(0xD1B5_4A32_D192_ED03)).draw())
}

fn wrongly_first(number: u32, first: u32) -> String {
    format!("both answer {number}, but {first} applies first")
}

/// The answer where it is known without either program.
fn first_to_apply(stated: Stated, expected: Option<u32>) -> Option<u32> {
    match stated {
        Stated::Kind(_) => expected,
        _ => Some(SIZE),
    }
}

/// The disc before a command of which a law is asked; a pulled card leaves another
/// disc than the law speaks of. Drawn from a copy, so that the run goes on as it
/// would without.
fn disc_for_laws(random: &Random, pair: &Pair, asked: Asked<'_>) -> Option<(Kind, Vec<u8>)> {
    let kind = pair.numbers().kind()?;
    let asks = match asked.command {
        Command::Save { sheet, .. } if sheet.len() > SHORT_SHEET => {
            random.clone().one_in(LONG_SHEETS_ASKED_IN)
        }
        Command::Save { .. } | Command::Rename { .. } => true,
        _ => false,
    };
    (asks && !asked.pulled).then(|| (kind, pair.image().to_vec()))
}

/// The disc before a call, for a sample of the calls whose card stays.
fn some_twin(random: &mut Random, pair: &Pair, asked: Asked<'_>) -> Option<Twin> {
    if !asked.pulled && random.one_in(TWIN_IN) {
        Twin::new(random, pair.image(), pair.numbers())
    } else {
        None
    }
}
