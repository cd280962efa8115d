//! Wrong saves, deletes and renames in place of the library's: all must be seen, and
//! those that leave a sound disc with the right files by the laws alone.

use super::{some_command, Cancels};
use crate::changing::some_disc;
use crate::kind::Kind;
use crate::law_tally::LawTally;
use crate::laws::Accepted;
use crate::lend::Lent;
use crate::library;
use crate::planted_change::{against_a_law, breaking, left_open, right, Planted};
use crate::run::random_of;
use crate::runs::fails;
use crate::writing::Writing;
use reference::command::{Answer, Command};
use reference::generate::Random;
use reference::history::{moment_fault, Book, Reference};

const SEED: u64 = 650_065;
/// Fewer than the short run of the driver makes.
const MADE: u64 = 10_000;
/// Runs of a library alone: as many until a law is broken, and so many at least.
const RUNS: u64 = 400;
const LEAST_RUNS: u64 = 40;

fn is_seen(writing: Writing) -> bool {
    let cancels = Cancels {
        writing,
        ..Cancels::new(SEED)
    };
    fails(cancels, MADE)
}

fn unseen(planted: Planted, seen: impl Fn(Writing) -> bool) -> Vec<&'static str> {
    let unseen = planted.into_iter().filter(|(_, writing)| !seen(*writing));
    unseen.map(|(name, _)| name).collect()
}

/// A library without another program beside it.
#[derive(Default)]
struct Alone {
    against_a_law: bool,
    /// The disc is not sound, or a file is not as demand 3 has it.
    against_demand_3: bool,
}

impl Alone {
    fn of(writing: Writing) -> Alone {
        let mut alone = Alone::default();
        let mut number = 0;
        while number < LEAST_RUNS || (number < RUNS && !alone.against_a_law) {
            alone.run(&mut random_of(SEED, number), writing, number);
            number += 1;
        }
        alone
    }

    fn run(&mut self, random: &mut Random, writing: Writing, number: u64) {
        let kind = Kind::ALL[number as usize % Kind::ALL.len()];
        let (mut image, most) = some_disc(random, kind);
        let book = Book::start(&image, kind.sectors(), kind.arrangement());
        let mut book = book.expect("a sound disc");
        for _ in 0..random.between(1, most) {
            let command = some_command(random, &image, kind);
            let before = image.clone();
            let accepted = Accepted {
                kind,
                writing,
                command: &command,
                before: &before,
                after: &before,
                on_copy: by_library,
            };
            let call = by_library(random, &accepted, &before, &command);
            let (answer, after) = call.expect("nothing is compared");
            image = after;
            book.record(&command, answer.accepted());
            self.against_demand_3 |= moment_fault(&Reference, &image, &book).is_some();
            let accepted = Accepted {
                after: &image,
                ..accepted
            };
            self.against_a_law |=
                answer.accepted() && accepted.ask(random, &mut LawTally::default()).is_err();
        }
    }
}

fn by_library(
    random: &mut Random,
    accepted: &Accepted<'_>,
    image: &[u8],
    command: &Command,
) -> Result<(Answer, Vec<u8>), String> {
    let mut lent = Lent::new(random, image);
    let numbers = accepted.kind.numbers();
    let outcome = library::run(random, accepted.writing, command, numbers, &mut lent);
    Ok((outcome.answer, lent.content().to_vec()))
}

#[test]
fn the_right_calls_pass() {
    assert!(!is_seen(right()));
    let alone = Alone::of(right());
    assert!(!alone.against_a_law && !alone.against_demand_3);
}

#[test]
fn every_fault_is_seen() {
    let planted = [against_a_law(), left_open(), breaking()].concat();
    assert_eq!(unseen(planted, is_seen), Vec::<&str>::new());
}

#[test]
fn the_laws_alone_see_what_leaves_a_sound_disc() {
    let by_laws_alone = |writing| {
        let alone = Alone::of(writing);
        alone.against_a_law && !alone.against_demand_3
    };
    assert_eq!(unseen(against_a_law(), by_laws_alone), Vec::<&str>::new());
}

/// What the laws except is excepted, and the slot that is cleared again is any.
#[test]
fn what_the_laws_leave_open_is_not_against_them() {
    let by_laws = |writing| Alone::of(writing).against_a_law;
    let names: Vec<&str> = left_open().into_iter().map(|(name, _)| name).collect();
    assert_eq!(unseen(left_open(), by_laws), names);
}
