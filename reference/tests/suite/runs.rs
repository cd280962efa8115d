//! Long generated command lists, with every claim of the history checked at
//! every moment.

use crate::common::FORMATS;
use reference::command::{Buffer, Command};
use reference::generate::{command_list, fresh_name, sound_disc, Random, Replays};
use reference::history::{answer_fault, moment_fault, Book, History, Reference};
use reference::writes_book::replay_fault;

fn sound(image: &[u8], (sectors, arrangement): (u32, u32)) -> bool {
    let checked = reference::check(image, sectors, arrangement);
    (checked.number, checked.rule) == (0, 0)
}

/// Runs one list, checks every moment, and gives how many were accepted.
fn checked_run(start: &[u8], format: (u32, u32), commands: &[Command], label: u64) -> usize {
    let (sectors, arrangement) = format;
    let mut image = start.to_vec();
    let mut book = Book::start(start, sectors, arrangement).expect("the starting image is sound");
    assert_eq!(
        moment_fault(&Reference, &image, &book),
        None,
        "seed {label}, start"
    );
    let mut accepted = 0;
    for (at, command) in commands.iter().enumerate() {
        let before = image.clone();
        let answer = command.run(&mut image, sectors, arrangement);
        let fault = answer_fault(&book, command, &answer, (&before, &image));
        assert_eq!(fault, None, "seed {label}, command {at} {command:?}");
        book.record(command, answer.accepted());
        accepted += usize::from(answer.accepted());
        if !answer.accepted() {
            assert_eq!(image, before, "seed {label}, command {at}");
        }
        assert!(
            sound(&image, format),
            "seed {label}, command {at} {command:?}"
        );
        let fault = moment_fault(&Reference, &image, &book);
        assert_eq!(fault, None, "seed {label}, command {at} {command:?}");
    }
    accepted
}

#[test]
fn many_short_runs() {
    for (sectors, arrangement) in FORMATS {
        let mut accepted = 0;
        for seed in 0..600 {
            let mut random = Random::new(seed);
            let start = sound_disc(&mut random, 5, sectors, arrangement);
            let commands = command_list(
                &mut random,
                &start,
                sectors,
                arrangement,
                30,
                Replays::none(),
            );
            accepted += checked_run(&start, (sectors, arrangement), &commands, seed);
        }
        assert!(accepted > 5000, "only {accepted} commands were accepted");
    }
}

#[test]
fn few_long_runs() {
    for (seed, (sectors, arrangement)) in (1000..1024).zip(FORMATS.into_iter().cycle()) {
        let mut random = Random::new(seed);
        let start = sound_disc(&mut random, 3, sectors, arrangement);
        let commands = command_list(
            &mut random,
            &start,
            sectors,
            arrangement,
            600,
            Replays::none(),
        );
        checked_run(&start, (sectors, arrangement), &commands, seed);
    }
}

#[test]
fn runs_on_full_size_discs() {
    for (seed, (sectors, arrangement)) in (2000..2006).zip(FORMATS.into_iter().cycle()) {
        let mut random = Random::new(seed);
        let mut start = vec![0xEE; 80 * 256 * sectors as usize];
        let blanked = reference::blank(&mut start, sectors, arrangement, b"BIG");
        assert_eq!(blanked, 0);
        let commands = command_list(
            &mut random,
            &start,
            sectors,
            arrangement,
            60,
            Replays::none(),
        );
        checked_run(&start, (sectors, arrangement), &commands, seed);
    }
}

/// Saves and deletes of small files, so many that the directory grows and the
/// number of files often falls below its peak.
fn hovering_list(random: &mut Random, count: usize) -> Vec<Command> {
    (0..count)
        .map(|_| {
            let name = fresh_name(random);
            let writes = Buffer {
                length: 259 * 5 + 1,
                fill: random.byte(),
            };
            if random.one_in(3) {
                Command::Delete { name, writes }
            } else {
                Command::Save {
                    name,
                    page: 1,
                    start: 0x4000,
                    transfer: 0x4000,
                    sheet: vec![random.byte(); random.pick(&[1, 200, 245, 246])],
                    writes,
                }
            }
        })
        .collect()
}

#[test]
fn runs_around_a_full_directory_sector() {
    let mut most_directory = 0;
    for (seed, (sectors, arrangement)) in (3000..3018).zip(FORMATS.into_iter().cycle()) {
        let mut random = Random::new(seed);
        let mut start = vec![0; 256 * sectors as usize * random.between(2, 8)];
        let blanked = reference::blank(&mut start, sectors, arrangement, b"HOVER");
        assert_eq!(blanked, 0);
        let commands = hovering_list(&mut random, 250);
        checked_run(&start, (sectors, arrangement), &commands, seed);
        let mut book = Book::start(&start, sectors, arrangement).expect("sound");
        for command in &commands {
            let accepted = command.run(&mut start, sectors, arrangement).accepted();
            book.record(command, accepted);
        }
        most_directory = most_directory.max(book.directory());
    }
    assert!(most_directory >= 3, "{most_directory}");
}

/// How often things happened in runs with replays.
#[derive(Debug, Default)]
struct Seen {
    replays: usize,
    bad_lists: usize,
    spoilt: usize,
    healed: usize,
}

/// Runs a list with replays. What the book says is checked whenever there is
/// one, which is whenever the image is sound.
fn run_with_replays(start: &[u8], format: (u32, u32), commands: &[Command], seen: &mut Seen) {
    let mut image = start.to_vec();
    let mut history = History::start(start, format.0, format.1);
    for command in commands {
        let before = image.clone();
        let answer = command.run(&mut image, format.0, format.1);
        if let Command::Replay { writes } = command {
            let fault = replay_fault(format, (&before, &image), writes, answer.number());
            assert_eq!(fault, None, "{command:?}");
            seen.replays += usize::from(answer.accepted());
            seen.bad_lists += usize::from(answer.number() == 14);
        }
        let stood = history.book().is_some();
        if let Some(book) = history.book() {
            let fault = answer_fault(book, command, &answer, (&before, &image));
            assert_eq!(fault, None, "{command:?}");
        }
        history.record(command, answer.accepted(), &image);
        let fault = history
            .book()
            .and_then(|book| moment_fault(&Reference, &image, book));
        assert_eq!(fault, None, "{command:?}");
        let stands = history.book().is_some();
        assert_eq!(stands, sound(&image, format), "{command:?}");
        seen.spoilt += usize::from(stood && !stands);
        seen.healed += usize::from(!stood && stands);
    }
}

#[test]
fn runs_with_replays() {
    let mut seen = Seen::default();
    for (seed, (sectors, arrangement)) in (4000..4300).zip(FORMATS.into_iter().cycle()) {
        let mut random = Random::new(seed);
        let start = sound_disc(&mut random, 4, sectors, arrangement);
        let replays = Replays::one_in(4);
        let commands = command_list(&mut random, &start, sectors, arrangement, 30, replays);
        run_with_replays(&start, (sectors, arrangement), &commands, &mut seen);
    }
    let few = [seen.replays, seen.bad_lists, seen.spoilt, seen.healed];
    assert!(few.iter().all(|&times| times > 100), "{seen:?}");
}

#[test]
fn without_replays_there_are_none() {
    for seed in 0..100 {
        let mut random = Random::new(seed);
        let start = sound_disc(&mut random, 3, 10, 0);
        let commands = command_list(&mut random, &start, 10, 0, 30, Replays::none());
        let replay = |command: &Command| matches!(command, Command::Replay { .. });
        assert!(!commands.iter().any(replay));
    }
}
