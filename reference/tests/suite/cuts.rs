//! Cards that are pulled (request g): cuts of lists worked out by hand, every cut
//! of generated lists, and demand 3 over runs with cuts and repairs.

use crate::common::{delete_command, link, moved, position, put, save_command, small, start_of};
use crate::common::{DIRECTORY, FORMATS, LONG, MOVED, NINE, ONE_SLOT, PLAIN, TEN, TWO_SLOT};
use reference::command::{Answer, Command};
use reference::cuts::{counts_as_done, cut_image, write_count, Step};
use reference::generate::{command_list, repair_disc, sound_disc, step_list};
use reference::generate::{Cuts, Random, Replays};
use reference::history::{answer_fault, moment_fault, Book, History, Reference};
use reference::repair_book::{cuts_fault, repair_fault};
use reference::{blank, check, repair, Checked};

fn rename_command(old: &str, new: &str) -> Command {
    Command::Rename {
        old: old.as_bytes().to_vec(),
        new: new.as_bytes().to_vec(),
        writes: LONG,
    }
}

fn protect_command(name: &str, on: u32) -> Command {
    Command::Protect {
        name: name.as_bytes().to_vec(),
        on,
        writes: LONG,
    }
}

/// The list of a command that must be accepted.
fn list_of(command: &Command, image: &[u8], (sectors, arrangement): (u32, u32)) -> Vec<u8> {
    let answer = command.run(&mut image.to_vec(), sectors, arrangement);
    answer.list_of_writes().expect("accepted").to_vec()
}

/// The image after a cut and a repair, which must be accepted.
fn cut_and_repaired(image: &[u8], format: (u32, u32), command: &Command, made: usize) -> Vec<u8> {
    let mut after = image.to_vec();
    let step = Step {
        command: command.clone(),
        cut: Some(made),
    };
    assert!(step.run(&mut after, format.0, format.1).accepted());
    assert_eq!(repair(&mut after, format.0, format.1), 0);
    assert_eq!(check(&after, format.0, format.1).rule, 0);
    after
}

/// Points `small` at this chain of free sectors and sets its counts.
fn rethread(image: &mut [u8], chain: &[u8], used: u8) {
    put(image, 0x10, &[chain.first().copied().unwrap_or(0), 0]);
    put(image, 0x14, &[chain.len() as u8, 0, used, 0]);
    for (at, &sector) in chain.iter().enumerate() {
        let next = chain.get(at + 1).copied().unwrap_or(0);
        link(image, (0, usize::from(sector)), (0, next));
    }
}

/// What a save of 246 times $42 leaves in 0/5 and 0/7 of `small`, links apart.
fn put_first_sector(image: &mut [u8]) {
    let front = b"\xFF\x02\x00\x10\xF5\x10\x01\x10\xF5";
    put(image, position(0, 5) + 2, front);
    image[position(0, 5) + 11..position(0, 6)].fill(0x42);
}

fn put_second_sector(image: &mut [u8]) {
    image[position(0, 7) + 2..position(0, 8)].fill(0);
    put(image, position(0, 7) + 2, &[1, 0x42]);
}

fn put_entry(image: &mut [u8]) {
    image[DIRECTORY + 2] = 3;
    let entry = b"NEW      \x02\x00\x05\x00\x07\x00\x00";
    put(image, ONE_SLOT + 16, entry);
}

/// `small` after the first writes of a save of NEW with 246 bytes: 0/1, 0/5, 0/7
/// and 0/4.
fn save_cut(made: usize) -> Vec<u8> {
    let mut image = small();
    if made >= 1 {
        put(&mut image, 0x10, &[8, 0, 4, 0, 3, 0, 5, 0]);
    }
    if made >= 2 {
        put_first_sector(&mut image);
        link(&mut image, (0, 5), (0, 7));
    }
    if made >= 3 {
        put_second_sector(&mut image);
        link(&mut image, (0, 7), (0, 0));
    }
    if made >= 4 {
        put_entry(&mut image);
    }
    image
}

#[test]
fn cuts_of_a_save() {
    let save = save_command("NEW", 246);
    let list = list_of(&save, &small(), (TEN, PLAIN));
    assert_eq!(write_count(&small(), TEN, PLAIN, &list), Some(4));
    for made in 0..=4 {
        let cut = save_cut(made);
        assert_eq!(
            cut_image(&small(), TEN, PLAIN, &list, made).as_ref(),
            Some(&cut)
        );
        let of_moved = cut_image(&moved(&small()), TEN, MOVED, &list, made);
        assert_eq!(of_moved, Some(moved(&cut)));
        // The free chain is right from 0/1 on, but the used count has NEW in it.
        let rule = [0, 7, 7, 7, 0][made];
        assert_eq!(check(&cut, TEN, PLAIN).rule, rule);
        let mut expected = cut.clone();
        if made < 4 {
            rethread(&mut expected, &[7, 10, 9, 5, 8], 3);
        } else {
            rethread(&mut expected, &[10, 9, 8], 5);
        }
        let after = cut_and_repaired(&small(), (TEN, PLAIN), &save, made);
        assert_eq!(after, expected, "cut after {made}");
        let after = cut_and_repaired(&moved(&small()), (TEN, MOVED), &save, made);
        assert_eq!(after, moved(&expected), "moved, cut after {made}");
    }
    assert_eq!(cut_image(&small(), TEN, PLAIN, &list, 5), None);
}

#[test]
fn cuts_of_a_delete() {
    let delete = delete_command("ONE");
    for made in 0..=3 {
        let mut cut = small();
        if made >= 1 {
            cut[DIRECTORY + 2] = 1;
            cut[ONE_SLOT..ONE_SLOT + 16].fill(0);
        }
        if made >= 2 {
            link(&mut cut, (0, 2), (0, 5));
        }
        if made >= 3 {
            put(&mut cut, 0x10, &[2, 0, 4, 0, 6, 0, 2, 0]);
        }
        let list = list_of(&delete, &small(), (TEN, PLAIN));
        assert_eq!(
            cut_image(&small(), TEN, PLAIN, &list, made).as_ref(),
            Some(&cut)
        );
        if made == 0 {
            rethread(&mut cut, &[7, 10, 9, 5, 8], 3);
        } else {
            rethread(&mut cut, &[7, 10, 9, 2, 5, 8], 2);
        }
        let after = cut_and_repaired(&small(), (TEN, PLAIN), &delete, made);
        assert_eq!(after, cut, "cut after {made}");
    }
}

#[test]
fn cuts_of_a_rename_and_a_protect() {
    for (command, at, bytes) in [
        (rename_command("ONE", "UNO.1"), ONE_SLOT, &b"UNO   1  "[..]),
        (protect_command("ONE", 1), ONE_SLOT + 15, &[0x80]),
        (protect_command("TWO.X", 0), TWO_SLOT + 15, &[0]),
        (protect_command("TWO.X", 7), TWO_SLOT + 15, &[0x80]),
    ] {
        let list = list_of(&command, &small(), (TEN, PLAIN));
        assert_eq!(write_count(&small(), TEN, PLAIN, &list), Some(1));
        for made in 0..=1 {
            let mut expected = small();
            if made == 1 {
                put(&mut expected, at, bytes);
            }
            let cut = cut_image(&small(), TEN, PLAIN, &list, made);
            assert_eq!(cut.as_ref(), Some(&expected));
            rethread(&mut expected, &[7, 10, 9, 5, 8], 3);
            let after = cut_and_repaired(&small(), (TEN, PLAIN), &command, made);
            assert_eq!(after, expected, "{command:?} {made}");
        }
    }
}

/// A blank disc of three tracks with the files F0 to F14 of one sector each, and
/// its book.
fn fifteen_files(sectors: u32, arrangement: u32) -> (Vec<u8>, Book) {
    let mut image = vec![0; 3 * 256 * sectors as usize];
    assert_eq!(blank(&mut image, sectors, arrangement, b"RUN"), 0);
    let mut book = Book::start(&image, sectors, arrangement).expect("sound");
    for file in 0..15 {
        let save = save_command(&format!("F{file}"), 1);
        assert!(save.run(&mut image, sectors, arrangement).accepted());
        book.record(&save, true);
    }
    (image, book)
}

#[test]
fn cuts_of_a_save_that_grows_the_directory() {
    for (sectors, arrangement) in FORMATS {
        let format = (sectors, arrangement);
        let (old, _) = fifteen_files(sectors, arrangement);
        let save = save_command("F15", 246);
        let mut new = old.clone();
        let answer = save.run(&mut new, sectors, arrangement);
        let list = answer.list_of_writes().expect("accepted");
        // 0/1, two of the file, the new directory sector, and 0/4.
        assert_eq!(write_count(&old, sectors, arrangement, list), Some(5));
        let directory = start_of(sectors, arrangement, (0, 4));
        let free = 3 * sectors as u8 - 2 - 15;
        for made in 0..=5 {
            let after = cut_and_repaired(&old, format, &save, made);
            let (counts, grown) = match made {
                5 => ([free - 3, 0, 17, 0], true),
                _ => ([free, 0, 15, 0], false),
            };
            assert_eq!(after[0x14..0x18], counts, "cut after {made}");
            assert_eq!(after[directory + 1] != 0, grown, "cut after {made}");
        }
        let fault = cuts_fault(&Reference, repair, &save, format, (&old, &new), list);
        assert_eq!(fault, None);
    }
}

#[test]
fn bad_lists_and_images_have_no_cuts() {
    let list = list_of(&delete_command("ONE"), &small(), (TEN, PLAIN));
    let record = &list[..259];
    assert_eq!(write_count(&small(), TEN, PLAIN, &[0]), Some(0));
    assert_eq!(
        cut_image(&small(), TEN, PLAIN, &[0], 0).as_ref(),
        Some(&small())
    );
    for bad in [&[][..], &[3], &[0, 0], record, &list[..260], &list[1..]] {
        assert_eq!(write_count(&small(), TEN, PLAIN, bad), None);
        assert_eq!(cut_image(&small(), TEN, PLAIN, bad, 0), None);
    }
    for (image, sectors, arrangement) in [
        (&small()[1..], TEN, PLAIN),
        (&small(), NINE, PLAIN),
        (&small(), TEN, 2),
        (&small(), 8, PLAIN),
    ] {
        assert_eq!(write_count(image, sectors, arrangement, &list), None);
        assert_eq!(cut_image(image, sectors, arrangement, &list, 0), None);
    }
    assert_eq!(cut_image(&small(), TEN, PLAIN, &list, 4), None);
    assert_eq!(cut_image(&small(), TEN, PLAIN, &list, usize::MAX), None);
}

#[test]
fn when_a_cut_command_counts_as_done() {
    let done = |command: &Command, writes| -> Vec<Option<bool>> {
        (0..=writes)
            .map(|made| counts_as_done(command, writes, made))
            .collect()
    };
    let (no, yes) = (Some(false), Some(true));
    assert_eq!(done(&save_command("A", 1), 3), [no, no, no, yes]);
    assert_eq!(done(&save_command("A", 246), 5), [no, no, no, no, no, yes]);
    assert_eq!(done(&delete_command("A"), 3), [no, yes, yes, yes]);
    assert_eq!(done(&rename_command("A", "B"), 1), [no, yes]);
    assert_eq!(done(&protect_command("A", 1), 1), [no, yes]);
    let blank = Command::Blank {
        name: b"A".to_vec(),
    };
    for other in [Command::Check, Command::Repair, blank] {
        assert_eq!(counts_as_done(&other, 0, 0), None);
    }
}

#[test]
fn a_refused_command_is_not_cut() {
    for command in [
        save_command("ONE", 1),
        delete_command("TWO.X"),
        delete_command("NONE"),
        rename_command("ONE", "ONE"),
        protect_command("bad name", 1),
        save_command("BIG", 2_000),
        Command::Check,
    ] {
        let mut image = small();
        let mut history = History::start(&image, TEN, PLAIN);
        let step = Step {
            command: command.clone(),
            cut: Some(0),
        };
        let answer = step.run(&mut image, TEN, PLAIN);
        assert_eq!(answer, command.run(&mut small(), TEN, PLAIN));
        assert_eq!(image, small());
        history.record_step(&step, &answer, &image);
        assert!(history.book().is_some(), "{command:?}");
    }
}

/// A run by hand: the image and its history go on together.
struct Run {
    image: Vec<u8>,
    format: (u32, u32),
    history: History,
}

impl Run {
    fn start(image: Vec<u8>, format: (u32, u32)) -> Run {
        let history = History::start(&image, format.0, format.1);
        Run {
            image,
            format,
            history,
        }
    }

    /// Takes a step, and checks every claim if demand 3 speaks after it.
    fn step(&mut self, command: Command, cut: Option<usize>) -> u32 {
        let step = Step { command, cut };
        let answer = step.run(&mut self.image, self.format.0, self.format.1);
        self.history.record_step(&step, &answer, &self.image);
        if let Some(book) = self.history.book() {
            assert_eq!(moment_fault(&Reference, &self.image, book), None);
        }
        answer.number()
    }

    fn whole(&mut self, command: Command) -> u32 {
        self.step(command, None)
    }

    fn silent(&self) -> bool {
        self.history.book().is_none()
    }

    /// Directory, files and free sectors by the book.
    fn sum(&self) -> (usize, usize, usize) {
        let book = self.history.book().expect("demand 3 speaks");
        (book.directory(), book.file_sectors(), book.free())
    }

    fn names(&self) -> Vec<String> {
        let book = self.history.book().expect("demand 3 speaks");
        let name = |name: &[u8; 9]| String::from_utf8_lossy(name).trim_end().to_string();
        let mut names: Vec<String> = book.standing().iter().map(|f| name(&f.name)).collect();
        names.sort();
        names
    }
}

fn blank_command(name: &str) -> Command {
    Command::Blank {
        name: name.as_bytes().to_vec(),
    }
}

#[test]
fn silent_from_the_cut_to_the_repair() {
    for (command, made, names, sum) in [
        (save_command("NEW", 246), 0, "ONE TWO   X", (1, 3, 5)),
        (save_command("NEW", 246), 3, "ONE TWO   X", (1, 3, 5)),
        (save_command("NEW", 246), 4, "NEW ONE TWO   X", (1, 5, 3)),
        (delete_command("ONE"), 0, "ONE TWO   X", (1, 3, 5)),
        (delete_command("ONE"), 1, "TWO   X", (1, 2, 6)),
        (delete_command("ONE"), 2, "TWO   X", (1, 2, 6)),
        (delete_command("ONE"), 3, "TWO   X", (1, 2, 6)),
        (rename_command("ONE", "UNO"), 0, "ONE TWO   X", (1, 3, 5)),
        (rename_command("ONE", "UNO"), 1, "TWO   X UNO", (1, 3, 5)),
        (protect_command("ONE", 1), 0, "ONE TWO   X", (1, 3, 5)),
        (protect_command("ONE", 1), 1, "ONE TWO   X", (1, 3, 5)),
    ] {
        let mut run = Run::start(small(), (TEN, PLAIN));
        assert_eq!(run.step(command.clone(), Some(made)), 0);
        assert!(run.silent());
        run.whole(Command::Check);
        assert!(run.silent());
        assert_eq!(run.whole(Command::Repair), 0);
        assert_eq!(run.names().join(" "), names, "{command:?} {made}");
        assert_eq!(run.sum(), sum, "{command:?} {made}");
        assert_eq!(run.whole(save_command("LATER", 1)), 0);
        assert_eq!(run.sum(), (1, sum.1 + 1, sum.2 - 1));
    }
}

#[test]
fn a_cut_save_does_not_raise_the_peak() {
    for format in FORMATS {
        let free = 3 * format.0 as usize - 1;
        for made in 0..=4 {
            let mut run = Run::start(fifteen_files(format.0, format.1).0, format);
            assert_eq!(run.step(save_command("F15", 1), Some(made)), 0);
            assert_eq!(run.whole(Command::Repair), 0);
            let (directory, files) = if made == 4 { (2, 16) } else { (1, 15) };
            assert_eq!(run.sum(), (directory, files, free - directory - files));
            // The next save needs a directory sector if the cut one was not done.
            assert_eq!(run.whole(save_command("G", 1)), 0);
            assert_eq!(run.sum(), (2, files + 1, free - 2 - files - 1));
        }
    }
}

#[test]
fn commands_between_cut_and_repair_count_by_their_answers() {
    // Cut after all writes: the image is sound, and commands are accepted.
    let mut run = Run::start(small(), (TEN, PLAIN));
    assert_eq!(run.step(save_command("NEW", 1), Some(3)), 0);
    assert_eq!(run.whole(save_command("MORE", 246)), 0);
    assert_eq!(run.whole(rename_command("ONE", "UNO")), 0);
    assert_eq!(run.whole(delete_command("NEW")), 0);
    assert_eq!(run.whole(delete_command("TWO.X")), 6);
    assert!(run.silent());
    assert_eq!(run.whole(Command::Repair), 0);
    assert_eq!(run.names(), ["MORE", "TWO   X", "UNO"]);
    assert_eq!(run.sum(), (1, 5, 3));
    // Cut in the middle: every other command is refused until the repair.
    let mut run = Run::start(small(), (TEN, PLAIN));
    assert_eq!(run.step(delete_command("ONE"), Some(1)), 0);
    assert_eq!(run.whole(save_command("MORE", 1)), 3);
    assert_eq!(run.whole(rename_command("TWO.X", "UNO")), 3);
    assert_eq!(run.whole(protect_command("TWO.X", 0)), 3);
    assert_eq!(run.whole(blank_command("no")), 2);
    assert_eq!(run.whole(Command::Replay { writes: vec![] }), 14);
    assert!(run.silent());
    assert_eq!(run.whole(Command::Repair), 0);
    assert_eq!(run.names(), ["TWO   X"]);
}

#[test]
fn two_cuts_before_one_repair() {
    for (made, names) in [
        (0, "ONE TWO   X"),
        (2, "ONE TWO   X"),
        (3, "NEW ONE TWO   X"),
    ] {
        let mut run = Run::start(small(), (TEN, PLAIN));
        assert_eq!(run.step(protect_command("ONE", 1), Some(1)), 0);
        assert_eq!(run.step(save_command("NEW", 1), Some(made)), 0);
        assert!(run.silent());
        assert_eq!(run.whole(Command::Repair), 0);
        assert_eq!(run.names().join(" "), names);
    }
}

#[test]
fn a_blank_between_is_a_start() {
    let mut run = Run::start(fifteen_files(TEN, PLAIN).0, (TEN, PLAIN));
    assert_eq!(run.whole(save_command("F15", 1)), 0);
    assert_eq!(run.sum(), (2, 16, 11));
    assert_eq!(run.step(delete_command("F3"), Some(1)), 0);
    assert_eq!(run.whole(blank_command("AGAIN")), 0);
    assert_eq!(run.sum(), (1, 0, 28));
    let blanked = run.image.clone();
    assert_eq!(run.whole(Command::Repair), 0);
    assert_eq!((run.sum(), run.image == blanked), ((1, 0, 28), true));
}

#[test]
fn after_a_replay_between_it_starts_anew() {
    let (fifteen, _) = fifteen_files(TEN, PLAIN);
    // Sixteen files, so two directory sectors; the sixteenth is deleted.
    let grow = |run: &mut Run| {
        assert_eq!(run.whole(save_command("F15", 1)), 0);
        assert_eq!(run.whole(delete_command("F15")), 0);
        assert_eq!(run.sum(), (2, 15, 12));
    };
    // An accepted replay that writes nothing leaves the cut image unsound. The
    // repaired one is the next sound image: what stands on it is the new start.
    let mut run = Run::start(fifteen.clone(), (TEN, PLAIN));
    grow(&mut run);
    assert_eq!(run.step(save_command("G", 300), Some(2)), 0);
    assert_eq!(run.whole(Command::Replay { writes: vec![0] }), 0);
    assert!(run.silent());
    assert_eq!(run.whole(Command::Repair), 0);
    assert_eq!(run.sum(), (2, 15, 12));
    let start = Book::start(&run.image, TEN, PLAIN);
    assert_eq!(run.history.book(), start.as_ref());
    // One that takes the second directory sector off: only a new start has the
    // right sum then.
    let mut run = Run::start(fifteen, (TEN, PLAIN));
    grow(&mut run);
    let mut directory = run.image[DIRECTORY..DIRECTORY + 256].to_vec();
    directory[..2].fill(0);
    let list = [&[3, 0, 4][..], &directory, &[0]].concat();
    assert_eq!(run.step(protect_command("F0", 1), Some(0)), 0);
    assert_eq!(run.whole(Command::Replay { writes: list }), 0);
    assert!(run.silent());
    assert_eq!(run.whole(Command::Repair), 0);
    assert_eq!(run.sum(), (1, 15, 13));
    // A sound image after the replay is a start at once.
    let mut run = Run::start(small(), (TEN, PLAIN));
    assert_eq!(run.step(protect_command("ONE", 1), Some(0)), 0);
    assert!(run.silent());
    assert_eq!(run.whole(Command::Replay { writes: vec![0] }), 0);
    assert_eq!(run.sum(), (1, 3, 5));
}

#[test]
fn a_repair_without_a_cut_is_no_change() {
    let mut run = Run::start(small(), (TEN, PLAIN));
    let before = run.history.clone();
    assert_eq!(run.whole(Command::Repair), 0);
    assert_ne!(run.image, small());
    assert_eq!(run.history, before);
    assert_eq!(run.whole(delete_command("ONE")), 0);
    assert_eq!(run.whole(save_command("NEW", 246)), 0);
    let before = run.history.clone();
    assert_eq!(run.whole(Command::Repair), 0);
    assert_eq!(run.history, before);
    assert_eq!(run.sum(), (1, 4, 4));
}

#[test]
fn a_repair_of_an_unsound_start_begins_the_book() {
    let mut image = small();
    put(&mut image, 0x14, &[9, 9, 9, 9]);
    let mut run = Run::start(image, (TEN, PLAIN));
    assert!(run.silent());
    assert_eq!(run.whole(save_command("NEW", 1)), 3);
    assert!(run.silent());
    assert_eq!(run.whole(Command::Repair), 0);
    assert_eq!((run.sum(), run.names().len()), ((1, 3, 5), 2));
    let mut image = small();
    image[DIRECTORY + 2] = 7;
    let mut run = Run::start(image, (TEN, PLAIN));
    assert_eq!(run.whole(Command::Repair), 3);
    assert!(run.silent());
}

#[test]
fn only_an_accepted_call_ends_the_silence() {
    let mut run = Run::start(small(), (TEN, PLAIN));
    assert_eq!(run.step(rename_command("ONE", "UNO"), Some(1)), 0);
    let replay = Command::Replay { writes: vec![0] };
    for command in [Command::Repair, blank_command("A"), replay] {
        run.history.record(&command, false, &run.image);
        assert!(run.silent(), "{command:?}");
    }
    run.history.record(&Command::Repair, true, &run.image);
    assert_eq!(run.names(), ["TWO   X", "UNO"]);
}

/// Every cut of one list, by the request's claims and by demand 3. Gives how
/// many there were.
fn every_cut(
    history: &History,
    format: (u32, u32),
    command: &Command,
    (old, new): (&[u8], &[u8]),
    list: &[u8],
) -> usize {
    let fault = cuts_fault(&Reference, repair, command, format, (old, new), list);
    assert_eq!(fault, None, "{command:?}");
    let writes = write_count(old, format.0, format.1, list).expect("good");
    for made in 0..=writes {
        let mut image = cut_image(old, format.0, format.1, list, made).expect("good");
        let inside = made > 0 && made < writes;
        let rule = check(&image, format.0, format.1).rule;
        assert!(if inside { rule >= 6 } else { rule == 0 }, "{command:?}");
        let mut run = history.clone();
        run.record_cut(command, writes, made);
        assert!(run.book().is_none());
        assert_eq!(repair(&mut image, format.0, format.1), 0);
        run.record(&Command::Repair, true, &image);
        let book = run.book().expect("repaired");
        let fault = moment_fault(&Reference, &image, book);
        assert_eq!(fault, None, "{made} of {writes}: {command:?}");
    }
    writes + 1
}

#[test]
fn every_cut_of_every_generated_list() {
    for format in FORMATS {
        let (mut cuts, mut grown) = ([0; 4], 0);
        for seed in 0..260 {
            let mut random = Random::new(seed);
            let mut image = sound_disc(&mut random, 4, format.0, format.1);
            let none = Replays::none();
            let commands = command_list(&mut random, &image, format.0, format.1, 12, none);
            let mut history = History::start(&image, format.0, format.1);
            for command in commands {
                let old = image.clone();
                let answer = command.run(&mut image, format.0, format.1);
                if let Some(list) = answer.list_of_writes() {
                    let tried = every_cut(&history, format, &command, (&old, &image), list);
                    let kind = match command {
                        Command::Save { .. } => 0,
                        Command::Delete { .. } => 1,
                        Command::Rename { .. } => 2,
                        _ => 3,
                    };
                    cuts[kind] += tried;
                }
                let directory = history.book().map(Book::directory);
                history.record(&command, answer.accepted(), &image);
                grown += usize::from(history.book().map(Book::directory) > directory);
            }
        }
        assert!(cuts[0] > 1500, "{cuts:?}");
        assert!(cuts[1..].iter().all(|&tried| tried > 140), "{cuts:?}");
        assert!(grown > 5, "{grown}");
    }
}

/// How often things happened in runs with cuts.
#[derive(Debug, Default)]
struct Seen {
    cuts_of_none: usize,
    cuts_inside: usize,
    cuts_of_all: usize,
    second_cuts: usize,
    accepted_between: usize,
    refused_between: usize,
    replays_between: usize,
    blanks_between: usize,
    repairs_after_a_cut: usize,
    repairs_without: usize,
    repairs_of_unsound: usize,
    repairs_refused: usize,
}

impl Seen {
    /// `pulled` tells whether demand 3 is silent for a cut before the step.
    fn step(&mut self, step: &Step, answer: &Answer, pulled: bool, writes: Option<usize>) {
        match (step.cut, writes) {
            (Some(0), _) => self.cuts_of_none += 1,
            (Some(made), Some(writes)) if made == writes => self.cuts_of_all += 1,
            (Some(_), _) => self.cuts_inside += 1,
            _ => {}
        }
        let accepted = usize::from(answer.accepted());
        match step.command {
            Command::Repair if !answer.accepted() => self.repairs_refused += 1,
            Command::Repair if pulled => self.repairs_after_a_cut += 1,
            Command::Repair => self.repairs_without += 1,
            _ if !pulled => {}
            Command::Replay { .. } => self.replays_between += accepted,
            Command::Blank { .. } => self.blanks_between += accepted,
            _ if step.cut.is_some() => self.second_cuts += 1,
            _ if writes.is_some() => self.accepted_between += 1,
            _ => self.refused_between += 1 - accepted,
        }
    }

    fn least(&self) -> usize {
        let seen = [
            self.cuts_of_none,
            self.cuts_inside,
            self.cuts_of_all,
            self.second_cuts,
            self.accepted_between,
            self.refused_between,
            self.replays_between,
            self.blanks_between,
            self.repairs_after_a_cut,
            self.repairs_without,
            self.repairs_of_unsound,
            self.repairs_refused,
        ];
        seen.into_iter().min().unwrap_or(0)
    }
}

fn sound(image: &[u8], (sectors, arrangement): (u32, u32)) -> bool {
    check(image, sectors, arrangement) == Checked { number: 0, rule: 0 }
}

fn run_with_cuts(start: &[u8], format: (u32, u32), steps: &[Step], seen: &mut Seen) {
    let mut image = start.to_vec();
    let mut history = History::start(start, format.0, format.1);
    let mut pulled = false;
    for step in steps {
        let before = image.clone();
        let answer = step.run(&mut image, format.0, format.1);
        let list = answer.list_of_writes();
        let writes = list.and_then(|list| write_count(&before, format.0, format.1, list));
        seen.step(step, &answer, pulled, writes);
        if step.command == Command::Repair {
            let fault = repair_fault(format, (&before, &image), answer.number());
            assert_eq!(fault, None);
            let unsound = !sound(&before, format) && answer.accepted();
            seen.repairs_of_unsound += usize::from(unsound && !pulled);
        }
        if let (Some(book), None) = (history.book(), step.cut) {
            let fault = answer_fault(book, &step.command, &answer, (&before, &image));
            assert_eq!(fault, None, "{step:?}");
        }
        history.record_step(step, &answer, &image);
        pulled = match step.command {
            Command::Repair | Command::Replay { .. } | Command::Blank { .. } => {
                pulled && !answer.accepted()
            }
            _ => pulled || step.cut.is_some(),
        };
        let speaks = sound(&image, format) && !pulled;
        assert_eq!(history.book().is_some(), speaks, "{step:?}");
        if let Some(book) = history.book() {
            let fault = moment_fault(&Reference, &image, book);
            assert_eq!(fault, None, "{step:?}");
        }
    }
}

#[test]
fn runs_with_cuts_and_repairs() {
    for format in FORMATS {
        let mut seen = Seen::default();
        for seed in 5000..5360 {
            let mut random = Random::new(seed);
            let start = match seed % 3 {
                0 => repair_disc(&mut random, 4, format.0, format.1),
                _ => sound_disc(&mut random, 4, format.0, format.1),
            };
            let replays = Replays::one_in(if seed % 2 == 0 { 6 } else { 0 });
            let cuts = Cuts::one_in(2);
            let steps = step_list(&mut random, &start, format, 30, replays, cuts);
            run_with_cuts(&start, format, &steps, &mut seen);
        }
        assert!(seen.least() > 20, "{seen:?}");
    }
}

#[test]
fn without_cuts_the_steps_are_the_commands() {
    for seed in 0..40 {
        let start = sound_disc(&mut Random::new(seed), 3, TEN, PLAIN);
        let replays = || Replays::one_in(3);
        let commands = command_list(&mut Random::new(seed), &start, TEN, PLAIN, 20, replays());
        let none = Cuts::none();
        let steps = step_list(
            &mut Random::new(seed),
            &start,
            (TEN, PLAIN),
            20,
            replays(),
            none,
        );
        let whole: Vec<Step> = commands.into_iter().map(Step::whole).collect();
        assert_eq!(steps, whole);
    }
}

#[test]
fn faulty_programs_are_found_at_their_cuts() {
    let save = save_command("NEW", 246);
    let mut new = small();
    let answer = save.run(&mut new, TEN, PLAIN);
    let list = answer.list_of_writes().expect("accepted");
    let images = (&small()[..], &new[..]);
    let fault_of = |wrong: &dyn Fn(&mut [u8]) -> u32| {
        let call = |image: &mut [u8], _: u32, _: u32| wrong(image);
        cuts_fault(&Reference, call, &save, (TEN, PLAIN), images, list)
    };
    assert_eq!(fault_of(&|image| repair(image, TEN, PLAIN)), None);
    assert!(fault_of(&|_| 0).is_some());
    assert!(fault_of(&|_| 3).is_some());
    let spoil = |image: &mut [u8], at: usize| {
        let number = repair(image, TEN, PLAIN);
        image[at] ^= 1;
        number
    };
    for at in [0x10, 0x14, 0x16, position(0, 8) + 1, position(0, 2) + 11] {
        assert!(fault_of(&|image| spoil(image, at)).is_some(), "{at}");
    }
    let fault = |list: &[u8]| cuts_fault(&Reference, repair, &save, (TEN, PLAIN), images, list);
    // The entry is written before the file's sectors: rule 5 is broken between.
    let mut records: Vec<&[u8]> = list[..list.len() - 1].chunks(259).collect();
    records.swap(1, 3);
    let between = fault(&[&records.concat()[..], &[0]].concat());
    assert!(between.expect("unsound").contains("rule: 5"));
    // ONE's sector is written as well.
    let with_one = [&[3, 0, 2, 0, 0][..], &[0xFF; 254], list].concat();
    let another = fault(&with_one).expect("ONE differs");
    assert!(another.contains("another file"), "{another}");
    assert!(fault(&list[1..]).expect("bad").contains("bad"));
    // A delete that writes its directory sector last is not done with its first.
    let delete = delete_command("ONE");
    let mut new = small();
    let answer = delete.run(&mut new, TEN, PLAIN);
    let list = answer.list_of_writes().expect("accepted");
    let mut records: Vec<&[u8]> = list[..list.len() - 1].chunks(259).collect();
    records.reverse();
    let reversed = [&records.concat()[..], &[0]].concat();
    let images = (&small()[..], &new[..]);
    let fault = cuts_fault(&Reference, repair, &delete, (TEN, PLAIN), images, &reversed);
    assert!(fault.expect("not done").contains("the named file"));
}
