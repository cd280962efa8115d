//! The book on its own, and that it catches a run that goes wrong.

use crate::common::{delete_command, moved, save_command, small, LONG};
use crate::common::{MOVED, ONE_SLOT, PLAIN, TEN, TWO_SLOT};
use reference::blank;
use reference::command::Command;
use reference::history::{moment_fault, Book, BookReading, History, Reference};

/// Runs a command that must be accepted, in the image and in the book.
fn accept(image: &mut [u8], book: &mut Book, command: &Command) {
    let answer = command.run(image, TEN, PLAIN);
    assert!(answer.accepted(), "{command:?}");
    book.record(command, true);
    assert_eq!(moment_fault(&Reference, image, book), None, "{command:?}");
}

fn blank_start(tracks: usize) -> (Vec<u8>, Book) {
    let mut image = vec![0; tracks * 2560];
    assert_eq!(blank(&mut image, TEN, PLAIN, b"RUN"), 0);
    let book = Book::start(&image, TEN, PLAIN).expect("a blank disc is sound");
    (image, book)
}

#[test]
fn the_book_of_the_hand_made_disc() {
    let book = Book::start(&small(), TEN, PLAIN).expect("sound");
    assert_eq!(
        (book.directory(), book.file_sectors(), book.free()),
        (1, 3, 5)
    );
    assert_eq!(book.standing()[0].name, *b"ONE      ");
    assert_eq!(book.standing()[1].sectors, 2);
    match &book.standing()[0].reading {
        BookReading::Module(reading, bytes) => {
            assert_eq!((reading.page, reading.end), (3, 0x2002));
            assert_eq!(bytes, b"ABC");
        }
        BookReading::NotPlain => panic!("ONE is a module"),
    }
    assert_eq!(moment_fault(&Reference, &small(), &book), None);
}

#[test]
fn no_book_starts_with_an_unsound_image() {
    let mut image = small();
    image[0x16] = 9;
    assert_eq!(Book::start(&image, TEN, PLAIN), None);
    assert_eq!(Book::start(&image[1..], TEN, PLAIN), None);
}

#[test]
fn a_save_at_the_directory_edge_needs_one_more() {
    let (mut image, mut book) = blank_start(4);
    for file in 0..15 {
        assert_eq!(book.need(245), 1);
        accept(&mut image, &mut book, &save_command(&format!("F{file}"), 1));
    }
    assert_eq!((book.need(245), book.need(246)), (2, 3));
    assert_eq!((book.directory(), book.free()), (1, 38 - 15));
    accept(&mut image, &mut book, &save_command("F15", 499));
    assert_eq!((book.directory(), book.file_sectors()), (2, 18));
    assert_eq!((book.need(245), book.free()), (1, 39 - 2 - 18));
}

#[test]
fn files_fall_below_their_peak_before_the_directory_is_full() {
    let (mut image, mut book) = blank_start(6);
    for file in 0..17 {
        accept(&mut image, &mut book, &save_command(&format!("F{file}"), 1));
    }
    for file in [0, 3, 16, 15, 9] {
        accept(&mut image, &mut book, &delete_command(&format!("F{file}")));
    }
    assert_eq!((book.standing().len(), book.directory()), (12, 2));
    for file in 0..18 {
        assert_eq!(book.need(1), 1);
        accept(&mut image, &mut book, &save_command(&format!("G{file}"), 1));
    }
    assert_eq!((book.standing().len(), book.directory()), (30, 2));
    assert_eq!(book.need(1), 2);
    accept(&mut image, &mut book, &save_command("H", 246));
    assert_eq!((book.directory(), book.free()), (3, 59 - 3 - 32));
}

#[test]
fn an_accepted_blank_is_a_new_start() {
    let (mut image, mut book) = blank_start(3);
    for file in 0..16 {
        accept(&mut image, &mut book, &save_command(&format!("F{file}"), 1));
    }
    assert_eq!((book.directory(), book.free()), (2, 11));
    let again = Command::Blank {
        name: b"AGAIN".to_vec(),
    };
    accept(&mut image, &mut book, &again);
    assert_eq!((book.directory(), book.free()), (1, 28));
    assert_eq!(Book::start(&image, TEN, PLAIN), Some(book));
}

#[test]
fn refused_commands_change_nothing_in_the_book() {
    let mut book = Book::start(&small(), TEN, PLAIN).expect("sound");
    let before = book.clone();
    book.record(&save_command("NEW", 3), false);
    book.record(&delete_command("ONE"), false);
    let protect = Command::Protect {
        name: b"ONE".to_vec(),
        on: 1,
        writes: LONG,
    };
    book.record(&protect, true);
    book.record(&Command::Check, true);
    assert_eq!(book, before);
}

#[test]
fn faults_are_found() {
    let book = Book::start(&small(), TEN, PLAIN).expect("sound");
    let found = |at: usize, byte: u8| {
        let mut image = small();
        image[at] = byte;
        moment_fault(&Reference, &image, &book).is_some()
    };
    assert!(found(0x14, 4), "free count");
    assert!(found(0x10, 7), "free pointer");
    assert!(found(0x12, 1), "directory pointer");
    assert!(found(0x16, 1), "used count");
    assert!(found(256 + 11, b'Z'), "a file's byte");
    assert!(found(256 + 3, 4), "a file's page");
    assert!(found(256 + 8, 0), "a file's transfer address");
    assert!(found(ONE_SLOT, b'X'), "a name");
    assert!(found(TWO_SLOT + 11, 5), "a first sector");
    assert!(found(1, 1) == found(0x60, 1), "bytes of no meaning");
    assert!(moment_fault(&Reference, &small()[..2559], &book).is_some());
}

#[test]
fn faults_are_found_on_a_moved_image() {
    let book = Book::start(&moved(&small()), TEN, MOVED).expect("sound");
    assert_eq!(moment_fault(&Reference, &moved(&small()), &book), None);
    let found = |at: usize, byte: u8| {
        let mut image = small();
        image[at] = byte;
        moment_fault(&Reference, &moved(&image), &book).is_some()
    };
    assert!(found(0x14, 4), "free count");
    assert!(found(0x10, 7), "free pointer");
    assert!(found(0x16, 1), "used count");
    assert!(found(256 + 11, b'Z'), "a file's byte");
    assert!(found(ONE_SLOT, b'X'), "a name");
    assert!(found(TWO_SLOT + 11, 5), "a first sector");
    assert!(!found(1, 1) && !found(0x60, 1), "bytes of no meaning");
}

#[test]
fn the_arrangement_of_a_run_is_one_throughout() {
    let plain = Book::start(&small(), TEN, PLAIN).expect("sound");
    let book = Book::start(&moved(&small()), TEN, MOVED).expect("sound");
    assert_eq!((plain.arrangement(), book.arrangement()), (PLAIN, MOVED));
    assert_eq!(plain.standing(), book.standing());
    assert_eq!((book.directory(), book.free()), (1, 5));
    // An image that goes over to the other arrangement is none of the run's.
    assert!(moment_fault(&Reference, &small(), &book).is_some());
    assert!(moment_fault(&Reference, &moved(&small()), &plain).is_some());
    for (image, other) in [
        (small(), MOVED),
        (moved(&small()), PLAIN),
        (small(), 2),
        (small(), u32::MAX),
    ] {
        assert_eq!(Book::start(&image, TEN, other), None, "{other}");
    }
}

#[test]
fn a_save_that_only_says_done_is_found() {
    let mut book = Book::start(&small(), TEN, PLAIN).expect("sound");
    book.record(&save_command("NEW", 3), true);
    assert!(moment_fault(&Reference, &small(), &book).is_some());
    let mut book = Book::start(&small(), TEN, PLAIN).expect("sound");
    book.record(&delete_command("ONE"), true);
    assert!(moment_fault(&Reference, &small(), &book).is_some());
}

#[test]
fn a_sheet_of_other_bytes_is_found() {
    let mut image = small();
    let mut book = Book::start(&image, TEN, PLAIN).expect("sound");
    let mut other = save_command("NEW", 3);
    assert!(other.run(&mut image, TEN, PLAIN).accepted());
    if let Command::Save { sheet, .. } = &mut other {
        sheet[2] = 0x43;
    }
    book.record(&other, true);
    assert!(moment_fault(&Reference, &image, &book).is_some());
}

/// A list that writes one sector of `small` or of another plain disc.
fn one_write(track: u8, sector: u8, bytes: &[u8]) -> Command {
    Command::Replay {
        writes: [&[3, track, sector], bytes, &[0]].concat(),
    }
}

#[test]
fn after_a_replay_the_next_sound_image_is_the_start() {
    let (mut image, book) = blank_start(3);
    let mut history = History::start(&image, TEN, PLAIN);
    assert_eq!(history.book(), Some(&book));
    for file in 0..16 {
        let command = save_command(&format!("F{file}"), 1);
        assert!(command.run(&mut image, TEN, PLAIN).accepted());
        history.record(&command, true, &image);
    }
    let before = history.clone();
    let system = image[..256].to_vec();
    // A refused replay changes nothing, whatever the image.
    history.record(&one_write(3, 1, &system), false, &[]);
    assert_eq!(history, before);
    // The used count is spoilt: no book, also after other commands.
    let mut spoilt = system.clone();
    spoilt[0x16] = 99;
    let spoil = one_write(0, 1, &spoilt);
    assert!(spoil.run(&mut image, TEN, PLAIN).accepted());
    history.record(&spoil, true, &image);
    assert_eq!(history.book(), None);
    history.record(&Command::Check, true, &image);
    history.record(&save_command("G", 1), false, &image);
    assert_eq!(history.book(), None);
    // A replay makes it sound again, which is a start: all 16 files stand.
    let heal = one_write(0, 1, &system);
    assert!(heal.run(&mut image, TEN, PLAIN).accepted());
    history.record(&heal, true, &image);
    let started = Book::start(&image, TEN, PLAIN);
    assert!(started.is_some() && history.book() == started.as_ref());
}

#[test]
fn a_replay_that_leaves_the_image_sound_is_a_start() {
    let (mut image, _) = blank_start(3);
    let blank_image = image.clone();
    let mut history = History::start(&image, TEN, PLAIN);
    for file in 0..16 {
        let command = save_command(&format!("F{file}"), 1);
        assert!(command.run(&mut image, TEN, PLAIN).accepted());
        history.record(&command, true, &image);
    }
    assert_eq!(history.book().map(Book::directory), Some(2));
    // Every sector as it was on the blank disc: P is forgotten.
    let mut writes = Vec::new();
    for (number, sector) in blank_image.chunks(256).enumerate() {
        writes.extend([3, (number / 10) as u8, (number % 10) as u8 + 1]);
        writes.extend(sector);
    }
    writes.push(0);
    let back = Command::Replay { writes };
    assert!(back.run(&mut image, TEN, PLAIN).accepted());
    assert!(image == blank_image);
    history.record(&back, true, &image);
    let book = history.book().expect("sound");
    assert_eq!((book.directory(), book.free()), (1, 28));
    assert_eq!(moment_fault(&Reference, &image, book), None);
}

#[test]
fn an_accepted_blank_begins_the_history_of_an_unsound_image() {
    let mut image = vec![0xFF; 2560];
    let mut history = History::start(&image, TEN, PLAIN);
    assert_eq!(history.book(), None);
    let blanked = Command::Blank {
        name: b"D".to_vec(),
    };
    assert!(blanked.run(&mut image, TEN, PLAIN).accepted());
    history.record(&blanked, true, &image);
    assert_eq!(history.book().map(Book::free), Some(8));
}
