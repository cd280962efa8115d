//! Every cut of one list, made and repaired by the library, and what is then to
//! stand: the files as before the command, or as after it.

use crate::cut_case::{cut_list, writes_in};
use crate::difference::between_images;
use crate::kind::Kind;
use crate::lend::Lent;
use crate::library::{beside, Library};
use crate::writing::Writing;
use reference::command::Command;
use reference::cuts::{counts_as_done, cut_image};
use reference::generate::typed_form;
use reference::history::{moment_fault, places_fault, refused};
use reference::history::{Book, BookReading, Program, Reference, StandingFile};
use reference::{Checked, Reading};

/// All of demand 3 is checked after each cut of this number, with saves tried
/// around the limit of the room. After every one the places of all sectors, the
/// free-sector sum and the reading of each file are.
const WHOLE_MOMENT_EVERY: u64 = 64;
const FILL: u8 = 0xA5;
/// For a file that is not plain.
const SOME_BYTES: usize = 300;
/// Of the system sector: the free pointer and both counts.
const REPAIRED_IN_SYSTEM: [usize; 6] = [0x10, 0x11, 0x14, 0x15, 0x16, 0x17];

/// A disc's files at one moment.
struct Standing {
    book: Book,
    listing: Vec<u8>,
    /// Names that stand at the other moment alone, as typed.
    absent: Vec<Vec<u8>>,
}

impl Standing {
    fn new(book: &Book, image: &[u8], other: &Book) -> Standing {
        let mut listing = vec![0; image.len() + SOME_BYTES];
        let listed = reference::list(image, book.sectors(), book.arrangement(), &mut listing);
        listing.truncate(listed.length as usize);
        let stands = |name| book.standing().iter().any(|file| file.name == name);
        let others = other.standing().iter();
        Standing {
            book: book.clone(),
            listing,
            absent: others
                .filter(|file| !stands(file.name))
                .map(|file| typed_form(&file.name))
                .collect(),
        }
    }
}

/// The list of an accepted command, and the disc before and after it.
pub struct Sweep<'a> {
    kind: Kind,
    writing: Writing,
    command: &'a Command,
    old: &'a [u8],
    list: &'a [u8],
    before: Standing,
    after: Standing,
}

/// A cut that was repaired as it should be.
pub struct Repaired {
    /// What the check says of the cut disc.
    pub rule: u32,
    /// The repair has changed it.
    pub changed: bool,
    pub image: Vec<u8>,
}

impl<'a> Sweep<'a> {
    /// Nothing if the old disc is not sound.
    pub fn new(
        (kind, writing): (Kind, Writing),
        command: &'a Command,
        (old, new): (&'a [u8], &[u8]),
        list: &'a [u8],
    ) -> Option<Sweep<'a>> {
        let before = Book::start(old, kind.sectors(), kind.arrangement())?;
        let mut after = before.clone();
        after.record(command, true);
        Some(Sweep {
            kind,
            writing,
            command,
            old,
            list,
            before: Standing::new(&before, old, &after),
            after: Standing::new(&after, new, &before),
        })
    }

    pub fn writes(&self) -> usize {
        writes_in(self.list)
    }

    /// The history before the command.
    pub fn book(&self) -> &Book {
        &self.before.book
    }

    /// Pulls the card after the first writes, repairs it and judges the disc;
    /// `number` is that of the cut in a run of the driver.
    pub fn cut(&self, made: usize, number: u64) -> Result<Repaired, String> {
        let (sectors, arrangement) = (self.kind.sectors(), self.kind.arrangement());
        let card = cut_image(self.old, sectors, arrangement, self.list, made)
            .ok_or_else(|| "the second program can't cut the list".to_string())?;
        let mut lent = Lent::shifted(number as usize, self.old);
        let mut second = card.clone();
        let answered = reference::repair(&mut second, sectors, arrangement);
        let fault = self
            .card_fault(&mut lent, &card, made)
            .or_else(|| self.repair_fault(&mut lent, &second, answered))
            .or_else(|| outside_fault(&card, &second))
            .or_else(|| self.disc_fault(&second, made, number))
            .or_else(|| self.again_fault(lent, &second));
        match fault {
            Some(text) => Err(text),
            None => Ok(Repaired {
                rule: reference::check(&card, sectors, arrangement).rule,
                changed: second != card,
                image: second,
            }),
        }
    }

    /// The library makes the cut by its own replay.
    fn card_fault(&self, lent: &mut Lent, card: &[u8], made: usize) -> Option<String> {
        let mut list = cut_list(self.list, made);
        let numbers = self.kind.numbers();
        let number = (self.writing.replay)(lent.content_mut(), numbers, &mut list);
        (number != 0)
            .then(|| format!("the cut list is refused with {number}"))
            .or_else(|| between_images(lent.content(), card, numbers))
            .map(|text| format!("before the repair: {text}"))
    }

    fn repair_fault(&self, lent: &mut Lent, second: &[u8], answered: u32) -> Option<String> {
        let numbers = self.kind.numbers();
        let number = (self.writing.repair)(lent.content_mut(), numbers);
        (number != 0 || answered != 0)
            .then(|| format!("the library's repair answers {number}, the other's {answered}"))
            .or_else(|| beside("image", lent))
            .or_else(|| between_images(lent.content(), second, numbers))
    }

    /// A repair of a repaired disc changes nothing.
    fn again_fault(&self, mut lent: Lent, second: &[u8]) -> Option<String> {
        self.repair_fault(&mut lent, second, 0)
            .map(|text| format!("repaired once more: {text}"))
    }

    /// What a repaired disc lacks, asked of both programs.
    fn disc_fault(&self, image: &[u8], made: usize, number: u64) -> Option<String> {
        let done = counts_as_done(self.command, self.writes(), made)?;
        let standing = if done { &self.after } else { &self.before };
        let library = Library::new(self.writing);
        self.listing_fault(image, standing)
            .or_else(|| places_fault(image, &standing.book))
            .or_else(|| files_fault(&library, image, standing))
            .or_else(|| files_fault(&Reference, image, standing))
            .or_else(|| match number % WHOLE_MOMENT_EVERY {
                0 => moment_fault(&library, image, &standing.book),
                _ => None,
            })
            .or_else(|| library.stray_write())
            .map(|text| {
                let state = if done { "done" } else { "not done" };
                format!("as a command that is {state}: {text}")
            })
    }

    fn listing_fault(&self, image: &[u8], standing: &Standing) -> Option<String> {
        let (sectors, arrangement) = (self.kind.sectors(), self.kind.arrangement());
        let checked = [
            crate::ffi::check(image, sectors, arrangement),
            reference::check(image, sectors, arrangement),
        ];
        let sound = Checked { number: 0, rule: 0 };
        if checked != [sound; 2] {
            return Some(format!("the checks answer {checked:?}"));
        }
        let length = standing.listing.len();
        let (mut by_library, mut by_second) = (vec![0; length], vec![0; length]);
        crate::ffi::list(image, sectors, arrangement, &mut by_library);
        reference::list(image, sectors, arrangement, &mut by_second);
        let right = by_library == standing.listing && by_second == standing.listing;
        (!right).then(|| "the list is another".to_string())
    }
}

/// A repair changes links, and of the system sector the free pointer and both
/// counts; 0/1 comes first in every arrangement.
fn outside_fault(card: &[u8], repaired: &[u8]) -> Option<String> {
    let mut sectors = card.chunks(256).zip(repaired.chunks(256));
    let (old, new) = sectors.next()?;
    let system = (0..256).any(|at| old[at] != new[at] && !REPAIRED_IN_SYSTEM.contains(&at));
    let bodies = sectors.any(|(old, new)| old[2..] != new[2..]);
    (system || bodies).then(|| "a byte other than links, pointer and counts is changed".to_string())
}

/// What reading each file, and those that do not stand, gives other than it
/// should.
fn files_fault(program: &impl Program, image: &[u8], standing: &Standing) -> Option<String> {
    let book = &standing.book;
    let read = |name: &[u8], buffer: &mut [u8]| {
        program.read(image, book.sectors(), book.arrangement(), name, buffer)
    };
    let files = book.standing().iter();
    let faulty = files.into_iter().find(|file| !reads_as(file, read));
    let standing_absent = standing.absent.iter().find(|name| {
        let answer = read(name, &mut [FILL; SOME_BYTES]);
        answer != refused(4)
    });
    faulty
        .map(|file| format!("'{}' reads otherwise", String::from_utf8_lossy(&file.name)))
        .or_else(|| {
            standing_absent.map(|name| format!("'{}' stands", String::from_utf8_lossy(name)))
        })
}

fn reads_as(file: &StandingFile, read: impl Fn(&[u8], &mut [u8]) -> Reading) -> bool {
    let name = typed_form(&file.name);
    match &file.reading {
        BookReading::Module(reading, bytes) => {
            let mut buffer = vec![FILL; bytes.len()];
            read(&name, &mut buffer) == *reading && buffer == *bytes
        }
        BookReading::NotPlain => read(&name, &mut [FILL; SOME_BYTES]) == refused(9),
    }
}

#[cfg(test)]
mod tests {
    use super::*;
    use crate::discs;
    use crate::writing::{LONGEST_LIST, OF_LIBRARY};
    use reference::command::Buffer;
    use reference::generate::Random;

    const ROOM: Buffer = Buffer {
        length: LONGEST_LIST,
        fill: 1,
    };

    fn save(name: &[u8], length: usize) -> Command {
        Command::Save {
            name: name.to_vec(),
            page: 0,
            start: 0,
            transfer: 0,
            sheet: vec![7; length],
            writes: ROOM,
        }
    }

    fn delete(name: &[u8]) -> Command {
        Command::Delete {
            name: name.to_vec(),
            writes: ROOM,
        }
    }

    fn protect(name: &[u8]) -> Command {
        Command::Protect {
            name: name.to_vec(),
            on: 1,
            writes: ROOM,
        }
    }

    fn rename(old: &[u8]) -> Command {
        Command::Rename {
            old: old.to_vec(),
            new: b"OTHER".to_vec(),
            writes: ROOM,
        }
    }

    /// A disc with two files, then a command; calls `judge` with its sweep and
    /// the image before and after.
    fn with_sweep(kind: Kind, command: &Command, judge: impl Fn(&Sweep<'_>, &[u8], &[u8])) {
        let (sectors, arrangement) = (kind.sectors(), kind.arrangement());
        let mut old = discs::blank(&mut Random::new(61), kind, 3);
        for name in [b"ONE", b"TWO"] {
            assert!(save(name, 700)
                .run(&mut old, sectors, arrangement)
                .accepted());
        }
        let mut new = old.clone();
        let answer = command.run(&mut new, sectors, arrangement);
        let list = answer.list_of_writes().expect("accepted");
        let tools = (kind, OF_LIBRARY);
        let sweep = Sweep::new(tools, command, (&old, &new), list).expect("sound");
        judge(&sweep, &old, &new);
    }

    fn commands() -> [Command; 4] {
        [
            save(b"NEW", 300),
            delete(b"ONE"),
            rename(b"TWO"),
            protect(b"TWO"),
        ]
    }

    #[test]
    fn every_cut_passes_and_is_done_when_it_should_be() {
        for kind in Kind::ALL {
            for command in commands() {
                with_sweep(kind, &command, |sweep, old, new| {
                    let writes = sweep.writes();
                    assert!((0..=writes).all(|made| sweep.cut(made, 0).is_ok()));
                    // The one is no cut that counts as the other.
                    assert_eq!(sweep.disc_fault(old, 0, 1), None);
                    assert_eq!(sweep.disc_fault(new, writes, 1), None);
                    assert!(sweep.disc_fault(new, 0, 1).is_some());
                    assert!(sweep.disc_fault(old, writes, 1).is_some());
                });
            }
        }
    }

    #[test]
    fn a_file_that_reads_otherwise_is_told() {
        for kind in Kind::ALL {
            with_sweep(kind, &protect(b"TWO"), |sweep, old, _| {
                // Byte 20 of each sector that a file has is a byte of its sheet.
                let is_file = |sector: &[u8]| sector[20] == 7;
                let starts = (0..old.len()).step_by(256);
                for at in starts.filter(|&at| is_file(&old[at..at + 256])) {
                    let mut image = old.to_vec();
                    image[at + 20] = 8;
                    let library = Library::new(OF_LIBRARY);
                    assert!(files_fault(&library, &image, &sweep.before).is_some());
                    assert!(files_fault(&Reference, &image, &sweep.before).is_some());
                }
            });
        }
    }

    #[test]
    fn a_byte_that_no_repair_changes_is_told() {
        let card = vec![0; 512];
        let told = |at: usize| {
            let mut repaired = card.clone();
            repaired[at] = 1;
            outside_fault(&card, &repaired).is_some()
        };
        let untold: Vec<usize> = (0..512).filter(|&at| !told(at)).collect();
        let links = [256, 257];
        assert_eq!(untold, [&REPAIRED_IN_SYSTEM[..], &links].concat());
    }
}
