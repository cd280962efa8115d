//! Commands run on the library, with everything that they lend between guard
//! bytes.

use crate::ffi;
use crate::kind::Numbers;
use crate::lend::{Item, Lent};
use crate::writing::Writing;
use reference::command::{Answer, Buffer, Command};
use reference::generate::Random;
use reference::history::Program;
use reference::{Filled, Reading};
use std::cell::RefCell;

const VIEW_BYTES: usize = 254;
/// Zeros that may stand behind a list to replay. They end one without an end,
/// or fill up a cut record and then end it, for a call that reads on.
const ZEROS_BEHIND: [usize; 3] = [0, 1, 300];

/// The library for the claims of the history. What it may write in is lent
/// between guard bytes here too.
#[derive(Debug)]
pub struct Library {
    writing: Writing,
    stray_write: RefCell<Option<String>>,
}

impl Library {
    pub fn new(writing: Writing) -> Library {
        Library {
            writing,
            stray_write: RefCell::default(),
        }
    }

    /// The first write of these calls beside what was lent to them.
    pub fn stray_write(self) -> Option<String> {
        self.stray_write.into_inner()
    }

    /// Lends a guarded copy of `bytes` to a call and copies it back.
    fn guarded<T>(&self, what: &str, bytes: &mut [u8], call: impl FnOnce(&mut [u8]) -> T) -> T {
        let mut lent = Lent::shifted(bytes.len(), bytes);
        let answer = call(lent.content_mut());
        bytes.copy_from_slice(lent.content());
        if let Some(text) = beside(what, &lent) {
            self.stray_write.borrow_mut().get_or_insert(text);
        }
        answer
    }
}

impl Program for Library {
    fn read(
        &self,
        image: &[u8],
        sectors: u32,
        arrangement: u32,
        name: &[u8],
        buffer: &mut [u8],
    ) -> Reading {
        self.guarded("buffer", buffer, |lent| {
            ffi::read(image, sectors, arrangement, name, lent)
        })
    }

    fn save(
        &self,
        image: &mut [u8],
        sectors: u32,
        arrangement: u32,
        name: &[u8],
        page: u32,
        start: u16,
        transfer: u16,
        sheet: &[u8],
        writes: &mut [u8],
    ) -> Filled {
        let numbers = Numbers {
            sectors,
            arrangement,
        };
        let command = Command::Save {
            name: Vec::new(),
            page,
            start,
            transfer,
            sheet: Vec::new(),
            writes: Buffer { length: 0, fill: 0 },
        };
        self.guarded("image", image, |image| {
            self.guarded("writes", writes, |writes| {
                (self.writing.change)(&command, image, numbers, [name, sheet], writes)
            })
        })
    }
}

/// What a call answered, and what it wrote where no call may write.
pub struct Outcome {
    pub answer: Answer,
    pub stray_write: Option<String>,
}

pub fn run(
    random: &mut Random,
    writing: Writing,
    command: &Command,
    numbers: Numbers,
    image: &mut Lent,
) -> Outcome {
    if let Command::Replay { writes } = command {
        return replay(random, writing, writes, numbers, image);
    }
    let texts = texts(command);
    let mut lent = Arguments {
        first: Lent::new(random, texts[0]),
        second: Lent::new(random, texts[1]),
        buffer: Lent::new(random, &buffer(command)),
    };
    let answer = call(command, writing, image.content_mut(), numbers, &mut lent);
    let stray_write = beside("buffer", &lent.buffer)
        .or_else(|| in_or_beside("name", &lent.first, texts[0]))
        .or_else(|| in_or_beside("sheet or new name", &lent.second, texts[1]));
    Outcome {
        answer,
        stray_write,
    }
}

/// The list stands between guard bytes, some zeros behind it.
fn replay(
    random: &mut Random,
    writing: Writing,
    writes: &[u8],
    numbers: Numbers,
    image: &mut Lent,
) -> Outcome {
    let mut bytes = writes.to_vec();
    bytes.resize(writes.len() + random.pick(&ZEROS_BEHIND), 0);
    let mut lent = Lent::new(random, &bytes);
    let list = &mut lent.content_mut()[..writes.len()];
    let number = (writing.replay)(image.content_mut(), numbers, list);
    Outcome {
        answer: Answer::Number(number),
        stray_write: in_or_beside("list of writes", &lent, &bytes),
    }
}

/// What a command lends beside the image; empty where it lends nothing.
struct Arguments {
    first: Lent,
    second: Lent,
    buffer: Lent,
}

/// The bytes that a command lends for reading only; a replay's list is lent
/// apart.
fn texts(command: &Command) -> [&[u8]; 2] {
    match command {
        Command::Check
        | Command::List { .. }
        | Command::View { .. }
        | Command::Replay { .. }
        | Command::Repair => [&[], &[]],
        Command::Read { name, .. }
        | Command::Delete { name, .. }
        | Command::Protect { name, .. }
        | Command::Blank { name } => [name, &[]],
        Command::Save { name, sheet, .. } => [name, sheet],
        Command::Rename { old, new, .. } => [old, new],
    }
}

fn buffer(command: &Command) -> Vec<u8> {
    let buffer = match command {
        Command::List { buffer } | Command::Read { buffer, .. } => Some(*buffer),
        other => other.lent_for_writes(),
    };
    buffer.map_or_else(Vec::new, Buffer::lend)
}

fn call(
    command: &Command,
    writing: Writing,
    image: &mut [u8],
    numbers: Numbers,
    lent: &mut Arguments,
) -> Answer {
    let Numbers {
        sectors,
        arrangement,
    } = numbers;
    let texts = [lent.first.content(), lent.second.content()];
    let name = texts[0];
    let buffer = lent.buffer.content_mut();
    match command {
        Command::Check => Answer::Checked(ffi::check(image, sectors, arrangement)),
        Command::List { .. } => Answer::Listed(
            ffi::list(image, sectors, arrangement, buffer),
            buffer.to_vec(),
        ),
        Command::Read { .. } => Answer::Read(
            ffi::read(image, sectors, arrangement, name, buffer),
            buffer.to_vec(),
        ),
        Command::View { track, sector } => viewed(image, numbers, *track, *sector),
        Command::Blank { .. } => Answer::Number(ffi::blank(image, sectors, arrangement, name)),
        Command::Repair => Answer::Number((writing.repair)(image, numbers)),
        changing => {
            let filled = (writing.change)(changing, image, numbers, texts, buffer);
            Answer::Wrote(filled, buffer.to_vec())
        }
    }
}

/// The part of the image itself exists in the library's own language alone;
/// here it is what lies at the start that the library gives.
fn viewed(image: &[u8], numbers: Numbers, track: u32, sector: u32) -> Answer {
    let Numbers {
        sectors,
        arrangement,
    } = numbers;
    let number = ffi::view_number(image, sectors, arrangement, track, sector);
    let start = ffi::view_start(image, sectors, arrangement, track, sector);
    let at = start as usize;
    let shown = image.get(at..at + VIEW_BYTES).filter(|_| number == 0);
    Answer::Viewed {
        number,
        start,
        bytes: shown.unwrap_or(&[]).to_vec(),
    }
}

/// The first changed item around what was lent.
pub fn beside<T: Item>(what: &str, lent: &Lent<T>) -> Option<String> {
    let at = lent.changed_guard()?;
    let (item, length) = (T::NAME, lent.content().len());
    Some(format!(
        "a {item} outside the {what} ({length} {item}s) is changed, at {at} from its start"
    ))
}

pub fn in_or_beside(what: &str, lent: &Lent, handed_in: &[u8]) -> Option<String> {
    let pairs = lent.content().iter().zip(handed_in);
    let changed = pairs.into_iter().position(|(now, was)| now != was);
    changed
        .map(|at| format!("byte {at} of the {what} is changed, which is lent for reading"))
        .or_else(|| beside(what, lent))
}
