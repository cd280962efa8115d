//! A command with its arguments as handed in, and what it answers.

use crate::{Checked, Filled, Reading};

/// A lent buffer before the call: `length` times the byte `fill`.
#[derive(Debug, Clone, Copy, PartialEq, Eq)]
pub struct Buffer {
    pub length: usize,
    pub fill: u8,
}

impl Buffer {
    pub fn lend(self) -> Vec<u8> {
        vec![self.fill; self.length]
    }
}

#[derive(Debug, Clone, PartialEq, Eq)]
pub enum Command {
    Check,
    List {
        buffer: Buffer,
    },
    Read {
        name: Vec<u8>,
        buffer: Buffer,
    },
    Save {
        name: Vec<u8>,
        page: u32,
        start: u16,
        transfer: u16,
        sheet: Vec<u8>,
        writes: Buffer,
    },
    Delete {
        name: Vec<u8>,
        writes: Buffer,
    },
    Rename {
        old: Vec<u8>,
        new: Vec<u8>,
        writes: Buffer,
    },
    Protect {
        name: Vec<u8>,
        on: u32,
        writes: Buffer,
    },
    Blank {
        name: Vec<u8>,
    },
    View {
        track: u32,
        sector: u32,
    },
    /// None of demand 3's commands: after one that is accepted it starts anew.
    Replay {
        writes: Vec<u8>,
    },
    /// In demand 3 no change; it ends the silence after a cut.
    Repair,
}

/// A command's answer, with the lent buffer or the view after the call. Only a
/// view's start depends on how the image is arranged.
#[derive(Debug, Clone, PartialEq, Eq)]
pub enum Answer {
    Number(u32),
    Checked(Checked),
    Listed(Filled, Vec<u8>),
    /// Of save, delete, rename and protect: the list of writes is in the buffer.
    Wrote(Filled, Vec<u8>),
    Read(Reading, Vec<u8>),
    Viewed {
        number: u32,
        start: u32,
        bytes: Vec<u8>,
    },
}

impl Answer {
    pub fn number(&self) -> u32 {
        match self {
            Answer::Number(number) | Answer::Viewed { number, .. } => *number,
            Answer::Checked(checked) => checked.number,
            Answer::Listed(filled, _) | Answer::Wrote(filled, _) => filled.number,
            Answer::Read(reading, _) => reading.number,
        }
    }

    pub fn accepted(&self) -> bool {
        self.number() == 0
    }

    /// The list of writes of an accepted save, delete, rename or protect.
    pub fn list_of_writes(&self) -> Option<&[u8]> {
        match self {
            Answer::Wrote(filled, buffer) if filled.number == 0 => {
                buffer.get(..filled.length as usize)
            }
            _ => None,
        }
    }
}

impl Command {
    pub fn run(&self, image: &mut [u8], sectors: u32, arrangement: u32) -> Answer {
        match self {
            Command::Check => Answer::Checked(crate::check(image, sectors, arrangement)),
            Command::List { buffer } => {
                let mut lent = buffer.lend();
                Answer::Listed(crate::list(image, sectors, arrangement, &mut lent), lent)
            }
            Command::Read { name, buffer } => {
                let mut lent = buffer.lend();
                Answer::Read(
                    crate::read(image, sectors, arrangement, name, &mut lent),
                    lent,
                )
            }
            Command::View { track, sector } => Answer::Viewed {
                number: crate::view_number(image, sectors, arrangement, *track, *sector),
                start: crate::view_start(image, sectors, arrangement, *track, *sector),
                bytes: crate::view(image, sectors, arrangement, *track, *sector).to_vec(),
            },
            Command::Blank { name } => {
                Answer::Number(crate::blank(image, sectors, arrangement, name))
            }
            Command::Replay { writes } => {
                Answer::Number(crate::replay(image, sectors, arrangement, writes))
            }
            Command::Repair => Answer::Number(crate::repair(image, sectors, arrangement)),
            Command::Save { writes, .. }
            | Command::Delete { writes, .. }
            | Command::Rename { writes, .. }
            | Command::Protect { writes, .. } => {
                let mut lent = writes.lend();
                let filled = self.run_writing(image, sectors, arrangement, &mut lent);
                Answer::Wrote(filled, lent)
            }
        }
    }

    /// The buffer that a command is lent for its list of writes, if it lists any.
    pub fn lent_for_writes(&self) -> Option<Buffer> {
        match self {
            Command::Save { writes, .. }
            | Command::Delete { writes, .. }
            | Command::Rename { writes, .. }
            | Command::Protect { writes, .. } => Some(*writes),
            _ => None,
        }
    }

    /// The commands that list their writes. No other gets here; it would leave
    /// the image and the buffer.
    fn run_writing(
        &self,
        image: &mut [u8],
        sectors: u32,
        arrangement: u32,
        lent: &mut [u8],
    ) -> Filled {
        match self {
            Command::Save {
                name,
                page,
                start,
                transfer,
                sheet,
                ..
            } => crate::save(
                image,
                sectors,
                arrangement,
                name,
                *page,
                *start,
                *transfer,
                sheet,
                lent,
            ),
            Command::Delete { name, .. } => crate::delete(image, sectors, arrangement, name, lent),
            Command::Rename { old, new, .. } => {
                crate::rename(image, sectors, arrangement, old, new, lent)
            }
            Command::Protect { name, on, .. } => {
                crate::protect(image, sectors, arrangement, name, *on, lent)
            }
            _ => Filled {
                number: 0,
                length: 0,
            },
        }
    }
}
