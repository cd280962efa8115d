//! The two laws of request h, asked of the library after a command that it has
//! accepted: a save and the delete of its file cancel, and two renames are one.
//! What the further calls leave is compared with the second program, too.

use crate::difference::sector_around;
use crate::discs;
use crate::kind::Kind;
use crate::law_tally::LawTally;
use crate::lend::Lent;
use crate::pair::on_both;
use crate::writing::{Writing, RECORD};
use reference::cancels::{cancelled, excepted, joined};
use reference::command::{Answer, Buffer, Command};
use reference::generate::{fresh_name, illegal_name, standing_names, Random};
use reference::writes_book::list_length;

const WRITES_OF_DELETE: usize = 3;
const WRITES_OF_RENAME: usize = 1;
/// One buffer in so many of a second rename is a byte too short.
const SHORT_IN: usize = 6;
/// One in so many of the others is longer than it has to be.
const LONGER_IN: usize = 3;

/// A call on a copy of an image: its answer, and what it leaves.
type OnCopy = fn(&mut Random, &Accepted<'_>, &[u8], &Command) -> Result<(Answer, Vec<u8>), String>;

/// An accepted command, and the image before and after it.
#[derive(Clone, Copy)]
pub struct Accepted<'a> {
    pub kind: Kind,
    pub writing: Writing,
    pub command: &'a Command,
    pub before: &'a [u8],
    pub after: &'a [u8],
    /// By both programs, unless a test leaves the second one out.
    pub on_copy: OnCopy,
}

/// A call by the library, compared with the second program's.
pub fn by_both(
    random: &mut Random,
    accepted: &Accepted<'_>,
    image: &[u8],
    command: &Command,
) -> Result<(Answer, Vec<u8>), String> {
    let tools = (accepted.writing, accepted.kind.numbers());
    let (mut library, mut second) = (Lent::new(random, image), image.to_vec());
    let answer = on_both(random, tools, command, &mut library, &mut second)?;
    Ok((answer, second))
}

impl Accepted<'_> {
    /// Makes the calls of the law that speaks of the command, if one does, and
    /// judges what they leave.
    pub fn ask(&self, random: &mut Random, tally: &mut LawTally) -> Result<(), String> {
        match self.command {
            Command::Save { name, sheet, .. } => self
                .delete(random, (name, sheet.len()), tally)
                .map_err(|text| format!("deleted directly then: {text}")),
            Command::Rename { old, new, writes } => {
                let third = self.some_third(random, [old, new]);
                self.rename_on(random, [old, new, &third], *writes, tally)
                    .map_err(|text| {
                        let third = String::from_utf8_lossy(&third);
                        format!("renamed directly then to '{third}': {text}")
                    })
            }
            _ => Ok(()),
        }
    }

    fn delete(
        &self,
        random: &mut Random,
        (name, length): (&[u8], usize),
        tally: &mut LawTally,
    ) -> Result<(), String> {
        let (sectors, arrangement) = (self.kind.sectors(), self.kind.arrangement());
        let places = match excepted(self.before, sectors, arrangement, length) {
            Some(places) => places,
            None => return self.left_out(tally),
        };
        let writes = enough(random, WRITES_OF_DELETE);
        let delete = delete_of(name, writes);
        let (answer, back) = (self.on_copy)(random, self, self.after, &delete)?;
        if !answer.accepted() {
            return Err(format!("refused with {}", answer.number()));
        }
        let numbers = self.kind.numbers();
        cancelled(self.before, &back, &places).map_err(|at| {
            let place = sector_around(&back, numbers, at).unwrap_or_default();
            format!("byte {at}{place} is not as before the save")
        })?;
        tally.pair(self, writes.length == list_length(WRITES_OF_DELETE));
        Ok(())
    }

    /// The law leaves out a save that needs a new directory sector, and no other.
    fn left_out(&self, tally: &mut LawTally) -> Result<(), String> {
        let directory = |image: &[u8]| discs::directory_sectors(image, self.kind).len();
        if directory(self.after) == directory(self.before) {
            return Err("the law leaves it out".to_string());
        }
        tally.left_out();
        Ok(())
    }

    /// The first two names are those of the command, lent so many bytes.
    fn rename_on(
        &self,
        random: &mut Random,
        names @ [a, b, c]: [&[u8]; 3],
        lent: Buffer,
        tally: &mut LawTally,
    ) -> Result<(), String> {
        let writes = mostly_enough(random);
        let second = rename_of(b, c, writes);
        let (answer, both) = (self.on_copy)(random, self, self.after, &second)?;
        let direct = rename_of(a, c, lent);
        let (of_direct, alone) = (self.on_copy)(random, self, self.before, &direct)?;
        if answer.accepted() {
            joined(self.before, &both, (of_direct.number(), &alone), a, c)?;
        }
        tally.triple(self, names, answer.number());
        Ok(())
    }

    /// A name for the second rename, after one of these two to the other.
    fn some_third(&self, random: &mut Random, [a, b]: [&[u8]; 2]) -> Vec<u8> {
        let (sectors, arrangement) = (self.kind.sectors(), self.kind.arrangement());
        match random.below(16) {
            0..=4 => a.to_vec(),
            5 => b.to_vec(),
            6..=8 => {
                let standing = standing_names(self.after, sectors, arrangement);
                standing[random.below(standing.len())].clone()
            }
            9 | 10 => illegal_name(random),
            _ => fresh_name(random),
        }
    }
}

pub fn delete_of(name: &[u8], writes: Buffer) -> Command {
    Command::Delete {
        name: name.to_vec(),
        writes,
    }
}

pub fn rename_of(old: &[u8], new: &[u8], writes: Buffer) -> Command {
    Command::Rename {
        old: old.to_vec(),
        new: new.to_vec(),
        writes,
    }
}

/// Just enough for a list of so many writes, or more.
fn enough(random: &mut Random, writes: usize) -> Buffer {
    let longer = match random.one_in(LONGER_IN) {
        true => random.between(1, RECORD),
        false => 0,
    };
    Buffer {
        length: list_length(writes) + longer,
        fill: random.byte(),
    }
}

fn mostly_enough(random: &mut Random) -> Buffer {
    let buffer = enough(random, WRITES_OF_RENAME);
    match random.one_in(SHORT_IN) {
        true => Buffer {
            length: list_length(WRITES_OF_RENAME) - 1,
            ..buffer
        },
        false => buffer,
    }
}

#[cfg(test)]
mod tests {
    use super::*;
    use crate::writing::{LONGEST_LIST, OF_LIBRARY};
    use reference::generate::capacity;
    use std::collections::BTreeSet;

    const ROOM: Buffer = Buffer {
        length: LONGEST_LIST,
        fill: 1,
    };

    /// Each law is asked so often, of other names.
    const TIMES: u64 = 20;

    fn save(sheet: Vec<u8>) -> Command {
        Command::Save {
            name: b"NEW".to_vec(),
            page: 0,
            start: 0,
            transfer: 0,
            sheet,
            writes: ROOM,
        }
    }

    /// Makes the command on a disc with so many files; `spoil` gets the disc before
    /// it and after it, then the law is asked. All that it tells, or the counts.
    fn ask(
        kind: Kind,
        files: usize,
        command: &Command,
        spoil: impl Fn([&mut [u8]; 2]),
    ) -> Result<LawTally, String> {
        let random = &mut Random::new(75);
        let mut before = discs::blank(random, kind, 4);
        for number in 0..files {
            let name = format!("F{number}");
            assert_eq!(discs::save(&mut before, kind, name.as_bytes(), &[1]), 0);
        }
        let mut after = before.clone();
        let answer = command.run(&mut after, kind.sectors(), kind.arrangement());
        assert!(answer.accepted());
        spoil([&mut before, &mut after]);
        let accepted = Accepted {
            kind,
            writing: OF_LIBRARY,
            command,
            before: &before,
            after: &after,
            on_copy: by_both,
        };
        let mut tally = LawTally::default();
        let asked = (0..TIMES).map(|_| accepted.ask(random, &mut tally).err());
        let faults: BTreeSet<String> = asked.flatten().collect();
        match faults.is_empty() {
            true => Ok(tally),
            false => Err(faults.into_iter().collect::<Vec<_>>().join("; ")),
        }
    }

    fn told(kind: Kind, command: &Command, spoil: impl Fn([&mut [u8]; 2])) -> String {
        ask(kind, 2, command, spoil).err().unwrap_or_default()
    }

    #[test]
    fn right_calls_keep_the_laws() {
        for kind in Kind::ALL {
            let all = capacity(4 * kind.sectors() as usize - 4);
            let rename = rename_of(b"F1", b"NEW", ROOM);
            for (command, made) in [
                (save(vec![7; 300]), (TIMES, 0)),
                (save(vec![7; all]), (TIMES, 0)),
                (rename, (0, TIMES)),
            ] {
                let tally = ask(kind, 2, &command, |_| ()).expect("no fault");
                assert_eq!((tally.pairs, tally.triples), made);
            }
        }
    }

    #[test]
    fn a_byte_that_is_other_than_it_was_is_told() {
        let last = |image: &mut [u8]| *image.last_mut().expect("a disc") ^= 1;
        for kind in Kind::ALL {
            let text = told(kind, &save(vec![7; 300]), |[before, _]| last(before));
            assert!(text.contains("is not as before the save"));
            let rename = rename_of(b"F1", b"NEW", ROOM);
            let text = told(kind, &rename, |[_, after]| last(after));
            assert!(text.contains("isn't as at the start"));
            assert!(text.contains("isn't as after A to C"));
        }
    }

    #[test]
    fn a_refused_delete_is_told() {
        for kind in Kind::ALL {
            let protect = |[_, after]: [&mut [u8]; 2]| {
                let slot = discs::slots(after, kind)[2];
                after[slot + discs::ATTRIBUTE] = 0x80;
            };
            let text = told(kind, &save(vec![7; 300]), protect);
            assert_eq!(text, "deleted directly then: refused with 6");
        }
    }

    #[test]
    fn only_a_save_that_makes_the_directory_grow_is_left_out() {
        let command = save(vec![7; 300]);
        for kind in Kind::ALL {
            let full = discs::SLOTS_PER_DIRECTORY_SECTOR;
            let grown = ask(kind, full, &command, |_| ()).expect("no fault");
            assert_eq!(grown.pairs, 0);
            // On a disc that is not sound the judge knows no save.
            let text = told(kind, &command, |[before, _]| before[0x14] ^= 1);
            assert!(text.contains("leaves it out"));
        }
    }
}
