//! What is timed: calls on a disc that leave it as they found it, so that
//! they can be repeated by both programs in turn.

use crate::discs::{Disc, LEFT_FREE, LEFT_FREE_FOR_LARGE};
use crate::measure::Work;
use crate::program::{Program, SECOND};
use compare::writing::{LONGEST_LIST, RECORD};

/// Takes one sector.
const SMALL_BYTES: usize = 200;
const SAVED_BYTES: usize = 2000;
/// Takes 36 sectors.
const LARGE_BYTES: usize = 9000;
const NEW_NAME: &[u8] = b"NEW.FIL";
const DISC_NAME: &[u8] = b"BENCH";
/// Holds every answer.
const BUFFER_BYTES: usize = 65_536;

/// Save, delete, rename and protect give their lists of writes.
#[derive(Debug, Clone, Copy, PartialEq, Eq)]
pub enum Operation {
    Check,
    List,
    Read,
    SaveSmall,
    SaveAndDelete,
    SaveLarge,
    /// The file's three sectors are brought back by a replay.
    DeleteAndReplay,
    Rename,
    Protect,
    /// Of the list of a small and of a large save, on the disc that has the file
    /// already.
    ReplaySmall,
    ReplayLarge,
    Repair,
    /// A save that lacks its last write, which a replay brings about, then the
    /// repair.
    RepairOfCut,
    Blank,
    ViewNumber,
}

impl Operation {
    pub const ALL: [Operation; 15] = [
        Operation::Check,
        Operation::List,
        Operation::Read,
        Operation::SaveSmall,
        Operation::SaveAndDelete,
        Operation::SaveLarge,
        Operation::DeleteAndReplay,
        Operation::Rename,
        Operation::Protect,
        Operation::ReplaySmall,
        Operation::ReplayLarge,
        Operation::Repair,
        Operation::RepairOfCut,
        Operation::Blank,
        Operation::ViewNumber,
    ];

    pub fn name(self) -> &'static str {
        match self {
            Operation::Check => "check",
            Operation::List => "list",
            Operation::Read => "read",
            Operation::SaveSmall => "small save + delete",
            Operation::SaveAndDelete => "save + delete",
            Operation::SaveLarge => "large save + delete",
            Operation::DeleteAndReplay => "delete and replay back",
            Operation::Rename => "rename and back",
            Operation::Protect => "protect on and off",
            Operation::ReplaySmall => "replay of a small save",
            Operation::ReplayLarge => "replay of a large save",
            Operation::Repair => "repair",
            Operation::RepairOfCut => "cut a save and repair",
            Operation::Blank => "blank",
            Operation::ViewNumber => "view number",
        }
    }

    /// How many bytes are saved, if any are.
    fn sheet_bytes(self) -> usize {
        match self {
            Operation::SaveSmall | Operation::ReplaySmall => SMALL_BYTES,
            Operation::SaveLarge | Operation::ReplayLarge => LARGE_BYTES,
            _ => SAVED_BYTES,
        }
    }

    /// How many sectors a disc for it has free.
    pub fn left_free(self) -> usize {
        match self {
            Operation::SaveLarge | Operation::ReplayLarge => LEFT_FREE_FOR_LARGE,
            _ => LEFT_FREE,
        }
    }
}

/// An operation with everything that its calls are lent, made before any time
/// is taken and lent to both programs alike.
#[derive(Debug, Clone, PartialEq, Eq)]
pub struct Lent {
    operation: Operation,
    image: Vec<u8>,
    sectors: u32,
    arrangement: u32,
    file: Vec<u8>,
    sheet: Vec<u8>,
    buffer: Vec<u8>,
    /// For the lists of the commands.
    writes: Vec<u8>,
    /// The list that is replayed.
    list: Vec<u8>,
    last_track: u32,
}

impl Lent {
    pub fn new(operation: Operation, disc: &Disc) -> Lent {
        let length = operation.sheet_bytes();
        let mut lent = Lent {
            operation,
            image: disc.image.clone(),
            sectors: disc.kind.sectors(),
            arrangement: disc.kind.arrangement(),
            file: disc.file.clone(),
            sheet: (0..length).map(|at| (at * 11) as u8).collect(),
            buffer: vec![0; BUFFER_BYTES],
            writes: vec![0; LONGEST_LIST],
            list: Vec::new(),
            last_track: disc.last_track(),
        };
        lent.make_list();
        lent
    }

    /// A save is made by the second program and its list kept, without the last
    /// write if it is to be cut. Of a delete, made on a copy, the same sectors are
    /// kept as they stand before it. A refused one has a list of no bytes, which is
    /// refused too.
    fn make_list(&mut self) {
        match self.operation {
            Operation::ReplaySmall | Operation::ReplayLarge => {
                self.save(&SECOND);
                self.list = self.written();
            }
            Operation::DeleteAndReplay => {
                let mut deleted = self.clone();
                deleted.delete(&SECOND);
                self.list = deleted.written();
                self.take_back();
            }
            Operation::RepairOfCut => {
                let mut saved = self.clone();
                saved.save(&SECOND);
                self.list = saved.written();
                self.leave_last_out();
            }
            _ => {}
        }
    }

    /// Takes the last record out of the list, if it has any.
    fn leave_last_out(&mut self) {
        let records = self.list.len() / RECORD;
        if records > 0 {
            let last = RECORD * (records - 1);
            self.list.drain(last..last + RECORD);
        }
    }

    /// The list at the front of the writes, which hold zeros behind it.
    fn written(&self) -> Vec<u8> {
        let records = self
            .writes
            .chunks(RECORD)
            .take_while(|record| record[0] != 0);
        let mut list = records.collect::<Vec<_>>().concat();
        if !list.is_empty() {
            list.push(0);
        }
        list
    }

    /// Gives the records of the list the bytes that the image has.
    fn take_back(&mut self) {
        let (sectors, arrangement) = (self.sectors, self.arrangement);
        for record in self.list.chunks_exact_mut(RECORD) {
            let (track, sector) = (u32::from(record[1]), u32::from(record[2]));
            let start = reference::view_start(&self.image, sectors, arrangement, track, sector);
            let start = start as usize - 2;
            record[3..].copy_from_slice(&self.image[start..start + 256]);
        }
    }
}

impl Work for Lent {
    /// Gives the sum of the numbers that the calls answer, which is 0 if all was
    /// done.
    #[inline(never)]
    fn repeat(&mut self, program: &Program, times: u32) -> u64 {
        match self.operation {
            Operation::Check => summed(times, || self.check(program)),
            Operation::List => summed(times, || self.list(program)),
            Operation::Read => summed(times, || self.read(program)),
            Operation::SaveSmall | Operation::SaveAndDelete | Operation::SaveLarge => {
                summed(times, || self.save_and_delete(program))
            }
            Operation::DeleteAndReplay => summed(times, || self.delete_and_replay(program)),
            Operation::Rename => summed(times, || self.rename_and_back(program)),
            Operation::Protect => summed(times, || self.protect_on_and_off(program)),
            Operation::ReplaySmall | Operation::ReplayLarge => {
                summed(times, || self.replay(program))
            }
            Operation::Repair => summed(times, || self.repair(program)),
            Operation::RepairOfCut => summed(times, || self.cut_and_repair(program)),
            Operation::Blank => summed(times, || self.blank(program)),
            Operation::ViewNumber => summed(times, || self.view_number(program)),
        }
    }
}

fn summed(times: u32, mut call: impl FnMut() -> u32) -> u64 {
    (0..times).map(|_| u64::from(call())).sum()
}

impl Lent {
    fn check(&self, program: &Program) -> u32 {
        let checked = (program.check)(&self.image, self.sectors, self.arrangement);
        checked.number + checked.rule
    }

    fn list(&mut self, program: &Program) -> u32 {
        let (sectors, arrangement) = (self.sectors, self.arrangement);
        (program.list)(&self.image, sectors, arrangement, &mut self.buffer).number
    }

    fn read(&mut self, program: &Program) -> u32 {
        let (sectors, arrangement) = (self.sectors, self.arrangement);
        let (image, buffer) = (&self.image, &mut self.buffer);
        (program.read)(image, sectors, arrangement, &self.file, buffer).number
    }

    fn save(&mut self, program: &Program) -> u32 {
        let (sectors, arrangement) = (self.sectors, self.arrangement);
        let (image, sheet, writes) = (&mut self.image, &self.sheet, &mut self.writes);
        (program.save)(
            image,
            sectors,
            arrangement,
            NEW_NAME,
            0,
            0x2000,
            0x2000,
            sheet,
            writes,
        )
        .number
    }

    fn save_and_delete(&mut self, program: &Program) -> u32 {
        let saved = self.save(program);
        let (sectors, arrangement) = (self.sectors, self.arrangement);
        let (image, writes) = (&mut self.image, &mut self.writes);
        saved + (program.delete)(image, sectors, arrangement, NEW_NAME, writes).number
    }

    fn delete(&mut self, program: &Program) -> u32 {
        let (sectors, arrangement) = (self.sectors, self.arrangement);
        let (image, writes) = (&mut self.image, &mut self.writes);
        (program.delete)(image, sectors, arrangement, &self.file, writes).number
    }

    fn replay(&mut self, program: &Program) -> u32 {
        let (sectors, arrangement) = (self.sectors, self.arrangement);
        (program.replay)(&mut self.image, sectors, arrangement, &self.list)
    }

    fn repair(&mut self, program: &Program) -> u32 {
        (program.repair)(&mut self.image, self.sectors, self.arrangement)
    }

    fn cut_and_repair(&mut self, program: &Program) -> u32 {
        self.replay(program) + self.repair(program)
    }

    fn delete_and_replay(&mut self, program: &Program) -> u32 {
        self.delete(program) + self.replay(program)
    }

    fn rename_and_back(&mut self, program: &Program) -> u32 {
        let (sectors, arrangement) = (self.sectors, self.arrangement);
        let (image, file, writes) = (&mut self.image, &self.file, &mut self.writes);
        (program.rename)(image, sectors, arrangement, file, NEW_NAME, writes).number
            + (program.rename)(image, sectors, arrangement, NEW_NAME, file, writes).number
    }

    fn protect_on_and_off(&mut self, program: &Program) -> u32 {
        let (sectors, arrangement) = (self.sectors, self.arrangement);
        let (image, file, writes) = (&mut self.image, &self.file, &mut self.writes);
        (program.protect)(image, sectors, arrangement, file, 1, writes).number
            + (program.protect)(image, sectors, arrangement, file, 0, writes).number
    }

    fn blank(&mut self, program: &Program) -> u32 {
        (program.blank)(&mut self.image, self.sectors, self.arrangement, DISC_NAME)
    }

    /// Of the last sector.
    fn view_number(&self, program: &Program) -> u32 {
        let (sectors, arrangement) = (self.sectors, self.arrangement);
        (program.view_number)(&self.image, sectors, arrangement, self.last_track, sectors)
    }
}

#[cfg(test)]
mod tests {
    use super::*;
    use crate::discs;
    use compare::kind::Kind;

    #[test]
    fn what_is_replayed_is_as_long_as_its_command_makes_it() {
        for kind in Kind::ALL {
            let disc = discs::few_large_files(kind, 5, LEFT_FREE_FOR_LARGE);
            let records = |operation| Lent::new(operation, &disc).list.len() / RECORD;
            assert_eq!(records(Operation::ReplaySmall), 1 + 2);
            assert_eq!(records(Operation::ReplayLarge), 36 + 2);
            assert_eq!(records(Operation::DeleteAndReplay), 3);
            // A save of eight sectors without its last write.
            assert_eq!(records(Operation::RepairOfCut), 8 + 1);
            assert_eq!(records(Operation::SaveLarge), 0);
        }
    }
}
