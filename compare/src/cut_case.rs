//! Lists of writes cut after any of their records, and how far the command got.

use crate::calls::Call;
use crate::writing::RECORD;
use reference::command::Command;

/// How many writes a good list has.
pub fn writes_in(list: &[u8]) -> usize {
    list.len() / RECORD
}

/// The first writes of a good list as a list of their own.
pub fn cut_list(list: &[u8], made: usize) -> Vec<u8> {
    [&list[..RECORD * made], &[0]].concat()
}

/// How far a command got before the card was pulled.
#[derive(Debug, Clone, Copy, PartialEq, Eq, PartialOrd, Ord)]
pub enum Stage {
    Nothing,
    System,
    PartOfFile,
    WholeFile,
    /// The directory's new sector, to which nothing links yet.
    NewDirectory,
    Entry,
    LastSector,
    All,
}

impl Stage {
    pub fn of(command: &Command, grows: bool, made: usize, writes: usize) -> Stage {
        let of_directory = 1 + usize::from(grows);
        match (command, made) {
            (_, 0) => Stage::Nothing,
            _ if made == writes => Stage::All,
            (Command::Save { .. }, 1) => Stage::System,
            (Command::Save { .. }, _) if made + of_directory < writes => Stage::PartOfFile,
            (Command::Save { .. }, _) if made + of_directory == writes => Stage::WholeFile,
            (Command::Save { .. }, _) => Stage::NewDirectory,
            (_, 1) => Stage::Entry,
            _ => Stage::LastSector,
        }
    }

    /// Those at which a command with a list can be cut.
    pub fn all_of(call: Call) -> &'static [Stage] {
        match call {
            Call::Save => &[
                Stage::Nothing,
                Stage::System,
                Stage::PartOfFile,
                Stage::WholeFile,
                Stage::NewDirectory,
                Stage::All,
            ],
            Call::Delete => &[Stage::Nothing, Stage::Entry, Stage::LastSector, Stage::All],
            _ => &[Stage::Nothing, Stage::All],
        }
    }

    pub fn name(self) -> &'static str {
        match self {
            Stage::Nothing => "before the first write",
            Stage::System => "after the system sector",
            Stage::PartOfFile => "amid the file",
            Stage::WholeFile => "after the file",
            Stage::NewDirectory => "after the new directory sector",
            Stage::Entry => "after the entry",
            Stage::LastSector => "after the last sector",
            Stage::All => "after the last write",
        }
    }
}

#[cfg(test)]
mod tests {
    use super::*;
    use crate::discs;
    use crate::kind::Kind;
    use crate::writing::LONGEST_LIST;
    use reference::command::Buffer;
    use reference::cuts::cut_image;
    use reference::generate::Random;

    const ROOM: Buffer = Buffer {
        length: LONGEST_LIST,
        fill: 0,
    };

    fn save(length: usize) -> Command {
        Command::Save {
            name: b"CUT".to_vec(),
            page: 0,
            start: 0,
            transfer: 0,
            sheet: vec![7; length],
            writes: ROOM,
        }
    }

    #[test]
    fn a_cut_list_replayed_leaves_what_the_card_has() {
        let mut random = Random::new(51);
        for kind in Kind::ALL {
            let (sectors, arrangement) = (kind.sectors(), kind.arrangement());
            let old = discs::blank(&mut random, kind, 2);
            let mut new = old.clone();
            let answer = save(700).run(&mut new, sectors, arrangement);
            let list = answer.list_of_writes().expect("accepted");
            assert_eq!(writes_in(list), 5);
            assert_eq!(cut_list(list, 5), list);
            for made in 0..=5 {
                let mut image = old.clone();
                let cut = cut_list(list, made);
                let number = reference::replay(&mut image, sectors, arrangement, &cut);
                let card = cut_image(&old, sectors, arrangement, list, made);
                assert_eq!((number, Some(image)), (0, card));
            }
        }
    }

    #[test]
    fn stages_follow_the_writes() {
        let stages = |command: &Command, grows, writes| -> Vec<Stage> {
            let at = |made| Stage::of(command, grows, made, writes);
            (0..=writes).map(at).collect()
        };
        use Stage::*;
        let small = [Nothing, System, WholeFile, All];
        assert_eq!(stages(&save(1), false, 3), small);
        let grown = [
            Nothing,
            System,
            PartOfFile,
            PartOfFile,
            WholeFile,
            NewDirectory,
            All,
        ];
        assert_eq!(stages(&save(700), true, 6), grown);
        let name = b"CUT".to_vec();
        let protect = Command::Protect {
            name: name.clone(),
            on: 1,
            writes: ROOM,
        };
        assert_eq!(stages(&protect, false, 1), Stage::all_of(Call::Protect));
        let delete = Command::Delete { name, writes: ROOM };
        assert_eq!(stages(&delete, false, 3), Stage::all_of(Call::Delete));
    }
}
