//! What occurred of the lists of writes and their replays where one kind of disc
//! was stated, and what should have but did not.

use crate::calls::{Call, BAD_LIST, SHORT};
use crate::kind::Kind;
use crate::list_case::{fault, places, Fault};
use crate::marks::{Marks, Occasion};
use crate::writing::LONGEST_LIST;
use reference::command::Command;
use std::collections::BTreeMap;
use std::fmt::{Formatter, Result};

const DONE: u32 = 0;
const SYSTEM: [u8; 2] = [0, 1];
const LISTING: [Call; 4] = [Call::Save, Call::Delete, Call::Rename, Call::Protect];

/// How a lent buffer fits the list.
#[derive(Debug, Clone, Copy, PartialEq, Eq, PartialOrd, Ord)]
pub enum Room {
    Empty,
    Shorter,
    OneShort,
    Exact,
    Longer,
}

impl Room {
    const ALL: [Room; 5] = [
        Room::Empty,
        Room::Shorter,
        Room::OneShort,
        Room::Exact,
        Room::Longer,
    ];

    fn of(lent: usize, list: usize) -> Room {
        match lent {
            0 => Room::Empty,
            _ if lent + 1 == list => Room::OneShort,
            _ if lent < list => Room::Shorter,
            _ if lent == list => Room::Exact,
            _ => Room::Longer,
        }
    }

    fn name(self) -> &'static str {
        match self {
            Room::Empty => "no buffer",
            Room::Shorter => "a shorter buffer",
            Room::OneShort => "a buffer one byte shorter",
            Room::Exact => "a buffer as long as the list",
            Room::Longer => "a longer buffer",
        }
    }
}

/// What must occur beside.
#[derive(Debug, Clone, Copy, PartialEq, Eq, PartialOrd, Ord)]
pub enum Mark {
    Grown,
    GrownOneShort,
    Longest,
    Unchanged,
    EndAlone,
    System,
    Twice,
    LongerThanDisc,
    OnUnsound,
    RefusedAmid,
    AnewAtOnce,
    Silent,
    AnewLater,
}

impl Occasion for Mark {
    const ALL: &'static [Mark] = &[
        Mark::Grown,
        Mark::GrownOneShort,
        Mark::Longest,
        Mark::Unchanged,
        Mark::EndAlone,
        Mark::System,
        Mark::Twice,
        Mark::LongerThanDisc,
        Mark::OnUnsound,
        Mark::RefusedAmid,
        Mark::AnewAtOnce,
        Mark::Silent,
        Mark::AnewLater,
    ];

    fn name(self) -> &'static str {
        match self {
            Mark::Grown => "a list with a new directory sector",
            Mark::GrownOneShort => "such a list one byte longer than its buffer",
            Mark::Longest => "a list of 263 writes",
            Mark::Unchanged => "a list of a sector that stays as it was",
            Mark::EndAlone => "a replay of the end alone",
            Mark::System => "a replay that writes 0/1",
            Mark::Twice => "a replay that writes a sector twice",
            Mark::LongerThanDisc => "a replay of more writes than the disc has sectors",
            Mark::OnUnsound => "a replay done on an image that is not sound",
            Mark::RefusedAmid => "a refused replay amid a history",
            Mark::AnewAtOnce => "a replay after which a history starts at once",
            Mark::Silent => "a replay after which there is none",
            Mark::AnewLater => "a history that starts later than a replay",
        }
    }
}

/// What the history says of a command before it is made.
#[derive(Debug, Clone, Copy, Default)]
pub struct Said {
    /// There is a history.
    pub history: bool,
    /// A replay has ended it, and no image was sound since.
    pub silenced: bool,
    /// A card was pulled and not repaired since, so that there is none.
    pub pulled: bool,
    /// How long the list is, if the command is accepted.
    pub list: Option<usize>,
    /// A save would make the directory grow.
    pub grows: bool,
}

/// A command that is over.
#[derive(Debug, Clone, Copy)]
pub struct Made<'a> {
    pub command: &'a Command,
    pub number: u32,
    pub tracks: usize,
    pub said: Said,
    /// What the check says of the image before.
    pub rule: u32,
    /// The writes made before the card was pulled, and those of the list.
    pub cut: Option<(usize, usize)>,
    /// The image is another than before.
    pub changed: bool,
    /// The image says that it has no free sector.
    pub none_free: bool,
    /// There is a history now.
    pub history: bool,
}

#[derive(Debug, Default)]
pub struct ListTally {
    rooms: BTreeMap<(Call, Room), u64>,
    faults: BTreeMap<Fault, u64>,
    marks: Marks<Mark>,
}

impl ListTally {
    pub fn command(&mut self, made: Made<'_>, kind: Kind) {
        match made.command {
            Command::Replay { writes } => self.replay(made, writes, kind),
            _ => self.listing(made),
        }
        if made.said.silenced && made.history {
            self.mark(true, Mark::AnewLater);
        }
    }

    fn listing(&mut self, made: Made<'_>) {
        let lent = made.command.lent_for_writes();
        let (lent, list) = match lent.zip(made.said.list) {
            Some((lent, list)) if [DONE, SHORT].contains(&made.number) => (lent.length, list),
            _ => return,
        };
        let call = Call::of(made.command);
        let room = Room::of(lent, list);
        *self.rooms.entry((call, room)).or_default() += 1;
        let (done, grows) = (made.number == DONE, made.said.grows);
        self.mark(done && grows, Mark::Grown);
        self.mark(grows && room == Room::OneShort, Mark::GrownOneShort);
        self.mark(done && list == LONGEST_LIST, Mark::Longest);
        self.mark(done && !made.changed, Mark::Unchanged);
    }

    fn replay(&mut self, made: Made<'_>, list: &[u8], kind: Kind) {
        let fault = fault(list, made.tracks, kind);
        if let (BAD_LIST, Some(fault)) = (made.number, fault) {
            *self.faults.entry(fault).or_default() += 1;
            self.mark(made.said.history, Mark::RefusedAmid);
        }
        if made.number != DONE {
            return;
        }
        let mut places = places(list);
        let records = places.len();
        self.mark(records == 0, Mark::EndAlone);
        self.mark(places.contains(&SYSTEM), Mark::System);
        let sectors = made.tracks * kind.sectors() as usize;
        self.mark(records > sectors, Mark::LongerThanDisc);
        places.sort_unstable();
        places.dedup();
        self.mark(places.len() < records, Mark::Twice);
        self.mark(!made.said.history && !made.said.pulled, Mark::OnUnsound);
        self.mark(made.history && made.said.history, Mark::AnewAtOnce);
        self.mark(!made.history && made.said.history, Mark::Silent);
    }

    fn mark(&mut self, occurred: bool, mark: Mark) {
        self.marks.mark(occurred, mark);
    }

    /// Names of what must occur where a kind of disc is stated and did not.
    pub fn missing(&self) -> Vec<String> {
        let rooms = rooms()
            .filter(|room| !self.rooms.contains_key(room))
            .map(|(call, room)| format!("{} lent {}", call.name(), room.name()));
        let faults = Fault::all()
            .filter(|fault| !self.faults.contains_key(fault))
            .map(|fault| format!("replay of a list with {}", fault.name()));
        rooms.chain(faults).chain(self.marks.missing()).collect()
    }

    pub fn write(&self, out: &mut Formatter<'_>) -> Result {
        for room in Room::ALL {
            let counts = LISTING.map(|call| {
                let count = self.rooms.get(&(call, room)).unwrap_or(&0);
                format!("{}: {count}", call.name())
            });
            writeln!(out, "lent {}: {}", room.name(), counts.join(", "))?;
        }
        for fault in Fault::all() {
            let count = self.faults.get(&fault).unwrap_or(&0);
            writeln!(out, "bad list: {}: {count}", fault.name())?;
        }
        self.marks.write(out)
    }
}

fn rooms() -> impl Iterator<Item = (Call, Room)> {
    let of = |call| Room::ALL.map(|room| (call, room));
    LISTING.into_iter().flat_map(of)
}

#[cfg(test)]
impl ListTally {
    pub fn full() -> ListTally {
        ListTally {
            rooms: rooms().map(|room| (room, 1)).collect(),
            faults: Fault::all().map(|fault| (fault, 1)).collect(),
            marks: Marks::full(),
        }
    }
}

#[cfg(test)]
mod tests {
    use super::*;
    use crate::list_case::Bad;
    use reference::command::Buffer;

    fn counted(made: Made<'_>) -> ListTally {
        let mut tally = ListTally::default();
        tally.command(made, Kind::Nine);
        tally
    }

    fn protect(lent: usize) -> Command {
        Command::Protect {
            name: Vec::new(),
            on: 1,
            writes: Buffer {
                length: lent,
                fill: 0,
            },
        }
    }

    fn made(command: &Command, number: u32) -> Made<'_> {
        Made {
            command,
            number,
            tracks: 2,
            said: Said {
                history: true,
                list: Some(260),
                ..Said::default()
            },
            rule: 0,
            cut: None,
            changed: true,
            none_free: false,
            history: true,
        }
    }

    #[test]
    fn nothing_is_missing_where_all_occurred() {
        assert_eq!(ListTally::full().missing(), Vec::<String>::new());
        let all = 4 * 5 + 18 + 13;
        assert_eq!(ListTally::default().missing().len(), all);
    }

    #[test]
    fn what_did_not_occur_is_named() {
        let mut tally = ListTally::full();
        tally.rooms.remove(&(Call::Delete, Room::OneShort));
        tally.marks.remove(Mark::Grown);
        tally.faults.remove(&Fault {
            bad: Bad::AfterLast,
            behind_writes: true,
        });
        let expected = [
            "delete lent a buffer one byte shorter",
            "replay of a list with the sector after the last, behind good records",
            "a list with a new directory sector",
        ];
        assert_eq!(tally.missing(), expected);
    }

    #[test]
    fn a_buffer_is_counted_by_how_it_fits_and_by_no_other_refusal() {
        for (lent, number, room) in [
            (0, SHORT, Room::Empty),
            (17, SHORT, Room::Shorter),
            (259, SHORT, Room::OneShort),
            (260, DONE, Room::Exact),
            (261, DONE, Room::Longer),
        ] {
            let tally = counted(made(&protect(lent), number));
            let once = BTreeMap::from([((Call::Protect, room), 1)]);
            assert_eq!(tally.rooms, once);
            assert!(tally.marks.met().is_empty());
        }
        assert!(counted(made(&protect(0), 4)).rooms.is_empty());
        let protect = protect(260);
        let unchanged = Made {
            changed: false,
            ..made(&protect, DONE)
        };
        assert!(counted(unchanged).marks.met().contains(&Mark::Unchanged));
    }

    fn marks_of(writes: &[u8], number: u32, said: Said, history: bool) -> Vec<Mark> {
        let command = Command::Replay {
            writes: writes.to_vec(),
        };
        let tally = counted(Made {
            said,
            history,
            ..made(&command, number)
        });
        tally.marks.met()
    }

    #[test]
    fn a_replay_is_counted_by_its_list_and_by_the_histories_around_it() {
        let with = |history, silenced| Said {
            history,
            silenced,
            ..Said::default()
        };
        let amid = with(true, false);
        let alone = [Mark::EndAlone, Mark::AnewAtOnce];
        assert_eq!(marks_of(&[0], DONE, amid, true), alone);
        assert_eq!(marks_of(&[1], BAD_LIST, amid, true), [Mark::RefusedAmid]);
        let record = [vec![3, 0, 1], vec![7; 256]].concat();
        let once = [&record[..], &[0]].concat();
        let silent = [Mark::System, Mark::Silent];
        assert_eq!(marks_of(&once, DONE, amid, false), silent);
        let twice = [&record[..], &once].concat();
        let later = [Mark::System, Mark::Twice, Mark::OnUnsound, Mark::AnewLater];
        assert_eq!(marks_of(&twice, DONE, with(false, true), true), later);
    }
}
