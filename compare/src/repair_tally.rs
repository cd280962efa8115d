//! What occurred of repairs, and of cards pulled amid a run, where one kind of
//! disc was stated, and what should have but did not.

use crate::calls::SIZE;
use crate::list_tally::Made;
use crate::marks::{Marks, Occasion};
use reference::command::Command;
use reference::cuts::counts_as_done;
use std::collections::BTreeMap;
use std::fmt::{Formatter, Result};

const DONE: u32 = 0;
const LAST_RULE: u32 = 8;

/// What must occur beside a repair of each broken rule.
#[derive(Debug, Clone, Copy, PartialEq, Eq, PartialOrd, Ord)]
pub enum Mark {
    Same,
    Reordered,
    NoneFree,
    AmidHistory,
    CutDone,
    CutNotDone,
    RefusedBetween,
    AcceptedBetween,
    SecondCut,
    ReplayBetween,
    BlankBetween,
    GoneOn,
}

impl Occasion for Mark {
    const ALL: &'static [Mark] = &[
        Mark::Same,
        Mark::Reordered,
        Mark::NoneFree,
        Mark::AmidHistory,
        Mark::CutDone,
        Mark::CutNotDone,
        Mark::RefusedBetween,
        Mark::AcceptedBetween,
        Mark::SecondCut,
        Mark::ReplayBetween,
        Mark::BlankBetween,
        Mark::GoneOn,
    ];

    fn name(self) -> &'static str {
        match self {
            Mark::Same => "a repair that changes nothing",
            Mark::Reordered => "a repair that reorders the free chain of a sound disc",
            Mark::NoneFree => "a repair of a disc without a free sector",
            Mark::AmidHistory => "a repair amid a history, without a cut",
            Mark::CutDone => "a cut command that counts as done",
            Mark::CutNotDone => "a cut command that counts as not done",
            Mark::RefusedBetween => "a command refused between cut and repair",
            Mark::AcceptedBetween => "a command with a list accepted between cut and repair",
            Mark::SecondCut => "a second cut before the repair",
            Mark::ReplayBetween => "a replay between cut and repair",
            Mark::BlankBetween => "a blank disc between cut and repair",
            Mark::GoneOn => "a history that goes on after cut and repair",
        }
    }
}

#[derive(Debug, Default)]
pub struct RepairTally {
    /// By what the check says before the repair.
    rules: BTreeMap<u32, u64>,
    marks: Marks<Mark>,
}

impl RepairTally {
    pub fn command(&mut self, made: Made<'_>) {
        let done = made.number == DONE;
        if made.said.pulled {
            self.between(made, done);
        }
        if let Some((made_writes, writes)) = made.cut {
            let counts = counts_as_done(made.command, writes, made_writes);
            self.mark(counts == Some(true), Mark::CutDone);
            self.mark(counts == Some(false), Mark::CutNotDone);
            self.mark(made.said.pulled, Mark::SecondCut);
        }
        if matches!(made.command, Command::Repair) {
            self.repair(made, done);
        }
    }

    /// A command after a cut, the repair included.
    fn between(&mut self, made: Made<'_>, done: bool) {
        let lists = made.command.lent_for_writes().is_some();
        self.mark(!done, Mark::RefusedBetween);
        self.mark(done && lists && made.cut.is_none(), Mark::AcceptedBetween);
        match made.command {
            Command::Replay { .. } => self.mark(done, Mark::ReplayBetween),
            Command::Blank { .. } => self.mark(done, Mark::BlankBetween),
            Command::Repair => self.mark(done && made.history, Mark::GoneOn),
            _ => {}
        }
    }

    fn repair(&mut self, made: Made<'_>, done: bool) {
        // An image of a wrong size breaks no rule.
        if made.number != SIZE {
            *self.rules.entry(made.rule).or_default() += 1;
        }
        self.mark(done && !made.changed, Mark::Same);
        self.mark(done && made.changed && made.rule == 0, Mark::Reordered);
        self.mark(done && made.none_free, Mark::NoneFree);
        self.mark(done && made.said.history, Mark::AmidHistory);
    }

    fn mark(&mut self, occurred: bool, mark: Mark) {
        self.marks.mark(occurred, mark);
    }

    /// Names of what must occur where a kind of disc is stated and did not.
    pub fn missing(&self) -> Vec<String> {
        let rules = (0..=LAST_RULE)
            .filter(|rule| !self.rules.contains_key(rule))
            .map(|rule| format!("a repair where the check says {rule}"));
        rules.chain(self.marks.missing()).collect()
    }

    pub fn write(&self, out: &mut Formatter<'_>) -> Result {
        let rules = (0..=LAST_RULE).map(|rule| {
            let count = self.rules.get(&rule).unwrap_or(&0);
            format!("{rule}: {count}")
        });
        let rules: Vec<String> = rules.collect();
        writeln!(out, "repairs where the check says {}", rules.join(", "))?;
        self.marks.write(out)
    }
}

#[cfg(test)]
impl RepairTally {
    pub fn full() -> RepairTally {
        RepairTally {
            rules: (0..=LAST_RULE).map(|rule| (rule, 1)).collect(),
            marks: Marks::full(),
        }
    }
}

#[cfg(test)]
mod tests {
    use super::*;
    use crate::list_tally::Said;
    use reference::command::Buffer;

    fn made(command: &Command, number: u32, pulled: bool) -> Made<'_> {
        Made {
            command,
            number,
            tracks: 2,
            said: Said {
                history: !pulled,
                pulled,
                ..Said::default()
            },
            rule: 0,
            cut: None,
            changed: true,
            none_free: false,
            history: !pulled,
        }
    }

    fn marks_of(made: Made<'_>) -> Vec<Mark> {
        let mut tally = RepairTally::default();
        tally.command(made);
        tally.marks.met()
    }

    fn delete() -> Command {
        Command::Delete {
            name: Vec::new(),
            writes: Buffer { length: 0, fill: 0 },
        }
    }

    #[test]
    fn nothing_is_missing_where_all_occurred() {
        assert_eq!(RepairTally::full().missing(), Vec::<String>::new());
        assert_eq!(RepairTally::default().missing().len(), 9 + 12);
    }

    #[test]
    fn what_did_not_occur_is_named() {
        let mut tally = RepairTally::full();
        tally.rules.remove(&4);
        tally.marks.remove(Mark::SecondCut);
        let expected = [
            "a repair where the check says 4",
            "a second cut before the repair",
        ];
        assert_eq!(tally.missing(), expected);
    }

    #[test]
    fn a_repair_is_counted_by_the_rule_and_by_what_it_changes() {
        let amid = made(&Command::Repair, DONE, false);
        let reordered = [Mark::Reordered, Mark::AmidHistory];
        assert_eq!(marks_of(amid), reordered);
        let same = Made {
            rule: 8,
            changed: false,
            none_free: true,
            history: false,
            said: Said::default(),
            ..amid
        };
        assert_eq!(marks_of(same), [Mark::Same, Mark::NoneFree]);
        let refused = made(&Command::Repair, 3, false);
        assert_eq!(marks_of(refused), []);
        let mut tally = RepairTally::default();
        tally.command(same);
        tally.command(made(&Command::Repair, SIZE, false));
        assert_eq!(tally.rules, BTreeMap::from([(8, 1)]));
    }

    #[test]
    fn what_comes_between_cut_and_repair_is_counted() {
        let delete = delete();
        let cut = |at, pulled| Made {
            cut: Some((at, 3)),
            ..made(&delete, DONE, pulled)
        };
        assert_eq!(marks_of(cut(0, false)), [Mark::CutNotDone]);
        assert_eq!(marks_of(cut(1, true)), [Mark::CutDone, Mark::SecondCut]);
        assert_eq!(marks_of(made(&delete, 3, true)), [Mark::RefusedBetween]);
        assert_eq!(marks_of(made(&delete, DONE, true)), [Mark::AcceptedBetween]);
        assert_eq!(marks_of(made(&delete, DONE, false)), []);
        let blank = Command::Blank { name: Vec::new() };
        assert_eq!(marks_of(made(&blank, DONE, true)), [Mark::BlankBetween]);
        let replay = Command::Replay { writes: vec![0] };
        assert_eq!(marks_of(made(&replay, DONE, true)), [Mark::ReplayBetween]);
        let repaired = Made {
            history: true,
            rule: 7,
            ..made(&Command::Repair, DONE, true)
        };
        assert_eq!(marks_of(repaired), [Mark::GoneOn]);
    }
}
