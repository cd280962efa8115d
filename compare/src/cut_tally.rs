//! What occurred of the cuts of lists where one kind of disc was stated, and what
//! should have but did not.

use crate::calls::Call;
use crate::cut_case::Stage;
use crate::marks::{Marks, Occasion, Tallied};
use std::collections::BTreeMap;
use std::fmt::{Formatter, Result};

/// The calls that give lists.
const LISTING: [Call; 4] = [Call::Save, Call::Delete, Call::Rename, Call::Protect];
/// What the check says of cut discs: a command that is cut leaves the used count
/// behind, or nothing.
const RULES_OF_CUTS: [u32; 2] = [0, 7];

/// What must occur beside the stages.
#[derive(Debug, Clone, Copy, PartialEq, Eq, PartialOrd, Ord)]
pub enum Mark {
    OneTrack,
    Largest,
    Garbage,
    InOrder,
    Reordered,
    FullBefore,
    FullAfter,
    Longest,
    Unchanged,
    LaterDirectory,
    WideDirectory,
    ManyFiles,
    NotPlain,
    Protected,
    GoneOn,
}

impl Occasion for Mark {
    const ALL: &'static [Mark] = &[
        Mark::OneTrack,
        Mark::Largest,
        Mark::Garbage,
        Mark::InOrder,
        Mark::Reordered,
        Mark::FullBefore,
        Mark::FullAfter,
        Mark::Longest,
        Mark::Unchanged,
        Mark::LaterDirectory,
        Mark::WideDirectory,
        Mark::ManyFiles,
        Mark::NotPlain,
        Mark::Protected,
        Mark::GoneOn,
    ];

    fn name(self) -> &'static str {
        match self {
            Mark::OneTrack => "lists on one track",
            Mark::Largest => "lists on 80 tracks",
            Mark::Garbage => "lists on discs whose free sectors hold bytes",
            Mark::InOrder => "cuts whose repair changes nothing",
            Mark::Reordered => "cuts of sound discs whose free chain gets another order",
            Mark::FullBefore => "lists of commands without a free sector",
            Mark::FullAfter => "lists of saves that leave no free sector",
            Mark::Longest => "lists of 263 writes",
            Mark::Unchanged => "lists of a sector that stays as it was",
            Mark::LaterDirectory => "lists with an entry behind the first directory sector",
            Mark::WideDirectory => "lists on discs of three directory sectors or more",
            Mark::ManyFiles => "lists beside a hundred files or more",
            Mark::NotPlain => "lists beside a file that is not plain",
            Mark::Protected => "lists beside a protected file",
            Mark::GoneOn => "repaired cuts that commands went on from",
        }
    }
}

#[derive(Debug, Default)]
pub struct CutTally {
    stages: BTreeMap<(Call, Stage), u64>,
    /// What the check says of the cut discs.
    rules: BTreeMap<u32, u64>,
    marks: Marks<Mark>,
}

impl CutTally {
    pub fn cut(&mut self, call: Call, stage: Stage, rule: u32) {
        *self.stages.entry((call, stage)).or_default() += 1;
        *self.rules.entry(rule).or_default() += 1;
    }

    pub fn mark(&mut self, occurred: bool, mark: Mark) {
        self.marks.mark(occurred, mark);
    }
}

impl Tallied for CutTally {
    fn missing(&self) -> Vec<String> {
        let stages = stages()
            .filter(|key| !self.stages.contains_key(key))
            .map(|(call, stage)| format!("{} cut {}", call.name(), stage.name()));
        let rules = RULES_OF_CUTS
            .into_iter()
            .filter(|rule| !self.rules.contains_key(rule))
            .map(|rule| format!("a cut disc of which the check says {rule}"));
        stages.chain(rules).chain(self.marks.missing()).collect()
    }

    fn write(&self, out: &mut Formatter<'_>) -> Result {
        for call in LISTING {
            let counts = Stage::all_of(call).iter().map(|&stage| {
                let count = self.stages.get(&(call, stage)).unwrap_or(&0);
                format!("{} {count}", stage.name())
            });
            let counts: Vec<String> = counts.collect();
            writeln!(out, "{} cut: {}", call.name(), counts.join(", "))?;
        }
        let rules = self.rules.iter();
        let rules: Vec<String> = rules
            .map(|(rule, count)| format!("{rule}: {count}"))
            .collect();
        writeln!(out, "the check of the cut discs says {}", rules.join(", "))?;
        self.marks.write(out)
    }
}

fn stages() -> impl Iterator<Item = (Call, Stage)> {
    let of = |call| Stage::all_of(call).iter().map(move |&stage| (call, stage));
    LISTING.into_iter().flat_map(of)
}

#[cfg(test)]
mod tests {
    use super::*;

    fn full() -> CutTally {
        CutTally {
            stages: stages().map(|key| (key, 1)).collect(),
            rules: RULES_OF_CUTS.into_iter().map(|rule| (rule, 1)).collect(),
            marks: Marks::full(),
        }
    }

    #[test]
    fn nothing_is_missing_where_all_occurred() {
        assert_eq!(full().missing(), Vec::<String>::new());
        let all = 6 + 4 + 2 + 2 + 2 + 15;
        assert_eq!(CutTally::default().missing().len(), all);
    }

    #[test]
    fn what_did_not_occur_is_named() {
        let mut tally = full();
        tally.stages.remove(&(Call::Delete, Stage::LastSector));
        tally.rules.remove(&7);
        tally.marks.remove(Mark::FullAfter);
        let expected = [
            "delete cut after the last sector",
            "a cut disc of which the check says 7",
            "lists of saves that leave no free sector",
        ];
        assert_eq!(tally.missing(), expected);
    }

    #[test]
    fn cuts_are_counted_by_command_stage_and_rule() {
        let mut tally = CutTally::default();
        tally.cut(Call::Save, Stage::System, 7);
        tally.cut(Call::Save, Stage::System, 7);
        tally.cut(Call::Rename, Stage::All, 0);
        tally.mark(false, Mark::Largest);
        assert_eq!(tally.stages[&(Call::Save, Stage::System)], 2);
        assert_eq!(tally.rules, BTreeMap::from([(0, 1), (7, 2)]));
        assert!(tally.marks.met().is_empty());
    }
}
