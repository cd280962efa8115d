//! What occurred where one kind of disc, or none, was stated, and what should
//! have but did not.

mod report;

use crate::calls::{Call, SIZE};
use crate::kind::{Kind, Stated};
use crate::law_tally::LawTally;
use crate::list_tally::{ListTally, Made};
use crate::marks::Tallied;
use crate::met::{Met, Size};
use crate::repair_tally::RepairTally;
use reference::command::{Answer, Command};
use std::collections::BTreeMap;

const LAST_RULE: u32 = 8;
const LONGEST: u32 = 65_536;
/// The refusal of a view off the disc.
const NO_SECTOR: u32 = 11;

#[derive(Debug)]
pub struct Tally {
    stated: Stated,
    answers: BTreeMap<(Call, u32), u64>,
    /// By the number of the broken rule; 0 is a sound image.
    rules: BTreeMap<u32, u64>,
    /// By call, the refusal answered and another that applied too.
    pairs: BTreeMap<(Call, u32, u32), u64>,
    sizes: BTreeMap<Size, u64>,
    /// Calls refused by a length that is right for the other number.
    of_other_length: BTreeMap<Call, u64>,
    /// Calls on sound discs of the other number, whose length fits both.
    misstated: BTreeMap<Call, u64>,
    /// Calls done on images of 80 tracks.
    largest: BTreeMap<Call, u64>,
    /// Reads of modules of the most bytes.
    longest: u64,
    /// Refused views of the sector after a track's last: of nine t/10.
    after_last: u64,
    /// Calls amid the runs that stated something else, by what that was.
    asides: BTreeMap<Stated, u64>,
    /// Calls that were done in the other arrangement too.
    twins: BTreeMap<Call, u64>,
    refused_twins: u64,
    pub moments: u64,
    lists: ListTally,
    repairs: RepairTally,
    pub laws: LawTally,
}

impl Tally {
    pub fn new(stated: Stated) -> Tally {
        Tally {
            stated,
            answers: BTreeMap::new(),
            rules: BTreeMap::new(),
            pairs: BTreeMap::new(),
            sizes: BTreeMap::new(),
            of_other_length: BTreeMap::new(),
            misstated: BTreeMap::new(),
            largest: BTreeMap::new(),
            longest: 0,
            after_last: 0,
            asides: BTreeMap::new(),
            twins: BTreeMap::new(),
            refused_twins: 0,
            moments: 0,
            lists: ListTally::default(),
            repairs: RepairTally::default(),
            laws: LawTally::default(),
        }
    }

    pub fn stated(&self) -> Stated {
        self.stated
    }

    /// Counts a command, what it answered and what its image was before.
    pub fn call(&mut self, command: &Command, answer: &Answer, met: Met) {
        let (call, number) = (Call::of(command), answer.number());
        *self.sizes.entry(met.size).or_default() += 1;
        self.answer(call, number);
        if met.misstated {
            *self.misstated.entry(call).or_default() += 1;
        }
        if number == SIZE && met.size == Size::OtherNumber {
            *self.of_other_length.entry(call).or_default() += 1;
        }
        if answer.accepted() {
            self.done(call, answer, met.size);
        }
        self.after_last += u64::from(number == NO_SECTOR && self.is_after_last(command, met));
    }

    /// Another track follows, so that the number reckoned from track and sector
    /// is on the disc and only the sector is refused.
    fn is_after_last(&self, command: &Command, met: Met) -> bool {
        match (command, self.stated) {
            (Command::View { track, sector }, Stated::Kind(kind)) => {
                (*track as usize) + 1 < met.tracks && *sector == kind.sectors() + 1
            }
            _ => false,
        }
    }

    fn answer(&mut self, call: Call, number: u32) {
        *self.answers.entry((call, number)).or_default() += 1;
    }

    fn done(&mut self, call: Call, answer: &Answer, size: Size) {
        if size == Size::Largest {
            *self.largest.entry(call).or_default() += 1;
        }
        match answer {
            Answer::Checked(checked) => *self.rules.entry(checked.rule).or_default() += 1,
            Answer::Read(reading, _) => self.longest += u64::from(reading.length == LONGEST),
            _ => {}
        }
    }

    /// Counts what a command shows of the lists of writes, of cuts and of repairs;
    /// nothing where no kind of disc is stated.
    pub fn made(&mut self, made: Made<'_>) {
        if let Stated::Kind(kind) = self.stated {
            self.lists.command(made, kind);
            self.repairs.command(made);
        }
    }

    /// Counts the answered refusal with each of the others that applied.
    pub fn refusals(&mut self, call: Call, refusals: &[u32]) {
        if let [answered, others @ ..] = refusals {
            for &other in others {
                *self.pairs.entry((call, *answered, other)).or_default() += 1;
            }
        }
    }

    pub fn aside(&mut self, stated: Stated) {
        *self.asides.entry(stated).or_default() += 1;
    }

    pub fn twin(&mut self, call: Call, number: u32) {
        match number {
            0 => *self.twins.entry(call).or_default() += 1,
            _ => self.refused_twins += 1,
        }
    }

    /// Names of what must occur where this is stated and did not. Where it is no
    /// kind of disc, no call looks at the disc.
    pub fn missing(&self) -> Vec<String> {
        let mut missing = self.missing_answers();
        let sizes = |size: Size| format!("an image of {}", size.name());
        missing.extend(uncounted(&self.sizes, Size::ALL, sizes));
        let others = Stated::ALL
            .into_iter()
            .filter(|&other| other != self.stated);
        let asides = |other: Stated| format!("a run with a call stating {}", other.name());
        missing.extend(uncounted(&self.asides, others, asides));
        if let Stated::Kind(kind) = self.stated {
            missing.extend(self.missing_of_discs(kind));
        }
        missing
    }

    fn missing_answers(&self) -> Vec<String> {
        let answers = |call: Call| {
            let answers = call.answers(self.stated).into_iter();
            answers.map(move |one| (call, one))
        };
        let pairs = |call: Call| {
            let pairs = call.pairs(self.stated).into_iter();
            pairs.map(move |(one, other)| (call, one, other))
        };
        let mut missing = uncounted(
            &self.answers,
            Call::ALL.into_iter().flat_map(answers),
            |(call, number)| format!("{} answering {number}", call.name()),
        );
        missing.extend(uncounted(
            &self.pairs,
            Call::ALL.into_iter().flat_map(pairs),
            |(call, one, other)| format!("{} with {one} and {other}", call.name()),
        ));
        missing
    }

    fn missing_of_discs(&self, kind: Kind) -> Vec<String> {
        let mut missing = uncounted(&self.rules, 0..=LAST_RULE, rule_name);
        let mut of_calls = |counts: &BTreeMap<Call, u64>, what: &str| {
            let name = |call: Call| format!("{} {what}", call.name());
            missing.extend(uncounted(counts, Call::ALL, name));
        };
        if kind.rearranged().is_some() {
            of_calls(&self.twins, "done in the other arrangement too");
        }
        of_calls(&self.largest, "done on 80 tracks");
        of_calls(&self.of_other_length, "on the other number's length");
        of_calls(&self.misstated, "on a sound disc of the other number");
        for (count, name) in [
            (self.longest, "a module of 65,536 bytes read"),
            (self.after_last, "a view of the sector after the last"),
            (self.moments, "moments of demand 3"),
        ] {
            missing.extend((count == 0).then(|| name.to_string()));
        }
        missing.extend(self.lists.missing());
        missing.extend(self.repairs.missing());
        missing.extend(self.laws.missing());
        missing
    }
}

fn rule_name(rule: u32) -> String {
    match rule {
        0 => "sound".to_string(),
        broken => format!("rule {broken}"),
    }
}

/// Names of the keys under which nothing was counted.
fn uncounted<K: Ord>(
    counts: &BTreeMap<K, u64>,
    keys: impl IntoIterator<Item = K>,
    name: impl Fn(K) -> String,
) -> Vec<String> {
    keys.into_iter()
        .filter(|key| !counts.contains_key(key))
        .map(name)
        .collect()
}

#[cfg(test)]
mod tests {
    use super::*;
    use reference::Checked;

    fn full(stated: Stated) -> Tally {
        let mut tally = Tally::new(stated);
        for call in Call::ALL {
            for number in call.answers(stated) {
                tally.answer(call, number);
            }
            for (one, other) in call.pairs(stated) {
                tally.refusals(call, &[one, other]);
            }
            tally.twin(call, 0);
        }
        let of_calls: BTreeMap<Call, u64> = Call::ALL.into_iter().map(|call| (call, 1)).collect();
        Tally {
            sizes: Size::ALL.into_iter().map(|size| (size, 1)).collect(),
            asides: Stated::ALL.into_iter().map(|other| (other, 1)).collect(),
            rules: (0..=LAST_RULE).map(|rule| (rule, 1)).collect(),
            of_other_length: of_calls.clone(),
            misstated: of_calls.clone(),
            largest: of_calls,
            longest: 1,
            after_last: 1,
            moments: 1,
            lists: ListTally::full(),
            repairs: RepairTally::full(),
            laws: LawTally::full(),
            ..tally
        }
    }

    #[test]
    fn nothing_is_missing_where_all_occurred() {
        for stated in Stated::ALL {
            assert_eq!(full(stated).missing(), Vec::<String>::new());
        }
    }

    #[test]
    fn what_did_not_occur_is_named() {
        let mut tally = full(Stated::Kind(Kind::Moved));
        tally.answers.remove(&(Call::Read, 9));
        tally.pairs.remove(&(Call::Rename, 6, 5));
        tally.sizes.remove(&Size::UpTo79);
        tally.asides.remove(&Stated::Kind(Kind::Ten));
        tally.rules.remove(&8);
        tally.twins.remove(&Call::Save);
        tally.largest.remove(&Call::Blank);
        tally.of_other_length.remove(&Call::List);
        tally.misstated.remove(&Call::Delete);
        tally.longest = 0;
        tally.after_last = 0;
        tally.moments = 0;
        tally.lists = ListTally::default();
        tally.repairs = RepairTally::default();
        tally.laws = LawTally::default();
        let expected = [
            "read answering 9",
            "rename with 6 and 5",
            "an image of 26 to 79 tracks",
            "a run with a call stating ten plain",
            "rule 8",
            "save done in the other arrangement too",
            "blank done on 80 tracks",
            "list on the other number's length",
            "delete on a sound disc of the other number",
            "a module of 65,536 bytes read",
            "a view of the sector after the last",
            "moments of demand 3",
        ];
        let of_calls = expected.len();
        let others = [
            tally.lists.missing(),
            tally.repairs.missing(),
            tally.laws.missing(),
        ]
        .concat();
        assert_eq!(tally.missing()[..of_calls], expected);
        assert_eq!(tally.missing()[of_calls..], others);
    }

    #[test]
    fn nine_sectors_have_no_other_arrangement_to_be_missing() {
        let mut tally = full(Stated::Kind(Kind::Nine));
        tally.twins.clear();
        assert_eq!(tally.missing(), Vec::<String>::new());
    }

    #[test]
    fn a_call_is_counted_by_answer_image_and_what_it_gave() {
        let mut tally = Tally::new(Stated::Kind(Kind::Nine));
        let mut check = |number, rule, size, misstated| {
            let answer = Answer::Checked(Checked { number, rule });
            let met = Met {
                size,
                tracks: 80,
                misstated,
            };
            tally.call(&Command::Check, &answer, met);
        };
        check(0, 8, Size::Largest, false);
        check(0, 2, Size::UpTo25, true);
        check(1, 0, Size::Wrong, false);
        check(1, 0, Size::OtherNumber, false);
        let once = BTreeMap::from([(Call::Check, 1)]);
        assert_eq!(tally.rules, BTreeMap::from([(8, 1), (2, 1)]));
        assert_eq!(tally.sizes.len(), 4);
        assert_eq!(tally.largest, once);
        assert_eq!(tally.misstated, once);
        assert_eq!(tally.of_other_length, once);
        let answers = [((Call::Check, 0), 2), ((Call::Check, 1), 2)];
        assert_eq!(tally.answers, BTreeMap::from(answers));
    }

    #[test]
    fn the_sector_after_the_last_is_11_of_ten_and_10_of_nine() {
        for (kind, after) in [(Kind::Ten, 11), (Kind::Moved, 11), (Kind::Nine, 10)] {
            let mut tally = Tally::new(Stated::Kind(kind));
            let met = Met::by(&vec![0; 3 * kind.track_bytes()], kind.numbers());
            for (track, sector, number) in [
                (1, after - 1, 0),
                (1, after + 1, 11),
                (2, after, 11),
                (1, after, 11),
            ] {
                assert_eq!(tally.after_last, 0);
                let answer = Answer::Viewed {
                    number,
                    start: 0,
                    bytes: Vec::new(),
                };
                tally.call(&Command::View { track, sector }, &answer, met);
            }
            assert_eq!(tally.after_last, 1);
        }
    }

    #[test]
    fn a_refusal_in_both_arrangements_is_none_that_was_done() {
        let mut tally = full(Stated::Kind(Kind::Ten));
        tally.twins.remove(&Call::Blank);
        tally.twin(Call::Blank, 2);
        assert_eq!(tally.missing().len(), 1);
    }

    #[test]
    fn without_a_kind_only_the_refusal_must_occur() {
        for stated in [Stated::NoSectors, Stated::NoArrangement, Stated::NineMoved] {
            let mut tally = Tally::new(stated);
            for call in Call::ALL {
                tally.answer(call, 1);
            }
            let missing = tally.missing();
            assert!(missing.contains(&"save with 1 and 8".to_string()));
            assert!(!missing.contains(&"save with 5 and 8".to_string()));
            assert!(!missing.contains(&"moments of demand 3".to_string()));
        }
    }
}
