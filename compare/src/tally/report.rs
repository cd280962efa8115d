//! A tally as text.

use super::{rule_name, Tally, LAST_RULE};
use crate::calls::Call;
use crate::kind::{Kind, Stated};
use crate::marks::Tallied;
use crate::met::Size;
use std::collections::BTreeMap;
use std::fmt::{Formatter, Result};

/// Those of calls on an image.
const NUMBERS: [u32; 13] = [0, 1, 2, 3, 4, 5, 6, 7, 8, 9, 10, 11, 14];

impl Tally {
    pub fn write(&self, out: &mut Formatter<'_>) -> Result {
        writeln!(out, "stated: {}", self.stated.name())?;
        self.write_answers(out)?;
        let sizes = Size::ALL.map(|size| (size.name().to_string(), self.sizes.get(&size)));
        writeln!(out, "calls on images of: {}", listed(sizes))?;
        self.write_pairs(out)?;
        let asides = Stated::ALL.map(|other| (other.name().to_string(), self.asides.get(&other)));
        writeln!(out, "calls amid these runs stating: {}", listed(asides))?;
        match self.stated {
            Stated::Kind(kind) => self.write_of_discs(out, kind),
            _ => Ok(()),
        }
    }

    /// How often each call gave each number, as a table.
    pub fn write_answers(&self, out: &mut Formatter<'_>) -> Result {
        write!(out, "{:8}", "answer")?;
        for number in NUMBERS {
            write!(out, "{number:>9}")?;
        }
        writeln!(out)?;
        for call in Call::ALL {
            write!(out, "{:8}", call.name())?;
            for number in NUMBERS {
                match self.answers.get(&(call, number)) {
                    Some(count) => write!(out, "{count:>9}")?,
                    None => write!(out, "{:>9}", "-")?,
                }
            }
            writeln!(out)?;
        }
        Ok(())
    }

    fn write_pairs(&self, out: &mut Formatter<'_>) -> Result {
        writeln!(out, "two refusals at once, the answer first")?;
        for call in Call::ALL {
            let pairs = call.pairs(self.stated).into_iter().map(|(one, other)| {
                let count = self.pairs.get(&(call, one, other));
                (format!("{one}+{other}"), count)
            });
            if pairs.len() > 0 {
                writeln!(out, "{:8} {}", call.name(), listed(pairs))?;
            }
        }
        Ok(())
    }

    fn write_of_discs(&self, out: &mut Formatter<'_>, kind: Kind) -> Result {
        let rules = (0..=LAST_RULE).map(|rule| (rule_name(rule), self.rules.get(&rule)));
        writeln!(out, "check reports: {}", listed(rules))?;
        for (counts, what) in [
            (&self.largest, "done on 80 tracks"),
            (
                &self.of_other_length,
                "refused by the other number's length",
            ),
            (&self.misstated, "on sound discs of the other number"),
        ] {
            writeln!(out, "{what}: {}", listed_calls(counts))?;
        }
        if kind.rearranged().is_some() {
            let (done, refused) = (listed_calls(&self.twins), self.refused_twins);
            writeln!(
                out,
                "the same in the other arrangement: {done}, refused: {refused}"
            )?;
        }
        writeln!(out, "modules of 65,536 bytes read: {}", self.longest)?;
        writeln!(
            out,
            "views of the sector after the last: {}",
            self.after_last
        )?;
        writeln!(out, "moments of demand 3 checked: {}", self.moments)?;
        self.lists.write(out)?;
        self.repairs.write(out)?;
        self.laws.write(out)
    }
}

/// 'name: count' for each, 0 where nothing was counted.
fn listed<'a>(counts: impl IntoIterator<Item = (String, Option<&'a u64>)>) -> String {
    let items: Vec<String> = counts
        .into_iter()
        .map(|(name, count)| format!("{name}: {}", count.unwrap_or(&0)))
        .collect();
    items.join(", ")
}

fn listed_calls(counts: &BTreeMap<Call, u64>) -> String {
    listed(Call::ALL.map(|call| (call.name().to_string(), counts.get(&call))))
}
