//! Occasions that must occur in every run of a driver, and how often they did.

use crate::kind::Kind;
use std::collections::BTreeMap;
use std::fmt::{Formatter, Result};

pub trait Occasion: Copy + Ord + 'static {
    const ALL: &'static [Self];

    fn name(self) -> &'static str;
}

#[derive(Debug)]
pub struct Marks<M>(BTreeMap<M, u64>);

/// A derived one would ask for an occasion that is the default.
impl<M> Default for Marks<M> {
    fn default() -> Marks<M> {
        Marks(BTreeMap::new())
    }
}

impl<M: Occasion> Marks<M> {
    pub fn mark(&mut self, occurred: bool, mark: M) {
        if occurred {
            *self.0.entry(mark).or_default() += 1;
        }
    }

    /// Names of those that did not occur.
    pub fn missing(&self) -> impl Iterator<Item = String> + '_ {
        let all = M::ALL.iter();
        all.filter(|mark| !self.0.contains_key(mark))
            .map(|mark| mark.name().to_string())
    }

    pub fn write(&self, out: &mut Formatter<'_>) -> Result {
        M::ALL.iter().try_for_each(|mark| {
            let count = self.0.get(mark).unwrap_or(&0);
            writeln!(out, "{}: {count}", mark.name())
        })
    }
}

#[cfg(test)]
impl<M: Occasion> Marks<M> {
    pub fn full() -> Marks<M> {
        Marks(M::ALL.iter().map(|&mark| (mark, 1)).collect())
    }

    pub fn remove(&mut self, mark: M) {
        self.0.remove(&mark);
    }

    pub fn met(&self) -> Vec<M> {
        self.0.keys().copied().collect()
    }
}

/// What is counted for one kind of disc.
pub trait Tallied {
    /// Names of what must occur and did not.
    fn missing(&self) -> Vec<String>;

    fn write(&self, out: &mut Formatter<'_>) -> Result;
}

/// The same for each of `Kind::ALL`.
#[derive(Debug, Default)]
pub struct ByKind<T>([T; 3]);

impl<T: Tallied> ByKind<T> {
    pub fn of(&mut self, kind: Kind) -> &mut T {
        &mut self.0[kind as usize]
    }

    pub fn iter(&self) -> impl Iterator<Item = &T> {
        self.0.iter()
    }

    pub fn missing(&self) -> Vec<String> {
        let of = |kind: Kind| {
            let names = self.0[kind as usize].missing().into_iter();
            names.map(move |name| format!("{}: {name}", kind.name()))
        };
        Kind::ALL.into_iter().flat_map(of).collect()
    }

    pub fn write(&self, out: &mut Formatter<'_>) -> Result {
        Kind::ALL.into_iter().try_for_each(|kind| {
            writeln!(out, "{}", kind.name())?;
            self.0[kind as usize].write(out)
        })
    }
}

#[cfg(test)]
mod tests {
    use super::*;

    #[derive(Debug, Clone, Copy, PartialEq, Eq, PartialOrd, Ord)]
    enum Weather {
        Rain,
        Sun,
    }

    impl Occasion for Weather {
        const ALL: &'static [Weather] = &[Weather::Rain, Weather::Sun];

        fn name(self) -> &'static str {
            match self {
                Weather::Rain => "rain",
                Weather::Sun => "sun",
            }
        }
    }

    impl Tallied for Marks<Weather> {
        fn missing(&self) -> Vec<String> {
            Marks::missing(self).collect()
        }

        fn write(&self, out: &mut Formatter<'_>) -> Result {
            Marks::write(self, out)
        }
    }

    #[test]
    fn what_did_not_occur_is_missing() {
        let mut marks = Marks::default();
        marks.mark(false, Weather::Rain);
        marks.mark(true, Weather::Sun);
        marks.mark(true, Weather::Sun);
        assert_eq!(marks.0, BTreeMap::from([(Weather::Sun, 2)]));
        assert_eq!(marks.missing().collect::<Vec<_>>(), ["rain"]);
        assert_eq!(Marks::<Weather>::full().missing().next(), None);
    }

    #[test]
    fn each_kind_of_disc_has_its_own() {
        let mut tallies: ByKind<Marks<Weather>> = ByKind::default();
        for kind in Kind::ALL {
            *tallies.of(kind) = Marks::full();
        }
        tallies.of(Kind::Nine).remove(Weather::Rain);
        assert_eq!(tallies.missing(), ["nine plain: rain"]);
    }
}
