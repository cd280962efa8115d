//! The kinds of disc, and the two numbers that a call states of one.

use reference::generate::Random;

const NINE: u32 = 9;
const TEN: u32 = 10;
const PLAIN: u32 = 0;
const MOVED: u32 = 1;
const SECTOR_BYTES: usize = 256;
pub const MOST_TRACKS: usize = 80;

/// Beside the small ones. Some would state nine or ten if they were cut to
/// fewer bits.
const NO_SECTORS: [u32; 8] = [0, 8, 11, 265, 266, 65_545, (1 << 31) + 10, u32::MAX];
const MOST_SMALL_SECTORS: usize = 20;
/// Some of these would state an arrangement if they were cut to fewer bits.
const NO_ARRANGEMENT: [u32; 6] = [2, 3, 256, 257, 1 << 31, u32::MAX];

/// What a disc can be: how many sectors each of its tracks has, and how they
/// stand in the image.
#[derive(Debug, Clone, Copy, PartialEq, Eq, PartialOrd, Ord)]
pub enum Kind {
    Ten,
    Moved,
    Nine,
}

impl Kind {
    pub const ALL: [Kind; 3] = [Kind::Ten, Kind::Moved, Kind::Nine];

    pub fn sectors(self) -> u32 {
        match self {
            Kind::Ten | Kind::Moved => TEN,
            Kind::Nine => NINE,
        }
    }

    pub fn arrangement(self) -> u32 {
        match self {
            Kind::Ten | Kind::Nine => PLAIN,
            Kind::Moved => MOVED,
        }
    }

    pub fn numbers(self) -> Numbers {
        Numbers {
            sectors: self.sectors(),
            arrangement: self.arrangement(),
        }
    }

    pub fn name(self) -> &'static str {
        match self {
            Kind::Ten => "ten plain",
            Kind::Moved => "ten moved",
            Kind::Nine => "nine plain",
        }
    }

    pub fn track_bytes(self) -> usize {
        self.sectors() as usize * SECTOR_BYTES
    }

    /// Whether an image of this length can be of this kind.
    pub fn fits(self, length: usize) -> bool {
        let tracks = length / self.track_bytes();
        length % self.track_bytes() == 0 && (1..=MOST_TRACKS).contains(&tracks)
    }

    /// The same disc in the other arrangement is of this kind, if there is one.
    pub fn rearranged(self) -> Option<Kind> {
        match self {
            Kind::Ten => Some(Kind::Moved),
            Kind::Moved => Some(Kind::Ten),
            Kind::Nine => None,
        }
    }

    /// A kind with the other number of sectors.
    pub fn other_number(self, random: &mut Random) -> Kind {
        match self {
            Kind::Ten | Kind::Moved => Kind::Nine,
            Kind::Nine => random.pick(&[Kind::Ten, Kind::Moved]),
        }
    }
}

/// What the caller hands in behind the image.
#[derive(Debug, Clone, Copy, PartialEq, Eq)]
pub struct Numbers {
    pub sectors: u32,
    pub arrangement: u32,
}

impl Numbers {
    pub fn stated(self) -> Stated {
        match (self.sectors, self.arrangement) {
            (TEN, PLAIN) => Stated::Kind(Kind::Ten),
            (TEN, MOVED) => Stated::Kind(Kind::Moved),
            (NINE, PLAIN) => Stated::Kind(Kind::Nine),
            (NINE, MOVED) => Stated::NineMoved,
            (NINE | TEN, _) => Stated::NoArrangement,
            _ => Stated::NoSectors,
        }
    }

    pub fn kind(self) -> Option<Kind> {
        self.stated().kind()
    }

    /// The kind of an image for calls that hand these in: the one stated, or
    /// where they state none, one of which only one number is wrong, or any.
    pub fn of_image(self, random: &mut Random) -> Kind {
        let near =
            |kind: &Kind| kind.sectors() == self.sectors || kind.arrangement() == self.arrangement;
        let near: Vec<Kind> = Kind::ALL.into_iter().filter(near).collect();
        match self.kind() {
            Some(kind) => kind,
            None if near.is_empty() => random.pick(&Kind::ALL),
            None => random.pick(&near),
        }
    }
}

/// What two numbers state: a kind, or none, by the reason.
#[derive(Debug, Clone, Copy, PartialEq, Eq, PartialOrd, Ord)]
pub enum Stated {
    Kind(Kind),
    /// Neither nine nor ten, whatever the arrangement.
    NoSectors,
    NoArrangement,
    /// Nine, moved.
    NineMoved,
}

impl Stated {
    pub const ALL: [Stated; 6] = [
        Stated::Kind(Kind::Ten),
        Stated::Kind(Kind::Moved),
        Stated::Kind(Kind::Nine),
        Stated::NoSectors,
        Stated::NoArrangement,
        Stated::NineMoved,
    ];
    const NO_KIND: [Stated; 3] = [Stated::NoSectors, Stated::NoArrangement, Stated::NineMoved];

    /// Each kind as often as each other, and none once in `chances`, for each
    /// reason as often.
    pub fn draw(random: &mut Random, chances: usize) -> Stated {
        if random.one_in(chances) {
            random.pick(&Stated::NO_KIND)
        } else {
            Stated::Kind(random.pick(&Kind::ALL))
        }
    }

    pub fn kind(self) -> Option<Kind> {
        match self {
            Stated::Kind(kind) => Some(kind),
            _ => None,
        }
    }

    pub fn name(self) -> &'static str {
        match self {
            Stated::Kind(kind) => kind.name(),
            Stated::NoSectors => "neither nine nor ten",
            Stated::NoArrangement => "no arrangement",
            Stated::NineMoved => "nine moved",
        }
    }

    /// Where it stands in `ALL`.
    pub fn place(self) -> usize {
        match self {
            Stated::Kind(kind) => kind as usize,
            Stated::NoSectors => 3,
            Stated::NoArrangement => 4,
            Stated::NineMoved => 5,
        }
    }

    /// Numbers that state this.
    pub fn numbers(self, random: &mut Random) -> Numbers {
        let (sectors, arrangement) = match self {
            Stated::Kind(kind) => return kind.numbers(),
            Stated::NoSectors => {
                let arrangements = [PLAIN, PLAIN, MOVED, MOVED, random.pick(&NO_ARRANGEMENT)];
                (no_sectors(random), random.pick(&arrangements))
            }
            Stated::NoArrangement => (random.pick(&[NINE, TEN]), random.pick(&NO_ARRANGEMENT)),
            Stated::NineMoved => (NINE, MOVED),
        };
        Numbers {
            sectors,
            arrangement,
        }
    }

    /// Another thing that a call can state.
    pub fn another(self, random: &mut Random) -> Stated {
        let at = self.place() + random.between(1, Stated::ALL.len() - 1);
        Stated::ALL[at % Stated::ALL.len()]
    }
}

fn no_sectors(random: &mut Random) -> u32 {
    let small = random.between(0, MOST_SMALL_SECTORS) as u32;
    if random.one_in(2) && ![NINE, TEN].contains(&small) {
        small
    } else {
        random.pick(&NO_SECTORS)
    }
}

#[cfg(test)]
mod tests {
    use super::*;

    #[test]
    fn numbers_state_what_they_were_drawn_for() {
        let mut random = Random::new(7);
        for (place, stated) in Stated::ALL.into_iter().enumerate() {
            assert_eq!(stated.place(), place);
            for _ in 0..200 {
                assert_eq!(stated.numbers(&mut random).stated(), stated);
                assert_ne!(stated.another(&mut random), stated);
            }
        }
    }

    #[test]
    fn every_statement_is_drawn_each_kind_as_often() {
        let mut random = Random::new(8);
        let mut drawn = [0; 6];
        for _ in 0..6000 {
            drawn[Stated::draw(&mut random, 4).place()] += 1;
        }
        let (kinds, none) = drawn.split_at(3);
        assert!(kinds.iter().all(|count| (1400..1600).contains(count)));
        assert!(none.iter().all(|count| (400..600).contains(count)));
    }

    #[test]
    fn only_the_numbers_are_wrong_where_they_state_no_kind() {
        let mut random = Random::new(9);
        let mut of_image = |sectors, arrangement| {
            let numbers = Numbers {
                sectors,
                arrangement,
            };
            let mut kinds: Vec<Kind> = (0..50).map(|_| numbers.of_image(&mut random)).collect();
            kinds.sort();
            kinds.dedup();
            kinds
        };
        assert_eq!(of_image(10, 1), [Kind::Moved]);
        assert_eq!(of_image(10, 256), [Kind::Ten, Kind::Moved]);
        assert_eq!(of_image(9, 2), [Kind::Nine]);
        assert_eq!(of_image(9, 1), [Kind::Moved, Kind::Nine]);
        assert_eq!(of_image(265, 0), [Kind::Ten, Kind::Nine]);
        assert_eq!(of_image(8, 1), [Kind::Moved]);
        assert_eq!(of_image(8, 7), Kind::ALL);
    }

    #[test]
    fn lengths_that_fit() {
        for (length, ten, nine) in [
            (0, false, false),
            (2304, false, true),
            (2560, true, false),
            (23_040, true, true),
            (80 * 2304, true, true),
            (81 * 2304, false, false),
            (80 * 2560, true, false),
            (81 * 2560, false, false),
        ] {
            let fitting = [ten, ten, nine];
            assert_eq!(Kind::ALL.map(|kind| kind.fits(length)), fitting, "{length}");
        }
    }
}
