//! What an image is to a call, by the numbers that are stated of it.

use crate::kind::{Kind, Numbers};

/// From 26 tracks on a byte position takes more than 16 bits.
#[derive(Debug, Clone, Copy, PartialEq, Eq, PartialOrd, Ord)]
pub enum Size {
    Wrong,
    /// Wrong for the number of sectors stated, right for the other.
    OtherNumber,
    TooLong,
    UpTo5,
    UpTo25,
    UpTo79,
    Largest,
}

impl Size {
    pub const ALL: [Size; 7] = [
        Size::Wrong,
        Size::OtherNumber,
        Size::TooLong,
        Size::UpTo5,
        Size::UpTo25,
        Size::UpTo79,
        Size::Largest,
    ];

    /// Of a length with this kind's number of sectors.
    fn by(length: usize, kind: Kind) -> Size {
        match (length % kind.track_bytes(), length / kind.track_bytes()) {
            (0, 1..=5) => Size::UpTo5,
            (0, 6..=25) => Size::UpTo25,
            (0, 26..=79) => Size::UpTo79,
            (0, 80) => Size::Largest,
            _ if Kind::ALL.iter().any(|other| other.fits(length)) => Size::OtherNumber,
            (0, 81..) => Size::TooLong,
            _ => Size::Wrong,
        }
    }

    pub fn name(self) -> &'static str {
        match self {
            Size::Wrong => "a wrong length",
            Size::OtherNumber => "a length that only the other number has",
            Size::TooLong => "more than 80 tracks",
            Size::UpTo5 => "1 to 5 tracks",
            Size::UpTo25 => "6 to 25 tracks",
            Size::UpTo79 => "26 to 79 tracks",
            Size::Largest => "80 tracks",
        }
    }
}

/// An image before a call.
#[derive(Debug, Clone, Copy, PartialEq, Eq)]
pub struct Met {
    pub size: Size,
    /// Whole ones, with the number of sectors that the size goes by.
    pub tracks: usize,
    /// The kind is wrongly stated: it fits the length, but the image is a sound
    /// disc of the other number of sectors.
    pub misstated: bool,
}

impl Met {
    /// With no kind stated the size goes by nine sectors if those are stated,
    /// and else by ten.
    pub fn by(image: &[u8], numbers: Numbers) -> Met {
        let nine = numbers.sectors == Kind::Nine.sectors();
        let by_sectors = if nine { Kind::Nine } else { Kind::Ten };
        Met {
            size: Size::by(image.len(), by_sectors),
            tracks: image.len() / by_sectors.track_bytes(),
            misstated: numbers.kind().map_or(false, |kind| misstated(image, kind)),
        }
    }
}

fn misstated(image: &[u8], kind: Kind) -> bool {
    let mut others = Kind::ALL
        .into_iter()
        .filter(|other| other.sectors() != kind.sectors());
    kind.fits(image.len()) && others.any(|other| is_sound(image, other))
}

pub fn is_sound(image: &[u8], kind: Kind) -> bool {
    let checked = reference::check(image, kind.sectors(), kind.arrangement());
    (checked.number, checked.rule) == (0, 0)
}

#[cfg(test)]
mod tests {
    use super::*;
    use crate::discs;
    use reference::generate::Random;

    #[test]
    fn sizes_go_by_the_number_of_sectors_stated() {
        let met = |length, numbers| Met::by(&vec![0; length], numbers).size;
        let none = Numbers {
            sectors: 8,
            arrangement: 0,
        };
        let (ten, nine) = (Kind::Ten.numbers(), Kind::Nine.numbers());
        for (length, by_ten, by_nine) in [
            (0, Size::Wrong, Size::Wrong),
            (2304, Size::OtherNumber, Size::UpTo5),
            (2560, Size::UpTo5, Size::OtherNumber),
            (23_040, Size::UpTo25, Size::UpTo25),
            (80 * 2304, Size::UpTo79, Size::Largest),
            (80 * 2560, Size::Largest, Size::OtherNumber),
            (81 * 2304, Size::Wrong, Size::TooLong),
            (81 * 2560, Size::TooLong, Size::TooLong),
        ] {
            assert_eq!(met(length, ten), by_ten, "{length} of ten");
            assert_eq!(met(length, none), by_ten, "{length} of none");
            assert_eq!(met(length, nine), by_nine, "{length} of nine");
        }
    }

    #[test]
    fn a_disc_is_misstated_with_the_other_number_only() {
        let random = &mut Random::new(3);
        for (kind, tracks) in [(Kind::Ten, 9), (Kind::Moved, 9), (Kind::Nine, 10)] {
            let image = discs::blank(random, kind, tracks);
            for stated in Kind::ALL {
                let by_other = stated.sectors() != kind.sectors();
                assert_eq!(Met::by(&image, stated.numbers()).misstated, by_other);
            }
            let longer = discs::blank(random, kind, tracks + 1);
            let any = Kind::ALL.map(|stated| Met::by(&longer, stated.numbers()).misstated);
            assert_eq!(any, [false; 3]);
        }
    }
}
