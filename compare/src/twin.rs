//! A command run a second time, on the same disc in the other arrangement.
//!
//! The library is compared with itself here: whatever the second program
//! makes of a command, both arrangements must make the same of it. Discs of nine
//! sectors have one arrangement only, and no twin.

use crate::difference::{between_answers, between_images};
use crate::kind::{Kind, Numbers};
use crate::lend::Lent;
use crate::library::{self, beside};
use crate::writing::Writing;
use reference::command::{Answer, Command};
use reference::generate::Random;

pub struct Twin {
    image: Lent,
    kind: Kind,
    of: Kind,
}

/// An image of one kind as the same disc of another; none for a wrong length.
fn rearranged(image: &[u8], from: Kind, to: Kind) -> Option<Vec<u8>> {
    reference::rearranged(image, from.sectors(), from.arrangement(), to.arrangement())
}

impl Twin {
    /// None for an image of a wrong length or of nine sectors, or where no kind
    /// is stated.
    pub fn new(random: &mut Random, image: &[u8], numbers: Numbers) -> Option<Twin> {
        let of = numbers.kind()?;
        let kind = of.rearranged()?;
        let image = rearranged(image, of, kind)?;
        Some(Twin {
            image: Lent::new(random, &image),
            kind,
            of,
        })
    }

    /// Runs the command; what is other than the answer and the image that it
    /// gave in the first arrangement.
    pub fn fault(
        mut self,
        random: &mut Random,
        writing: Writing,
        command: &Command,
        answer: Answer,
        image: &[u8],
    ) -> Option<String> {
        let numbers = self.kind.numbers();
        let outcome = library::run(random, writing, command, numbers, &mut self.image);
        let expected = rearranged(image, self.of, self.kind)?;
        outcome
            .stray_write
            .or_else(|| between_answers(&placeless(outcome.answer), &placeless(answer)))
            .or_else(|| beside("image", &self.image))
            .or_else(|| between_images(self.image.content(), &expected, numbers))
            .map(|text| format!("the same on {}: {text}", self.kind.name()))
    }
}

/// The answer without a view's start, all of it that the arrangement moves.
fn placeless(answer: Answer) -> Answer {
    match answer {
        Answer::Viewed { number, bytes, .. } => Answer::Viewed {
            number,
            start: 0,
            bytes,
        },
        other => other,
    }
}

#[cfg(test)]
mod tests {
    use super::*;
    use crate::discs;
    use crate::writing::OF_LIBRARY;
    use reference::command::Buffer;
    use reference::Filled;

    const TENS: [Kind; 2] = [Kind::Ten, Kind::Moved];

    /// A disc's image before and after a command, and the answer.
    fn run(command: &Command, kind: Kind) -> (Vec<u8>, Vec<u8>, Answer) {
        let before = discs::blank(&mut Random::new(9), kind, 2);
        let mut image = before.clone();
        let answer = command.run(&mut image, kind.sectors(), kind.arrangement());
        (before, image, answer)
    }

    fn fault(
        command: &Command,
        kind: Kind,
        before: &[u8],
        answer: Answer,
        image: &[u8],
    ) -> Option<String> {
        let mut random = Random::new(10);
        let twin = Twin::new(&mut random, before, kind.numbers()).expect("a right length");
        twin.fault(&mut random, OF_LIBRARY, command, answer, image)
    }

    #[test]
    fn another_answer_or_image_is_told() {
        let save = Command::Save {
            name: b"THU.PCS".to_vec(),
            page: 0,
            start: 0x2000,
            transfer: 0x2000,
            sheet: vec![7; 300],
            writes: Buffer {
                length: 4 * 259 + 1,
                fill: 9,
            },
        };
        for kind in TENS {
            let (before, image, answer) = run(&save, kind);
            let told = |answer, image: &[u8]| fault(&save, kind, &before, answer, image);
            assert_eq!(told(answer.clone(), &image), None);
            assert!(told(Answer::Number(8), &image).is_some());
            assert!(told(answer.clone(), &before).is_some());
            // Track and sector of the second record.
            for at in [260, 261] {
                let mut other = answer.clone();
                if let Answer::Wrote(Filled { number: 0, .. }, list) = &mut other {
                    list[at] += 1;
                }
                assert!(told(other, &image).is_some());
            }
        }
    }

    #[test]
    fn a_view_may_start_elsewhere_but_shows_the_same() {
        let view = Command::View {
            track: 0,
            sector: 4,
        };
        for kind in TENS {
            let (before, image, answer) = run(&view, kind);
            assert_eq!(fault(&view, kind, &before, answer, &image), None);
            let other = Answer::Viewed {
                number: 0,
                start: 0,
                bytes: vec![9; 254],
            };
            assert!(fault(&view, kind, &before, other, &image).is_some());
        }
    }

    #[test]
    fn a_wrong_length_nine_sectors_or_no_kind_has_no_twin() {
        let random = &mut Random::new(11);
        let mut has = |length, numbers| Twin::new(random, &vec![0; length], numbers).is_some();
        let no_kind = Numbers {
            sectors: 10,
            arrangement: 2,
        };
        assert!(has(2560, Kind::Ten.numbers()) && has(2560, Kind::Moved.numbers()));
        assert!(!has(2559, Kind::Ten.numbers()) && !has(2304, Kind::Moved.numbers()));
        assert!(!has(2304, Kind::Nine.numbers()) && !has(23_040, Kind::Nine.numbers()));
        assert!(!has(2560, no_kind));
    }
}
