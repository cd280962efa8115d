//! An older copy of an image that only the lists of writes and repairs keep up.

use crate::cut_case::cut_list;
use crate::difference::between_images;
use crate::kind::Numbers;
use crate::writing::OF_LIBRARY;
use reference::command::{Answer, Command};
use std::fmt;

/// So many accepted lists and repairs are kept, and then made on the copy in
/// order.
const KEPT: usize = 25;

/// What the copy is to be given.
enum Kept {
    List(Vec<u8>),
    Repair,
}

pub struct Card {
    image: Vec<u8>,
    numbers: Numbers,
    kept: Vec<Kept>,
    replayed: u64,
    repaired: u64,
    compared: u64,
}

impl Card {
    pub fn new(image: &[u8], numbers: Numbers) -> Card {
        Card {
            image: image.to_vec(),
            numbers,
            kept: Vec::new(),
            replayed: 0,
            repaired: 0,
            compared: 0,
        }
    }

    /// Keeps a repair, or the list of a command that left this image, as far as
    /// it was written if it was cut. A blank disc has none: the copy is made anew.
    pub fn take(
        &mut self,
        command: &Command,
        (answer, cut): (&Answer, Option<usize>),
        image: &[u8],
    ) -> Result<(), String> {
        if answer.accepted() && matches!(command, Command::Blank { .. }) {
            self.kept.clear();
            self.image.copy_from_slice(image);
        }
        self.kept.extend(match (answer.list_of_writes(), cut) {
            (Some(list), Some(made)) => Some(Kept::List(cut_list(list, made))),
            (Some(list), None) => Some(Kept::List(list.to_vec())),
            _ if answer.accepted() && *command == Command::Repair => Some(Kept::Repair),
            _ => None,
        });
        if self.kept.len() < KEPT {
            return Ok(());
        }
        self.compared += 1;
        self.keep_up()?;
        let difference = between_images(&self.image, image, self.numbers);
        difference.map_or(Ok(()), |text| {
            Err(format!(
                "the copy after the last {KEPT} lists and repairs: {text}"
            ))
        })
    }

    fn keep_up(&mut self) -> Result<(), String> {
        for kept in self.kept.drain(..) {
            let image = &mut self.image;
            let (number, count) = match kept {
                Kept::List(mut list) => {
                    let number = (OF_LIBRARY.replay)(image, self.numbers, &mut list);
                    (number, &mut self.replayed)
                }
                Kept::Repair => {
                    let number = (OF_LIBRARY.repair)(image, self.numbers);
                    (number, &mut self.repaired)
                }
            };
            if number != 0 {
                return Err(format!("a kept list or repair is refused with {number}"));
            }
            *count += 1;
        }
        Ok(())
    }
}

impl fmt::Display for Card {
    fn fmt(&self, out: &mut fmt::Formatter<'_>) -> fmt::Result {
        write!(
            out,
            "lists replayed on an older copy: {}; repairs: {}; copy and image compared: {}",
            self.replayed, self.repaired, self.compared
        )
    }
}

#[cfg(test)]
mod tests {
    use super::*;
    use crate::discs;
    use crate::kind::Kind;
    use reference::command::Buffer;
    use reference::cuts::Step;
    use reference::generate::Random;

    /// What the last save leaves, and what the copy has of its list.
    #[derive(Clone, Copy, PartialEq)]
    enum Last {
        Whole,
        Spoilt,
        Cut,
        CutUnseen,
    }

    fn saves(random: &mut Random, kind: Kind, last: Last) -> Result<(), String> {
        let mut image = discs::blank(random, kind, 5);
        let mut card = Card::new(&image, kind.numbers());
        let (sectors, arrangement) = (kind.sectors(), kind.arrangement());
        for number in 0..KEPT - 1 {
            let save = Command::Save {
                name: format!("F{number}").into_bytes(),
                page: 0,
                start: 0,
                transfer: 0,
                sheet: vec![number as u8; 200],
                writes: Buffer {
                    length: 2000,
                    fill: 1,
                },
            };
            let is_last = number + 2 == KEPT;
            let made = match last {
                Last::Cut | Last::CutUnseen if is_last => Some(2),
                _ => None,
            };
            let step = Step {
                command: save.clone(),
                cut: made,
            };
            let answer = step.run(&mut image, sectors, arrangement);
            let told = made.filter(|_| last != Last::CutUnseen);
            card.take(&save, (&answer, told), &image)?;
        }
        let answer = Command::Repair.run(&mut image, sectors, arrangement);
        if last == Last::Spoilt {
            image[256 + 99] ^= 1;
        }
        card.take(&Command::Repair, (&answer, None), &image)?;
        let counts = (card.replayed, card.repaired, card.compared);
        assert_eq!(counts, (KEPT as u64 - 1, 1, 1));
        Ok(())
    }

    #[test]
    fn the_copy_is_kept_up_and_another_image_is_told() {
        let mut random = Random::new(41);
        for kind in Kind::ALL {
            for (last, right) in [
                (Last::Whole, true),
                (Last::Cut, true),
                (Last::Spoilt, false),
                (Last::CutUnseen, false),
            ] {
                assert_eq!(saves(&mut random, kind, last).is_ok(), right);
            }
        }
    }

    #[test]
    fn a_blank_disc_makes_the_copy_anew() {
        let mut random = Random::new(42);
        let kind = Kind::Moved;
        let image = discs::blank(&mut random, kind, 2);
        let mut card = Card::new(&vec![7; image.len()], kind.numbers());
        card.kept.push(Kept::List(vec![9]));
        let blank = Command::Blank { name: Vec::new() };
        let taken = card.take(&blank, (&Answer::Number(0), None), &image);
        assert_eq!((taken, card.kept.len()), (Ok(()), 0));
        assert_eq!(card.image, image);
    }
}
