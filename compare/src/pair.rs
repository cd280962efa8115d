//! One image handed to both programs, and the history of its run.

use crate::cut_case::{cut_list, writes_in};
use crate::difference::{between_answers, between_images};
use crate::discs::SLOTS_PER_DIRECTORY_SECTOR;
use crate::kind::Numbers;
use crate::lend::Lent;
use crate::library::{self, beside, Library};
use crate::list_tally::Said;
use crate::writing::Writing;
use reference::command::{Answer, Command};
use reference::cuts::cut_image;
use reference::generate::Random;
use reference::history::{answer_fault, moment_fault, places_fault, History};
use reference::repair_book::repair_fault;
use reference::writes_book::{list_length, replay_fault};

pub struct Pair {
    library: Lent,
    second: Vec<u8>,
    /// What every call of the run states.
    numbers: Numbers,
    writing: Writing,
    /// Holds no book as long as no moment of the run was a start: no image was
    /// sound, since the beginning or since the last replay; or the run states no
    /// kind of disc. It shows none from a cut to the repair.
    history: History,
    /// There is no book because of a replay.
    silenced: bool,
    /// The card was pulled, and neither a repair nor a new start came since.
    pulled: bool,
    /// The last step changed the image.
    changed: bool,
}

impl Pair {
    pub fn new(random: &mut Random, image: Vec<u8>, numbers: Numbers, writing: Writing) -> Pair {
        Pair {
            library: Lent::new(random, &image),
            history: History::start(&image, numbers.sectors, numbers.arrangement),
            second: image,
            numbers,
            writing,
            silenced: false,
            pulled: false,
            changed: false,
        }
    }

    /// The image as both programs have it.
    pub fn image(&self) -> &[u8] {
        &self.second
    }

    pub fn numbers(&self) -> Numbers {
        self.numbers
    }

    pub fn writing(&self) -> Writing {
        self.writing
    }

    pub fn changed(&self) -> bool {
        self.changed
    }

    /// What the check of the second program says of the image.
    pub fn rule(&self) -> u32 {
        let Numbers {
            sectors,
            arrangement,
        } = self.numbers;
        reference::check(&self.second, sectors, arrangement).rule
    }

    /// Runs a command on both programs and gives the answer, or what differs or
    /// is not as the paper has it.
    pub fn step(&mut self, random: &mut Random, command: &Command) -> Result<Answer, String> {
        let old = self.second.clone();
        let answer = self.run(random, command, &old)?;
        self.changed = self.second != old;
        self.record(command, answer.accepted());
        Ok(answer)
    }

    /// Runs a command as a step does, with the card pulled after any number of
    /// its writes: gives this number and that of all. A command without a list
    /// is a step.
    pub fn cut(
        &mut self,
        random: &mut Random,
        command: &Command,
    ) -> Result<(Answer, Option<(usize, usize)>), String> {
        let old = self.second.clone();
        let answer = self.run(random, command, &old)?;
        let cut = match answer.list_of_writes() {
            Some(list) => {
                let writes = writes_in(list);
                let made = random.below(writes + 1);
                self.pull(random, &old, list, made)?;
                self.history.record_cut(command, writes, made);
                self.pulled = true;
                Some((made, writes))
            }
            None => {
                self.record(command, answer.accepted());
                None
            }
        };
        self.changed = self.second != old;
        Ok((answer, cut))
    }

    /// Leaves both images as the card has them after the first writes of a list,
    /// the library's by its own replay.
    fn pull(
        &mut self,
        random: &mut Random,
        old: &[u8],
        list: &[u8],
        made: usize,
    ) -> Result<(), String> {
        let Numbers {
            sectors,
            arrangement,
        } = self.numbers;
        self.second = cut_image(old, sectors, arrangement, list, made)
            .ok_or_else(|| "the second program can't cut its list".to_string())?;
        self.library = Lent::new(random, old);
        let writes = cut_list(list, made);
        let replay = Command::Replay { writes };
        let outcome = library::run(
            random,
            self.writing,
            &replay,
            self.numbers,
            &mut self.library,
        );
        let fault = outcome
            .stray_write
            .or_else(|| between_answers(&outcome.answer, &Answer::Number(0)))
            .or_else(|| self.image_difference());
        let cut = |text| format!("its list cut after {made} writes: {text}");
        fault.map_or(Ok(()), |text| Err(cut(text)))
    }

    /// The answer, the image and the list of a command.
    fn run(
        &mut self,
        random: &mut Random,
        command: &Command,
        old: &[u8],
    ) -> Result<Answer, String> {
        let (library, second) = (&mut self.library, &mut self.second);
        let answer = on_both(
            random,
            (self.writing, self.numbers),
            command,
            library,
            second,
        )?;
        let fault = self
            .fault_by_book(command, &answer, old)
            .or_else(|| self.list_fault(random, &answer, old));
        fault.map_or(Ok(answer), Err)
    }

    /// What an answer with a list, a replay or a repair lacks as the second
    /// program's books have it.
    fn fault_by_book(&self, command: &Command, answer: &Answer, old: &[u8]) -> Option<String> {
        let numbers = (self.numbers.sectors, self.numbers.arrangement);
        let images = (old, self.library.content());
        let fault = match command {
            Command::Replay { writes } => replay_fault(numbers, images, writes, answer.number()),
            Command::Repair => repair_fault(numbers, images, answer.number()),
            _ => answer_fault(self.history.book()?, command, answer, images),
        };
        fault.map(|text| format!("by the book: {text}"))
    }

    /// What the list of an accepted command lacks of making the new image of the
    /// old one, replayed by the library and by the second program.
    fn list_fault(&self, random: &mut Random, answer: &Answer, old: &[u8]) -> Option<String> {
        let writes = answer.list_of_writes()?.to_vec();
        let Numbers {
            sectors,
            arrangement,
        } = self.numbers;
        let new = self.library.content();
        let (mut by_library, mut by_second) = (Lent::new(random, old), old.to_vec());
        let second = reference::replay(&mut by_second, sectors, arrangement, &writes);
        let replay = Command::Replay { writes };
        let outcome = library::run(random, self.writing, &replay, self.numbers, &mut by_library);
        outcome
            .stray_write
            .or_else(|| between_answers(&outcome.answer, &Answer::Number(0)))
            .or_else(|| beside("image", &by_library))
            .or_else(|| between_images(by_library.content(), new, self.numbers))
            .map(|text| format!("replaying its list on the old image: {text}"))
            .or_else(|| {
                let text = "replaying its list by the second program does not give the new image";
                (second != 0 || by_second != new).then(|| text.to_string())
            })
    }

    fn record(&mut self, command: &Command, accepted: bool) {
        let replayed = accepted && matches!(command, Command::Replay { .. });
        self.history
            .record(command, accepted, self.library.content());
        let restores = matches!(
            command,
            Command::Repair | Command::Blank { .. } | Command::Replay { .. }
        );
        self.pulled = self.pulled && !(accepted && restores);
        self.silenced = (self.silenced || replayed) && !self.has_history();
    }

    /// Whether a card was pulled and neither a repair nor a new start came since.
    pub fn is_pulled(&self) -> bool {
        self.pulled
    }

    /// Whether there is a history that makes claims about this moment.
    pub fn has_history(&self) -> bool {
        self.history.book().is_some()
    }

    /// What the history says of a command that is to come.
    pub fn said(&self, command: &Command) -> Said {
        let book = self.history.book();
        let full = book.map_or(false, |book| {
            book.standing().len() == SLOTS_PER_DIRECTORY_SECTOR * book.directory()
        });
        let writes = match command {
            Command::Save { sheet, .. } => book.map(|book| book.writes_of_save(sheet.len())),
            Command::Delete { .. } => Some(3),
            Command::Rename { .. } | Command::Protect { .. } => Some(1),
            _ => None,
        };
        Said {
            history: book.is_some(),
            silenced: self.silenced,
            pulled: self.pulled,
            list: writes.map(list_length),
            grows: full && matches!(command, Command::Save { .. }),
        }
    }

    /// What the library's image and calls lack of demand 3 at this moment.
    pub fn moment_fault(&self) -> Option<String> {
        let book = self.history.book()?;
        let library = Library::new(self.writing);
        moment_fault(&library, self.library.content(), book)
            .or_else(|| library.stray_write())
            .or_else(|| self.image_difference())
            .map(|text| format!("demand 3, in the moment after it: {text}"))
    }

    /// What the library's image alone lacks of demand 3 at this moment.
    pub fn places_fault(&self) -> Option<String> {
        let book = self.history.book()?;
        places_fault(self.library.content(), book).map(|text| format!("demand 3: {text}"))
    }

    /// How many files and how many directory sectors the history has.
    pub fn extent(&self) -> (usize, usize) {
        self.history
            .book()
            .map_or((0, 0), |book| (book.standing().len(), book.directory()))
    }

    fn image_difference(&self) -> Option<String> {
        beside("image", &self.library)
            .or_else(|| between_images(self.library.content(), &self.second, self.numbers))
    }
}

/// Runs a command on the same image in both programs and gives the answer, or what
/// differs.
pub fn on_both(
    random: &mut Random,
    (writing, numbers): (Writing, Numbers),
    command: &Command,
    library: &mut Lent,
    second: &mut [u8],
) -> Result<Answer, String> {
    let expected = command.run(second, numbers.sectors, numbers.arrangement);
    let outcome = library::run(random, writing, command, numbers, library);
    let fault = outcome
        .stray_write
        .or_else(|| between_answers(&outcome.answer, &expected))
        .or_else(|| beside("image", library))
        .or_else(|| between_images(library.content(), second, numbers));
    fault.map_or(Ok(outcome.answer), Err)
}

#[cfg(test)]
mod tests {
    use super::*;
    use crate::discs;
    use crate::kind::Kind;
    use crate::writing::{LONGEST_LIST, OF_LIBRARY};
    use reference::command::Buffer;

    fn accepted(pair: &mut Pair, random: &mut Random, command: &Command) {
        let answer = pair.step(random, command).expect("no difference");
        assert!(answer.accepted());
    }

    fn save(name: &[u8]) -> Command {
        Command::Save {
            name: name.to_vec(),
            page: 0,
            start: 0,
            transfer: 0,
            sheet: vec![7; 300],
            writes: Buffer {
                length: LONGEST_LIST,
                fill: 3,
            },
        }
    }

    /// A disc with one file, and the card pulled amid the save of another until
    /// it is done or not as asked.
    fn pulled(random: &mut Random, kind: Kind, done: bool) -> Pair {
        loop {
            let image = discs::blank(random, kind, 2);
            let mut pair = Pair::new(random, image, kind.numbers(), OF_LIBRARY);
            accepted(&mut pair, random, &save(b"FIRST"));
            let (_, cut) = pair.cut(random, &save(b"CUT")).expect("no difference");
            let (made, writes) = cut.expect("accepted");
            if (made == writes) == done {
                return pair;
            }
        }
    }

    #[test]
    fn a_cut_silences_the_history_until_the_repair() {
        let random = &mut Random::new(32);
        for (kind, done) in Kind::ALL
            .into_iter()
            .flat_map(|kind| [(kind, false), (kind, true)])
        {
            let mut pair = pulled(random, kind, done);
            assert!(pair.is_pulled() && !pair.has_history());
            let refused = pair.step(random, &save(b"FIRST")).expect("no difference");
            assert!([3, 5].contains(&refused.number()) && !pair.has_history());
            accepted(&mut pair, random, &Command::Repair);
            assert!(pair.has_history() && !pair.is_pulled());
            assert_eq!(
                (pair.extent().0, pair.moment_fault()),
                (1 + usize::from(done), None)
            );
        }
    }

    #[test]
    fn a_cut_command_that_is_counted_wrongly_is_told() {
        let random = &mut Random::new(33);
        for (kind, done) in Kind::ALL
            .into_iter()
            .flat_map(|kind| [(kind, false), (kind, true)])
        {
            let mut pair = pulled(random, kind, done);
            let (sectors, arrangement) = (kind.sectors(), kind.arrangement());
            let mut image = discs::blank(random, kind, 2);
            pair.history = History::start(&image, sectors, arrangement);
            let first = save(b"FIRST").run(&mut image, sectors, arrangement);
            pair.history
                .record(&save(b"FIRST"), first.accepted(), &image);
            pair.history
                .record_cut(&save(b"CUT"), 4, if done { 3 } else { 4 });
            accepted(&mut pair, random, &Command::Repair);
            assert!(pair.moment_fault().is_some() && pair.places_fault().is_some());
        }
    }

    #[test]
    fn a_replay_or_a_blank_disc_after_a_cut_is_a_new_start() {
        let random = &mut Random::new(34);
        for kind in Kind::ALL {
            let mut pair = pulled(random, kind, false);
            let end = Command::Replay { writes: vec![0] };
            accepted(&mut pair, random, &end);
            assert!(!pair.is_pulled());
            accepted(&mut pair, random, &Command::Repair);
            assert!(pair.has_history());
            let mut pair = pulled(random, kind, false);
            let name = b"ANEW".to_vec();
            accepted(&mut pair, random, &Command::Blank { name });
            assert!(!pair.is_pulled() && pair.has_history());
            assert_eq!((pair.extent(), pair.moment_fault()), ((0, 1), None));
        }
    }

    #[test]
    fn a_replay_ends_the_history_until_an_image_is_sound() {
        let random = &mut Random::new(31);
        for kind in Kind::ALL {
            let image = discs::blank(random, kind, 2);
            let system = image[..256].to_vec();
            let list = |bytes: &[u8]| Command::Replay {
                writes: [&[3, 0, 1], bytes, &[0]].concat(),
            };
            let mut pair = Pair::new(random, image, kind.numbers(), OF_LIBRARY);
            accepted(&mut pair, random, &list(&[7; 256]));
            assert!(pair.changed() && !pair.has_history() && pair.silenced);
            accepted(&mut pair, random, &Command::Check);
            assert!(!pair.changed() && !pair.has_history() && pair.silenced);
            accepted(&mut pair, random, &list(&system));
            assert!(pair.has_history() && !pair.silenced);
            let bad = Command::Replay { writes: Vec::new() };
            let refused = pair.step(random, &bad).expect("no difference");
            assert_eq!(refused, Answer::Number(14));
            assert!(pair.has_history() && !pair.silenced);
        }
    }
}
