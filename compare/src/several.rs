//! Commands to which several refusals apply at once.
//!
//! Each refusal is asked for or not by chance, and the image, the numbers stated
//! and the arguments are made for those asked for. So the answer is known
//! without either program: the first of them in the call's order.

use crate::calls::{Call, BAD_LIST, SHORT, SIZE, UNSOUND};
use crate::discs::{self, blank, free_count};
use crate::kind::{Kind, Numbers, Stated};
use crate::list_case::{Fault, Target};
use reference::command::{Buffer, Command};
use reference::generate::{break_rule, capacity, fresh_name, illegal_name, Random};
use reference::writes_book::list_length;
use std::ops::RangeInclusive;

/// One case in so many states no kind of disc.
const NO_KIND_IN: usize = 3;
/// One of those in so many is of a wrong length as well.
const WRONG_LENGTH_TOO_IN: usize = 4;
/// One case in so many has one refusal or none, of any call.
const FEW_IN: usize = 5;
/// One case in so many is a repair, which looks at five rules.
const REPAIRS_IN: usize = 10;

/// A command, the image it is run on, the numbers it states, and the refusals
/// that apply to it, in the call's order.
pub struct Case {
    pub image: Vec<u8>,
    pub numbers: Numbers,
    pub command: Command,
    pub refusals: Vec<u32>,
}

impl Case {
    pub fn draw(random: &mut Random) -> Case {
        let stated = Stated::draw(random, NO_KIND_IN);
        let numbers = stated.numbers(random);
        let kind = numbers.of_image(random);
        let (call, refusals) = some_refusals(random, stated);
        let has = |number: u32| refusals.contains(&number);
        let disc = Disc::new(random, kind, call, &has);
        let command = disc.command(random, call, &has);
        let mut image = disc.image;
        if has(SIZE) && (stated.kind().is_some() || random.one_in(WRONG_LENGTH_TOO_IN)) {
            image.resize(wrong_length(random, kind, image.len()), 0);
        }
        Case {
            image,
            numbers,
            command,
            refusals,
        }
    }

    pub fn expected_number(&self) -> u32 {
        self.refusals.first().copied().unwrap_or(0)
    }
}

/// In place of a length of few tracks: about as long, as long as a disc of the
/// other number of sectors, or of one track more than there are.
fn wrong_length(random: &mut Random, kind: Kind, right: usize) -> usize {
    let other = kind.other_number(random);
    match random.below(4) {
        0 => random.pick(&[right - 1, right + 1, right + 256]),
        1 => 81 * kind.track_bytes(),
        _ => right / kind.track_bytes() * other.track_bytes(),
    }
}

/// Mostly a pair, each of any call as likely as any other, and sometimes a
/// third.
fn some_refusals(random: &mut Random, stated: Stated) -> (Call, Vec<u32>) {
    let pairs = |call: Call| call.pairs(stated).into_iter().map(move |pair| (call, pair));
    let pairs: Vec<(Call, (u32, u32))> = Call::ALL.into_iter().flat_map(pairs).collect();
    let (call, mut asked) = if random.one_in(REPAIRS_IN) {
        let refused: &[u32] = random.pick(&[&[UNSOUND], &[UNSOUND], &[]]);
        (Call::Repair, refused.to_vec())
    } else if random.one_in(FEW_IN) {
        (random.pick(&Call::ALL), Vec::new())
    } else {
        let (call, (one, other)) = random.pick(&pairs);
        (call, vec![one, other])
    };
    if random.one_in(3) {
        asked.push(random.pick(call.order()));
        if !call.can_all_apply(&asked) {
            asked.pop();
        }
    }
    if stated.kind().is_none() {
        asked.push(SIZE);
    }
    let in_order = call.order().iter().copied();
    let refusals = in_order.filter(|number| asked.contains(number)).collect();
    (call, refusals)
}

/// A disc with one file of each sort that a refusal speaks of.
struct Disc {
    image: Vec<u8>,
    kind: Kind,
    plain: Vec<u8>,
    plain_length: usize,
    protected: Vec<u8>,
    not_plain: Vec<u8>,
    absent: Vec<u8>,
}

const MOST_PLAIN: usize = 700;

impl Disc {
    fn new(random: &mut Random, kind: Kind, call: Call, has: &impl Fn(u32) -> bool) -> Disc {
        let [plain, protected, not_plain, absent, filling] = distinct_names(random);
        let tracks = random.between(1, 3);
        let mut disc = Disc {
            image: blank(random, kind, tracks),
            kind,
            plain,
            plain_length: random.between(1, MOST_PLAIN),
            protected,
            not_plain,
            absent,
        };
        disc.save_files(random);
        if has(8) {
            disc.fill(random, &filling);
        }
        match call {
            Call::Repair if has(UNSOUND) => disc.break_one_of(random, 1..=5),
            Call::Repair if random.one_in(2) => disc.break_one_of(random, 6..=8),
            // The used count alone: all that other refusals look at stays.
            _ if has(UNSOUND) => disc.break_one_of(random, 7..=7),
            _ => {}
        }
        disc
    }

    /// Leaves a disc of which the check reports one of these rules.
    fn break_one_of(&mut self, random: &mut Random, rules: RangeInclusive<u32>) {
        let (sectors, arrangement) = (self.kind.sectors(), self.kind.arrangement());
        let sound = self.image.clone();
        while !rules.contains(&reference::check(&self.image, sectors, arrangement).rule) {
            self.image.copy_from_slice(&sound);
            let rule = random.between(*rules.start() as usize, *rules.end() as usize);
            break_rule(random, &mut self.image, sectors, arrangement, rule);
        }
    }

    fn save_files(&mut self, random: &mut Random) {
        let (image, kind) = (&mut self.image, self.kind);
        for (name, length) in [
            (&self.plain, self.plain_length),
            (&self.protected, 200),
            (&self.not_plain, 200),
        ] {
            assert_eq!(discs::save(image, kind, name, &random.bytes(length)), 0);
        }
        let (sectors, arrangement) = (kind.sectors(), kind.arrangement());
        let (name, writes) = (&self.protected, &mut [0; 260]);
        let filled = reference::protect(image, sectors, arrangement, name, 1, writes);
        assert_eq!(filled.number, 0);
        // Bytes 11 and 12 of the third slot point to the file's first sector,
        // whose byte 2 is the header's mark.
        let slot = discs::blank_directory(image, kind) + 3 + 2 * 16;
        let first = discs::place(image, kind, [image[slot + 11], image[slot + 12]]);
        image[first + 2] = 0xFE;
    }

    /// Leaves no free sector, so that every save needs more than there is.
    fn fill(&mut self, random: &mut Random, name: &[u8]) {
        let sheet = random.bytes(capacity(free_count(&self.image)));
        let number = discs::save(&mut self.image, self.kind, name, &sheet);
        assert_eq!(number, 0);
    }

    fn command(&self, random: &mut Random, call: Call, has: &impl Fn(u32) -> bool) -> Command {
        match call {
            Call::Check => Command::Check,
            Call::List => Command::List {
                // Three files and the disc take 54 bytes.
                buffer: lent(random, if has(SHORT) { 0..54 } else { 67..200 }),
            },
            Call::Read => self.read(random, has),
            Call::Save => self.save(random, has),
            Call::Delete => Command::Delete {
                name: self.old_name(random, has),
                writes: room(random, 3, has(SHORT)),
            },
            Call::Rename => self.rename(random, has),
            Call::Protect => Command::Protect {
                name: self.old_name(random, has),
                on: random.below(2) as u32,
                writes: room(random, 1, has(SHORT)),
            },
            Call::Blank => Command::Blank {
                name: disc_name(random, has(2)),
            },
            Call::View => view(random, self.kind, has(11)),
            Call::Replay => self.replay(random, has(BAD_LIST)),
            Call::Repair => Command::Repair,
        }
    }

    /// The name of a file that should stand, by the refusals asked for.
    fn old_name(&self, random: &mut Random, has: &impl Fn(u32) -> bool) -> Vec<u8> {
        if has(2) {
            illegal_name(random)
        } else if has(4) {
            self.absent.clone()
        } else if has(6) {
            self.protected.clone()
        } else if has(9) {
            self.not_plain.clone()
        } else {
            self.plain.clone()
        }
    }

    fn standing_name(&self, random: &mut Random) -> Vec<u8> {
        let standing = [&self.plain, &self.protected, &self.not_plain];
        random.pick(&standing).clone()
    }

    /// No answer is of no bytes, so an empty buffer holds none.
    fn read(&self, random: &mut Random, has: &impl Fn(u32) -> bool) -> Command {
        let name = self.old_name(random, has);
        let lengths = match (has(SHORT), name == self.plain) {
            (false, _) => MOST_PLAIN..MOST_PLAIN + 9,
            (true, false) => 0..1,
            (true, true) => 0..self.plain_length,
        };
        let buffer = lent(random, lengths);
        Command::Read { name, buffer }
    }

    fn save(&self, random: &mut Random, has: &impl Fn(u32) -> bool) -> Command {
        let name = if has(2) {
            illegal_name(random)
        } else if has(5) {
            self.standing_name(random)
        } else {
            self.absent.clone()
        };
        let start = random.between(0x1000, 0xFF00);
        let (page, length) = match random.below(3) {
            _ if !has(7) => (random.below(8), random.between(1, 245)),
            0 => (random.pick(&[8, 256]), random.between(1, 245)),
            1 => (0, 0),
            _ => (0, 65_536 - start + 1),
        };
        Command::Save {
            name,
            page: page as u32,
            start: start as u16,
            transfer: random.draw() as u16,
            sheet: random.bytes(length),
            // The files leave slots free, so the directory does not grow.
            writes: room(random, sectors_for(length) + 2, has(SHORT)),
        }
    }

    fn rename(&self, random: &mut Random, has: &impl Fn(u32) -> bool) -> Command {
        let old_is_legal = |number: u32| number != 2 && has(number);
        let new = if has(5) {
            self.standing_name(random)
        } else if has(2) {
            illegal_name(random)
        } else {
            self.absent.clone()
        };
        // The old name is the illegal one if the new one has to stand.
        let old = if has(5) || (!has(4) && !has(6) && random.one_in(2)) {
            self.old_name(random, has)
        } else {
            self.old_name(random, &old_is_legal)
        };
        let writes = room(random, 1, has(SHORT));
        Command::Rename { old, new, writes }
    }

    fn replay(&self, random: &mut Random, bad: bool) -> Command {
        let target = Target::new(&self.image, self.kind);
        let faults: Vec<Fault> = Fault::all().collect();
        let fault = random.pick(&faults);
        let writes = if bad {
            target.bad_list(random, fault)
        } else {
            target.good_list(random)
        };
        Command::Replay { writes }
    }
}

fn distinct_names(random: &mut Random) -> [Vec<u8>; 5] {
    let mut names: [Vec<u8>; 5] = Default::default();
    for at in 0..names.len() {
        while names[at].is_empty() || names[..at].contains(&names[at]) {
            names[at] = fresh_name(random);
        }
    }
    names
}

fn lent(random: &mut Random, lengths: std::ops::Range<usize>) -> Buffer {
    Buffer {
        length: random.between(lengths.start, lengths.end - 1),
        fill: random.byte(),
    }
}

/// For a list of so many writes: too short, or long enough.
fn room(random: &mut Random, writes: usize, short: bool) -> Buffer {
    let exact = list_length(writes);
    match random.below(3) {
        0 if short => lent(random, 0..1),
        1 if short => lent(random, exact - 1..exact),
        _ if short => lent(random, 0..exact),
        0 => lent(random, exact..exact + 1),
        _ => lent(random, exact + 1..exact + 300),
    }
}

/// The sectors of a module, of which there is none without bytes.
fn sectors_for(length: usize) -> usize {
    let mut sectors = 1;
    while capacity(sectors) < length {
        sectors += 1;
    }
    sectors
}

fn disc_name(random: &mut Random, illegal: bool) -> Vec<u8> {
    const LEGAL: [&[u8]; 3] = [b"A", b"PIECES", b"NINECHARS"];
    const ILLEGAL: [&[u8]; 6] = [b"", b"TENCHARS10", b"A.B", b"lower", b"A B", b"A\0"];
    if illegal {
        random.pick(&ILLEGAL).to_vec()
    } else {
        random.pick(&LEGAL).to_vec()
    }
}

/// On the disc means on its first track, which every image here has. Off it may
/// be on a disc of the other number.
fn view(random: &mut Random, kind: Kind, off_the_disc: bool) -> Command {
    let sectors = kind.sectors();
    let (track, sector) = match random.below(2) {
        _ if !off_the_disc => (0, random.between(1, sectors as usize) as u32),
        0 => (random.pick(&[80, 255, 256, u32::MAX]), 1),
        _ => (0, random.pick(&[0, sectors + 1, 256, 257, u32::MAX])),
    };
    Command::View { track, sector }
}

#[cfg(test)]
mod tests {
    use super::*;

    #[test]
    fn the_second_program_answers_as_expected() {
        let mut random = Random::new(6);
        for _ in 0..5000 {
            let case = Case::draw(&mut random);
            let Numbers {
                sectors,
                arrangement,
            } = case.numbers;
            let answer = case
                .command
                .run(&mut case.image.clone(), sectors, arrangement);
            let expected = case.expected_number();
            assert_eq!(
                answer.number(),
                expected,
                "{:?} {:?}",
                case.refusals,
                case.command
            );
        }
    }
}
