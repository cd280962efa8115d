//! Runs on discs as they are printed, step by step.

use crate::text::{answers, arguments, hex};
use reference::cancels::excepted;
use reference::command::{Answer, Command};
use reference::cuts::{counts_as_done, write_count, Step};
use reference::generate::{cancels_run, damaged_disc, repair_disc, sound_disc};
use reference::generate::{CancelsRun, Cuts, Random, Replays};
use reference::history::{Book, History};
use std::io::{self, Write};
use std::ops::Range;

const MOST_COMMANDS: usize = 12;

#[derive(Clone, Copy, PartialEq, Eq)]
pub enum Mode {
    Sound,
    Damaged,
    Refused,
    Repaired,
    Cancels,
}

pub struct Discs {
    pub sectors: u32,
    pub arrangement: u32,
    /// One command in so many is a replay; 0 for none.
    pub replays: usize,
    /// One listing command in so many is cut; 0 for none.
    pub cuts: usize,
    pub mode: Mode,
    pub seed: u64,
    pub count: usize,
    pub max_tracks: usize,
}

pub fn trace_discs(request: &Discs, out: &mut impl Write) -> io::Result<()> {
    let mut random = Random::new(request.seed);
    for _ in 0..request.count {
        trace_disc(request, &mut random, out)?;
    }
    writeln!(out, "end {}", request.count)
}

fn trace_disc(request: &Discs, random: &mut Random, out: &mut impl Write) -> io::Result<()> {
    let max_tracks = request.max_tracks;
    let (sectors, arrangement) = (request.sectors, request.arrangement);
    match request.mode {
        Mode::Sound => {
            let image = sound_disc(random, max_tracks, sectors, arrangement);
            Run::start(image, sectors, arrangement, out)?.any_steps(random, request)
        }
        Mode::Damaged => {
            let image = damaged_disc(random, max_tracks, sectors, arrangement);
            print_image(&image, sectors, arrangement, out)
        }
        Mode::Refused => {
            let image = damaged_disc(random, max_tracks, sectors, arrangement);
            Run::start(image, sectors, arrangement, out)?.any_steps(random, request)
        }
        Mode::Repaired => {
            let image = repair_disc(random, max_tracks, sectors, arrangement);
            Run::start(image, sectors, arrangement, out)?.whole(Command::Repair)
        }
        Mode::Cancels => {
            let (image, run) = cancels_run(random, max_tracks, sectors, arrangement);
            Run::start(image, sectors, arrangement, out)?.cancel(run)
        }
    }
}

/// A run as it is printed, step by step.
pub struct Run<'a, W> {
    start: Vec<u8>,
    image: Vec<u8>,
    sectors: u32,
    arrangement: u32,
    history: History,
    /// The image before the last save, and how many bytes that was handed.
    saved: Option<(Vec<u8>, usize)>,
    out: &'a mut W,
}

impl<'a, W: Write> Run<'a, W> {
    pub fn start(
        image: Vec<u8>,
        sectors: u32,
        arrangement: u32,
        out: &'a mut W,
    ) -> io::Result<Run<'a, W>> {
        print_image(&image, sectors, arrangement, out)?;
        let history = History::start(&image, sectors, arrangement);
        print_moment(&image, history.book(), out)?;
        Ok(Run {
            start: image.clone(),
            image,
            sectors,
            arrangement,
            history,
            saved: None,
            out,
        })
    }

    /// The image is again the one that the run started with.
    pub fn again(&mut self) -> io::Result<()> {
        self.image = self.start.clone();
        self.history = History::start(&self.image, self.sectors, self.arrangement);
        writeln!(self.out, "again")?;
        print_moment(&self.image, self.history.book(), self.out)
    }

    /// The exceptions after the last save and the delete of its file, if there are any.
    pub fn excepted(&mut self) -> io::Result<()> {
        let saved = self.saved.as_ref();
        let places = saved
            .and_then(|(before, length)| excepted(before, self.sectors, self.arrangement, *length));
        match places {
            Some(places) => print_excepted(&places, self.out),
            None => Ok(()),
        }
    }

    pub fn note(&mut self, line: &str) -> io::Result<()> {
        writeln!(self.out, "{line}")
    }

    /// Runs a command that is not cut.
    fn whole(&mut self, command: Command) -> io::Result<()> {
        self.step(&Step::whole(command)).map(|_| ())
    }

    fn cancel(&mut self, run: CancelsRun) -> io::Result<()> {
        match run {
            CancelsRun::SaveAndDelete { save, delete, .. } => {
                self.whole(save)?;
                self.whole(delete)?;
                self.excepted()
            }
            CancelsRun::Renames {
                a_to_b,
                b_to_c,
                a_to_c,
            } => {
                self.whole(a_to_b)?;
                self.whole(b_to_c)?;
                self.again()?;
                self.whole(a_to_c)
            }
        }
    }

    fn any_steps(&mut self, random: &mut Random, request: &Discs) -> io::Result<()> {
        let (sectors, arrangement) = (self.sectors, self.arrangement);
        let mut replays = Replays::one_in(request.replays);
        let mut cuts = Cuts::one_in(request.cuts);
        for _ in 0..random.between(1, MOST_COMMANDS) {
            let step = cuts.step(random, &mut replays, &self.image, sectors, arrangement);
            let answer = self.step(&step)?;
            replays.heard(&answer);
            cuts.heard(&step, &answer);
        }
        Ok(())
    }

    pub fn step(&mut self, step: &Step) -> io::Result<Answer> {
        let (sectors, arrangement) = (self.sectors, self.arrangement);
        let before = by_number(&self.image, sectors, arrangement);
        if let Command::Save { sheet, .. } = &step.command {
            self.saved = Some((self.image.clone(), sheet.len()));
        }
        let answer = step.run(&mut self.image, sectors, arrangement);
        let (left, right) = (arguments(&step.command), answers(&answer));
        writeln!(self.out, "{left} = {right}")?;
        if let (Some(made), Some(list)) = (step.cut, answer.list_of_writes()) {
            let writes = write_count(&self.image, sectors, arrangement, list);
            let done = writes.and_then(|writes| counts_as_done(&step.command, writes, made));
            writeln!(self.out, "cut {made} {}", u8::from(done == Some(true)))?;
        }
        let after = by_number(&self.image, sectors, arrangement);
        print_changes(&before, &after, self.out)?;
        self.history.record_step(step, &answer, &self.image);
        print_moment(&self.image, self.history.book(), self.out)?;
        Ok(answer)
    }
}

fn print_image(
    image: &[u8],
    sectors: u32,
    arrangement: u32,
    out: &mut impl Write,
) -> io::Result<()> {
    let checked = reference::check(image, sectors, arrangement);
    writeln!(out, "image {sectors} {arrangement} {}", hex(image))?;
    writeln!(out, "check {} {}", checked.number, checked.rule)
}

fn print_excepted(places: &[Range<usize>], out: &mut impl Write) -> io::Result<()> {
    write!(out, "excepted")?;
    for place in places {
        write!(out, " {}-{}", place.start, place.end - 1)?;
    }
    writeln!(out)
}

fn print_moment(image: &[u8], book: Option<&Book>, out: &mut impl Write) -> io::Result<()> {
    match book {
        Some(book) => {
            let system = reference::view(image, book.sectors(), book.arrangement(), 0, 1);
            // A view begins with byte 2.
            let free = u16::from_le_bytes([system[0x14 - 2], system[0x15 - 2]]);
            let (directory, files) = (book.directory(), book.file_sectors());
            writeln!(out, "moment {free} {directory} {files}")
        }
        None => writeln!(out, "moment none"),
    }
}

/// The image with its sectors by number; as it stands if no call takes it.
fn by_number(image: &[u8], sectors: u32, arrangement: u32) -> Vec<u8> {
    reference::rearranged(image, sectors, arrangement, 0).unwrap_or_else(|| image.to_vec())
}

fn print_changes(before: &[u8], after: &[u8], out: &mut impl Write) -> io::Result<()> {
    let pairs = before.chunks(256).zip(after.chunks(256));
    for (number, (_, now)) in pairs.enumerate().filter(|(_, (old, now))| old != now) {
        writeln!(out, "sector {number} {}", hex(now))?;
    }
    Ok(())
}
