//! Prints generated runs as text, one item a line, for another tool to replay.
//!
//! ```text
//! trace SEED COUNT MAX_TRACKS            runs on sound discs
//! trace damaged SEED COUNT MAX_TRACKS    damaged images and their check
//! trace refused SEED COUNT MAX_TRACKS    runs on damaged images
//! trace repaired SEED COUNT MAX_TRACKS   one repair each of images of all kinds
//! trace cancels SEED COUNT MAX_TRACKS    runs whose calls cancel or come to one
//! trace totals SEED COUNT                runs of weekly totals
//! trace scripted                         the runs of a script, from standard input
//! ```
//!
//! In front of the first five may stand, in any order, the two numbers stated with
//! every call: `--sectors N`, 10 as without it, or 9; and `--arrangement N`, 0
//! plain as without it, or 1 moved; and `--replays N`: about one command in N is a
//! replay, none with 0, as without it; and `--cuts N`: about one in N of the
//! commands that list their writes is cut, and repairs come, with and without a
//! cut before; none with 0, as without it. If N is given twice, the last counts.
//! With other numbers stated, or 9 and 1, the images are plain, of nine sectors if
//! `--sectors` is 9 and else of ten, and every call is refused with 1.
//!
//! Fields are parted by one space. HEX is two digits a byte, upper case, and `-` for
//! no bytes; a byte that stands eight times or more in a row is written once, with
//! how often, and dots part that from what stands beside it: `0102.00*252.FF`. Every
//! other field is decimal. A run begins with
//!
//! ```text
//! image SECTORS ARRANGEMENT HEX    the run's two numbers; all bytes of its
//!                                  starting image
//! check NUMBER RULE                its check
//! moment ...                       as after each command
//! ```
//!
//! and goes on with up to twelve commands, arguments left of the `=` and
//! answers right of it. A lent buffer is LENT bytes long and holds FILL in
//! every byte before the call; BUFFER is all of it after the call, in HEX. LIST
//! is the list of writes: for save, delete, rename and protect the first LENGTH
//! bytes of the buffer after the call, of which the rest holds FILL still.
//!
//! ```text
//! check = NUMBER RULE
//! list LENT FILL = NUMBER LENGTH BUFFER
//! read NAME LENT FILL = NUMBER PAGE START END TRANSFER LENGTH BUFFER
//! save NAME PAGE START TRANSFER SHEET LENT FILL = NUMBER LENGTH LIST
//! delete NAME LENT FILL = NUMBER LENGTH LIST
//! rename OLD NEW LENT FILL = NUMBER LENGTH LIST
//! protect NAME ON LENT FILL = NUMBER LENGTH LIST
//! replay LIST = NUMBER
//! repair = NUMBER
//! blank NAME = NUMBER
//! view TRACK SECTOR = NUMBER START BYTES
//! ```
//!
//! NAME, OLD, NEW, SHEET and BYTES are HEX. A view's START is the position in the
//! image of its first byte, 0 if it is refused. After a command that is cut stands
//! a line with how many of its writes were MADE, from 0 to all, and whether the
//! command counts as DONE, 1 or 0. From there on the image is that before the
//! command with those writes made. After each command, and its cut, stand the
//! sectors of the image that it changed, with all 256 bytes after the call and
//! ascending by sector number SECTORS times t + s - 1; that is the number on
//! the disc, not the place in the image, which the arrangement decides. Then the
//! moment: the image's free count, and the parts directory and files of the
//! free-sector sum by the book of the run. `moment none` stands while the image
//! has not been sound since the run began, or since its last accepted replay: the
//! next sound image is a new start. An accepted blank starts the book anew too.
//! It stands also, sound or not, from a cut to the next accepted repair, replay or
//! blank.
//!
//! ```text
//! cut MADE DONE
//! sector NUMBER HEX
//! moment FREE DIRECTORY FILES
//! ```
//!
//! With `cancels` there are two kinds of runs. The one is a save that needs no new
//! directory sector and the delete of the same file, both accepted. Behind the last
//! moment stand the exceptions of their law, the places of the image that may not be
//! as at the run's start: byte positions FIRST to LAST, both included, ascending.
//! Each sector that the file took gives its bytes 2 to 255, and where the save
//! reached the end of the free chain, the track byte there is a range of its own.
//! Ranges that touch are not joined.
//!
//! The other is a rename of A to B and one of B to C, both accepted; then `again`,
//! which says that the image is all bytes of the `image` line again, and the book
//! that of the start; a moment; and a rename of A to C, lent the same as A to B. In
//! about a third of these C is A, and the last rename is refused with 5.
//!
//! ```text
//! excepted FIRST-LAST FIRST-LAST ...
//! again
//! ```
//!
//! `--replays` and `--cuts` mean nothing for `damaged`, `repaired` and `cancels`.
//! With numbers that are no format there is no line `excepted`.
//!
//! With `totals` there is no image. A run begins with its table of totals,
//! worker 1 first: LENGTH totals, told as TIMES totals of VALUE each, again and
//! again. The line `reordered` follows if the run has the same table and the
//! same sheets as the run before, in an order drawn anew.
//!
//! ```text
//! table LENGTH TIMES VALUE TIMES VALUE ...
//! reordered
//! ```
//!
//! It goes on with up to six sheets, each added to the totals as the one before
//! left them. SHEET is HEX. After each stand the totals that it changed, with
//! their VALUE after the call and ascending by worker, and the growth: the sum
//! of all pieces in the sheets that the run accepted so far. Sheets mostly have
//! at most some 200 bytes, and some about 2,000.
//!
//! ```text
//! add SHEET = NUMBER
//! total WORKER VALUE
//! growth PIECES
//! ```
//!
//! The last line of all is `end COUNT`.
//!
//! A script for `scripted` is a trace of which the answers may be left out: lines
//! `image`, or `table`; commands as far as the `=`; `cut MADE`, `again`, `excepted`,
//! `reordered` and `add SHEET`. It may also have lines that begin with `#`, which are
//! printed as they stand. So a trace is a script, and gives itself, but that each
//! image has its `moment` line.

mod discs;
mod scripted;
mod text;
mod totals;

use discs::{trace_discs, Discs, Mode};
use scripted::trace_script;
use std::io::{self, BufWriter, Read, Write};
use std::process::ExitCode;
use totals::trace_totals;

const USAGE: &str = "usage: trace [--sectors N] [--arrangement N] [--replays N] [--cuts N]
             [damaged|refused|repaired|cancels] SEED COUNT MAX_TRACKS
       trace totals SEED COUNT
       trace scripted < SCRIPT";
/// Stated unless the options say otherwise.
const SECTORS: u32 = 10;
const ARRANGEMENT: u32 = 0;
const NO_REPLAYS: usize = 0;
const NO_CUTS: usize = 0;

enum Request {
    Discs(Discs),
    Totals { seed: u64, count: usize },
    Scripted,
}

fn main() -> ExitCode {
    let arguments: Vec<String> = std::env::args().skip(1).collect();
    let request = match parse(&arguments) {
        Some(request) => request,
        None => {
            eprintln!("{USAGE}");
            return ExitCode::from(2);
        }
    };
    let mut out = BufWriter::new(io::stdout().lock());
    let traced = match request {
        Request::Discs(discs) => trace_discs(&discs, &mut out),
        Request::Totals { seed, count } => trace_totals(seed, count, &mut out),
        Request::Scripted => read_script().and_then(|script| trace_script(&script, &mut out)),
    };
    match traced.and_then(|()| out.flush()) {
        Ok(()) => ExitCode::SUCCESS,
        Err(error) => {
            eprintln!("trace: {error}");
            ExitCode::FAILURE
        }
    }
}

fn read_script() -> io::Result<String> {
    let mut script = String::new();
    io::stdin().read_to_string(&mut script)?;
    Ok(script)
}

fn parse(arguments: &[String]) -> Option<Request> {
    match arguments {
        [form] if form == "scripted" => Some(Request::Scripted),
        [form, seed, count] if form == "totals" => Some(Request::Totals {
            seed: seed.parse().ok()?,
            count: count.parse().ok()?,
        }),
        _ => parse_discs(arguments).map(Request::Discs),
    }
}

fn parse_discs(mut arguments: &[String]) -> Option<Discs> {
    let (mut sectors, mut arrangement) = (SECTORS, ARRANGEMENT);
    let (mut replays, mut cuts) = (NO_REPLAYS, NO_CUTS);
    while let [word, number, rest @ ..] = arguments {
        match word.as_str() {
            "--sectors" => sectors = number.parse().ok()?,
            "--arrangement" => arrangement = number.parse().ok()?,
            "--replays" => replays = number.parse().ok()?,
            "--cuts" => cuts = number.parse().ok()?,
            _ => break,
        }
        arguments = rest;
    }
    let (mode, numbers) = match arguments.first().map(String::as_str) {
        Some("damaged") => (Mode::Damaged, &arguments[1..]),
        Some("refused") => (Mode::Refused, &arguments[1..]),
        Some("repaired") => (Mode::Repaired, &arguments[1..]),
        Some("cancels") => (Mode::Cancels, &arguments[1..]),
        _ => (Mode::Sound, arguments),
    };
    match numbers {
        [seed, count, max_tracks] => Some(Discs {
            sectors,
            arrangement,
            replays,
            cuts,
            mode,
            seed: seed.parse().ok()?,
            count: count.parse().ok()?,
            max_tracks: max_tracks.parse().ok().filter(|t| (1..=80).contains(t))?,
        }),
        _ => None,
    }
}
