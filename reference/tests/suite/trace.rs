//! The trace program: its text is read back and every run replayed from it.

use crate::common::{moved_position, position, rewritten, MOVED, NINE, PLAIN, TEN};
use reference::cancels::cancelled;
use reference::command::{Answer, Buffer, Command};
use std::ops::Range;
use std::process::Command as Process;

/// What stands in front for each format.
const FORMATS: [[&str; 2]; 3] = [
    ["--arrangement", "0"],
    ["--arrangement", "1"],
    ["--sectors", "9"],
];

pub fn trace(arguments: &[&str]) -> Vec<String> {
    let output = Process::new(env!("CARGO_BIN_EXE_trace"))
        .args(arguments)
        .output()
        .expect("the trace program runs");
    assert!(output.status.success());
    let text = String::from_utf8(output.stdout).expect("plain text");
    text.lines().map(str::to_string).collect()
}

pub fn bytes(hex: &str) -> Vec<u8> {
    if hex == "-" {
        return Vec::new();
    }
    hex.split('.').flat_map(part).collect()
}

/// Bytes of two digits each, or one byte and how often it stands.
fn part(hex: &str) -> Vec<u8> {
    let (digits, times) = hex.split_once('*').unwrap_or((hex, "1"));
    let byte = |at: usize| u8::from_str_radix(&digits[at..at + 2], 16).expect("hex");
    let bytes: Vec<u8> = (0..digits.len()).step_by(2).map(byte).collect();
    bytes.repeat(number(times))
}

pub fn number<T: std::str::FromStr>(field: &str) -> T {
    field.parse().ok().expect("a decimal number")
}

/// A range of an `excepted` line.
pub fn place(field: &str) -> Range<usize> {
    let (first, last) = field.split_once('-').expect("FIRST-LAST");
    number(first)..number::<usize>(last) + 1
}

fn buffer(length: &str, fill: &str) -> Buffer {
    Buffer {
        length: number(length),
        fill: number(fill),
    }
}

fn parse(fields: &[&str]) -> Command {
    match *fields {
        ["check"] => Command::Check,
        ["list", lent, fill] => Command::List {
            buffer: buffer(lent, fill),
        },
        ["read", name, lent, fill] => Command::Read {
            name: bytes(name),
            buffer: buffer(lent, fill),
        },
        ["save", name, page, start, transfer, sheet, lent, fill] => Command::Save {
            name: bytes(name),
            page: number(page),
            start: number(start),
            transfer: number(transfer),
            sheet: bytes(sheet),
            writes: buffer(lent, fill),
        },
        ["replay", list] => Command::Replay {
            writes: bytes(list),
        },
        ["repair"] => Command::Repair,
        ["blank", name] => Command::Blank { name: bytes(name) },
        ["view", track, sector] => Command::View {
            track: number(track),
            sector: number(sector),
        },
        _ => parse_on_entry(fields),
    }
}

/// The commands that write the entry of a standing file.
fn parse_on_entry(fields: &[&str]) -> Command {
    match *fields {
        ["delete", name, lent, fill] => Command::Delete {
            name: bytes(name),
            writes: buffer(lent, fill),
        },
        ["rename", old, new, lent, fill] => Command::Rename {
            old: bytes(old),
            new: bytes(new),
            writes: buffer(lent, fill),
        },
        ["protect", name, on, lent, fill] => Command::Protect {
            name: bytes(name),
            on: number(on),
            writes: buffer(lent, fill),
        },
        _ => panic!("no command: {fields:?}"),
    }
}

/// Whether an answer is the one that stands in the trace.
fn same(answer: &Answer, fields: &[&str]) -> bool {
    let numbers =
        |count: usize| -> Vec<u32> { fields[..count].iter().map(|f| number(f)).collect() };
    match answer {
        Answer::Number(done) => numbers(1) == [*done],
        Answer::Checked(checked) => numbers(2) == [checked.number, checked.rule],
        Answer::Listed(listed, lent) => {
            numbers(2) == [listed.number, listed.length] && bytes(fields[2]) == *lent
        }
        Answer::Wrote(filled, lent) => {
            let list = &lent[..filled.length as usize];
            numbers(2) == [filled.number, filled.length] && bytes(fields[2]) == *list
        }
        Answer::Read(reading, lent) => {
            let stands = [
                reading.number,
                reading.page,
                reading.start,
                reading.end,
                reading.transfer,
                reading.length,
            ];
            numbers(6) == stands && bytes(fields[6]) == *lent
        }
        Answer::Viewed {
            number,
            start,
            bytes: seen,
        } => numbers(2) == [*number, *start] && bytes(fields[2]) == *seen,
    }
}

/// One image as the commands make it, and one as the trace says it changed.
#[derive(Default)]
pub struct Replay {
    sectors: u32,
    arrangement: u32,
    /// The image that the run started with.
    start: Vec<u8>,
    made: Vec<u8>,
    told: Vec<u8>,
    pub images: usize,
    pub commands: usize,
    /// The image before the last command, the command's word, and its list.
    before: Vec<u8>,
    word: String,
    list: Vec<u8>,
    /// From a cut to the next accepted repair, replay or blank.
    cut: bool,
    /// How often a list was cut after no write, within it, and after all.
    cuts: [usize; 3],
}

impl Replay {
    fn line(&mut self, line: &str) {
        let fields: Vec<&str> = line.split(' ').collect();
        match *fields {
            ["image", sectors, arrangement, image] => {
                self.sectors = number(sectors);
                self.arrangement = number(arrangement);
                self.start = bytes(image);
                self.restart();
                self.images += 1;
            }
            ["again"] => self.restart(),
            ["excepted", ref places @ ..] => {
                let places: Vec<Range<usize>> = places.iter().map(|field| place(field)).collect();
                assert_eq!(cancelled(&self.start, &self.made, &places), Ok(()));
            }
            ["cut", made, done] => self.pull(number(made), done),
            ["sector", at, sector] => {
                let start = self.start_of(number(at));
                let told = bytes(sector);
                self.told[start..start + told.len()].copy_from_slice(&told);
            }
            ["check", done, rule] => {
                let checked = reference::check(&self.made, self.sectors, self.arrangement);
                assert_eq!([checked.number, checked.rule], [number(done), number(rule)]);
            }
            ["moment", "none"] => {
                let checked = reference::check(&self.made, self.sectors, self.arrangement);
                assert!(self.cut || (checked.number, checked.rule) != (0, 0));
                assert!(self.made == self.told);
            }
            ["moment", free, directory, files] => self.moment([free, directory, files]),
            ["end", count] => assert_eq!(number::<usize>(count), self.images),
            _ => self.command(&fields),
        }
    }

    fn restart(&mut self) {
        self.made = self.start.clone();
        self.told = self.start.clone();
        self.cut = false;
    }

    /// Where the sector of a number begins in the image.
    fn start_of(&self, number: usize) -> usize {
        let (track, sector) = (number / 10, number % 10 + 1);
        match (self.sectors, self.arrangement) {
            (TEN, PLAIN) => position(track, sector),
            (TEN, MOVED) => moved_position(track, sector),
            (NINE, PLAIN) => 256 * number,
            other => panic!("a sector changed with {other:?} stated"),
        }
    }

    /// The card is pulled: the first writes of the list are made of the image
    /// before the command.
    fn pull(&mut self, made: usize, done: &str) {
        let writes = self.list.len() / 259;
        let part = [&self.list[..259 * made], &[0]].concat();
        self.made = rewritten(&self.before, self.sectors, self.arrangement, &part);
        let counts = match self.word.as_str() {
            "save" => made == writes,
            "delete" | "rename" | "protect" => made > 0,
            other => panic!("a cut of {other}"),
        };
        assert_eq!(done, if counts { "1" } else { "0" });
        self.cut = true;
        let kind = if made == 0 {
            0
        } else {
            1 + usize::from(made == writes)
        };
        self.cuts[kind] += 1;
    }

    fn moment(&self, fields: [&str; 3]) {
        assert!(self.made == self.told && !self.cut);
        let [free, directory, files] = fields.map(number::<usize>);
        let count = u16::from_le_bytes([self.made[0x14], self.made[0x15]]);
        assert_eq!(usize::from(count), free);
        assert_eq!(free + directory + files, self.made.len() / 256 - 1);
    }

    fn command(&mut self, fields: &[&str]) {
        let equals = fields.iter().position(|&field| field == "=").expect("=");
        let command = parse(&fields[..equals]);
        self.before = self.made.clone();
        self.word = fields[0].to_string();
        let answer = command.run(&mut self.made, self.sectors, self.arrangement);
        assert!(same(&answer, &fields[equals + 1..]), "{fields:?}");
        self.list = answer.list_of_writes().unwrap_or(&[]).to_vec();
        let ends = ["repair", "replay", "blank"].contains(&fields[0]);
        self.cut &= !(ends && answer.accepted());
        self.commands += 1;
    }
}

pub fn replay(arguments: &[&str]) -> Replay {
    let mut replay = Replay::default();
    for line in trace(arguments) {
        replay.line(&line);
    }
    replay
}

#[test]
fn runs_on_sound_discs() {
    for front in [
        &[][..],
        &["--arrangement", "0"],
        &["--arrangement", "1"],
        &["--sectors", "10", "--arrangement", "1"],
        &["--sectors", "9"],
        &["--arrangement", "0", "--sectors", "9"],
    ] {
        let replayed = replay(&[front, &["5", "120", "6"]].concat());
        assert_eq!(replayed.images, 120);
        assert!(replayed.commands > 400, "{}", replayed.commands);
    }
}

#[test]
fn runs_with_replays() {
    for (front, mode) in [
        (&["--replays", "3"][..], &[][..]),
        (&["--arrangement", "1", "--replays", "3"], &[]),
        (&["--replays", "3", "--sectors", "9"], &[]),
        (&["--replays", "2"], &["refused"]),
    ] {
        let arguments = [front, mode, &["6", "150", "6"]].concat();
        let replayed = replay(&arguments);
        assert_eq!(replayed.images, 150);
        let lines = trace(&arguments);
        let replays: Vec<&String> = lines.iter().filter(|l| l.starts_with("replay ")).collect();
        for end in [" = 0", " = 14"] {
            let times = replays.iter().filter(|line| line.ends_with(end)).count();
            assert!(times > 40, "{front:?} {mode:?}{end}: {times}");
        }
    }
    let without = trace(&["6", "150", "6"]);
    assert!(!without.iter().any(|line| line.starts_with("replay ")));
    assert!(trace(&["--replays", "0", "6", "150", "6"]) == without);
}

#[test]
fn runs_with_cuts_and_repairs() {
    for (front, mode) in [
        (&["--cuts", "2"][..], &[][..]),
        (&["--arrangement", "1", "--cuts", "2"], &[]),
        (&["--cuts", "2", "--sectors", "9"], &[]),
        (&["--cuts", "2", "--replays", "5"], &[]),
        (&["--cuts", "2", "--replays", "5"], &["refused"]),
    ] {
        let arguments = [front, mode, &["7", "200", "6"]].concat();
        let replayed = replay(&arguments);
        assert_eq!(replayed.images, 200);
        // Most damaged images accept neither a repair nor what could be cut.
        let (least_cuts, least_repairs) = if mode.is_empty() { (10, 80) } else { (3, 30) };
        let few = replayed.cuts.iter().any(|&times| times < least_cuts);
        assert!(!few, "{front:?} {mode:?}: {:?}", replayed.cuts);
        let lines = trace(&arguments);
        let repairs = lines.iter().filter(|line| *line == "repair = 0").count();
        assert!(repairs > least_repairs, "{front:?} {mode:?}: {repairs}");
    }
    let without = trace(&["7", "200", "6"]);
    let of_cuts = |line: &String| line.starts_with("repair ") || line.starts_with("cut ");
    assert!(!without.iter().any(of_cuts));
    assert!(trace(&["--cuts", "0", "7", "200", "6"]) == without);
}

#[test]
fn one_repair_each() {
    for option in FORMATS {
        let arguments = [&option[..], &["repaired", "5", "300", "8"]].concat();
        let replayed = replay(&arguments);
        assert_eq!((replayed.images, replayed.commands), (300, 300));
        let lines = trace(&arguments);
        for (line, least) in [("repair = 0", 150), ("repair = 1", 1), ("repair = 3", 30)] {
            let times = lines.iter().filter(|printed| *printed == line).count();
            assert!(times >= least, "{option:?} {line}: {times}");
        }
    }
}

#[test]
fn damaged_images() {
    for option in FORMATS {
        let replayed = replay(&[&option[..], &["damaged", "5", "200", "12"]].concat());
        assert_eq!((replayed.images, replayed.commands), (200, 0));
    }
}

#[test]
fn runs_on_damaged_images() {
    for option in FORMATS {
        let replayed = replay(&[&option[..], &["refused", "5", "120", "12"]].concat());
        assert_eq!(replayed.images, 120);
        assert!(replayed.commands > 400, "{}", replayed.commands);
    }
}

/// The bytes of every image in a trace, and the numbers stated with it.
fn images(front: &[&str], rest: &[&str]) -> Vec<(String, String)> {
    trace(&[front, rest].concat())
        .iter()
        .filter_map(|line| line.strip_prefix("image "))
        .filter_map(|image| image.rsplit_once(' '))
        .map(|(numbers, bytes)| (numbers.to_string(), bytes.to_string()))
        .collect()
}

#[test]
fn the_numbers_stand_in_front_of_the_image() {
    for (front, numbers) in [
        (&[][..], "10 0"),
        (&["--arrangement", "1"], "10 1"),
        (&["--sectors", "9"], "9 0"),
        (&["--arrangement", "1", "--sectors", "9"], "9 1"),
        (&["--sectors", "266", "--arrangement", "7"], "266 7"),
        (&["--sectors", "9", "--sectors", "10"], "10 0"),
    ] {
        let made = images(front, &["3", "5", "4"]);
        assert_eq!(made.len(), 5);
        assert!(made.iter().all(|(stated, _)| stated == numbers));
    }
}

#[test]
fn numbers_that_are_no_format_get_plain_images() {
    for (front, of) in [
        (["--sectors", "8", "--arrangement", "0"], "10"),
        (["--sectors", "11", "--arrangement", "1"], "10"),
        (["--sectors", "265", "--arrangement", "0"], "10"),
        (["--sectors", "10", "--arrangement", "2"], "10"),
        (["--sectors", "9", "--arrangement", "1"], "9"),
        (["--sectors", "9", "--arrangement", "257"], "9"),
    ] {
        for mode in [
            &[][..],
            &["damaged"],
            &["refused"],
            &["repaired"],
            &["cancels"],
        ] {
            let rest = &[mode, &["17", "40", "11"]].concat();
            let plain = &["--sectors", of];
            let bytes = |front: &[&str]| -> Vec<String> {
                images(front, rest)
                    .into_iter()
                    .map(|(_, hex)| hex)
                    .collect()
            };
            let (made, of_plain) = (bytes(&front), bytes(plain));
            // Accepted commands lead the seed elsewhere after the first run.
            let drawn_alone = ![&[][..], &["refused"]].contains(&mode);
            let same = if drawn_alone { 40 } else { 1 };
            assert!(made[..same] == of_plain[..same], "{front:?} {mode:?}");
        }
    }
}

#[test]
fn numbers_that_are_no_format_refuse_every_call() {
    for front in [
        &["--arrangement", "2"][..],
        &["--arrangement", "256"],
        &["--arrangement", "4294967295"],
        &["--sectors", "8"],
        &["--sectors", "0"],
        &["--sectors", "265"],
        &["--sectors", "4294967295", "--arrangement", "1"],
        &["--sectors", "9", "--arrangement", "1"],
    ] {
        let arguments = [front, &["--cuts", "3", "refused", "5", "60", "3"]].concat();
        let replayed = replay(&arguments);
        assert!(replayed.commands > 200, "{}", replayed.commands);
        for line in trace(&arguments) {
            let fields: Vec<&str> = line.split(' ').collect();
            let answered = fields.iter().position(|&field| field == "=");
            match answered {
                Some(equals) => assert_eq!(fields[equals + 1], "1", "{line}"),
                None => assert!(!["sector", "cut"].contains(&fields[0])),
            }
        }
    }
}

/// The lines of a trace without what the arrangement decides: the images, the
/// exceptions, and where a view starts.
fn without_places(arguments: &[&str]) -> Vec<String> {
    let mut lines = trace(arguments);
    lines.retain(|line| !line.starts_with("image ") && !line.starts_with("excepted "));
    for line in &mut lines {
        if line.starts_with("view ") {
            let mut fields: Vec<&str> = line.split(' ').collect();
            fields.remove(5);
            *line = fields.join(" ");
        }
    }
    lines
}

#[test]
fn a_seed_gives_the_same_runs_in_either_arrangement() {
    for mode in [
        &[][..],
        &["damaged"],
        &["refused"],
        &["repaired"],
        &["cancels"],
        &["--replays", "3"],
        &["--cuts", "2"],
    ] {
        let lines = |number| {
            let front = ["--arrangement", number];
            without_places(&[&front[..], mode, &["11", "60", "5"]].concat())
        };
        assert!(lines("0") == lines("1"), "{mode:?}");
    }
}

/// One table as the sheets make it, and one as the trace says it changed.
#[derive(Default)]
struct TotalsReplay {
    start: Vec<u32>,
    made: Vec<u32>,
    told: Vec<u32>,
    sheets: Vec<String>,
    /// Table and sheets of the run before.
    start_before: Vec<u32>,
    sheets_before: Vec<String>,
    reordered: bool,
    runs: usize,
    reordered_runs: usize,
    /// How often each of the numbers 0 to 13 was answered.
    answers: [usize; 14],
    longest_sheet: usize,
}

impl TotalsReplay {
    fn line(&mut self, line: &str) {
        let fields: Vec<&str> = line.split(' ').collect();
        match *fields {
            ["table", length, ..] => {
                self.end_run();
                self.begin(&fields[2..]);
                assert_eq!(self.start.len(), number::<usize>(length));
            }
            ["reordered"] => self.reordered = true,
            ["add", sheet, "=", answer] => {
                self.sheets.push(sheet.to_string());
                self.add(&bytes(sheet), number(answer));
            }
            ["total", worker, value] => {
                let total = &mut self.told[number::<usize>(worker) - 1];
                assert!(*total != number(value), "told, but not changed");
                *total = number(value);
            }
            ["growth", pieces] => self.growth(number(pieces)),
            ["end", count] => {
                self.end_run();
                assert_eq!(number::<usize>(count), self.runs);
            }
            _ => panic!("no line of totals: {line}"),
        }
    }

    fn begin(&mut self, told: &[&str]) {
        let table: Vec<u32> = told
            .chunks(2)
            .flat_map(|pair| vec![number(pair[1]); number(pair[0])])
            .collect();
        self.reordered = false;
        self.sheets_before = std::mem::take(&mut self.sheets);
        self.start_before = std::mem::replace(&mut self.start, table.clone());
        self.made = table.clone();
        self.told = table;
        self.runs += 1;
    }

    fn end_run(&mut self) {
        if self.reordered {
            assert!(self.start_before == self.start);
            self.sheets_before.sort();
            let mut sheets = self.sheets.clone();
            sheets.sort();
            assert_eq!(self.sheets_before, sheets);
            self.reordered_runs += 1;
        }
    }

    fn add(&mut self, sheet: &[u8], answer: usize) {
        let number = reference::add_sheet(&mut self.made, sheet);
        assert_eq!(number as usize, answer);
        self.answers[answer] += 1;
        self.longest_sheet = self.longest_sheet.max(sheet.len());
    }

    fn growth(&self, pieces: u64) {
        assert!(self.made == self.told);
        let sum = |totals: &[u32]| -> u64 { totals.iter().map(|&total| u64::from(total)).sum() };
        assert_eq!(sum(&self.told), sum(&self.start) + pieces);
    }
}

#[test]
fn runs_of_weekly_totals() {
    let mut replay = TotalsReplay::default();
    for line in trace(&["totals", "5", "400"]) {
        replay.line(&line);
    }
    assert_eq!(replay.runs, 400);
    assert!(replay.reordered_runs > 40, "{}", replay.reordered_runs);
    for number in [0, 12, 13] {
        assert!(replay.answers[number] > 200, "{:?}", replay.answers);
    }
    let longest = replay.longest_sheet;
    assert!((1_000..2_200).contains(&longest), "{longest}");
    let none = trace(&["totals", "5", "0"]);
    assert_eq!(none, ["end 0"]);
}

#[test]
fn wrong_arguments_are_refused() {
    for arguments in [
        &["1", "2"][..],
        &["totals", "1"],
        &["totals", "1", "2", "3"],
        &["totals", "x", "2"],
        &["totals", "1", "-2"],
        &["--sectors", "9", "totals", "1", "2"],
        &["x", "2", "3"],
        &["1", "2", "0"],
        &["1", "2", "81"],
        &["--arrangement", "1", "2", "3"],
        &["--arrangement", "x", "1", "2", "3"],
        &["--arrangement", "4294967296", "1", "2", "3"],
        &["damaged", "--arrangement", "1", "1", "2", "3"],
        &["--sectors", "9", "2", "3"],
        &["--sectors", "x", "1", "2", "3"],
        &["--sectors", "-9", "1", "2", "3"],
        &["--replays", "1", "2", "3"],
        &["--replays", "x", "1", "2", "3"],
        &["--replays", "3", "totals", "1", "2"],
        &["--cuts", "1", "2", "3"],
        &["--cuts", "x", "1", "2", "3"],
        &["--cuts", "3", "totals", "1", "2"],
        &["repaired", "1", "2"],
        &["cancels", "1", "2"],
        &["cancels", "1", "2", "81"],
        &["cancels", "--sectors", "9", "1", "2", "3"],
        &["repaired", "--cuts", "1", "1", "2", "3"],
        &["--sectors", "4294967296", "1", "2", "3"],
        &["1", "2", "3", "--sectors", "9"],
    ] {
        let status = Process::new(env!("CARGO_BIN_EXE_trace"))
            .args(arguments)
            .output()
            .expect("the trace program runs")
            .status;
        assert_eq!(status.code(), Some(2), "{arguments:?}");
    }
}
