//! The trace of request h: its runs are replayed, and both laws are looked for in
//! the text alone, without a call.

use crate::common::{moved_byte, put, start_of};
use crate::trace::{bytes, number, place, replay, trace};
use std::collections::BTreeSet;

/// What stands in front for each format, and the numbers that it states.
const FORMATS: [([&str; 2], (u32, u32)); 3] = [
    (["--arrangement", "0"], (10, 0)),
    (["--arrangement", "1"], (10, 1)),
    (["--sectors", "9"], (9, 0)),
];

/// The lines of a run but those of sectors, as fields; and the image at each
/// moment, made of the `image` and `sector` lines.
struct Told {
    lines: Vec<Vec<String>>,
    images: Vec<Vec<u8>>,
}

impl Told {
    fn of(mut lines: Vec<Vec<String>>) -> Told {
        let (sectors, arrangement) = (number::<usize>(&lines[0][1]), number(&lines[0][2]));
        let start = bytes(&lines[0][3]);
        let (mut image, mut images) = (start.clone(), Vec::new());
        for fields in &lines {
            match fields[0].as_str() {
                "sector" => {
                    let at: usize = number(&fields[1]);
                    let address = (at / sectors, at % sectors + 1);
                    let place = start_of(sectors as u32, arrangement, address);
                    put(&mut image, place, &bytes(&fields[2]));
                }
                "again" => image = start.clone(),
                "moment" => images.push(image.clone()),
                _ => {}
            }
        }
        lines.retain(|fields| fields[0] != "sector");
        Told { lines, images }
    }

    fn words(&self) -> Vec<&str> {
        self.lines.iter().map(|line| line[0].as_str()).collect()
    }

    /// Arguments and answers of the command on the line at a place.
    fn command(&self, at: usize) -> (&[String], &[String]) {
        let line = &self.lines[at];
        let equals = line.iter().position(|field| field == "=").expect("=");
        (&line[1..equals], &line[equals + 1..])
    }
}

fn runs(arguments: &[&str]) -> Vec<Told> {
    let mut runs: Vec<Vec<Vec<String>>> = Vec::new();
    for line in trace(arguments) {
        let fields: Vec<String> = line.split(' ').map(str::to_string).collect();
        match fields[0].as_str() {
            "image" => runs.push(vec![fields]),
            "end" => {}
            _ => runs.last_mut().expect("an image").push(fields),
        }
    }
    runs.into_iter().map(Told::of).collect()
}

const SAVE_AND_DELETE: [&str; 8] = [
    "image", "check", "moment", "save", "moment", "delete", "moment", "excepted",
];
const RENAMES: [&str; 11] = [
    "image", "check", "moment", "rename", "moment", "rename", "moment", "again", "moment",
    "rename", "moment",
];

/// How many runs of each kind there were.
#[derive(Debug, Default)]
struct Seen {
    reached: usize,
    not_reached: usize,
    /// The track byte of the free chain's end isn't zero, for either kind.
    end_track: [usize; 2],
    /// The bytes after the link of a taken sector weren't all zero.
    junk: usize,
    filled_all: usize,
    c_is_a: usize,
    other_name: usize,
}

fn free_count(image: &[u8]) -> usize {
    usize::from(u16::from_le_bytes([image[0x14], image[0x15]]))
}

/// Where the sectors of an image's free chain start.
fn free_chain(image: &[u8], (sectors, arrangement): (u32, u32)) -> Vec<usize> {
    let mut starts = Vec::new();
    let (mut track, mut sector) = (image[0x11], image[0x10]);
    while sector != 0 {
        let address = (usize::from(track), usize::from(sector));
        let start = start_of(sectors, arrangement, address);
        starts.push(start);
        (track, sector) = (image[start], image[start + 1]);
    }
    starts
}

fn look_at_save(seen: &mut Seen, run: &Told, format: (u32, u32)) {
    let (start, after) = (&run.images[0], &run.images[2]);
    let ((save, saved), (delete, deleted)) = (run.command(3), run.command(5));
    assert_eq!((&*saved[0], &*deleted[0]), ("0", "0"));
    assert_eq!(save[0], delete[0]);
    assert_eq!(run.lines[2], run.lines[6], "the moments");
    // The list of a save has 0/1, the file's sectors and one directory sector.
    let count = number::<usize>(&saved[1]) / 259 - 2;
    let chain = free_chain(start, format);
    assert_eq!(chain.len(), free_count(start));
    let reached = count == chain.len();
    let mut due: BTreeSet<usize> = chain[..count]
        .iter()
        .flat_map(|&start| start + 2..start + 256)
        .collect();
    let end = chain[chain.len() - 1];
    due.extend(reached.then_some(end));
    let ranges: Vec<_> = run.lines[7][1..].iter().map(|field| place(field)).collect();
    assert_eq!(ranges.len(), count + usize::from(reached));
    assert!(ranges.windows(2).all(|pair| pair[0].end <= pair[1].start));
    assert!(ranges.into_iter().flatten().eq(due.iter().copied()));
    let mut differ = (0..start.len()).filter(|&at| start[at] != after[at]);
    assert!(differ.all(|at| due.contains(&at)));
    seen.reached += usize::from(reached);
    seen.not_reached += usize::from(!reached);
    seen.end_track[usize::from(reached)] += usize::from(start[end] != 0);
    seen.junk += usize::from(due.iter().any(|&at| start[at] != 0 && at != end));
    let length = bytes(&save[4]).len();
    seen.filled_all += usize::from(reached && length == 245 + 253 * (count - 1));
}

fn look_at_renames(seen: &mut Seen, run: &Told) {
    let [(first, done), (second, done_too), (direct, answer)] =
        [run.command(3), run.command(5), run.command(9)];
    assert_eq!((&*done[0], &*done_too[0]), ("0", "0"));
    let (a, b, c) = (&first[0], &first[1], &second[1]);
    assert_eq!((&second[0], &direct[0], &direct[1]), (b, a, c));
    assert_eq!(first[2..], direct[2..], "what is lent");
    assert_eq!(run.lines[2], run.lines[8], "the moments");
    let [start, after, directly] = [0, 2, 4].map(|at| &run.images[at]);
    if a == c {
        assert_eq!(answer, ["5", "0", "-"]);
        assert!(after == start && directly == start);
        seen.c_is_a += 1;
    } else {
        assert_eq!(answer[0], "0");
        assert!(after == directly && after != start);
        seen.other_name += 1;
    }
}

#[test]
fn runs_that_cancel() {
    for (option, format) in FORMATS {
        let arguments = [&option[..], &["cancels", "5", "600", "3"]].concat();
        let replayed = replay(&arguments);
        assert_eq!(replayed.images, 600);
        let mut seen = Seen::default();
        for run in runs(&arguments) {
            if run.words() == SAVE_AND_DELETE {
                look_at_save(&mut seen, &run, format);
            } else {
                assert_eq!(run.words(), RENAMES);
                look_at_renames(&mut seen, &run);
            }
        }
        let saves = seen.reached + seen.not_reached;
        let renames = seen.c_is_a + seen.other_name;
        assert_eq!(saves + renames, 600);
        assert_eq!(replayed.commands, 2 * saves + 3 * renames);
        assert!(seen.reached > 150 && seen.not_reached > 90, "{seen:?}");
        assert!(seen.end_track.iter().all(|&times| times > 40), "{seen:?}");
        assert!(2 * seen.junk > saves && seen.filled_all > 50, "{seen:?}");
        assert!(seen.c_is_a > 50 && seen.other_name > 100, "{seen:?}");
    }
}

#[test]
fn one_track_alone() {
    for (option, _) in FORMATS {
        let arguments = [&option[..], &["cancels", "8", "200", "1"]].concat();
        assert_eq!(replay(&arguments).images, 200);
        let sizes: BTreeSet<usize> = runs(&arguments)
            .iter()
            .map(|run| run.images[0].len())
            .collect();
        assert_eq!(sizes.len(), 1);
    }
}

#[test]
fn the_exceptions_of_a_moved_image_are_the_plain_ones_moved() {
    let exceptions = |option: [&str; 2]| -> Vec<BTreeSet<usize>> {
        let arguments = [&option[..], &["cancels", "9", "150", "4"]].concat();
        runs(&arguments)
            .iter()
            .filter(|run| run.words() == SAVE_AND_DELETE)
            .map(|run| run.lines[7][1..].iter().flat_map(|f| place(f)).collect())
            .collect()
    };
    let (plain, in_moved) = (exceptions(FORMATS[0].0), exceptions(FORMATS[1].0));
    assert!(plain.len() > 60 && plain != in_moved);
    let moved_ones = |places: &BTreeSet<usize>| places.iter().map(|&at| moved_byte(at)).collect();
    let moved_plain: Vec<BTreeSet<usize>> = plain.iter().map(moved_ones).collect();
    assert_eq!(moved_plain, in_moved);
}

#[test]
fn without_a_format_every_call_is_refused() {
    for front in [
        &["--sectors", "8"][..],
        &["--arrangement", "2"],
        &["--sectors", "9", "--arrangement", "1"],
    ] {
        let arguments = [front, &["cancels", "5", "60", "3"]].concat();
        assert_eq!(replay(&arguments).images, 60);
        for run in runs(&arguments) {
            let save_and_delete = run.words() == SAVE_AND_DELETE[..7];
            assert!(save_and_delete || run.words() == RENAMES);
            let commands = if save_and_delete {
                &[3, 5][..]
            } else {
                &[3, 5, 9]
            };
            for &at in commands {
                assert_eq!(run.command(at).1, ["1", "0", "-"]);
            }
        }
    }
}

#[test]
fn replays_and_cuts_change_nothing() {
    let lines = trace(&["cancels", "5", "30", "3"]);
    for front in [["--replays", "2"], ["--cuts", "2"]] {
        assert!(trace(&[&front[..], &["cancels", "5", "30", "3"]].concat()) == lines);
    }
    assert_eq!(lines.last().map(String::as_str), Some("end 30"));
    assert_eq!(trace(&["cancels", "5", "0", "3"]), ["end 0"]);
}
