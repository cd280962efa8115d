//! Medians over interleaved batches of both programs on three works: an
//! operation on every kind of disc, or three sheets.

use crate::program::{Program, LIBRARY, SECOND};
use std::time::{Duration, Instant};

const BATCH: Duration = Duration::from_micros(200);
/// One for each program on each work.
const SERIES: usize = 6;
/// The turns of the first round. A batch is slower after another program's or
/// after another work, so in as many rounds as there are series each comes after
/// each other one, never after itself.
const FIRST_TURNS: [usize; SERIES] = [0, 1, 5, 2, 4, 3];

fn turns(round: usize) -> [usize; SERIES] {
    FIRST_TURNS.map(|first| (first + round) % SERIES)
}

/// What can be repeated by both programs in turn, with all that it lends them.
pub trait Work: Clone + PartialEq {
    /// 0 if every call answered as it should.
    fn repeat(&mut self, program: &Program, times: u32) -> u64;
}

/// Median nanoseconds of one operation by each program.
#[derive(Debug, Clone, Copy)]
pub struct Measured {
    pub library: f64,
    pub second: f64,
}

impl Measured {
    pub fn ratio(&self) -> f64 {
        self.library / self.second
    }
}

/// One program on one work.
struct Series {
    program: &'static Program,
    work: usize,
    times: u32,
    taken: Vec<f64>,
}

/// The figures of each work; nothing if a program answers a call with anything
/// but what it should, or the two leave the lent memory other than alike.
pub fn measure<W: Work>(works: &[W; 3], rounds: usize) -> Option<Vec<Measured>> {
    if !works.iter().all(done_alike) {
        return None;
    }
    let mut works = works.to_vec();
    let mut series = all_series(&mut works, rounds);
    for round in 0..rounds {
        for turn in turns(round) {
            let one = &mut series[turn];
            let taken = timed(one.program, &mut works[one.work], one.times);
            one.taken.push(taken);
        }
    }
    let medians = series.map(|mut one| median(&mut one.taken));
    let of_work = |both: &[f64]| Measured {
        library: both[0],
        second: both[1],
    };
    Some(medians.chunks(2).map(of_work).collect())
}

/// The library and the second program on one work after the other.
fn all_series<W: Work>(works: &mut [W], rounds: usize) -> [Series; SERIES] {
    [0, 1, 2, 3, 4, 5].map(|at| {
        let (work, program) = (at / 2, [&LIBRARY, &SECOND][at % 2]);
        Series {
            program,
            work,
            times: batch_size(program, &mut works[work]),
            taken: Vec::with_capacity(rounds),
        }
    })
}

/// Whether both programs do what is asked, since a refused call would pass for
/// a fast one, and leave the same.
fn done_alike<W: Work>(work: &W) -> bool {
    let [library, second] = [&LIBRARY, &SECOND].map(|program| {
        let mut work = work.clone();
        let numbers = work.repeat(program, 1);
        (numbers, work)
    });
    library.0 == 0 && library == second
}

/// How many repetitions take about the time of a batch.
fn batch_size<W: Work>(program: &Program, work: &mut W) -> u32 {
    let mut times = 1;
    loop {
        let start = Instant::now();
        work.repeat(program, times);
        let taken = start.elapsed();
        if taken >= BATCH / 2 {
            let fitting = f64::from(times) * BATCH.as_secs_f64() / taken.as_secs_f64();
            return fitting.max(1.0) as u32;
        }
        times *= 2;
    }
}

/// Nanoseconds of one operation in a batch.
fn timed<W: Work>(program: &Program, work: &mut W, times: u32) -> f64 {
    let start = Instant::now();
    work.repeat(program, times);
    start.elapsed().as_secs_f64() * 1e9 / f64::from(times)
}

fn median(values: &mut [f64]) -> f64 {
    values.sort_by(f64::total_cmp);
    values[values.len() / 2]
}

#[cfg(test)]
mod tests {
    use super::*;
    use crate::discs::{self, Disc};
    use crate::operation::{Lent, Operation};
    use crate::sheets;
    use compare::kind::Kind;

    fn done_on(disc: &Disc) -> Vec<bool> {
        let done = |operation| done_alike(&Lent::new(operation, disc));
        Operation::ALL.map(done).to_vec()
    }

    /// Short discs with room for every operation.
    fn discs(kind: Kind) -> [Disc; 2] {
        [
            discs::few_large_files(kind, 5, discs::LEFT_FREE_FOR_LARGE),
            discs::small_files(kind, 40, 300),
        ]
    }

    #[test]
    fn every_series_comes_after_every_other_and_never_after_itself() {
        let turns: Vec<usize> = (0..SERIES).flat_map(turns).collect();
        let before = turns.iter().cycle().skip(turns.len() - 1);
        let mut met = [[0; SERIES]; SERIES];
        for (&first, &then) in before.zip(&turns) {
            met[then][first] += 1;
        }
        for (series, after) in met.iter().enumerate() {
            assert_eq!(after[series], 0);
            assert!((0..SERIES).all(|other| other == series || after[other] > 0));
        }
    }

    #[test]
    fn every_operation_is_done_on_every_kind_of_disc() {
        for kind in Kind::ALL {
            for disc in discs(kind) {
                assert!(done_on(&disc).into_iter().all(|done| done));
            }
        }
    }

    #[test]
    fn every_operation_leaves_the_disc_as_it_found_it() {
        for kind in Kind::ALL {
            for disc in discs(kind) {
                for operation in Operation::ALL {
                    let mut lent = Lent::new(operation, &disc);
                    // The first save makes a full directory grow.
                    lent.repeat(&SECOND, 2);
                    let before = lent.clone();
                    assert_eq!(lent.repeat(&SECOND, 2), 0);
                    assert!(lent == before, "{}", operation.name());
                }
            }
        }
    }

    #[test]
    fn a_refused_operation_is_not_timed() {
        let mut disc = discs::few_large_files(Kind::Nine, 5, discs::LEFT_FREE_FOR_LARGE);
        disc.kind = Kind::Ten;
        assert!(!done_on(&disc).into_iter().any(|done| done));
    }

    #[test]
    fn every_sheet_is_timed() {
        for sheets in [sheets::long(), sheets::short_and_refused()] {
            assert!(sheets.iter().all(done_alike));
        }
    }

    /// Answers what the library answers, but leaves something else.
    #[derive(Clone, PartialEq)]
    struct Unlike(bool);

    impl Work for Unlike {
        fn repeat(&mut self, program: &Program, _times: u32) -> u64 {
            self.0 = std::ptr::eq(program, &LIBRARY);
            0
        }
    }

    #[test]
    fn what_is_left_unlike_is_not_timed() {
        assert!(!done_alike(&Unlike(false)));
    }

    #[test]
    fn the_median_is_the_middle_value() {
        assert_eq!(median(&mut [9.0, 1.0, 5.0]), 5.0);
        assert_eq!(median(&mut [2.0]), 2.0);
    }
}
