//! Tables of weekly totals and sheets for them, good and bad, on and across
//! every boundary.

use super::Random;

const WORKERS: usize = 500;
const HIGHEST_TOTAL: u32 = 1_000_000_000;
const MOST_PIECES: u32 = 65_535;

/// One byte of kind and four of body; only the end is shorter.
type Record = [u8; 5];
const RECORD_BYTES: usize = 5;

const END: u8 = 0;
const PIECES: u8 = 1;
const DATE: u8 = 2;

/// The totals that a run starts with, and its sheets in order.
#[derive(Debug, Clone, PartialEq, Eq)]
pub struct TotalsRun {
    pub totals: Vec<u32>,
    pub sheets: Vec<Vec<u8>>,
}

impl TotalsRun {
    /// The same sheets from the same totals, in another order unless chance or
    /// their number leaves them in this one.
    pub fn reordered(&self, random: &mut Random) -> TotalsRun {
        let mut other = self.clone();
        random.shuffle(&mut other.sheets);
        other
    }
}

/// A run of 1 to `most_sheets` sheets, each of up to about `most_records`
/// records. A sheet is chosen with the totals before it in view, so that the
/// limit is met. In calm runs every sheet is good, and many runs are accepted
/// throughout.
pub fn totals_run(random: &mut Random, most_sheets: usize, most_records: usize) -> TotalsRun {
    let totals = if random.one_in(10) {
        wrong_table(random)
    } else {
        table(random)
    };
    let calm = random.one_in(3);
    let mut standing = totals.clone();
    let sheets = (0..random.between(1, most_sheets))
        .map(|_| {
            let sheet = if calm {
                calm_sheet(random, &standing, most_records)
            } else {
                any_sheet(random, &standing, most_records)
            };
            crate::add_sheet(&mut standing, &sheet);
            sheet
        })
        .collect();
    TotalsRun { totals, sheets }
}

fn calm_sheet(random: &mut Random, totals: &[u32], most_records: usize) -> Vec<u8> {
    let edge = if random.one_in(4) {
        edge_sheet(random, totals, most_records, 0)
    } else {
        None
    };
    edge.unwrap_or_else(|| good_sheet(random, most_records))
}

/// Good, bad, at the limit, over it, or both bad and over it.
fn any_sheet(random: &mut Random, totals: &[u32], most_records: usize) -> Vec<u8> {
    let edge = if random.one_in(2) {
        let excess = random.pick(&[0, 0, 1, 1, 2, MOST_PIECES]);
        edge_sheet(random, totals, most_records, excess)
    } else {
        None
    };
    let mut sheet = edge.unwrap_or_else(|| good_sheet(random, most_records));
    if random.one_in(3) {
        let way = random.pick(&Spoil::ALL);
        spoil(random, &mut sheet, way);
    }
    sheet
}

/// A table of 500 totals. Some stand at the limit or just below it; in one
/// table of six, one stands above it.
pub fn table(random: &mut Random) -> Vec<u32> {
    let mut totals = match random.below(6) {
        0 | 1 => vec![0; WORKERS],
        2 => vec![random.pick(&[1, HIGHEST_TOTAL / 2, HIGHEST_TOTAL - 1, HIGHEST_TOTAL]); WORKERS],
        3 => (0..WORKERS)
            .map(|_| random.below(HIGHEST_TOTAL as usize + 1) as u32)
            .collect(),
        _ => vec![random.below(1_000_000) as u32; WORKERS],
    };
    for _ in 0..random.below(4) {
        let below = random.pick(&[0, 1, 2, 255, 256, 65_534, 65_535, 65_536, 131_070, 700_000]);
        totals[some_worker(random) - 1] = HIGHEST_TOTAL - below;
    }
    if random.one_in(6) {
        totals[some_worker(random) - 1] = too_high(random);
    }
    totals
}

/// A table of another length, now and then with a total above the limit.
pub fn wrong_table(random: &mut Random) -> Vec<u32> {
    let mut totals = table(random);
    let length = random.pick(&[0, 1, 499, 501, 1000]);
    let more = if random.one_in(3) {
        too_high(random)
    } else {
        random.below(3) as u32
    };
    totals.resize(length, more);
    totals
}

fn too_high(random: &mut Random) -> u32 {
    const JUST_ABOVE: u32 = HIGHEST_TOTAL + 1;
    const SIGN: u32 = 1 << 31;
    random.pick(&[
        JUST_ABOVE,
        JUST_ABOVE,
        HIGHEST_TOTAL + MOST_PIECES,
        SIGN - 1,
        SIGN,
        u32::MAX - MOST_PIECES,
        u32::MAX - 1,
        u32::MAX,
    ])
}

/// One of the workers 1 to 500, the first and the last often.
fn some_worker(random: &mut Random) -> usize {
    match random.below(6) {
        0 => 1,
        1 => WORKERS,
        2 => random.pick(&[2, 255, 256, 257, 499]),
        _ => random.between(1, WORKERS),
    }
}

fn some_pieces(random: &mut Random) -> u32 {
    match random.below(4) {
        0 => random.pick(&[0, 1, 255, 256, 0x7FFF, 0x8000, MOST_PIECES - 1, MOST_PIECES]),
        1 => random.below(MOST_PIECES as usize + 1) as u32,
        _ => random.below(300) as u32,
    }
}

fn work(worker: usize, pieces: u32) -> Record {
    let (worker, pieces) = ((worker as u16).to_le_bytes(), (pieces as u16).to_le_bytes());
    [PIECES, worker[0], worker[1], pieces[0], pieces[1]]
}

/// A date record; its bytes often look like kinds and records.
fn date(random: &mut Random) -> Record {
    const BODIES: [[u8; 4]; 6] = [
        [0; 4],
        [PIECES, 0, 0, 0],
        [PIECES; 4],
        [DATE; 4],
        [0, PIECES, 1, 0],
        [0xFF; 4],
    ];
    let [a, b, c, d] = if random.one_in(2) {
        random.pick(&BODIES)
    } else {
        (random.draw() as u32).to_le_bytes()
    };
    [DATE, a, b, c, d]
}

/// A good sheet of up to `most_records` records, whatever the totals are: just
/// the end, only dates, all of one worker, or of any workers.
pub fn good_sheet(random: &mut Random, most_records: usize) -> Vec<u8> {
    let count = match random.below(8) {
        0 => random.below(2),
        1 => most_records,
        _ => random.below(most_records + 1),
    };
    let only = some_worker(random);
    let (one_worker, many_pieces) = (random.one_in(4), random.one_in(4));
    let dates = random.pick(&[2, 5, 50]);
    let only_dates = random.one_in(12);
    let records: Vec<Record> = (0..count)
        .map(|_| {
            if only_dates || random.one_in(dates) {
                return date(random);
            }
            let worker = if one_worker {
                only
            } else {
                some_worker(random)
            };
            let pieces = if many_pieces {
                MOST_PIECES
            } else {
                some_pieces(random)
            };
            work(worker, pieces)
        })
        .collect();
    ended(&records)
}

fn ended(records: &[Record]) -> Vec<u8> {
    let mut sheet = records.concat();
    sheet.push(END);
    sheet
}

/// A good sheet that brings one worker's total to the limit and `excess` above
/// it, and no other total above it. The record that does so may be followed by
/// others. Nothing if no total is near enough for `most_records` records.
pub fn edge_sheet(
    random: &mut Random,
    totals: &[u32],
    most_records: usize,
    excess: u32,
) -> Option<Vec<u8>> {
    let reach = (most_records as u64).saturating_mul(u64::from(MOST_PIECES));
    let first = random.below(totals.len());
    let (worker, gap) = (0..totals.len().min(WORKERS)).find_map(|step| {
        let at = (first + step) % totals.len();
        let gap = HIGHEST_TOTAL.checked_sub(totals[at])?;
        let near = at < WORKERS && u64::from(gap + excess) <= reach;
        near.then_some((at + 1, gap))
    })?;
    let mut records: Vec<Record> = portions(random, gap + excess)
        .into_iter()
        .map(|portion| work(worker, portion))
        .collect();
    for _ in 0..random.below(4) {
        let at = random.below(records.len() + 1);
        records.insert(at, harmless(random, totals, worker));
    }
    Some(ended(&records))
}

/// Numbers of pieces that make up an amount, at least one.
fn portions(random: &mut Random, amount: u32) -> Vec<u32> {
    let first = random.below(amount.min(MOST_PIECES) as usize + 1) as u32;
    let mut portions = vec![first];
    let mut left = amount - first;
    while left > 0 {
        let portion = left.min(MOST_PIECES);
        portions.push(portion);
        left -= portion;
    }
    random.shuffle(&mut portions);
    portions
}

/// A date, or a record that brings no total near the limit and doesn't count for
/// the worker `apart`.
fn harmless(random: &mut Random, totals: &[u32], apart: usize) -> Record {
    let worker = some_worker(random);
    let far = totals
        .get(worker - 1)
        .map_or(true, |&total| total < HIGHEST_TOTAL / 2);
    match random.below(3) {
        0 => date(random),
        1 if far && worker != apart => work(worker, some_pieces(random)),
        _ => work(worker, 0),
    }
}

/// A way in which bytes are no sheet.
#[derive(Debug, Clone, Copy, PartialEq, Eq)]
pub enum Spoil {
    OtherKind,
    CutRecord,
    NoEnd,
    BytesAfterEnd,
    EarlyEnd,
    OtherWorker,
    Empty,
}

impl Spoil {
    pub const ALL: [Spoil; 7] = [
        Spoil::OtherKind,
        Spoil::CutRecord,
        Spoil::NoEnd,
        Spoil::BytesAfterEnd,
        Spoil::EarlyEnd,
        Spoil::OtherWorker,
        Spoil::Empty,
    ];
}

/// Makes a good sheet bad in this way. A record is put in front if the way needs
/// one and the sheet has none.
pub fn spoil(random: &mut Random, sheet: &mut Vec<u8>, way: Spoil) {
    match way {
        Spoil::OtherKind => {
            let at = RECORD_BYTES * random.below(records_in(sheet) + 1);
            let any = random.between(3, 255) as u8;
            sheet[at] = random.pick(&[3, 4, 16, 128, 255, any]);
        }
        Spoil::CutRecord => {
            some_record(random, sheet);
            sheet.truncate(sheet.len() - 1 - random.between(1, 4));
        }
        Spoil::NoEnd => {
            sheet.pop();
        }
        Spoil::BytesAfterEnd => add_behind(random, sheet),
        Spoil::EarlyEnd => {
            let at = some_record(random, sheet);
            sheet[at] = END;
        }
        Spoil::OtherWorker => {
            let at = some_record(random, sheet);
            let any = random.between(WORKERS + 1, usize::from(u16::MAX));
            let other = random.pick(&[0, 501, 512, 65_535, 32_768, any]);
            let record = work(other, some_pieces(random));
            sheet[at..at + RECORD_BYTES].copy_from_slice(&record);
        }
        Spoil::Empty => sheet.clear(),
    }
}

fn records_in(sheet: &[u8]) -> usize {
    sheet.len() / RECORD_BYTES
}

/// Where some record of a good sheet begins, often the first or the last.
fn some_record(random: &mut Random, sheet: &mut Vec<u8>) -> usize {
    if records_in(sheet) == 0 {
        let record = work(some_worker(random), some_pieces(random));
        sheet.splice(0..0, record);
    }
    let last = records_in(sheet) - 1;
    let any = random.between(0, last);
    RECORD_BYTES * random.pick(&[0, any, last])
}

/// Bytes after the end, which may look like another end or record.
fn add_behind(random: &mut Random, sheet: &mut Vec<u8>) {
    match random.below(3) {
        0 => sheet.push(END),
        1 => {
            sheet.extend(work(some_worker(random), some_pieces(random)));
            sheet.push(END);
        }
        _ => {
            let count = random.between(1, 6);
            sheet.extend(random.bytes(count));
        }
    }
}
