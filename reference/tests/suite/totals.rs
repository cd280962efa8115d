//! The weekly totals: the records, both refusals, and the claims over several
//! calls.

use reference::add_sheet;
use reference::generate::{edge_sheet, good_sheet, spoil, table, totals_run, wrong_table};
use reference::generate::{Random, Spoil, TotalsRun};
use reference::totals_book::{call_fault, moment_fault, order_fault, run_fault, TotalsBook};
use reference::totals_book::{pieces_in, pieces_of_workers, piecework, Piecework};

const HIGHEST: u32 = 1_000_000_000;

/// A table of zeros but for these workers.
fn totals_with(workers: &[(usize, u32)]) -> Vec<u32> {
    let mut totals = vec![0; 500];
    for &(worker, total) in workers {
        totals[worker - 1] = total;
    }
    totals
}

/// The table after a sheet that must be accepted.
fn accepted(totals: &[u32], sheet: &[u8]) -> Vec<u32> {
    let mut lent = totals.to_vec();
    assert_eq!(add_sheet(&mut lent, sheet), 0, "{sheet:02X?}");
    lent
}

/// The number of a sheet that must be refused and leave every total.
fn refused(totals: &[u32], sheet: &[u8]) -> u32 {
    let mut lent = totals.to_vec();
    let number = add_sheet(&mut lent, sheet);
    assert_ne!(number, 0, "{sheet:02X?}");
    assert!(lent == totals, "a total changed with {number}");
    number
}

/// A record of kind 1, its two numbers low first.
fn record(worker: usize, pieces: usize) -> Vec<u8> {
    let halves = |number: usize| [(number % 256) as u8, (number / 256) as u8];
    let [w0, w1] = halves(worker);
    let [p0, p1] = halves(pieces);
    vec![1, w0, w1, p0, p1]
}

/// A sheet of kind 1 records with its end.
fn sheet_of(records: &[(usize, usize)]) -> Vec<u8> {
    let mut sheet: Vec<u8> = records
        .iter()
        .flat_map(|&(worker, pieces)| record(worker, pieces))
        .collect();
    sheet.push(0);
    sheet
}

/// One sheet for each cause of 12 that lies in the sheet. Those with records
/// begin with worker 1 and 10 pieces.
const BAD_SHEETS: [&[u8]; 12] = [
    b"",
    b"\x03",
    b"\x01\x01\x00\x0A\x00",
    b"\x01\x01\x00\x0A\x00\x00\x00",
    b"\x01\x01\x00\x0A\x00\x00\x01\x01\x00\x0A\x00\x00",
    b"\x01\x01\x00\x0A\x00\x03\x00\x00\x00\x00\x00",
    b"\x01\x01\x00\x0A\x00\xFF",
    b"\x01\x01\x00\x0A\x00\x01\x01\x00\x0A",
    b"\x01\x01\x00\x0A\x00\x02\x00\x00\x00",
    b"\x01\x01\x00\x0A\x00\x01",
    b"\x01\x01\x00\x0A\x00\x01\x00\x00\x0A\x00\x00",
    b"\x01\x01\x00\x0A\x00\x01\xF5\x01\x0A\x00\x00",
];

#[test]
fn the_end_alone_is_a_sheet() {
    let totals: Vec<u32> = (0..500).collect();
    assert_eq!(accepted(&totals, &[0]), totals);
}

#[test]
fn worker_and_pieces_stand_low_first() {
    for (sheet, worker, pieces) in [
        (b"\x01\x2C\x01\x10\x27\x00", 300, 10_000),
        (b"\x01\x00\x01\x01\x00\x00", 256, 1),
        (b"\x01\x01\x00\x00\x01\x00", 1, 256),
        (b"\x01\xF4\x01\xFF\xFF\x00", 500, 65_535),
        (b"\x01\x02\x01\xFF\x7F\x00", 258, 32_767),
        (b"\x01\x01\x01\x00\x80\x00", 257, 32_768),
    ] {
        let expected = totals_with(&[(worker, pieces)]);
        assert_eq!(accepted(&[0; 500], sheet), expected, "{sheet:02X?}");
    }
}

#[test]
fn every_record_adds_its_pieces() {
    let sheet = b"\x02\x05\x0C\x4F\x00\x01\x01\x00\x05\x00\x01\xF4\x01\x01\x00\x02\x00\x00\x00\x00\
        \x01\x01\x00\x07\x00\x01\x02\x00\x00\x00\x00";
    let mut expected = vec![100; 500];
    expected[0] = 112;
    expected[499] = 101;
    assert_eq!(accepted(&[100; 500], sheet), expected);
}

#[test]
fn zeros_in_a_body_are_no_end() {
    let sheet = b"\x01\x01\x00\x00\x00\x01\x00\x01\x00\x02\x00";
    assert_eq!(accepted(&[0; 500], sheet), totals_with(&[(256, 512)]));
}

#[test]
fn date_bytes_of_any_value_are_skipped() {
    for byte in 0..=255 {
        for place in 1..5 {
            let mut sheet = b"\x02\x07\x07\x07\x07\x01\x09\x00\x03\x00\x00".to_vec();
            sheet[place] = byte;
            assert_eq!(accepted(&[0; 500], &sheet), totals_with(&[(9, 3)]));
        }
        let dates_only = [2, byte, byte, byte, byte, 0];
        assert_eq!(accepted(&[1; 500], &dates_only), [1; 500]);
    }
}

#[test]
fn workers_1_to_500_and_no_other() {
    for worker in 0..=65_535 {
        let sheet = sheet_of(&[(worker, 6)]);
        if (1..=500).contains(&worker) {
            assert_eq!(accepted(&[0; 500], &sheet), totals_with(&[(worker, 6)]));
        } else {
            assert_eq!(refused(&[0; 500], &sheet), 12, "{worker}");
        }
    }
}

#[test]
fn a_worker_outside_is_refused_with_no_pieces_and_in_any_record() {
    for worker in [0, 501, 512, 513, 756, 32_769, 65_535] {
        assert_eq!(refused(&[0; 500], &sheet_of(&[(worker, 0)])), 12);
        for place in 0..3 {
            let mut records = [(1, 1), (500, 2), (7, 3)];
            records[place].0 = worker;
            assert_eq!(refused(&[0; 500], &sheet_of(&records)), 12, "{worker}");
        }
    }
}

#[test]
fn another_kind_is_refused() {
    for kind in 3..=255 {
        for sheet in [
            &[kind][..],
            &[kind, 0],
            &[kind, 1, 0, 1, 0, 0],
            &[1, 1, 0, 1, 0, kind],
            &[kind, 1, 0, 1, 0, 1, 1, 0, 1, 0, 0],
            &[2, 1, 0, 1, 0, kind, 1, 0, 1, 0, 0],
        ] {
            assert_eq!(refused(&[0; 500], sheet), 12, "{sheet:02X?}");
        }
    }
}

#[test]
fn a_cut_record_is_refused() {
    for kind in [1, 2] {
        let whole = [kind, 1, 0, 1, 0];
        for left in 1..5 {
            let cut = &whole[..left];
            assert_eq!(refused(&[0; 500], cut), 12, "{cut:?}");
            let later = [&[1, 9, 0, 1, 0], cut].concat();
            assert_eq!(refused(&[0; 500], &later), 12, "{later:?}");
            // With an end behind it the record takes that for its body.
            let ended = [cut, &[0]].concat();
            assert_eq!(refused(&[0; 500], &ended), 12, "{ended:?}");
        }
    }
}

#[test]
fn a_missing_end_is_refused() {
    assert_eq!(refused(&[0; 500], &[]), 12);
    assert_eq!(refused(&[0; 500], &[1, 1, 0, 1, 0]), 12);
    assert_eq!(refused(&[0; 500], &[2, 0, 0, 0, 0]), 12);
    assert_eq!(refused(&[0; 500], &[1, 1, 0, 1, 0, 2, 0, 0, 0, 0]), 12);
}

#[test]
fn bytes_after_the_end_are_refused() {
    for behind in 0..=255 {
        assert_eq!(refused(&[0; 500], &[0, behind]), 12);
        assert_eq!(refused(&[0; 500], &[1, 1, 0, 1, 0, 0, behind]), 12);
    }
    let two_sheets = [sheet_of(&[(1, 1)]), sheet_of(&[(2, 2)])].concat();
    assert_eq!(refused(&[0; 500], &two_sheets), 12);
    // An end in place of a kind, with a last byte 0 all the same.
    assert_eq!(refused(&[0; 500], &[0, 1, 0, 1, 0, 0]), 12);
    assert_eq!(refused(&[0; 500], &[0, 0, 0, 0, 0, 0]), 12);
}

#[test]
fn a_table_of_another_length_is_refused() {
    for length in [0, 1, 2, 255, 256, 499, 501, 512, 1000, 65_536] {
        for total in [0, HIGHEST, HIGHEST + 1, u32::MAX] {
            let totals = vec![total; length];
            assert_eq!(refused(&totals, &[0]), 12, "{length}");
            assert_eq!(refused(&totals, &sheet_of(&[(1, 1)])), 12, "{length}");
            assert_eq!(refused(&totals, &[]), 12, "{length}");
        }
    }
}

#[test]
fn a_bad_sheet_changes_no_total() {
    let totals: Vec<u32> = (0..500).map(|at| 3 * at + 1).collect();
    for sheet in BAD_SHEETS {
        assert_eq!(refused(&totals, sheet), 12, "{sheet:02X?}");
    }
}

#[test]
fn a_lent_total_above_the_limit_is_refused_whatever_the_sheet_touches() {
    for worker in 1..=500 {
        for total in [HIGHEST + 1, 1 << 31, u32::MAX] {
            let totals = totals_with(&[(worker, total)]);
            let other = worker % 500 + 1;
            assert_eq!(refused(&totals, &[0]), 13);
            assert_eq!(refused(&totals, &[2, 0, 0, 0, 0, 0]), 13);
            assert_eq!(refused(&totals, &sheet_of(&[(other, 1)])), 13);
            assert_eq!(refused(&totals, &sheet_of(&[(worker, 0)])), 13);
        }
    }
}

#[test]
fn exactly_the_limit_is_allowed() {
    for worker in [1, 2, 250, 499, 500] {
        let at_limit = totals_with(&[(worker, HIGHEST)]);
        assert_eq!(accepted(&at_limit, &[0]), at_limit);
        assert_eq!(accepted(&at_limit, &sheet_of(&[(worker, 0)])), at_limit);
        for (total, pieces) in [(999_999_999, 1), (999_934_465, 65_535)] {
            let totals = totals_with(&[(worker, total)]);
            assert_eq!(accepted(&totals, &sheet_of(&[(worker, pieces)])), at_limit);
        }
    }
}

#[test]
fn one_above_the_limit_is_refused() {
    for worker in [1, 2, 250, 499, 500] {
        for (total, pieces) in [
            (1_000_000_000, 1),
            (999_999_999, 2),
            (999_934_466, 65_535),
            (1_000_000_000, 65_535),
        ] {
            let totals = totals_with(&[(worker, total)]);
            assert_eq!(refused(&totals, &sheet_of(&[(worker, pieces)])), 13);
        }
    }
}

#[test]
fn the_records_of_one_worker_count_together() {
    let totals = totals_with(&[(8, 999_999_990), (9, 5)]);
    let reached = sheet_of(&[(8, 5), (9, 7), (8, 5)]);
    let expected = totals_with(&[(8, HIGHEST), (9, 12)]);
    assert_eq!(accepted(&totals, &reached), expected);
    let over = sheet_of(&[(8, 5), (9, 7), (8, 6)]);
    assert_eq!(refused(&totals, &over), 13);
}

#[test]
fn the_limit_is_met_in_any_record() {
    let totals = totals_with(&[(3, 999_999_999), (4, 17)]);
    for place in 0..4 {
        let mut records = vec![(4, 1), (5, 2), (500, 3)];
        records.insert(place, (3, 2));
        assert_eq!(refused(&totals, &sheet_of(&records)), 13, "{place}");
        records[place].1 = 1;
        let expected = totals_with(&[(3, HIGHEST), (4, 18), (5, 2), (500, 3)]);
        assert_eq!(accepted(&totals, &sheet_of(&records)), expected);
    }
}

#[test]
fn each_total_has_the_limit_for_itself() {
    let totals = totals_with(&[(1, 600_000_000), (2, 600_000_000)]);
    let expected = totals_with(&[(1, 600_000_001), (2, 600_000_001)]);
    assert_eq!(accepted(&totals, &sheet_of(&[(1, 1), (2, 1)])), expected);
    assert_eq!(accepted(&[HIGHEST; 500], &[0]), [HIGHEST; 500]);
    assert_eq!(refused(&[HIGHEST; 500], &sheet_of(&[(77, 1)])), 13);
}

#[test]
fn sums_beyond_32_bits_are_too_high() {
    // 65,538 times 65,535 is 2^32 + 65,534.
    let sheet = sheet_of(&vec![(2, 65_535); 65_538]);
    assert_eq!(refused(&[0; 500], &sheet), 13);
    // 50,278 times 65,535 is 3,294,968,730, with the limit 2^32 + 1,434.
    let sheet = sheet_of(&vec![(2, 65_535); 50_278]);
    assert_eq!(refused(&[HIGHEST; 500], &sheet), 13);
    for (total, pieces) in [
        (u32::MAX, 1),
        (u32::MAX, 65_535),
        (u32::MAX - 65_534, 65_535),
    ] {
        let totals = totals_with(&[(500, total)]);
        assert_eq!(refused(&totals, &sheet_of(&[(500, pieces)])), 13);
    }
}

#[test]
fn a_sheet_longer_than_any_module() {
    // 15,259 times 65,535 and 1,435 are the limit; the sheet has 76,301 bytes.
    let mut records = vec![(500, 65_535); 15_259];
    records.push((500, 1_435));
    let sheet = sheet_of(&records);
    assert_eq!(sheet.len(), 76_301);
    let reached = totals_with(&[(500, HIGHEST)]);
    assert_eq!(accepted(&[0; 500], &sheet), reached);
    records.push((500, 1));
    assert_eq!(refused(&[0; 500], &sheet_of(&records)), 13);
    // 400 records of 7 pieces for each worker.
    let all: Vec<(usize, usize)> = (0..200_000).map(|at| (at % 500 + 1, 7)).collect();
    assert_eq!(accepted(&[1; 500], &sheet_of(&all)), [2_801; 500]);
    assert_eq!(refused(&[1; 500], &sheet_of(&all)[..1_000_000]), 12);
}

#[test]
fn a_bad_sheet_comes_before_a_total() {
    let too_high = totals_with(&[(2, HIGHEST + 1)]);
    let near = totals_with(&[(1, 999_999_995)]);
    for sheet in BAD_SHEETS {
        assert_eq!(refused(&too_high, sheet), 12, "{sheet:02X?}");
        assert_eq!(refused(&near, sheet), 12, "{sheet:02X?}");
        assert_eq!(refused(&[u32::MAX; 500], sheet), 12, "{sheet:02X?}");
    }
    assert_eq!(refused(&near, &sheet_of(&[(1, 10)])), 13);
    assert_eq!(refused(&near, &sheet_of(&[(1, 10), (501, 1)])), 12);
}

#[test]
fn totals_around_the_lent_ones_stay() {
    for (sheet, number) in [
        (sheet_of(&[(1, 1), (500, 1)]), 0),
        (sheet_of(&[(0, 1)]), 12),
        (sheet_of(&[(501, 1)]), 12),
        (sheet_of(&[(250, 2)]), 13),
    ] {
        let mut memory = vec![77; 600];
        memory[50 + 249] = 999_999_999;
        let mut expected = memory.clone();
        assert_eq!(add_sheet(&mut memory[50..550], &sheet), number);
        if number == 0 {
            expected[50] = 78;
            expected[549] = 78;
        }
        assert_eq!(memory, expected);
    }
}

#[test]
fn pieces_of_a_sheet() {
    let sheet =
        b"\x01\x02\x00\xFF\xFF\x02\x01\x01\x01\x01\x01\xF4\x01\x00\x01\x01\x02\x00\x02\x00\x00";
    let work = |worker, pieces| Piecework { worker, pieces };
    let records = vec![work(2, 65_535), work(500, 256), work(2, 2)];
    assert_eq!(piecework(sheet), Some(records));
    assert_eq!(pieces_in(sheet), Some(65_793));
    let of_workers = pieces_of_workers(sheet).expect("a sheet");
    assert_eq!((of_workers.len(), of_workers[1]), (500, 65_537));
    assert_eq!((of_workers[499], of_workers[0]), (256, 0));
    assert_eq!(pieces_in(&[0]), Some(0));
    let many = sheet_of(&vec![(2, 65_535); 65_538]);
    assert_eq!(pieces_in(&many), Some(4_295_032_830));
    for bad in BAD_SHEETS {
        assert_eq!(pieces_in(bad), None, "{bad:02X?}");
        assert_eq!(pieces_of_workers(bad), None, "{bad:02X?}");
    }
}

#[test]
fn the_book_adds_accepted_sheets_only() {
    let start = totals_with(&[(1, 10), (500, HIGHEST)]);
    let mut book = TotalsBook::start(&start);
    let sheet = sheet_of(&[(1, 5), (2, 6), (1, 7)]);
    book.record(&sheet, false);
    assert_eq!((book.growth(), book.totals()[0]), (0, 10));
    book.record(&sheet, true);
    assert_eq!((book.growth(), book.totals()[0]), (18, 22));
    book.record(&[1, 1, 0, 1, 0], true);
    assert_eq!((book.growth(), book.totals()[1]), (18, 6));
    assert_eq!(book.totals()[499], 1_000_000_000);
    assert_eq!(book.number_due(&sheet), 0);
    assert_eq!(book.number_due(&sheet_of(&[(500, 1)])), 13);
    assert_eq!(book.number_due(&sheet_of(&[(500, 0)])), 0);
    assert_eq!(TotalsBook::start(&start[1..]).number_due(&sheet), 12);
    assert_eq!(TotalsBook::start(&[u32::MAX; 500]).number_due(&[0]), 13);
    for bad in BAD_SHEETS {
        assert_eq!(book.number_due(bad), 12, "{bad:02X?}");
    }
}

#[test]
fn wrong_answers_and_tables_are_found() {
    let start = totals_with(&[(1, 10), (2, 999_999_999)]);
    let book = TotalsBook::start(&start);
    let fault = |sheet: &[u8], number, after: &[(usize, u32)]| {
        call_fault(&book, sheet, number, &totals_with(after)).is_some()
    };
    let good = sheet_of(&[(1, 5), (3, 1)]);
    let right = [(1, 15), (2, 999_999_999), (3, 1)];
    let stayed = [(1, 10), (2, 999_999_999)];
    assert!(!fault(&good, 0, &right));
    assert!(fault(&good, 0, &stayed), "only says done");
    assert!(fault(&good, 0, &[(1, 15), (2, 999_999_999), (4, 1)]));
    assert!(fault(&good, 0, &[(1, 20), (2, 999_999_999), (3, 1)]));
    assert!(fault(&good, 12, &stayed) && fault(&good, 13, &stayed));
    assert!(fault(&good, 1, &stayed));
    let over = sheet_of(&[(1, 5), (2, 2)]);
    assert!(!fault(&over, 13, &stayed));
    assert!(fault(&over, 12, &stayed), "the other refusal");
    assert!(fault(&over, 13, &[(1, 15), (2, 999_999_999)]));
    assert!(fault(&over, 0, &[(1, 15), (2, 1_000_000_001)]));
    assert!(!fault(&[], 12, &stayed));
    assert!(fault(&[], 0, &stayed) && fault(&[], 13, &stayed));
    assert!(fault(&[], 12, &[(2, 999_999_999)]));
}

#[test]
fn a_wrong_growth_and_a_wrong_worker_are_told_apart() {
    let start = totals_with(&[(1, 10), (2, 20)]);
    let book = TotalsBook::start(&start);
    let fault = |totals: &[u32]| moment_fault(&book, totals).unwrap_or_default();
    assert_eq!(fault(&start), "");
    assert_eq!(fault(&start[..499]), "the table has 499 totals");
    let one_more = totals_with(&[(1, 10), (2, 21)]);
    assert_eq!(fault(&one_more), "all together are 31, the growth is 0");
    let moved = totals_with(&[(1, 10), (2, 19), (3, 1)]);
    assert_eq!(fault(&moved), "worker 2 has 19, not 20");
}

#[test]
fn a_program_that_adds_only_the_first_sheet_is_found() {
    let sheets = vec![sheet_of(&[(1, 5)]), sheet_of(&[(1, 5)])];
    let mut calls = 0;
    let first_only = |totals: &mut [u32], sheet: &[u8]| {
        calls += 1;
        if calls == 1 {
            add_sheet(totals, sheet)
        } else {
            0
        }
    };
    assert!(run_fault(first_only, &[0; 500], &sheets).is_some());
    assert!(run_fault(add_sheet, &[0; 500], &sheets).is_none());
    assert!(run_fault(|_, _| 12, &[0; 500], &sheets).is_some());
}

#[test]
fn a_program_whose_end_depends_on_the_order_is_found() {
    let last_only = |totals: &mut [u32], sheet: &[u8]| {
        totals.fill(0);
        add_sheet(totals, sheet)
    };
    let sheets = vec![sheet_of(&[(1, 5)]), sheet_of(&[(2, 5)])];
    let reordered = vec![sheets[1].clone(), sheets[0].clone()];
    assert!(order_fault(last_only, &[0; 500], &sheets, &reordered).is_some());
    assert!(order_fault(add_sheet, &[0; 500], &sheets, &reordered).is_none());
    // The claim is silent where one order is refused.
    let refuses_2_first = |totals: &mut [u32], sheet: &[u8]| {
        let number = if totals[0] == 0 && sheet[1] == 2 {
            13
        } else {
            0
        };
        totals[0] += 1 + u32::from(sheet[1]);
        number
    };
    assert!(order_fault(refuses_2_first, &[0; 500], &sheets, &reordered).is_none());
}

#[test]
fn good_sheets_of_every_size() {
    let mut random = Random::new(41);
    let mut sizes = Vec::new();
    for most_records in [0, 1, 40, 3_000, 60_000] {
        for _ in 0..30 {
            let sheet = good_sheet(&mut random, most_records);
            assert!(pieces_in(&sheet).is_some());
            let start = table(&mut random);
            assert_eq!(
                run_fault(add_sheet, &start, std::slice::from_ref(&sheet)),
                None
            );
            sizes.push(sheet.len());
        }
    }
    assert!(sizes.contains(&1) && sizes.contains(&300_001));
}

#[test]
fn spoiled_sheets_are_refused_even_with_a_total_too_high() {
    let mut random = Random::new(42);
    for way in Spoil::ALL {
        for _ in 0..300 {
            let totals = table(&mut random);
            let edge = edge_sheet(&mut random, &totals, 40, 1);
            let mut sheet = edge.unwrap_or_else(|| good_sheet(&mut random, 40));
            spoil(&mut random, &mut sheet, way);
            assert_eq!(refused(&totals, &sheet), 12, "{way:?} {sheet:02X?}");
            assert_eq!(pieces_in(&sheet), None, "{way:?} {sheet:02X?}");
        }
    }
}

#[test]
fn edge_sheets_reach_the_limit_exactly() {
    let mut random = Random::new(43);
    let mut met = 0;
    for _ in 0..600 {
        let mut totals = table(&mut random);
        for total in &mut totals {
            *total = (*total).min(HIGHEST);
        }
        let most_records = random.pick(&[1, 40, 20_000]);
        for excess in [0, 1, 2, 65_535] {
            let sheet = match edge_sheet(&mut random, &totals, most_records, excess) {
                Some(sheet) => sheet,
                None => continue,
            };
            met += 1;
            if excess == 0 {
                assert!(accepted(&totals, &sheet).contains(&HIGHEST));
            } else {
                assert_eq!(refused(&totals, &sheet), 13);
            }
        }
    }
    assert!(met > 800, "{met}");
}

#[test]
fn tables_of_another_length_are_refused_with_any_sheet() {
    let mut random = Random::new(44);
    let mut lengths = Vec::new();
    for _ in 0..200 {
        let totals = wrong_table(&mut random);
        let edge = edge_sheet(&mut random, &totals, 40, 1);
        let sheet = edge.unwrap_or_else(|| good_sheet(&mut random, 40));
        assert_eq!(refused(&totals, &sheet), 12);
        lengths.push(totals.len());
    }
    for length in [0, 1, 499, 501, 1000] {
        assert!(lengths.contains(&length));
    }
}

/// What each call of a run answers.
fn numbers_of(run: &TotalsRun) -> Vec<u32> {
    let mut totals = run.totals.clone();
    let calls = run.sheets.iter();
    calls.map(|sheet| add_sheet(&mut totals, sheet)).collect()
}

#[test]
fn answers_tables_and_growth_over_generated_runs() {
    let mut counts = [0; 14];
    for seed in 0..1_500 {
        let mut random = Random::new(seed);
        let most_records = random.pick(&[5, 40, 40, 400]);
        let run = totals_run(&mut random, 8, most_records);
        let fault = run_fault(add_sheet, &run.totals, &run.sheets);
        assert_eq!(fault, None, "seed {seed}");
        for number in numbers_of(&run) {
            counts[number as usize] += 1;
        }
    }
    for number in [0, 12, 13] {
        assert!(counts[number] > 1_000, "{number}: {}", counts[number]);
    }
}

#[test]
fn two_orders_of_the_same_sheets() {
    let mut throughout = 0;
    for seed in 5_000..6_500 {
        let mut random = Random::new(seed);
        let run = totals_run(&mut random, 6, 40);
        let other = run.reordered(&mut random);
        let fault = order_fault(add_sheet, &run.totals, &run.sheets, &other.sheets);
        assert_eq!(fault, None, "seed {seed}");
        // Totals never fall, so all orders are accepted throughout or none.
        let all_accepted = |run: &TotalsRun| numbers_of(run).iter().all(|&number| number == 0);
        assert_eq!(all_accepted(&run), all_accepted(&other), "seed {seed}");
        throughout += usize::from(all_accepted(&run) && run.sheets != other.sheets);
    }
    assert!(throughout > 150, "{throughout}");
}
