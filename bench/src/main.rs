//! Times the library's calls against the second program's, on the same discs of
//! every kind and on the same sheets, in one run.

#![forbid(unsafe_code)]

mod discs;
mod measure;
mod operation;
mod program;
mod sheets;
mod table;

use compare::kind::Kind;
use discs::Disc;
use operation::Operation;
use sheets::Sheet;
use std::process::ExitCode;
use table::{Row, Table};

const USAGE: &str = "usage: bench [--growth | --sheets | --repairs]";
const ROUNDS: usize = 401;
const GROWTH_ROUNDS: usize = 101;
const REPAIRS: [Operation; 2] = [Operation::Repair, Operation::RepairOfCut];
const GROWING: [Operation; 3] = [Operation::Check, Operation::SaveAndDelete, Operation::Read];

fn main() -> ExitCode {
    let arguments: Vec<String> = std::env::args().skip(1).collect();
    let arguments: Vec<&str> = arguments.iter().map(String::as_str).collect();
    let (rows, sheets, rounds) = match arguments[..] {
        [] => ([calls(), repairs()].concat(), all_sheets(), ROUNDS),
        ["--growth"] => (growth(), Vec::new(), GROWTH_ROUNDS),
        ["--sheets"] => (Vec::new(), all_sheets(), ROUNDS),
        ["--repairs"] => (repairs(), Vec::new(), ROUNDS),
        _ => {
            eprintln!("{USAGE}");
            return ExitCode::from(2);
        }
    };
    let mut table = Table::new();
    let printed = rows.iter().all(|row| table.print(row, rounds))
        && sheets.iter().all(|three| table.print_sheets(three, rounds));
    if !printed {
        return ExitCode::FAILURE;
    }
    table.print_worst();
    ExitCode::SUCCESS
}

/// Every call on the discs of the makers' drives.
fn calls() -> Vec<Row> {
    let mut rows = Vec::new();
    for tracks in [40, 80] {
        rows.extend(Operation::ALL.map(|operation| Row {
            label: format!("{}, {tracks} tracks, few large files", operation.name()),
            operation,
            discs:
                Kind::ALL.map(|kind| discs::few_large_files(kind, tracks, operation.left_free())),
        }));
        rows.extend(Operation::ALL.map(|operation| Row {
            label: format!("{}, {tracks} tracks, 300 small files", operation.name()),
            operation,
            discs: Kind::ALL.map(|kind| discs::small_files(kind, tracks, 300)),
        }));
    }
    rows
}

/// On discs with more or less to thread than those of every call.
fn repairs() -> Vec<Row> {
    let row = |operation: Operation, what: &str, disc: fn(Kind) -> Disc| Row {
        label: format!("{}, 80 tracks, {what}", operation.name()),
        operation,
        discs: Kind::ALL.map(disc),
    };
    let rows = |operation| {
        [
            row(operation, "empty", |kind| discs::small_files(kind, 80, 0)),
            row(operation, "half full", |kind| discs::half_full(kind, 80)),
        ]
    };
    REPAIRS.into_iter().flat_map(rows).collect()
}

fn all_sheets() -> Vec<[Sheet; 3]> {
    vec![sheets::long(), sheets::short_and_refused()]
}

/// Over the number of tracks, and over the number of files.
fn growth() -> Vec<Row> {
    let mut rows = Vec::new();
    for operation in GROWING {
        rows.extend([5, 10, 20, 40, 80].map(|tracks| Row {
            label: format!("{}, {tracks} tracks, few large files", operation.name()),
            operation,
            discs: Kind::ALL.map(|kind| discs::few_large_files_and_sheet(kind, tracks)),
        }));
        rows.extend([0, 15, 60, 150, 300, 600].map(|files| Row {
            label: format!("{}, 80 tracks, {files} small files", operation.name()),
            operation,
            discs: Kind::ALL.map(|kind| discs::small_files_and_sheet(kind, 80, files)),
        }));
    }
    rows
}
