//! Compares the library with the second program; the last line is
//! 'N passed, M failed'.

use compare::cancels::Cancels;
use compare::cuts::Cuts;
use compare::load::Load;
use compare::options::{Options, Task, USAGE};
use compare::run::Driver;
use compare::runs::Runs;
use std::process::ExitCode;

fn main() -> ExitCode {
    let arguments: Vec<String> = std::env::args().skip(1).collect();
    let options = match Options::parse(&arguments) {
        Some(options) => options,
        None => {
            eprintln!("{USAGE}");
            return ExitCode::from(2);
        }
    };
    let Options { seed, task, run } = options;
    // Known before the first call, should a call never come back.
    println!("seed {seed}");
    match task {
        Task::Calls(count) => make(Driver::new(seed, run.is_some()), run, count),
        Task::Cuts(count) => make(Cuts::new(seed), run, count),
        Task::Cancels(count) => make(Cancels::new(seed), run, count),
        Task::Load(commands) => load(seed, commands),
    }
}

/// One run, or so many that enough is made.
fn make(mut driver: impl Runs, run: Option<u64>, count: u64) -> ExitCode {
    let missing = match run {
        Some(number) => {
            driver.run(number);
            Vec::new()
        }
        None => {
            driver.run_until(count);
            driver.missing()
        }
    };
    print!("{driver}");
    for name in &missing {
        println!("FAILED: never occurred: {name}");
    }
    let failed = driver.failed() + missing.len() as u64;
    println!("{}", driver.verdict(failed));
    ExitCode::from(u8::from(failed > 0))
}

/// The last line is 'load: N commands, M failed'.
fn load(seed: u64, commands: u64) -> ExitCode {
    let mut load = Load::new(seed);
    let failed = load.run(commands).map_err(|text| println!("{text}"));
    println!("{load}");
    let failures = u8::from(failed.is_err());
    println!("load: {} commands, {failures} failed", load.commands());
    ExitCode::from(failures)
}
