//! Runs of a script. A script is a trace of which the answers may be left out, so
//! that a trace is a script too, and gives itself.

use crate::discs::Run;
use crate::text::{bytes, command};
use crate::totals::Totals;
use reference::cuts::Step;
use std::io::{self, Write};

/// Begins a line that is printed as it stands.
const NOTE: char = '#';
/// What a trace says of answers, which a script need not have.
const ANSWERS: [&str; 5] = ["sector", "moment", "total", "growth", "end"];

pub fn trace_script(script: &str, out: &mut impl Write) -> io::Result<()> {
    let lines: Vec<&str> = script.lines().collect();
    let heads: Vec<usize> = (0..lines.len()).filter(|&at| is_head(lines[at])).collect();
    let first = heads.first().copied().unwrap_or(lines.len());
    for line in &lines[..first] {
        trace_note(line, out)?;
    }
    for (at, &head) in heads.iter().enumerate() {
        let end = heads.get(at + 1).copied().unwrap_or(lines.len());
        trace_run(lines[head], &lines[head + 1..end], out)?;
    }
    writeln!(out, "end {}", heads.len())
}

fn is_head(line: &str) -> bool {
    line.starts_with("image ") || line.starts_with("table ")
}

/// In front of the first run there are only notes.
fn trace_note(line: &str, out: &mut impl Write) -> io::Result<()> {
    if line.starts_with(NOTE) {
        writeln!(out, "{line}")
    } else if is_answer(line) {
        Ok(())
    } else {
        Err(bad(line))
    }
}

fn trace_run(head: &str, lines: &[&str], out: &mut impl Write) -> io::Result<()> {
    let fields: Vec<&str> = head.split(' ').collect();
    match *fields {
        ["image", sectors, arrangement, image] => {
            let numbers = sectors.parse().ok().zip(arrangement.parse().ok());
            let (sectors, arrangement) = numbers.ok_or_else(|| bad(head))?;
            let image = bytes(image).ok_or_else(|| bad(head))?;
            trace_steps(Run::start(image, sectors, arrangement, out)?, lines)
        }
        ["table", _, ref runs @ ..] => {
            let totals = table(runs).ok_or_else(|| bad(head))?;
            trace_sheets(Totals::start(&totals, out)?, lines)
        }
        _ => Err(bad(head)),
    }
}

fn trace_steps(mut run: Run<'_, impl Write>, lines: &[&str]) -> io::Result<()> {
    for (at, line) in lines.iter().enumerate() {
        if line.starts_with(NOTE) {
            run.note(line)?;
        } else if *line == "again" {
            run.again()?;
        } else if is_word(line, "excepted") {
            run.excepted()?;
        } else if !is_answer(line) && !is_word(line, "cut") {
            let cut = lines.get(at + 1).and_then(|next| cut_after(next));
            let fields: Vec<&str> = line.split(' ').take_while(|&field| field != "=").collect();
            let command = command(&fields).ok_or_else(|| bad(line))?;
            run.step(&Step { command, cut })?;
        }
    }
    Ok(())
}

fn trace_sheets(mut run: Totals<'_, impl Write>, lines: &[&str]) -> io::Result<()> {
    for line in lines {
        let fields: Vec<&str> = line.split(' ').collect();
        match *fields {
            _ if line.starts_with(NOTE) => run.note(line)?,
            ["reordered"] => run.reordered()?,
            ["add", sheet, ..] => run.add(&bytes(sheet).ok_or_else(|| bad(line))?)?,
            _ if is_answer(line) => {}
            _ => return Err(bad(line)),
        }
    }
    Ok(())
}

/// The totals of a `table` line: TIMES VALUE again and again.
fn table(runs: &[&str]) -> Option<Vec<u32>> {
    let mut totals = Vec::new();
    for run in runs.chunks(2) {
        let (times, value) = (run[0].parse().ok()?, run.get(1)?.parse().ok()?);
        totals.resize(totals.len().checked_add(times)?, value);
    }
    Some(totals)
}

/// Whether a line says what the program itself has to say. The check of a run's
/// first image has no `=`; as a command it has, or stands alone.
fn is_answer(line: &str) -> bool {
    let of_the_start = is_word(line, "check") && line != "check" && !line.contains('=');
    of_the_start || ANSWERS.iter().any(|word| is_word(line, word))
}

fn is_word(line: &str, word: &str) -> bool {
    line.split(' ').next() == Some(word)
}

fn cut_after(line: &str) -> Option<usize> {
    line.strip_prefix("cut ")?.split(' ').next()?.parse().ok()
}

fn bad(line: &str) -> io::Error {
    let start: String = line.chars().take(60).collect();
    io::Error::new(
        io::ErrorKind::InvalidData,
        format!("no line of a script: {start}"),
    )
}
