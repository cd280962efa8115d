//! Scripts: a trace with or without its answers gives the trace.

use crate::trace::trace;
use std::io::Write;
use std::process::{Command as Process, Output, Stdio};

fn scripted(script: &str) -> Output {
    let mut child = Process::new(env!("CARGO_BIN_EXE_trace"))
        .arg("scripted")
        .stdin(Stdio::piped())
        .stdout(Stdio::piped())
        .stderr(Stdio::piped())
        .spawn()
        .expect("the trace program runs");
    let mut input = child.stdin.take().expect("a pipe");
    // The program reads all of it before it prints.
    input
        .write_all(script.as_bytes())
        .expect("the script is read");
    drop(input);
    child.wait_with_output().expect("the trace program ends")
}

fn told(lines: &[String]) -> Vec<String> {
    let output = scripted(&(lines.join("\n") + "\n"));
    assert!(output.status.success());
    let text = String::from_utf8(output.stdout).expect("plain text");
    text.lines().map(str::to_string).collect()
}

/// What a script has to have of a line, if anything.
fn without_answers(line: &str) -> Option<String> {
    let fields: Vec<&str> = line.split(' ').collect();
    match *fields {
        ["check", number, _] if number != "=" => None,
        ["sector" | "moment" | "total" | "growth" | "end", ..] => None,
        ["cut", made, _] => Some(format!("cut {made}")),
        ["excepted", ..] => Some("excepted".to_string()),
        _ => Some(line.split(" = ").next().unwrap_or(line).to_string()),
    }
}

#[test]
fn a_trace_gives_itself() {
    for arguments in [
        &["--cuts", "2", "--replays", "4", "5", "60", "4"][..],
        &["--arrangement", "1", "--cuts", "2", "6", "60", "4"],
        &["--sectors", "9", "--replays", "3", "7", "60", "4"],
        &["--cuts", "2", "refused", "8", "60", "4"],
        &["--arrangement", "2", "--cuts", "2", "9", "20", "4"],
        &["repaired", "5", "60", "4"],
        &["cancels", "5", "60", "3"],
        &["--sectors", "8", "cancels", "5", "20", "3"],
        &["totals", "5", "80"],
    ] {
        let lines = trace(arguments);
        assert!(told(&lines) == lines, "{arguments:?}");
        let bare: Vec<String> = lines.iter().filter_map(|l| without_answers(l)).collect();
        assert!(bare.len() < lines.len());
        assert!(told(&bare) == lines, "{arguments:?}, without its answers");
    }
}

#[test]
fn wrong_answers_are_not_believed() {
    let lines = told(&["image 10 0 00*2560", "blank 41 = 2", "check = 1 0"].map(str::to_string));
    assert_eq!(lines[1..3], ["check 0 1", "moment none"]);
    assert_eq!(lines[3], "blank 41 = 0");
    let last = &lines[lines.len() - 4..];
    assert_eq!(
        last,
        ["moment 8 1 0", "check = 0 0", "moment 8 1 0", "end 1"]
    );
}

#[test]
fn notes_stand_where_they_stood() {
    let script = [
        "# first",
        "image 10 0 -",
        "# second = 3",
        "view 0 1",
        "# third",
        "table 0",
        "# fourth",
        "add 00",
        "# last",
    ];
    let lines = told(&script.map(str::to_string));
    let notes: Vec<&String> = lines.iter().filter(|line| line.starts_with('#')).collect();
    assert_eq!(
        notes,
        ["# first", "# second = 3", "# third", "# fourth", "# last"]
    );
    let expected = [
        "# first",
        "image 10 0 -",
        "check 1 0",
        "moment none",
        "# second = 3",
        "view 0 1 = 1 0 -",
        "moment none",
        "# third",
        "table 0",
        "# fourth",
        "add 00 = 12",
        "growth 0",
        "# last",
        "end 2",
    ];
    assert_eq!(lines, expected);
    assert_eq!(told(&["end 3".to_string()]), ["end 0"]);
}

#[test]
fn repeated_bytes_are_told_once() {
    for (script, printed) in [
        ("00000000000000", "00000000000000"),
        ("0000000000000000", "00*8"),
        ("01*3.02*4.0203", "01010102020202 0203"),
        ("FF*300", "FF*300"),
        ("01.02*8.03*9.04", "01.02*8.03*9.04"),
        ("0102*2", "01020102"),
        ("02*7.02", "02*8"),
    ] {
        let lines = told(&["image 10 0 -".to_string(), format!("replay {script}")]);
        assert_eq!(lines[3], format!("replay {} = 1", printed.replace(' ', "")));
    }
}

#[test]
fn what_is_no_line_is_refused() {
    for script in [
        "image 10 0",
        "image 10 x -",
        "image 10 0 0G",
        "check",
        "image 10 0 -\nchecked",
        "image 10 0 -\nview 0",
        "image 10 0 -\nread 41 1",
        "image 10 0 -\nsave 41 0 65536 0 00 1 1",
        "image 10 0 -\nreplay 00*x",
        "image 10 0 -\nadd 00",
        "table 1 1",
        "table 0\nadd 1 2 3\nview 0 1",
    ] {
        let output = scripted(script);
        assert_eq!(output.status.code(), Some(1), "{script}");
        let said = String::from_utf8(output.stderr).expect("plain text");
        assert!(said.starts_with("trace: no line of a script: "), "{said}");
    }
}
