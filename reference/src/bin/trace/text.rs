//! Arguments, answers and bytes as they are printed, and arguments read again.

use reference::command::{Answer, Buffer, Command};

pub fn arguments(command: &Command) -> String {
    match command {
        Command::Check => "check".to_string(),
        Command::List { buffer } => format!("list {}", lent(buffer)),
        Command::Read { name, buffer } => format!("read {} {}", hex(name), lent(buffer)),
        Command::Save {
            name,
            page,
            start,
            transfer,
            sheet,
            writes,
        } => format!(
            "save {} {page} {start} {transfer} {} {}",
            hex(name),
            hex(sheet),
            lent(writes)
        ),
        Command::Delete { name, writes } => format!("delete {} {}", hex(name), lent(writes)),
        Command::Rename { old, new, writes } => {
            format!("rename {} {} {}", hex(old), hex(new), lent(writes))
        }
        Command::Protect { name, on, writes } => {
            format!("protect {} {on} {}", hex(name), lent(writes))
        }
        Command::Replay { writes } => format!("replay {}", hex(writes)),
        Command::Repair => "repair".to_string(),
        Command::Blank { name } => format!("blank {}", hex(name)),
        Command::View { track, sector } => format!("view {track} {sector}"),
    }
}

fn lent(buffer: &Buffer) -> String {
    format!("{} {}", buffer.length, buffer.fill)
}

pub fn answers(answer: &Answer) -> String {
    match answer {
        Answer::Number(number) => number.to_string(),
        Answer::Checked(checked) => format!("{} {}", checked.number, checked.rule),
        Answer::Listed(listed, buffer) => {
            format!("{} {} {}", listed.number, listed.length, hex(buffer))
        }
        Answer::Wrote(filled, buffer) => {
            let list = &buffer[..filled.length as usize];
            format!("{} {} {}", filled.number, filled.length, hex(list))
        }
        Answer::Read(reading, buffer) => format!(
            "{} {} {} {} {} {} {}",
            reading.number,
            reading.page,
            reading.start,
            reading.end,
            reading.transfer,
            reading.length,
            hex(buffer)
        ),
        Answer::Viewed {
            number,
            start,
            bytes,
        } => format!("{number} {start} {}", hex(bytes)),
    }
}

/// A byte that stands so often in a row is printed once, with how often.
const REPEATED: usize = 8;

/// Parts with a dot between them, or `-` for no bytes.
pub fn hex(bytes: &[u8]) -> String {
    let mut parts: Vec<String> = Vec::new();
    let mut left = bytes;
    while !left.is_empty() {
        let same = equal_in_front(left);
        let taken = if same >= REPEATED {
            parts.push(format!("{:02X}*{same}", left[0]));
            same
        } else {
            let plain = until_repeated(left);
            let digits = left[..plain].iter().map(|byte| format!("{byte:02X}"));
            parts.push(digits.collect());
            plain
        };
        left = &left[taken..];
    }
    if parts.is_empty() {
        parts.push("-".to_string());
    }
    parts.join(".")
}

fn equal_in_front(bytes: &[u8]) -> usize {
    bytes.iter().take_while(|&&byte| byte == bytes[0]).count()
}

/// How many bytes stand in front of the first one that is repeated.
fn until_repeated(bytes: &[u8]) -> usize {
    (0..bytes.len())
        .find(|&at| equal_in_front(&bytes[at..]) >= REPEATED)
        .unwrap_or(bytes.len())
}

/// The command of printed arguments, if they are any command's.
pub fn command(fields: &[&str]) -> Option<Command> {
    Some(match *fields {
        ["check"] => Command::Check,
        ["list", length, fill] => Command::List {
            buffer: buffer(length, fill)?,
        },
        ["read", name, length, fill] => Command::Read {
            name: bytes(name)?,
            buffer: buffer(length, fill)?,
        },
        ["replay", list] => Command::Replay {
            writes: bytes(list)?,
        },
        ["repair"] => Command::Repair,
        ["blank", name] => Command::Blank { name: bytes(name)? },
        ["view", track, sector] => Command::View {
            track: track.parse().ok()?,
            sector: sector.parse().ok()?,
        },
        _ => return listing_command(fields),
    })
}

/// Those that list their writes.
fn listing_command(fields: &[&str]) -> Option<Command> {
    Some(match *fields {
        ["save", name, page, start, transfer, sheet, length, fill] => Command::Save {
            name: bytes(name)?,
            page: page.parse().ok()?,
            start: start.parse().ok()?,
            transfer: transfer.parse().ok()?,
            sheet: bytes(sheet)?,
            writes: buffer(length, fill)?,
        },
        ["delete", name, length, fill] => Command::Delete {
            name: bytes(name)?,
            writes: buffer(length, fill)?,
        },
        ["rename", old, new, length, fill] => Command::Rename {
            old: bytes(old)?,
            new: bytes(new)?,
            writes: buffer(length, fill)?,
        },
        ["protect", name, on, length, fill] => Command::Protect {
            name: bytes(name)?,
            on: on.parse().ok()?,
            writes: buffer(length, fill)?,
        },
        _ => return None,
    })
}

fn buffer(length: &str, fill: &str) -> Option<Buffer> {
    Some(Buffer {
        length: length.parse().ok()?,
        fill: fill.parse().ok()?,
    })
}

pub fn bytes(hex: &str) -> Option<Vec<u8>> {
    if hex == "-" {
        return Some(Vec::new());
    }
    let mut bytes = Vec::new();
    for part in hex.split('.') {
        match part.split_once('*') {
            Some((byte, times)) => {
                let (byte, times) = (plain_bytes(byte)?, times.parse().ok()?);
                bytes.extend(byte.repeat(times));
            }
            None => bytes.extend(plain_bytes(part)?),
        }
    }
    Some(bytes)
}

fn plain_bytes(digits: &str) -> Option<Vec<u8>> {
    let value = |digit: u8| char::from(digit).to_digit(16);
    let pairs = digits.as_bytes().chunks(2);
    pairs
        .map(|pair| Some((16 * value(pair[0])? + value(*pair.get(1)?)?) as u8))
        .collect()
}
