//! What differs between the two programs after a call, in words.

use crate::kind::Numbers;
use reference::command::{Answer, Command};

/// The library's answer against the one that it should give.
pub fn between_answers(found: &Answer, expected: &Answer) -> Option<String> {
    if found == expected {
        return None;
    }
    let (fields, buffer) = parts(found);
    let (expected_fields, expected_buffer) = parts(expected);
    if fields != expected_fields {
        return Some(format!(
            "the library answers {fields}, expected {expected_fields}"
        ));
    }
    let at = first_difference(buffer, expected_buffer)?;
    Some(format!(
        "byte {at} of the buffer: {}",
        both(buffer[at], expected_buffer[at])
    ))
}

/// An answer's numbers as text, and the lent buffer or the view after the call.
fn parts(answer: &Answer) -> (String, &[u8]) {
    match answer {
        Answer::Number(number) => (number.to_string(), &[]),
        Answer::Checked(checked) => (format!("{checked:?}"), &[]),
        Answer::Listed(filled, buffer) | Answer::Wrote(filled, buffer) => {
            (format!("{filled:?}"), buffer)
        }
        Answer::Read(reading, buffer) => (format!("{reading:?}"), buffer),
        Answer::Viewed {
            number,
            start,
            bytes,
        } => {
            let length = bytes.len();
            (format!("{number}, start {start}, {length} bytes"), bytes)
        }
    }
}

/// The library's image against what it should be.
pub fn between_images(found: &[u8], expected: &[u8], numbers: Numbers) -> Option<String> {
    let at = first_difference(found, expected)?;
    let place = sector_around(expected, numbers, at).unwrap_or_default();
    Some(format!(
        "byte {at} of the image{place}: {}",
        both(found[at], expected[at])
    ))
}

/// The library's table of totals against what it should be.
pub fn between_totals(found: &[u32], expected: &[u32]) -> Option<String> {
    let at = first_difference(found, expected)?;
    let (worker, found, expected) = (at + 1, found[at], expected[at]);
    Some(format!(
        "total of worker {worker}: library {found}, expected {expected}"
    ))
}

fn first_difference<T: PartialEq>(found: &[T], expected: &[T]) -> Option<usize> {
    if found == expected {
        return None;
    }
    let mut pairs = found.iter().zip(expected);
    pairs.position(|(one, other)| one != other)
}

fn both(found: u8, expected: u8) -> String {
    format!("library {found:02X}, expected {expected:02X}")
}

/// Which byte of which sector stands here; nothing where there is no telling.
pub fn sector_around(image: &[u8], numbers: Numbers, at: usize) -> Option<String> {
    let kind = numbers.kind()?;
    let (sectors, arrangement) = (kind.sectors(), kind.arrangement());
    let (track, offset) = ((at / kind.track_bytes()) as u32, at % 256);
    let view = (at - offset + 2) as u32;
    let starts_here =
        |sector: &u32| reference::view_start(image, sectors, arrangement, track, *sector) == view;
    let sector = (1..=sectors).find(starts_here)?;
    Some(format!(" (byte {offset} of {track}/{sector})"))
}

/// A call with its arguments, long ones shortened.
pub fn describe(command: &Command, numbers: Numbers) -> String {
    let Numbers {
        sectors,
        arrangement,
    } = numbers;
    let call = without_numbers(command);
    format!("{call}, stated {sectors} sectors, arrangement {arrangement}")
}

fn without_numbers(command: &Command) -> String {
    let call = match command {
        Command::Check => "check".to_string(),
        Command::List { buffer } => format!("list, buffer of {} bytes", buffer.length),
        Command::Read { name, buffer } => {
            format!("read {}, buffer of {} bytes", typed(name), buffer.length)
        }
        Command::Save {
            name,
            page,
            start,
            transfer,
            sheet,
            ..
        } => format!(
            "save {}, page {page}, start {start}, transfer {transfer}, {}",
            typed(name),
            shortened("sheet", sheet)
        ),
        Command::Delete { name, .. } => format!("delete {}", typed(name)),
        Command::Rename { old, new, .. } => format!("rename {} to {}", typed(old), typed(new)),
        Command::Protect { name, on, .. } => format!("protect {}, {on}", typed(name)),
        Command::Blank { name } => format!("blank {}", typed(name)),
        Command::View { track, sector } => format!("view {track}/{sector}"),
        Command::Replay { writes } => format!("replay of a {}", shortened("list", writes)),
        Command::Repair => "repair".to_string(),
    };
    match command.lent_for_writes() {
        Some(writes) => format!("{call}, {} bytes lent for the list", writes.length),
        None => call,
    }
}

/// A call of the weekly totals; the totals are told by their number alone.
pub fn describe_adding(totals: &[u32], sheet: &[u8]) -> String {
    let (count, sheet) = (totals.len(), shortened("sheet", sheet));
    format!("add sheet to {count} totals, {sheet}")
}

fn shortened(what: &str, bytes: &[u8]) -> String {
    let front = &bytes[..bytes.len().min(4)];
    format!("{what} of {} bytes ({front:02X?}..)", bytes.len())
}

fn typed(name: &[u8]) -> String {
    let text: String = name
        .iter()
        .flat_map(|&byte| std::ascii::escape_default(byte))
        .map(char::from)
        .collect();
    format!("'{text}'")
}

#[cfg(test)]
mod tests {
    use super::*;
    use crate::kind::Kind;
    use reference::command::Buffer;
    use reference::Filled;

    #[test]
    fn the_first_differing_byte_is_named() {
        let image = [0; 23_040];
        let numbers = Kind::Ten.numbers();
        assert_eq!(between_images(&image, &image, numbers), None);
        let mut other = image;
        other[2560 + 256 + 7] = 9;
        let no_kind = Numbers {
            arrangement: 2,
            ..numbers
        };
        for (numbers, place) in [
            (Kind::Ten.numbers(), " (byte 7 of 1/2)"),
            (Kind::Moved.numbers(), " (byte 7 of 1/4)"),
            (Kind::Nine.numbers(), " (byte 7 of 1/3)"),
            (no_kind, ""),
        ] {
            let text = between_images(&other, &image, numbers);
            let expected = format!("byte 2823 of the image{place}: library 09, expected 00");
            assert_eq!(text, Some(expected));
        }
    }

    #[test]
    fn the_first_differing_total_is_named_by_its_worker() {
        assert_eq!(between_totals(&[4, 5, 6], &[4, 5, 6]), None);
        let text = between_totals(&[4, 7, 8], &[4, 5, 6]);
        let expected = "total of worker 2: library 7, expected 5".to_string();
        assert_eq!(text, Some(expected));
    }

    #[test]
    fn numbers_come_before_buffers() {
        let listed = |length| Answer::Listed(Filled { number: 0, length }, vec![length as u8]);
        assert_eq!(between_answers(&listed(3), &listed(3)), None);
        let text = between_answers(&listed(3), &listed(4)).expect("a difference");
        assert!(text.contains("length: 3") && text.contains("length: 4"));
    }

    #[test]
    fn names_are_shown_with_escapes() {
        let command = Command::Delete {
            name: b"A\0'".to_vec(),
            writes: Buffer {
                length: 778,
                fill: 1,
            },
        };
        assert_eq!(
            describe(&command, Kind::Moved.numbers()),
            r"delete 'A\x00\'', 778 bytes lent for the list, stated 10 sectors, arrangement 1"
        );
    }
}
