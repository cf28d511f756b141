//! Tests: the data files in vectors/; vectors/README.md describes their lines.

use std::fs;
use std::path::Path;

use crate::protocol::{answer, parse_fields};
use crate::{read, write};

const FILLING: u8 = 0x55;

/// The bytes of a text in which `\xNN` stands for one byte and nothing else is escaped.
fn unescaped(text: &str) -> Vec<u8> {
    let mut bytes = Vec::new();
    let mut rest = text;
    while let Some(first) = rest.chars().next() {
        if let Some(digits) = rest.strip_prefix("\\x") {
            bytes.push(u8::from_str_radix(&digits[..2], 16).expect("two hex digits"));
            rest = &digits[2..];
        } else {
            assert!((' '..='~').contains(&first) && first != '\\', "{text}");
            bytes.push(first as u8);
            rest = &rest[1..];
        }
    }
    bytes
}

/// The number and the block (or the string written, or nothing) that the program answers.
fn answered(form: &str, input: &str) -> (u32, Vec<u8>) {
    let mut buffer = vec![FILLING; 174];
    let answer = match form.strip_prefix('w') {
        None => read(form.parse().unwrap(), &unescaped(input))
            .and_then(|record| write(9, &record, &mut buffer)),
        Some(rest) => {
            let (form, length) = rest.split_once(':').expect("w, form, colon, buffer length");
            buffer.truncate(length.parse().unwrap());
            let record = parse_fields(input).expect("a record");
            write(form.parse().unwrap(), &record, &mut buffer)
        }
    };
    // A refused write changes no byte, and one that succeeds leaves those behind its output.
    let untouched = &buffer[answer.unwrap_or(0)..];
    assert!(untouched.iter().all(|byte| *byte == FILLING));
    match answer {
        Ok(length) => (0, buffer[..length].to_vec()),
        Err(refusal) => (refusal, b"-".to_vec()),
    }
}

/// Whether a line is a call on a table, or a list of them, and not a string. Such a line is a request
/// and its answer, each cut in two by a TAB in place of a space.
fn is_call(form: &str) -> bool {
    form == "addall" || form.starts_with("add ")
}

/// Checks all lines of a file and counts them.
fn check(file: &str) -> usize {
    let folder = Path::new(env!("CARGO_MANIFEST_DIR")).join("../../vectors");
    let text = fs::read_to_string(folder.join(file)).expect(file);
    let mut lines = 0;
    for line in text.lines().filter(|line| !line.starts_with('#')) {
        let columns: Vec<&str> = line.split('\t').collect();
        let [form, input, number, block, origin] = columns[..] else {
            panic!("{file}: not five columns: {line}");
        };
        if is_call(form) {
            let answered = answer(&format!("{form} {input}"));
            assert_eq!(answered, format!("{number} {block}"), "{file}: {line}");
        } else {
            let expected = (number.parse().unwrap(), unescaped(block));
            assert_eq!(answered(form, input), expected, "{file}: {line}");
        }
        assert!(!origin.is_empty());
        lines += 1;
    }
    lines
}

#[test]
fn the_bench() {
    assert_eq!(check("bench.txt"), 30);
}

#[test]
fn the_manuals() {
    assert_eq!(check("manuals.txt"), 20);
}

#[test]
fn strings_from_outside() {
    assert_eq!(check("outside.txt"), 21);
}

#[test]
fn sat_strings() {
    assert_eq!(check("sat.txt"), 111);
}

#[test]
fn rmc_strings() {
    assert_eq!(check("rmc.txt"), 120);
}

#[test]
fn frames() {
    assert_eq!(check("frames.txt"), 160);
}

#[test]
fn the_calendar() {
    assert_eq!(check("calendar.txt"), 403);
}

#[test]
fn runs() {
    assert_eq!(check("runs.txt"), 232);
}
