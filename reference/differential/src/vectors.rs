//! The lines of vectors/*.txt; vectors/README.md describes them.

use std::fs;
use std::io;
use std::path::{Path, PathBuf};

use lindenscoop::{read, write, Form};
use reference::protocol::{parse_fields, FILLING};

use crate::{answers, convert};

/// The bytes of a text in which `\xNN` stands for one byte and everything else for itself.
fn unescaped(text: &str) -> Option<Vec<u8>> {
    let mut bytes = Vec::new();
    let mut rest = text.as_bytes();
    while let [first, behind @ ..] = rest {
        if let Some(digits) = rest.strip_prefix(b"\\x") {
            let pair = std::str::from_utf8(digits.get(..2)?).ok()?;
            bytes.push(u8::from_str_radix(pair, 16).ok()?);
            rest = &digits[2..];
        } else {
            bytes.push(*first);
            rest = behind;
        }
    }
    Some(bytes)
}

/// The number and the bytes that the library answers: the block of what was read, or what was written; `-` if refused.
fn answered(form: &str, input: &str) -> Option<(u32, Vec<u8>)> {
    let mut buffer = vec![FILLING; 174];
    let answer = match form.strip_prefix('w') {
        None => read(Form(form.parse().ok()?), &unescaped(input)?)
            .and_then(|record| write(Form::BLOCK, &record, &mut buffer)),
        Some(rest) => {
            let (form, length) = rest.split_once(':')?;
            buffer.truncate(length.parse().ok()?);
            write(
                Form(form.parse().ok()?),
                &convert::record(&parse_fields(input)?),
                &mut buffer,
            )
        }
    };
    Some(match answer {
        Ok(length) => (0, buffer[..length].to_vec()),
        Err(refusal) => (refusal.number(), b"-".to_vec()),
    })
}

/// The bytes as a line has them.
fn escaped(bytes: &[u8]) -> String {
    let spell = |&byte: &u8| match byte {
        b' '..=b'[' | b']'..=b'~' => char::from(byte).to_string(),
        _ => format!("\\x{byte:02X}"),
    };
    bytes.iter().map(spell).collect()
}

/// What is wrong with a line, if anything is.
fn fault(line: &str) -> Option<String> {
    let columns: Vec<&str> = line.split('\t').collect();
    let [form, input, number, bytes, _origin] = columns[..] else {
        return Some(format!("{} columns, and a line has 5", columns.len()));
    };
    if form == "addall" || form.starts_with("add ") {
        let answer = answers::answer(&format!("{form} {input}")).unwrap_or("nothing".into());
        let expected = format!("{number} {bytes}");
        return (answer != expected).then(|| format!("the library answers {answer}"));
    }
    let Some(answer) = answered(form, input) else {
        return Some("form or input cannot be understood".into());
    };
    let Some(expected) = number.parse().ok().zip(unescaped(bytes)) else {
        return Some("number or bytes cannot be understood".into());
    };
    (answer != expected)
        .then(|| format!("the library answers {}\t{}", answer.0, escaped(&answer.1)))
}

/// The files of a folder that have lines, or the file itself.
fn files(path: &Path) -> io::Result<Vec<PathBuf>> {
    if !path.is_dir() {
        return Ok(vec![path.to_path_buf()]);
    }
    let mut found = Vec::new();
    for entry in fs::read_dir(path)? {
        let file = entry?.path();
        if file.extension().is_some_and(|ending| ending == "txt") {
            found.push(file);
        }
    }
    found.sort();
    Ok(found)
}

/// Compares all lines of a file, or of a folder's `.txt` files: how many agree, and of the others where they stand and what is wrong.
pub fn compare(path: &Path) -> io::Result<(usize, Vec<String>)> {
    let (mut agreed, mut differ) = (0, Vec::new());
    for file in files(path)? {
        let text = fs::read_to_string(&file)?;
        let lines = text.lines().zip(1..);
        for (line, at) in lines.filter(|(line, _)| !line.is_empty() && !line.starts_with('#')) {
            match fault(line) {
                None => agreed += 1,
                Some(what) => differ.push(format!("{}:{at}: {line}\n  {what}", file.display())),
            }
        }
    }
    Ok((agreed, differ))
}
