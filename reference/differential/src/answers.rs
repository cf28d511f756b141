//! The library's answers in the line protocol of the reference program, which `reference/program/src/bin/reference.rs` describes.

use lindenscoop::{read, search, write, Form, Listener, Record, Refusal, State};
use reference::protocol::{hex, parse_fields, unhex, FILLING};

use crate::{convert, runs};

const RING: usize = 66;

/// What stands in the form's byte beside the form: version 1.
const VERSION: u8 = 1 << 4;

fn block_hex(record: &Record) -> String {
    hex(record
        .block()
        .expect("a record that was read is good")
        .as_bytes())
}

fn answer_read(form: Form, input: &[u8]) -> String {
    match read(form, input) {
        Ok(record) => format!("0 {}", block_hex(&record)),
        Err(refusal) => refusal.number().to_string(),
    }
}

fn answer_write(form: Form, record: &Record, length: usize) -> String {
    let mut buffer = vec![FILLING; length];
    let (number, written) = match write(form, record, &mut buffer) {
        Ok(written) => (0, written),
        Err(refusal) => (refusal.number(), 0),
    };
    format!("{number} {written} {}", hex(&buffer))
}

fn answer_search(form: Form, start: usize, input: &[u8]) -> String {
    match search(form, input, start) {
        Ok(found) => format!("0 {} {}", found.place, block_hex(&found.record)),
        Err(refusal) => format!("{} 0", refusal.number()),
    }
}

fn heard(answer: &Result<Option<Record>, Refusal>, nothing: &str) -> String {
    match answer {
        Ok(None) => nothing.to_string(),
        Ok(Some(record)) => block_hex(record),
        Err(refusal) => format!("!{}", refusal.number()),
    }
}

/// A listener that was refused goes on as form 0, so that its bytes can be fed all the same.
fn answer_listen(form: Form, stream: &[u8]) -> String {
    let mut answers = Vec::new();
    let mut listener = Listener::new(form).unwrap_or_else(|refusal| {
        answers.push(refusal.number().to_string());
        Listener::from_state([0; RING + 4])
    });
    for (before, byte) in stream.iter().enumerate() {
        match listener.feed(*byte) {
            Ok(None) => {}
            Ok(Some(record)) => answers.push(format!("{}:{}", before + 1, block_hex(&record))),
            Err(refusal) => answers.push(format!("{}!{}", before + 1, refusal.number())),
        }
    }
    if answers.is_empty() {
        return "-".to_string();
    }
    answers.join(" ")
}

/// The state in bytes; None where a number does not fit into its byte.
fn state_of(form: u32, distance: usize, kept: &[u8]) -> Option<State> {
    if kept.len() > RING {
        return None;
    }
    let mut state = [0; RING + 4];
    state[RING - kept.len()..RING].copy_from_slice(kept);
    state[RING + 1] = kept.len() as u8;
    state[RING + 2] = u8::try_from(distance).ok()?;
    state[RING + 3] = u8::try_from(form).ok()? ^ VERSION;
    Some(state)
}

/// Form, distance and the kept bytes in order.
fn spelled(state: &State) -> String {
    let at = usize::from(state[RING]) % RING;
    let ring = [&state[at..RING], &state[..at]].concat();
    let kept = usize::from(state[RING + 1]);
    format!(
        "{} {} {}",
        state[RING + 3] ^ VERSION,
        state[RING + 2],
        hex(&ring[RING - kept..])
    )
}

fn answer_feed(state: State, byte: u8) -> String {
    let mut listener = Listener::from_state(state);
    let answer = listener.feed(byte);
    format!("{} {}", heard(&answer, "-"), spelled(listener.state()))
}

/// The answer to a request; None where the library's interface cannot be asked it.
pub fn answer(line: &str) -> Option<String> {
    let words: Vec<&str> = line.split_whitespace().collect();
    match words[..] {
        ["add", length, used, rack, rows, fields] => {
            let record = convert::record(&parse_fields(fields)?);
            return runs::answer_add([length, rows], used, rack, &record);
        }
        ["addall", records] => return runs::answer_add_all(records),
        _ => {}
    }
    let form = Form(words[1].parse().ok()?);
    Some(match words[..] {
        ["read", _, input] => answer_read(form, &unhex(input)?),
        ["writeraw", _, fields, length] => answer_write(
            form,
            &convert::record(&parse_fields(fields)?),
            length.parse().ok()?,
        ),
        ["search", _, start, input] => answer_search(form, start.parse().ok()?, &unhex(input)?),
        ["listen", _, stream] => answer_listen(form, &unhex(stream)?),
        ["feed", _, distance, kept, byte] => answer_feed(
            state_of(form.0, distance.parse().ok()?, &unhex(kept)?)?,
            unhex(byte)?[0],
        ),
        _ => return None,
    })
}
