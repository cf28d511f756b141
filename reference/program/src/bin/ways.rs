//! Measures this program's ways to the records of a stream, as `reference/c/bench/ways.c` does the library's and the C program's.
//!
//!     ways FILE [ROUNDS]
//!
//! FILE is a form's line and a stream. Each way prints its name, the strings that it found or wrote, and MB/s, the best of the rounds;
//! callgrind counts the instructions of each function `way_*`, which is why they keep their names.

use std::env;
use std::error::Error;
use std::fs;
use std::hint::black_box;
use std::time::Instant;

use reference::{read, search, write, Heard, Listener, Record};

struct Stream {
    form: u32,
    length: usize,
    bytes: Vec<u8>,
    records: Vec<Record>,
}

#[no_mangle]
#[inline(never)]
fn way_search(stream: &Stream) -> usize {
    let (mut at, mut found) = (0, 0);
    while let Ok((place, record)) = search(stream.form, &stream.bytes, at) {
        black_box(record);
        found += 1;
        at = place + stream.length;
    }
    found
}

#[no_mangle]
#[inline(never)]
fn way_feed(stream: &Stream) -> usize {
    let mut listener = Listener::start(stream.form).1;
    let mut found = 0;
    for byte in &stream.bytes {
        let (next, heard) = listener.feed(*byte);
        listener = next;
        found += usize::from(matches!(heard, Heard::Record(_)));
    }
    found
}

#[no_mangle]
#[inline(never)]
fn way_read(stream: &Stream) -> usize {
    let strings = stream.bytes.chunks_exact(stream.length);
    strings.filter(|s| read(stream.form, s).is_ok()).count()
}

fn written(form: u32, records: &[Record]) -> usize {
    let mut out = [0; 174];
    records
        .iter()
        .filter(|record| write(form, record, black_box(&mut out)).is_ok())
        .count()
}

#[no_mangle]
#[inline(never)]
fn way_write(stream: &Stream) -> usize {
    written(stream.form, &stream.records)
}

#[no_mangle]
#[inline(never)]
fn way_block(stream: &Stream) -> usize {
    written(9, &stream.records)
}

/// The stream behind its first line, and its records, which are to be written.
fn load(name: &str) -> Result<Stream, Box<dyn Error>> {
    let mut bytes = fs::read(name)?;
    let end = bytes.iter().position(|byte| *byte == b'\n');
    let end = end.ok_or("no first line")?;
    let form = std::str::from_utf8(&bytes[..end])?.parse()?;
    bytes.drain(..=end);
    let length = reference::forms::serial_length(form).ok_or("no such form")?;
    let (mut at, mut records) = (0, Vec::new());
    while let Ok((place, record)) = search(form, &bytes, at) {
        records.push(record);
        at = place + length;
    }
    Ok(Stream {
        form,
        length,
        bytes,
        records,
    })
}

fn main() -> Result<(), Box<dyn Error>> {
    let words: Vec<String> = env::args().skip(1).collect();
    let stream = load(words.first().ok_or("usage: ways FILE [ROUNDS]")?)?;
    let rounds = words.get(1).map_or(Ok(1), |word| word.parse())?;
    let ways: [(&str, fn(&Stream) -> usize); 5] = [
        ("search", way_search),
        ("feed", way_feed),
        ("read", way_read),
        ("write", way_write),
        ("block", way_block),
    ];
    for (name, way) in ways {
        let (mut found, mut best) = (0, f64::INFINITY);
        for _ in 0..rounds {
            let begin = Instant::now();
            found = way(&stream);
            best = best.min(begin.elapsed().as_secs_f64());
        }
        println!(
            "{name} {found} {:.1}",
            stream.bytes.len() as f64 / best / 1e6
        );
    }
    Ok(())
}
