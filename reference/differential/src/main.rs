//! Compares the library with the independent reference program on seeded requests, over the whole calendar, every offset of the frames, every degree, minute, byte and kind of the RMC string and the end of every day, and with the vectors.
//!
//!     differential SEED COUNT VECTORS  compares COUNT requests, every date, every offset, every minute, every day's end and every line of VECTORS
//!     differential VECTORS             compares the lines alone
//!
//! VECTORS is a file of lines, or a folder whose `.txt` files have them; vectors/README.md describes a line. A mismatch is printed and fails. Before that it plants a fault on either side, and fails if that is not noticed.

use std::collections::BTreeMap;
use std::env;
use std::error::Error;
use std::path::Path;
use std::process::ExitCode;

use reference::generate::Requests;
use reference::{every_date, every_minute, every_offset, every_second};

mod answers;
mod convert;
mod runs;
mod vectors;

/// Whether two answers are one.
fn agree(library: &str, reference: &str) -> bool {
    library == reference
}

/// The answer with its first byte changed, as a fault would change it.
fn faulty(answer: &str) -> String {
    let other = if answer.starts_with('0') { "1" } else { "0" };
    format!("{other}{}", answer.get(1..).unwrap_or(""))
}

/// A fault in either program's answer is noticed.
fn notices_faults(seed: u64) -> bool {
    Requests::new(seed).take(100).all(|request| {
        let reference = reference::protocol::answer(&request);
        let library = answers::answer(&request).unwrap_or_else(|| reference.clone());
        !agree(&faulty(&library), &reference) && !agree(&library, &faulty(&reference))
    })
}

/// How many differing answers of a list are printed.
const PRINTED: usize = 20;

fn print_mismatch(request: &str, library: &str, reference: &str) {
    println!("mismatch: {request}\n  library   {library}\n  reference {reference}");
}

/// What a request asks, with its form where it has one.
fn kind(request: &str) -> String {
    let words: Vec<&str> = request.split(' ').take(2).collect();
    if words[0].starts_with("add") {
        return words[0].to_string();
    }
    words.join(" form ")
}

/// How many requests were compared, and how many answers differ.
fn compare(seed: u64, count: usize) -> (usize, usize) {
    let mut compared: BTreeMap<String, usize> = BTreeMap::new();
    let (mut asked, mut mismatches) = (0, 0);
    for request in Requests::new(seed).take(count) {
        let Some(library) = answers::answer(&request) else {
            continue;
        };
        asked += 1;
        *compared.entry(kind(&request)).or_default() += 1;
        let reference = reference::protocol::answer(&request);
        if !agree(&library, &reference) {
            mismatches += 1;
            print_mismatch(&request, &library, &reference);
        }
    }
    for (kind, number) in compared.iter().filter(|(_, number)| **number >= 20) {
        println!("{kind}: {number}");
    }
    println!("differential: {asked} of {count} requests compared, {mismatches} differ");
    (asked, mismatches)
}

/// Compares a whole list of requests; whether there are any and all agree. The library can be asked each of them.
fn list_agrees(name: &str, requests: impl Iterator<Item = String>) -> bool {
    let (mut compared, mut differ) = (0, 0);
    for request in requests {
        let library = answers::answer(&request).unwrap_or("not asked".into());
        let reference = reference::protocol::answer(&request);
        compared += 1;
        if !agree(&library, &reference) {
            differ += 1;
            if differ <= PRINTED {
                print_mismatch(&request, &library, &reference);
            }
        }
    }
    println!("{name}: {compared} requests compared, {differ} differ");
    compared > 0 && differ == 0
}

/// Compares the lines of a file or folder; whether there are any and all agree.
fn vectors_agree(path: &str) -> Result<bool, Box<dyn Error>> {
    let (agreed, differ) =
        vectors::compare(Path::new(path)).map_err(|error| format!("{path}: {error}"))?;
    differ.iter().for_each(|line| println!("differs: {line}"));
    println!("vectors: {agreed} lines agree, {} differ", differ.len());
    Ok(agreed > 0 && differ.is_empty())
}

fn main() -> Result<ExitCode, Box<dyn Error>> {
    let words: Vec<String> = env::args().skip(1).collect();
    let good = match &words[..] {
        [path] => vectors_agree(path)?,
        [seed, count, path] => {
            let seed = seed.parse()?;
            if !notices_faults(seed) {
                return Err("a planted fault was not noticed".into());
            }
            let (asked, mismatches) = compare(seed, count.parse()?);
            let calendar = list_agrees("calendar", every_date::requests());
            let offsets = list_agrees("offsets", every_offset::requests());
            let minutes = list_agrees("minutes", every_minute::requests());
            let seconds = list_agrees("seconds", every_second::requests());
            let lists = calendar && offsets && minutes && seconds;
            vectors_agree(path)? && lists && asked > 0 && mismatches == 0
        }
        _ => return Err("usage: differential [SEED COUNT] VECTORS".into()),
    };
    Ok(if good {
        ExitCode::SUCCESS
    } else {
        ExitCode::FAILURE
    })
}
