//! `why`: explains why nothing is heard in a file: each form tried, the near misses with their refusals, and hints.

use std::collections::BTreeMap;
use std::ffi::OsString;
use std::io::{IsTerminal, Read};
use std::path::Path;

use lindenscoop::{telegrams, Form, Refusal};

use crate::arguments::Arguments;
use crate::failure::Failure;
use crate::layout::Places;
use crate::output::Output;
use crate::{forms, hints, layout, source, style, telling};

/// A file is looked at up to here.
const MOST: u64 = 16 << 20;

/// Whether a string of any form was heard.
pub fn run(words: Vec<OsString>) -> Result<bool, Failure> {
    let arguments = Arguments::new(words, &[])?;
    let [path] = arguments.rest.as_slice() else {
        return Err(Failure::usage("name one file, or - for standard input"));
    };
    let mut output = Output::new()?;
    let (bytes, name, is_cut) = look_at(path)?;
    let coloured = style::is_coloured(output.is_terminal());
    let cut = if is_cut {
        ", the first of a longer file"
    } else {
        ""
    };
    let mut report = style::painted(
        &format!("{name}: {} bytes{cut}\n", bytes.len()),
        style::BOLD,
        coloured,
    );
    let mut near = 0;
    let mut counts = Vec::new();
    for form in forms::serial_forms() {
        let (heard, misses) = tell_form(form, &bytes, &mut report);
        counts.push((form, heard));
        near += misses;
    }
    for hint in hints::hints(&bytes, &counts, near > 0) {
        report += &format!(
            "{} {hint}\n",
            style::painted("hint:", style::BOLD, coloured)
        );
    }
    output.pending.extend_from_slice(report.as_bytes());
    output.flush()?;
    Ok(counts.iter().any(|(_, count)| *count > 0))
}

/// The bytes of a file up to the limit, its name, and whether there are more.
fn look_at(path: &Path) -> Result<(Vec<u8>, String, bool), Failure> {
    let (file, name) = source::open(path)?;
    if file.is_terminal() {
        return Err(Failure::usage(format!(
            "{name} is a terminal; record a port first: lindenscoop listen PORT --form standard --record clock.log"
        )));
    }
    let mut bytes = Vec::new();
    let whole = file.take(MOST + 1).read_to_end(&mut bytes);
    whole.map_err(|error| Failure::reading(&name, &error))?;
    let is_cut = bytes.len() as u64 > MOST;
    bytes.truncate(MOST as usize);
    Ok((bytes, name, is_cut))
}

/// Near misses that are refused with the same number at the same byte of the string.
type Misses = BTreeMap<(u32, usize), (usize, usize)>;

/// Tells what was heard of a form and what nearly; the numbers of both.
fn tell_form(form: Form, bytes: &[u8], report: &mut String) -> (usize, usize) {
    let places: Vec<usize> = telegrams(form, bytes)
        .into_iter()
        .flatten()
        .map(|found| found.place)
        .collect();
    let misses = near_misses(form, bytes, &places);
    let total: usize = misses.values().map(|(count, _)| count).sum();
    let (number, name) = (form.0, forms::name(form));
    let near = match total {
        0 => String::new(),
        1 => ", 1 near miss".to_string(),
        total => format!(", {total} near misses"),
    };
    *report += &format!(
        "  {number:>2} {name:<10} strings heard: {}{near}\n",
        places.len()
    );
    let mut told: Vec<_> = misses.into_iter().collect();
    told.sort_by_key(|(_, (count, _))| std::cmp::Reverse(*count));
    let more = told.len().saturating_sub(SHOWN);
    for ((refusal, at), (count, place)) in told.into_iter().take(SHOWN) {
        *report += &tell_miss(form, bytes, refusal, at, count, place);
    }
    if more > 0 {
        *report += &format!("      and {more} other ways to fail\n");
    }
    (places.len(), total)
}

const SHOWN: usize = 4;

fn near_misses(form: Form, bytes: &[u8], heard: &[usize]) -> Misses {
    let mut misses = Misses::new();
    let places = Places::new(form);
    let mut heard = heard.iter().copied().peekable();
    let mut at = 0;
    while at < bytes.len() {
        if heard.next_if_eq(&at).is_some() {
            at += forms::length(form);
            continue;
        }
        if places.is_near(&bytes[at..]) {
            if let Some((refusal, place)) = layout::failure(form, &bytes[at..]) {
                misses.entry((refusal.number(), place)).or_insert((0, at)).0 += 1;
            }
        }
        at += 1;
    }
    misses
}

fn tell_miss(
    form: Form,
    bytes: &[u8],
    number: u32,
    at: usize,
    count: usize,
    place: usize,
) -> String {
    let meaning = Refusal::from_number(number).map_or("", Refusal::meaning);
    format!(
        "      {count} refused with {number}: {meaning}\n        the first begins at byte {place} and fails at byte {}, its byte {at}: {}\n",
        place + at,
        telling::described(form, &bytes[place..], at)
    )
}
