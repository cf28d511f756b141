//! What may have happened to a recording. A hint is given where undoing the damage brings strings back, and says how many.

use lindenscoop::{read, telegrams, Form};

use crate::{forms, repairs, rmc};

/// Hints on bytes in which so many strings of each form were heard, and others nearly or not.
pub fn hints(bytes: &[u8], heard: &[(Form, usize)], is_near: bool) -> Vec<String> {
    if bytes.is_empty() {
        return vec!["the file is empty: no byte was recorded; check cable and clock, and that the recorder had the port open".to_string()];
    }
    let mut hints = Vec::new();
    let mut told = Vec::new();
    for repair in repairs::ALL {
        let gain = (repair.undo)(bytes).and_then(|repaired| gained(&repaired, heard));
        // two ways to undo the same damage are one hint
        let Some((form, count)) = gain.filter(|gain| !told.contains(&(*gain, repair.advice)))
        else {
            continue;
        };
        told.push(((form, count), repair.advice));
        let name = forms::name(form);
        hints.push(format!(
            "{}; with that undone, strings of {name} heard: {count}. {}",
            repair.cause, repair.advice
        ));
    }
    hints.extend(rmc::other_layout(bytes));
    if hints.is_empty() && heard.iter().all(|(_, count)| *count == 0) {
        hints.extend(from_bytes(bytes, is_near));
    }
    hints
}

/// The form of which most strings are heard that were not heard before.
fn gained(bytes: &[u8], heard: &[(Form, usize)]) -> Option<(Form, usize)> {
    let counts = heard.iter().map(|(form, before)| {
        let count = telegrams(*form, bytes).map_or(0, Iterator::count);
        (*form, count, count.saturating_sub(*before))
    });
    let best = counts
        .max_by_key(|(_, _, gain)| *gain)
        .filter(|(_, _, gain)| *gain > 0);
    best.map(|(form, count, _)| (form, count))
}

/// What the bytes alone tell, where nothing brings a string back; nothing of text in which a form was nearly heard, since that is told.
fn from_bytes(bytes: &[u8], is_near: bool) -> Option<String> {
    let total = bytes.len();
    let text = bytes
        .iter()
        .filter(|byte| matches!(byte, 0x20..=0x7e | b'\r' | b'\n' | 1..=3))
        .count();
    let high = bytes.iter().filter(|byte| **byte >= 0x80).count();
    let has = |word: &[u8]| bytes.windows(word.len()).any(|part| part == word);
    let hint = if bytes
        .get(..100)
        .is_some_and(|head| read(Form::FRAME, head).is_ok())
    {
        // valid in one form, it is valid in the other
        "the file begins with an IEEE1344 frame, form 8 or 11, and these are not listened for; a frame does not tell which of the two it is, and they differ in the sign of the offset".to_string()
    } else if has(b"\ntime=") && has(b"\nsync=") {
        "the file holds blocks, as `lindenscoop listen` prints them, and no strings; `listen --record FILE` keeps the bytes".to_string()
    } else if (has(b"$GPGGA,") || has(b"$GPZDA,")) && !has(b"RMC,") {
        "the file holds NMEA strings, and no RMC string among them, which is the only one of these that is taken; switch RMC on in the clock".to_string()
    } else if text * 3 < total * 2 {
        let other = total - text;
        format!("{other} of {total} bytes are no text: the speed or the framing of the port was probably wrong; compare --baud and --framing with the clock's setting")
    } else if high > 0 {
        format!("bit 7 is set in {high} bytes: the line may have been disturbed, or its parity set wrongly")
    } else if !bytes.contains(&b'\r') && !bytes.contains(&3) {
        "there is no CR and no ETX in the file, with one of which each string ends: the recorder left control bytes out; record with `lindenscoop listen PORT --record FILE`".to_string()
    } else if is_near {
        return None;
    } else {
        "the bytes are text, but of none of these forms; compare the clock's setting of its string with `lindenscoop --help`".to_string()
    };
    Some(hint)
}
