//! Every offset of the two frames as requests, so that no sign is left to a draw.

use crate::forms::FRAME_FORMS;
use crate::frame::{put, put_parity};
use crate::generate::string_of;
use crate::protocol::{hex, spell_fields};
use crate::record::{Date, Record};

const LENGTH: usize = 100;

/// The offsets that a frame can tell, -14:00 to +14:00 in half hours.
fn offsets() -> impl Iterator<Item = i32> {
    (-840..=840).step_by(30)
}

/// Each yes and no of sync, summer, dsp and lsp, so that either parity stands beside each sign.
fn flags() -> impl Iterator<Item = u32> {
    0..16
}

fn record(offset: i32, flags: u32) -> Record {
    let flag = |weight| Some(flags & weight != 0);
    Record {
        date: Some(Date::Full {
            year: 24,
            month: 2,
            day: 29,
        }),
        hour: 23,
        minute: 59,
        second: 60,
        sync: flag(1),
        summer: flag(2),
        offset: Some(offset),
        dsp: flag(4),
        lsp: flag(8),
        ..Record::default()
    }
}

/// All that the elements of a frame's offset can tell, with the parity right and wrong: sign 0 and
/// 1 on every number of half hours up to 15:30.
fn frames(flags: u32) -> impl Iterator<Item = Vec<u8>> {
    let parities = |told| [0, 1].map(|wrong| (told, wrong));
    (0..64).flat_map(parities).map(move |(told, wrong)| {
        let mut e = string_of(FRAME_FORMS[0], &record(0, flags));
        put(&mut e, 64..=68, told % 32);
        put(&mut e, 70..=70, told / 32);
        put_parity(&mut e);
        e[75] ^= wrong;
        e
    })
}

/// Each frame under both numbers.
fn frames_read() -> impl Iterator<Item = String> {
    let requests = |e: Vec<u8>| FRAME_FORMS.map(|form| format!("read {form} {}", hex(&e)));
    flags().flat_map(frames).flat_map(requests)
}

/// A record under both numbers.
fn written(record: &Record, length: usize) -> [String; 2] {
    FRAME_FORMS.map(|form| format!("writeraw {form} {} {length}", spell_fields(record)))
}

fn offsets_written() -> impl Iterator<Item = String> {
    let records = |offset| flags().map(move |flags| record(offset, flags));
    let requests = |record| written(&record, LENGTH);
    offsets().flat_map(records).flat_map(requests)
}

/// Every minute from -15:00 to +15:00: most are no multiple of 30, and some are bad.
fn minutes_written() -> impl Iterator<Item = String> {
    (-900..=900).flat_map(|minute| written(&record(minute, 0), LENGTH))
}

/// An offset below, at and above zero into every buffer up to one byte more than it needs.
fn buffers_written() -> impl Iterator<Item = String> {
    let lengths = |offset| (0..=LENGTH + 1).map(move |length| (offset, length));
    let requests = |(offset, length)| written(&record(offset, 0), length);
    [-60, 0, 60]
        .into_iter()
        .flat_map(lengths)
        .flat_map(requests)
}

/// Reads and writes of every offset, sign and parity in both frames.
pub fn requests() -> impl Iterator<Item = String> {
    frames_read()
        .chain(offsets_written())
        .chain(minutes_written())
        .chain(buffers_written())
}

#[cfg(test)]
mod tests {
    use std::collections::{BTreeMap, BTreeSet};

    use super::*;
    use crate::protocol::numbers_answered;
    use crate::read;

    /// How often each number is answered to the requests of one form.
    fn answers(form: u32, requests: impl Iterator<Item = String>) -> BTreeMap<u32, usize> {
        let form = form.to_string();
        numbers_answered(requests.filter(|request| request.split(' ').nth(1) == Some(&form)))
    }

    #[test]
    fn both_frames_give_each_answer_as_often() {
        for form in FRAME_FORMS {
            // Of 64 signs and half hours, six are beyond 14:00, and one is sign 1 on a zero.
            let read = [(0, 16 * 57), (4, 16 * 6), (5, 16), (6, 16 * 64)];
            assert_eq!(answers(form, frames_read()), read.into());
            assert_eq!(answers(form, offsets_written()), [(0, 16 * 57)].into());
            let minutes = [(0, 57), (7, 2 * 60), (9, 2 * 840 + 1 - 57)];
            assert_eq!(answers(form, minutes_written()), minutes.into());
            let buffers = [(0, 3 * 2), (10, 3 * 100)];
            assert_eq!(answers(form, buffers_written()), buffers.into());
        }
    }

    #[test]
    fn the_frames_accepted_are_those_written_and_tell_each_offset() {
        for form in FRAME_FORMS {
            for flags in flags() {
                let mut accepted = BTreeMap::new();
                for e in frames(flags) {
                    if let Ok(record) = read(form, &e) {
                        accepted.insert(record.offset.unwrap(), e);
                    }
                }
                let written =
                    offsets().map(|offset| (offset, string_of(form, &record(offset, flags))));
                assert_eq!(accepted, written.collect());
            }
        }
    }

    #[test]
    fn either_parity_stands_beside_each_sign() {
        for form in FRAME_FORMS {
            for offset in offsets() {
                let frames = flags().map(|flags| string_of(form, &record(offset, flags)));
                let parities: BTreeSet<u8> = frames.map(|e| e[75]).collect();
                assert_eq!(parities, [0, 1].into());
            }
        }
    }
}
