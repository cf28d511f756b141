//! The two calls over all twelve forms, with the tests that do not depend on the bytes.

use std::ops::RangeInclusive;

use crate::frame::SignRule;
use crate::record::{Date, Fraction, Position, Record};
use crate::{block, frame, rmc, serial};

/// The forms that are read and written: "1 and 11 no longer bar 12".
pub const FORMS: RangeInclusive<u32> = 1..=12;

/// The length of the longest block.
pub(crate) const LONGEST_BLOCK: usize = 174;

/// The length of a serial string or of a frame.
pub fn string_length(form: u32) -> Option<usize> {
    match form {
        1 => Some(32),
        2 => Some(31),
        3 => Some(66),
        4 => Some(32),
        5 => Some(16),
        6 => Some(16),
        7 => Some(24),
        8 | 11 => Some(100),
        10 => Some(29),
        12 => Some(65),
        _ => None,
    }
}

/// The forms that a stream is searched and listened for. Their numbers have gaps, since the SAT and
/// RMC strings came after the frames and the block.
pub const SERIAL_FORMS: [u32; 9] = [1, 2, 3, 4, 5, 6, 7, 10, 12];

/// The two frames. Search and listener know neither of them.
pub const FRAME_FORMS: [u32; 2] = [8, 11];

/// "Form 8 now follows the earlier rule"; form 11 is the "same frame with the sign as 01 had it".
fn sign_rule(form: u32) -> SignRule {
    if form == 11 {
        SignRule::OneBelowZero
    } else {
        SignRule::OneAboveZero
    }
}

/// The length of a serial string; none for a frame, the block and a number that is no form.
pub fn serial_length(form: u32) -> Option<usize> {
    if SERIAL_FORMS.contains(&form) {
        string_length(form)
    } else {
        None
    }
}

fn is_form(form: u32) -> bool {
    FORMS.contains(&form)
}

/// Form 9 has no one length: a block has 118 bytes or more.
fn length_fits(form: u32, length: usize) -> bool {
    match string_length(form) {
        Some(wanted) => length == wanted,
        None => (118..=LONGEST_BLOCK).contains(&length),
    }
}

/// Reads a string of a form: tests in the order 1, 2, 3, 6, 4, 5. The record of a refused read is
/// the empty record, `Record::default()`.
pub fn read(form: u32, input: &[u8]) -> Result<Record, u32> {
    if !is_form(form) {
        return Err(1);
    }
    if !length_fits(form, input.len()) {
        return Err(2);
    }
    match form {
        1 => serial::read_standard(input),
        2 => serial::read_capture(input),
        3 => serial::read_erlangen(input),
        4 => serial::read_spa(input),
        5 => serial::read_racal(input),
        6 => serial::read_sysplex(input),
        7 => serial::read_computime(input),
        8 | 11 => frame::read_frame(sign_rule(form), input),
        10 => serial::read_sat(input),
        12 => rmc::read_rmc(input),
        _ => block::read_block(input),
    }
}

/// "A full date serves form 6": so any kind of date does. The block carries every field and needs
/// none.
fn date_fits(form: u32, date: Option<Date>) -> bool {
    match form {
        6 => date.is_some(),
        9 => true,
        _ => matches!(date, Some(Date::Full { .. })),
    }
}

/// Three forms carry a fraction, each a kind of its own.
fn fraction_fits(form: u32, fraction: Option<Fraction>) -> bool {
    match form {
        2 => matches!(fraction, Some(Fraction::TenMillionths(_))),
        4 => matches!(fraction, Some(Fraction::Thousandths(_))),
        12 => matches!(fraction, Some(Fraction::Hundredths(_))),
        _ => true,
    }
}

/// Two forms carry a position, each a kind of its own.
fn position_fits(form: u32, position: Option<Position>) -> bool {
    match form {
        3 => matches!(position, Some(Position::Degrees { .. })),
        12 => matches!(position, Some(Position::Minutes { .. })),
        _ => true,
    }
}

/// Whether every field that the form carries is there and of the form's kind.
pub(crate) fn carried_fields_are_there(form: u32, record: &Record) -> bool {
    date_fits(form, record.date)
        && fraction_fits(form, record.fraction)
        && position_fits(form, record.position)
        && fields_of_one_kind_are_there(form, record)
}

fn fields_of_one_kind_are_there(form: u32, record: &Record) -> bool {
    let sync = record.sync.is_some();
    let fix = record.fix.is_some();
    let utc = record.utc.is_some();
    let summer = record.summer.is_some();
    let change = record.change.is_some();
    let leap = record.leap.is_some();
    let offset = record.offset.is_some();
    let pending = record.dsp.is_some() && record.lsp.is_some();
    match form {
        1 => sync && fix && utc && summer && change && leap,
        2 => record.channel.is_some(),
        3 => offset && sync && fix && summer && change && leap,
        6 | 12 => sync,
        8 | 11 => sync && summer && offset && pending,
        10 => sync && utc && summer && change,
        _ => true,
    }
}

/// Row 9: what a form's layout has no room for.
fn form_can_say(form: u32, record: &Record) -> bool {
    match form {
        1 => !(record.change == Some(true) && record.leap == Some(true)),
        // "9 reads as for form 8, in both."
        8 | 11 => record.offset.is_none_or(|offset| offset % 30 == 0),
        _ => true,
    }
}

fn spell(form: u32, record: &Record) -> Vec<u8> {
    match form {
        1 => serial::write_standard(record),
        2 => serial::write_capture(record),
        3 => serial::write_erlangen(record),
        4 => serial::write_spa(record),
        5 => serial::write_racal(record),
        6 => serial::write_sysplex(record),
        7 => serial::write_computime(record),
        8 | 11 => frame::write_frame(sign_rule(form), record),
        10 => serial::write_sat(record),
        12 => rmc::write_rmc(record),
        _ => block::write_block(record),
    }
}

/// Writes a record as a string of a form: tests in the order 1, 7, 8, 9, 10. A refused write
/// changes no byte; one that succeeds leaves the bytes behind its output.
pub fn write(form: u32, record: &Record, out: &mut [u8]) -> Result<usize, u32> {
    if !is_form(form) {
        return Err(1);
    }
    if record.is_bad() {
        return Err(7);
    }
    if !carried_fields_are_there(form, record) {
        return Err(8);
    }
    if !form_can_say(form, record) {
        return Err(9);
    }
    let bytes = spell(form, record);
    if out.len() < bytes.len() {
        return Err(10);
    }
    out[..bytes.len()].copy_from_slice(&bytes);
    Ok(bytes.len())
}
