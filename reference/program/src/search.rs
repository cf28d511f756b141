//! The search for the first valid string of a serial form in a lent slice.

use crate::forms::{read, serial_length};
use crate::record::Record;

/// The first place at or after `start` where a valid string lies wholly in the input, and its
/// record; else 1 (form not 1..7, 10 or 12) or else 12. A place counts from the input's first byte.
pub fn search(form: u32, input: &[u8], start: usize) -> Result<(usize, Record), u32> {
    let length = serial_length(form).ok_or(1u32)?;
    let mut place = start;
    while place < input.len() && input.len() - place >= length {
        if let Ok(record) = read(form, &input[place..place + length]) {
            return Ok((place, record));
        }
        place += 1;
    }
    Err(12)
}

#[cfg(test)]
mod tests {
    use super::*;

    const RACAL: &[u8] = b"XGU000229000000\r";

    #[test]
    fn a_true_string_may_begin_inside_a_false_one() {
        let mut stream = b"XGU00022".to_vec();
        stream.extend(RACAL);
        assert_eq!(search(5, &stream, 0).map(|found| found.0), Ok(8));
        assert_eq!(search(5, &stream, 8).map(|found| found.0), Ok(8));
        assert_eq!(search(5, &stream, 9), Err(12));
    }

    #[test]
    fn a_start_past_the_end_is_12() {
        assert_eq!(search(5, RACAL, 16), Err(12));
        assert_eq!(search(5, RACAL, 17), Err(12));
        assert_eq!(search(5, RACAL, usize::MAX), Err(12));
        assert_eq!(search(5, b"", 0), Err(12));
    }

    #[test]
    fn a_wrong_form_is_1_before_12() {
        for form in [0, 8, 9, 11, 15, 266, 267, 268, u32::MAX] {
            assert_eq!(search(form, RACAL, 99), Err(1));
        }
    }
}
