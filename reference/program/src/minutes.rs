//! Degrees and minutes with hundredths (document 02, W-204), as the RMC string and the block spell
//! them: `4721.00` for a latitude, `00803.75` for a longitude. A value is hundredths of a minute.

use crate::serial::{number, require};

/// How many digits the degrees of a latitude have.
pub(crate) const LATITUDE_DIGITS: usize = 2;

/// How many digits the degrees of a longitude have, "which makes the 65".
pub(crate) const LONGITUDE_DIGITS: usize = 3;

/// The size that stands in these digits. "Minutes of 60 or more are 4", also where degrees and
/// minutes together would not go beyond the range.
pub(crate) fn size_of(spelled: &[u8]) -> Result<i32, u32> {
    let point = spelled.len() - 3;
    let degrees = number(&spelled[..point - 2]);
    let minutes = number(&spelled[point - 2..point]);
    let hundredths = number(&spelled[point + 1..]);
    require(minutes <= 59, 4)?;
    Ok(((degrees * 60 + minutes) * 100 + hundredths) as i32)
}

/// A value's size. "Leading zeros stay."
pub(crate) fn spell_size(value: i32, digits: usize) -> String {
    let size = value.unsigned_abs();
    let (minutes, hundredths) = (size / 100, size % 100);
    format!(
        "{:0digits$}{:02}.{hundredths:02}",
        minutes / 60,
        minutes % 60
    )
}

#[cfg(test)]
mod tests {
    use super::*;

    #[test]
    fn a_size_goes_both_ways() {
        for (spelled, size) in [
            ("0000.00", 0),
            ("0000.01", 1),
            ("0000.99", 99),
            ("0001.00", 100),
            ("0059.99", 5_999),
            ("0100.00", 6_000),
            ("4721.00", 284_100),
            ("8959.99", 539_999),
            ("9000.00", 540_000),
        ] {
            assert_eq!(size_of(spelled.as_bytes()), Ok(size));
            assert_eq!(spell_size(size, LATITUDE_DIGITS), spelled);
            assert_eq!(spell_size(-size, LATITUDE_DIGITS), spelled);
            assert_eq!(spell_size(size, LONGITUDE_DIGITS), format!("0{spelled}"));
        }
        assert_eq!(size_of(b"00803.75"), Ok(48_375));
        assert_eq!(spell_size(48_375, LONGITUDE_DIGITS), "00803.75");
        assert_eq!(size_of(b"18000.00"), Ok(1_080_000));
        assert_eq!(spell_size(-1_080_000, LONGITUDE_DIGITS), "18000.00");
    }

    #[test]
    fn minutes_of_60_or_more_are_4() {
        for spelled in ["0060.00", "8960.00", "9060.00", "4799.99", "17960.00"] {
            assert_eq!(size_of(spelled.as_bytes()), Err(4), "{spelled}");
        }
    }
}
