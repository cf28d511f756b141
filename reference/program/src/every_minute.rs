//! The RMC string and the kinds of W-204 as requests, so that no degree, no hundredth, no byte of a
//! string and no kind in a form is left to a draw.

use crate::forms::{string_length, FORMS, LONGEST_BLOCK};
use crate::generate::put_true_sum;
use crate::protocol::{hex, spell_fields};
use crate::record::{Date, Fraction, Position, Record};
use crate::rmc::{write_rmc, SUM, SUMMED};

const RMC: u32 = 12;
const BLOCK: u32 = 9;
const LENGTH: usize = 65;

/// Hundredths of a minute in a degree.
const DEGREE: i32 = 6_000;

/// Where the fields of the string stand.
const TIME: [usize; 3] = [7, 9, 11];
const HUNDREDTHS: usize = 14;
const LATITUDE: usize = 19;
const LONGITUDE: usize = 29;

/// The position of `record`, as a block spells it.
const POSITION: &str = "+4721.00 +00803.75";

/// 24-02-29 23:59:60.99, sync no, with every other field there, so that each form that takes its
/// kinds can write it.
fn record() -> Record {
    Record {
        date: Some(Date::Full {
            year: 24,
            month: 2,
            day: 29,
        }),
        hour: 23,
        minute: 59,
        second: 60,
        fraction: Some(Fraction::Hundredths(99)),
        channel: Some(0),
        sync: Some(false),
        fix: Some(true),
        utc: Some(true),
        summer: Some(false),
        change: Some(false),
        leap: Some(false),
        offset: Some(60),
        position: Some(Position::Minutes {
            latitude: 284_100,
            longitude: 48_375,
        }),
        dsp: Some(false),
        lsp: Some(false),
    }
}

fn read_request(form: u32, input: &[u8]) -> String {
    format!("read {form} {}", hex(input))
}

/// The string of `record` with a text at a place, its sum put right.
fn read_with(place: usize, text: &str) -> String {
    let mut s = write_rmc(&record());
    s[place..place + text.len()].copy_from_slice(text.as_bytes());
    put_true_sum(RMC, &mut s);
    read_request(RMC, &s)
}

/// The first and last hundredths of a degree, and the first minute that there is not.
const BORDERS: [&str; 4] = ["00.00", "00.01", "59.99", "60.00"];

/// Every number of degrees that two digits can tell, at the borders.
fn latitudes() -> impl Iterator<Item = String> {
    (0..100).flat_map(|degrees| BORDERS.map(|minutes| format!("{degrees:02}{minutes}")))
}

/// The degrees 000 to 199 and, of those far beyond, each hundred, at the borders.
fn longitudes() -> impl Iterator<Item = String> {
    let degrees = (0..200).chain((200..1000).step_by(100));
    degrees.flat_map(|degrees| BORDERS.map(|minutes| format!("{degrees:03}{minutes}")))
}

fn latitudes_read() -> impl Iterator<Item = String> {
    latitudes().flat_map(|size| ["N", "S"].map(|n| read_with(LATITUDE, &format!("{size},{n}"))))
}

fn longitudes_read() -> impl Iterator<Item = String> {
    longitudes().flat_map(|size| ["E", "W"].map(|e| read_with(LONGITUDE, &format!("{size},{e}"))))
}

/// The minutes 00 to 99 of a latitude and of a longitude, at some hundredths.
fn minutes_read() -> impl Iterator<Item = String> {
    let hundredths = |minutes| [0, 1, 50, 99].map(|part| format!("{minutes:02}.{part:02}"));
    let places = |minutes: String| [LATITUDE + 2, LONGITUDE + 3].map(|at| read_with(at, &minutes));
    (0..100).flat_map(hundredths).flat_map(places)
}

/// All that two digits can tell, as hour, minute and second.
fn times_read() -> impl Iterator<Item = String> {
    TIME.into_iter()
        .flat_map(|place| (0..100).map(move |number| read_with(place, &format!("{number:02}"))))
}

/// Every hundredth of a second with either status, which stands behind it.
fn hundredths_read() -> impl Iterator<Item = String> {
    let statuses = |number| ["A", "V"].map(|status| format!("{number:02},{status}"));
    let texts = (0..100).flat_map(statuses);
    texts.map(|text| read_with(HUNDREDTHS, &text))
}

/// Every sum, also in small letters.
fn sums_read() -> impl Iterator<Item = String> {
    let digits = || b"0123456789ABCDEFabcdef".iter().copied();
    let sums = digits().flat_map(move |high| digits().map(move |low| [high, low]));
    sums.map(|sum| {
        let mut s = write_rmc(&record());
        s[SUM].copy_from_slice(&sum);
        read_request(RMC, &s)
    })
}

/// A list of bytes with one of those at these places replaced by each byte in turn.
fn one_byte_replaced(
    good: Vec<u8>,
    places: impl Iterator<Item = usize>,
) -> impl Iterator<Item = Vec<u8>> {
    let bytes = |place| (0..=255).map(move |byte| (place, byte));
    places.flat_map(bytes).map(move |(place, byte)| {
        let mut other = good.clone();
        other[place] = byte;
        other
    })
}

fn bytes_read() -> impl Iterator<Item = String> {
    one_byte_replaced(write_rmc(&record()), 0..LENGTH).map(|s| read_request(RMC, &s))
}

/// With the sum put right, so that nothing hides what the byte itself is worth.
fn bytes_read_with_their_sum() -> impl Iterator<Item = String> {
    one_byte_replaced(write_rmc(&record()), SUMMED).map(|mut s| {
        put_true_sum(RMC, &mut s);
        read_request(RMC, &s)
    })
}

/// A block in which fraction and position stand alone beside the time.
fn block(fraction: &str, position: &str) -> Vec<u8> {
    let head = format!("date=-\ntime=00:00:00\nfraction={fraction}\nchannel=-\n");
    let flags = "sync=-\nfix=-\nutc=-\nsummer=-\nchange=-\nleap=-\n";
    format!("{head}{flags}offset=-\nposition={position}\ndsp=-\nlsp=-\n").into_bytes()
}

fn blocks_read() -> impl Iterator<Item = String> {
    let signs = |size: String| ["+", "-"].map(|sign| format!("{sign}{size}"));
    let latitudes = latitudes().flat_map(signs);
    let longitudes = longitudes().flat_map(signs);
    let latitudes = latitudes.map(|latitude| format!("{latitude} +00803.75"));
    let longitudes = longitudes.map(|longitude| format!("+4721.00 {longitude}"));
    let positions = latitudes.chain(longitudes);
    let hundredths = (0..100).map(|number| block(&format!("{number:02}"), "-"));
    positions
        .map(|position| block("-", &position))
        .chain(hundredths)
        .map(|input| read_request(BLOCK, &input))
}

/// Each byte of a block's position replaced.
fn block_bytes_read() -> impl Iterator<Item = String> {
    let good = block("-", POSITION);
    let at = good.len() - "\ndsp=-\nlsp=-\n".len() - POSITION.len();
    let places = at..at + POSITION.len();
    one_byte_replaced(good, places).map(|input| read_request(BLOCK, &input))
}

fn written(form: u32, record: &Record, length: usize) -> String {
    format!("writeraw {form} {} {length}", spell_fields(record))
}

/// A record as an RMC string and as a block, each into a buffer that is long enough.
fn written_in_both(record: &Record) -> [String; 2] {
    [RMC, BLOCK].map(|form| written(form, record, LONGEST_BLOCK))
}

/// A whole number of degrees up to one beyond the last, and the hundredths beside it.
fn around_degrees(last: i32) -> impl Iterator<Item = i32> {
    let beside = |degrees| [-1, 0, 1].map(|step| degrees * DEGREE + step);
    (-last - 1..=last + 1).flat_map(beside)
}

fn positions_written() -> impl Iterator<Item = String> {
    let latitudes = around_degrees(90).map(|latitude| (latitude, 48_375));
    let longitudes = around_degrees(180).map(|longitude| (284_100, longitude));
    latitudes
        .chain(longitudes)
        .flat_map(|(latitude, longitude)| {
            written_in_both(&Record {
                position: Some(Position::Minutes {
                    latitude,
                    longitude,
                }),
                ..record()
            })
        })
}

/// Every hundredth of a second, and some beyond the last.
fn hundredths_written() -> impl Iterator<Item = String> {
    (0..=110).flat_map(|number| {
        written_in_both(&Record {
            fraction: Some(Fraction::Hundredths(number)),
            ..record()
        })
    })
}

/// Into every buffer up to one byte more than the string needs.
fn buffers_written() -> impl Iterator<Item = String> {
    (0..=LENGTH + 1).map(|length| written(RMC, &record(), length))
}

/// Every kind of fraction beside every kind of position, absent ones too.
fn kinds() -> impl Iterator<Item = Record> {
    let fractions = [
        None,
        Some(Fraction::Hundredths(99)),
        Some(Fraction::Thousandths(99)),
        Some(Fraction::TenMillionths(99)),
    ];
    let degrees = Position::Degrees {
        latitude: 284_100,
        longitude: 48_375,
        altitude: 0,
    };
    let positions = [None, record().position, Some(degrees)];
    let pairs = move |fraction| positions.map(|position| (fraction, position));
    let pairs = fractions.into_iter().flat_map(pairs);
    pairs.map(|(fraction, position)| Record {
        fraction,
        position,
        ..record()
    })
}

/// All kinds in every form.
fn kinds_written() -> impl Iterator<Item = String> {
    let length = |form| string_length(form).unwrap_or(LONGEST_BLOCK);
    FORMS.flat_map(move |form| kinds().map(move |record| written(form, &record, length(form))))
}

/// Reads and writes of every degree, hundredth, byte and kind.
pub fn requests() -> impl Iterator<Item = String> {
    latitudes_read()
        .chain(longitudes_read())
        .chain(minutes_read())
        .chain(times_read())
        .chain(hundredths_read())
        .chain(sums_read())
        .chain(bytes_read())
        .chain(bytes_read_with_their_sum())
        .chain(blocks_read())
        .chain(block_bytes_read())
        .chain(positions_written())
        .chain(hundredths_written())
        .chain(buffers_written())
        .chain(kinds_written())
}

#[cfg(test)]
mod tests {
    use super::*;
    use crate::protocol::numbers_answered as answers;

    // Of a degree's four borders three are there. 90 and 180 degrees have one, and a zero has no S,
    // no W and no minus.
    const LATITUDES_ACCEPTED: usize = 2 * (90 * 3 + 1) - 1;
    const LONGITUDES_ACCEPTED: usize = 2 * (180 * 3 + 1) - 1;
    const LATITUDES_OUTSIDE: usize = 2 * 4 * 100 - LATITUDES_ACCEPTED - 1;
    const LONGITUDES_OUTSIDE: usize = 2 * 4 * 208 - LONGITUDES_ACCEPTED - 1;

    #[test]
    fn every_degree_read() {
        let latitudes = [(0, LATITUDES_ACCEPTED), (4, LATITUDES_OUTSIDE), (5, 1)];
        assert_eq!(answers(latitudes_read()), latitudes.into());
        let longitudes = [(0, LONGITUDES_ACCEPTED), (4, LONGITUDES_OUTSIDE), (5, 1)];
        assert_eq!(answers(longitudes_read()), longitudes.into());
        let both = [
            (0, LATITUDES_ACCEPTED + LONGITUDES_ACCEPTED + 100),
            (4, LATITUDES_OUTSIDE + LONGITUDES_OUTSIDE),
            (5, 2),
        ];
        assert_eq!(answers(blocks_read()), both.into());
    }

    #[test]
    fn every_number_of_two_digits_read() {
        let minutes = [(0, 2 * 4 * 60), (4, 2 * 4 * 40)];
        assert_eq!(answers(minutes_read()), minutes.into());
        let times = [(0, 24 + 60 + 61), (4, 300 - 24 - 60 - 61)];
        assert_eq!(answers(times_read()), times.into());
        assert_eq!(answers(hundredths_read()), [(0, 200)].into());
        // Of 256 sums one is true; 22 digits squared, less the 16 squared that are digits.
        let sums = [(0, 1), (3, 22 * 22 - 256), (6, 255)];
        assert_eq!(answers(sums_read()), sums.into());
    }

    /// Digits of `4721.00` that can stand there: 07 to 87 degrees, 40 to 49, and so on.
    const LATITUDE_DIGITS: usize = 9 + 10 + 6 + 10 + 10 + 10;

    /// Digits of `00803.75` that can stand there: 8 and 108 degrees, 8 to 98, and so on.
    const LONGITUDE_DIGITS: usize = 2 + 10 + 10 + 6 + 10 + 10 + 10;

    #[test]
    fn every_byte_read() {
        // No byte but the string's own is accepted at any place.
        let met = answers(bytes_read());
        assert_eq!(met.get(&0), Some(&LENGTH));
        assert_eq!(met.keys().copied().collect::<Vec<_>>(), [0, 3, 6]);

        // Counted by hand for 23:59:60.99 on 29-02-24: hours 03 to 23 and 20 to 23, minutes 09 to
        // 59 and 50 to 59, seconds 00 to 60 and 60; days 09 to 29 and 20 to 29, months 02 and 12
        // and 01 to 09, years 04 to 84 and 20 to 28 with a leap day.
        let time = 3 + 4 + 6 + 10 + 7 + 1 + 10 + 10;
        let date = 3 + 10 + 2 + 9 + 5 + 3;
        let digits = time + LATITUDE_DIGITS + LONGITUDE_DIGITS + date;
        let (letters, fixed) = (2 * 3, 29);
        let accepted = digits + letters + fixed;
        let outside = 270 - digits;
        let other = 59 * 256 - accepted - outside;
        let met = answers(bytes_read_with_their_sum());
        assert_eq!(met, [(0, accepted), (3, other), (4, outside)].into());
    }

    #[test]
    fn every_byte_of_a_position_in_a_block_read() {
        let digits = LATITUDE_DIGITS + LONGITUDE_DIGITS;
        let (signs, fixed) = (2 * 2, 3);
        let accepted = digits + signs + fixed;
        let outside = 130 - digits;
        let other = POSITION.len() * 256 - accepted - outside;
        let met = answers(block_bytes_read());
        assert_eq!(met, [(0, accepted), (3, other), (4, outside)].into());
    }

    #[test]
    fn every_degree_and_hundredth_written() {
        // Each of both forms refuses two hundredths and three beyond each of the four ends.
        let positions = 3 * (2 * 91 + 1) + 3 * (2 * 181 + 1);
        let (good, bad) = (2 * (positions - 16), 2 * 16);
        assert_eq!(answers(positions_written()), [(0, good), (7, bad)].into());
        let hundredths = [(0, 2 * 100), (7, 2 * 11)];
        assert_eq!(answers(hundredths_written()), hundredths.into());
        assert_eq!(answers(buffers_written()), [(0, 2), (10, 65)].into());
    }

    #[test]
    fn every_kind_written() {
        // Forms 2 and 4 take one fraction of four, form 3 one position of three, form 12 one pair.
        let accepted = 8 * 12 + 2 * 3 + 4 + 1;
        let kinds = [(0, accepted), (8, 12 * 12 - accepted)];
        assert_eq!(answers(kinds_written()), kinds.into());
    }

    #[test]
    fn there_are_fewer_than_fifty_thousand_requests() {
        let number = requests().count();
        assert!((40_000..50_000).contains(&number), "{number}");
    }
}
