//! What only the RMC string, form 12, and its kind of position have: their edges and their bends.

use super::{one_byte_changed, put_text, Random};
use crate::record::Position;
use crate::rmc::{SUM, SUMMED};
use crate::serial::{exclusive_or, spell_sum};

const FORM: u32 = 12;

/// Hundredths of a minute around zero and around one degree.
const NEAR_ZERO: [i32; 10] = [-6_000, -5_999, -100, -1, 0, 1, 99, 100, 5_999, 6_000];

/// A good position in minutes: the ends, whole degrees and the last hundredth before them.
pub(super) fn good_minutes(random: &mut Random) -> Position {
    let mut latitudes = vec![-540_000, -539_999, 59_999, 60_000, 539_999, 540_000];
    let mut longitudes = vec![-1_080_000, -1_079_999, 599_999, 600_000, 1_080_000];
    latitudes.extend(NEAR_ZERO);
    longitudes.extend(NEAR_ZERO);
    Position::Minutes {
        latitude: random.signed(540_000, &latitudes),
        longitude: random.signed(1_080_000, &longitudes),
    }
}

/// A position in minutes with one number beyond its range; some would be good in degrees.
pub(super) fn bad_minutes(random: &mut Random) -> Position {
    let latitudes = [540_001, -540_001, 540_099, 900_000, i32::MAX, i32::MIN];
    let longitudes = [
        1_080_001,
        -1_080_001,
        1_080_099,
        -1_800_000,
        i32::MAX,
        i32::MIN,
    ];
    if random.one_in(2) {
        Position::Minutes {
            latitude: random.pick(&latitudes),
            longitude: random.pick(&[0, 72_075, 1_080_000]),
        }
    } else {
        Position::Minutes {
            latitude: random.pick(&[0, 286_221, -540_000]),
            longitude: random.pick(&longitudes),
        }
    }
}

/// Latitudes with their letter at and beyond the edges, minutes of 60 and more, and misspelled ones:
/// spaces for leading zeros, as the manuals have them, other padding and other letters.
const LATITUDES: &str = "0000.00,N|0000.00,S|0000.00,S|0000.01,S|0000.01,N|9000.00,N|9000.00,S\
    |9000.01,N|9000.01,S|8959.99,S|8959.99,N|8960.00,N|8960.00,S|0059.99,S|0060.00,N|0060.00,S\
    |0099.99,N|9060.00,N|9059.99,S|9100.00,N|9999.99,S|0100.00,N|4721.00,N\
    | 742.21,N|  42.21,N|    .21,N|4742.2 ,N|47 2.21,N|+742.21,N|-742.21,N|4742,21,N|4742 21,N\
    |4742.21,E|4742.21,n|4742.21, |4742.21 N|4742.21N,|04742.2,N";

/// The same for longitudes.
const LONGITUDES: &str = "00000.00,E|00000.00,W|00000.00,W|00000.01,W|00000.01,E|18000.00,E\
    |18000.00,W|18000.01,E|18000.01,W|17959.99,W|17959.99,E|17960.00,E|17960.00,W|00059.99,W\
    |00060.00,E|00060.00,W|00099.99,E|18060.00,E|18059.99,W|18100.00,E|99999.99,W|09959.99,E\
    |10000.00,W|00803.75,E|19000.00,E|20000.00,W\
    |  803.75,E| 0803.75,E|     .75,E|00803.7 ,E|008 3.75,E|+0803.75,E|-0803.75,E|00803,75,E\
    |00803 75,E|00803.75,N|00803.75,e|00803.75, |00803.75 W|0803.75,E,|008.0625,E";

/// What stands in front of the time: that of this string, and that of other strings and makers.
const HEADS: &str = "$GPRMC,|$GNRMC,|$GPGGA,|$GPZDA,|$gprmc,|$GPRMC;|$ GPRMC|*GPRMC,|!GPRMC,";

/// Speed and course, which are fixed bytes.
const SPEEDS: &str =
    "0.0,0.0|0.0,0.1|0.1,0.0|1.0,0.0|0.0,9.0|0,0,0.0|0.0;0.0|0.00,.0| .0,0.0|-.0,0.0";

/// The variation and its letter, which are fixed bytes as well.
const VARIATIONS: &str = "0.0,E|0.0,W|0.0,e|0.0,N|0.0, |0.1,E|1.0,E| .0,E|0,0,E|0.0E,";

const FRACTIONS: &str = "00|01|09|10|50|99| 0|0 |  |.0|0x|-1|,,";

fn put_sum(s: &mut [u8], sum: u8) {
    put_text(s, SUM.start, &spell_sum(sum));
}

pub(super) fn put_true_sum(s: &mut [u8]) {
    put_sum(s, exclusive_or(&s[SUMMED]));
}

/// A sum that is none: over too many or too few bytes, or with a digit replaced.
fn bend_sum(s: &mut [u8], random: &mut Random) {
    let digit = SUM.start + random.below(2);
    match random.below(6) {
        0 => put_sum(s, exclusive_or(&s[..SUMMED.end])),
        1 => put_sum(s, exclusive_or(&s[SUMMED.start..=SUMMED.end])),
        2 => put_sum(s, exclusive_or(&s[..=SUMMED.end])),
        3 => put_sum(s, exclusive_or(&s[SUMMED.start..SUMMED.end - 1])),
        4 => s[SUM].make_ascii_lowercase(),
        _ => s[digit] = random.pick(b"0123456789ABCDEFabcG "),
    }
}

/// S or W on a zero, or in place of N or E on whatever stands there.
fn bend_side(s: &mut [u8], random: &mut Random) {
    match random.below(4) {
        0 => put_text(s, 19, "0000.00,S"),
        1 => put_text(s, 29, "00000.00,W"),
        2 => s[27] = b'S',
        _ => s[38] = b'W',
    }
}

fn bend_field(s: &mut [u8], random: &mut Random) {
    match random.below(11) {
        0 | 1 => put_text(s, 19, random.pick_of(LATITUDES)),
        2 | 3 => put_text(s, 29, random.pick_of(LONGITUDES)),
        4 | 5 => bend_side(s, random),
        6 => s[17] = random.pick(b"AVAVavNX 0\0"),
        7 => put_text(s, 14, random.pick_of(FRACTIONS)),
        8 => put_text(s, 40, random.pick_of(SPEEDS)),
        _ if random.one_in(2) => put_text(s, 55, random.pick_of(VARIATIONS)),
        _ => put_text(s, 0, random.pick_of(HEADS)),
    }
}

/// A field of the string bent, or its sum alone.
pub(super) fn bend(s: &mut [u8], random: &mut Random) {
    if random.one_in(5) {
        bend_sum(s, random);
    } else {
        bend_field(s, random);
        // The sum is mostly put right, so that the bend itself is judged.
        if !random.one_in(4) {
            put_true_sum(s);
        }
    }
}

/// One byte replaced by another and the sum put right: damage that the sum does not tell.
pub(super) fn damage_the_sum_hides(s: Vec<u8>, random: &mut Random) -> Vec<u8> {
    let mut s = one_byte_changed(FORM, s, random);
    put_true_sum(&mut s);
    s
}

/// Sentences of other receivers, of other lengths, which begin and end as this one does.
const OTHER_SENTENCES: [&str; 5] = [
    "$GPRMC,125106,V,3854.5087,N,07726.4523,W,0.0,0.0,241011,10.5,W,S*28\r\n",
    "$GNRMC,053232.438,A,3114.8789,N,12135.2442,E,0.26,167.42,020315,,,A*70\r\n",
    "$GPRMC,,V,,,,,,,260810,1.0,E,N*34\r\n",
    "$GPRMC,220516,A,5133.82,N,00042.24,W,173.8,231.8,130694,004.2,W*70\r\n",
    "$GPRMC,220952.00,A,4742.21,N,01200.75,E,0.0,0.0,181223,0.0,E*",
];

pub(super) fn other_sentence(random: &mut Random) -> &'static [u8] {
    random.pick(&OTHER_SENTENCES).as_bytes()
}

#[cfg(test)]
mod tests {
    use std::collections::BTreeMap;

    use super::super::{Inputs, Random};
    use super::*;
    use crate::generate::{stream, valid_string};
    use crate::{read, search, Record};

    #[test]
    fn every_text_keeps_the_length() {
        for (texts, length) in [
            (LATITUDES, 9),
            (LONGITUDES, 10),
            (HEADS, 7),
            (SPEEDS, 7),
            (VARIATIONS, 5),
            (FRACTIONS, 2),
        ] {
            for text in texts.split('|') {
                assert_eq!(text.len(), length, "{text}");
            }
        }
    }

    #[test]
    fn no_other_sentence_is_a_valid_string() {
        for sentence in OTHER_SENTENCES {
            assert_eq!(read(FORM, sentence.as_bytes()), Err(2), "{sentence}");
        }
    }

    fn latitude_and_longitude(record: &Record) -> (i32, i32) {
        match record.position {
            Some(Position::Minutes {
                latitude,
                longitude,
            }) => (latitude, longitude),
            _ => panic!("an RMC string has minutes"),
        }
    }

    #[test]
    fn valid_strings_meet_every_edge() {
        let mut random = Random::new(12);
        let mut met: BTreeMap<&str, usize> = BTreeMap::new();
        for _ in 0..5000 {
            let s = valid_string(FORM, &mut random);
            let record = read(FORM, &s).expect("a valid string");
            let (latitude, longitude) = latitude_and_longitude(&record);
            for (what, holds) in [
                ("A", record.sync == Some(true)),
                ("V", record.sync == Some(false)),
                ("second 60", record.second == 60),
                ("hundredth 99", &s[14..16] == b"99"),
                ("90 degrees north", latitude == 540_000),
                ("90 degrees south", latitude == -540_000),
                ("180 degrees east", longitude == 1_080_000),
                ("180 degrees west", longitude == -1_080_000),
                ("the equator", latitude == 0),
                ("Greenwich", longitude == 0),
                ("59.99 minutes", &s[21..26] == b"59.99"),
                ("south", latitude < 0),
                ("west", longitude < 0),
                ("one degree", latitude.abs() == 6_000),
            ] {
                *met.entry(what).or_default() += usize::from(holds);
            }
        }
        assert!(met.values().all(|times| *times > 50), "{met:?}");
    }

    /// What is at fault in a string that is refused with 4, 5 or 6; more than one thing may be.
    fn faults(s: &[u8]) -> Vec<&'static str> {
        let digits = |at: usize| String::from_utf8_lossy(&s[at..at + 2]).into_owned();
        let latitude = String::from_utf8_lossy(&s[19..26]).into_owned();
        let longitude = String::from_utf8_lossy(&s[29..37]).into_owned();
        let mut faults = Vec::new();
        for (what, holds) in [
            ("latitude minutes", digits(21).as_str() >= "60"),
            ("longitude minutes", digits(32).as_str() >= "60"),
            ("minutes of 89 degrees", latitude == "8960.00"),
            ("minutes of 179 degrees", longitude == "17960.00"),
            ("latitude", latitude.as_str() > "9000.00"),
            ("longitude", longitude.as_str() > "18000.00"),
            ("hour", digits(7).as_str() > "23"),
            ("minute", digits(9).as_str() > "59"),
            ("second", digits(11).as_str() > "60"),
            ("month", digits(50).as_str() > "12" || digits(50) == "00"),
            ("S on a zero", s[27] == b'S' && latitude == "0000.00"),
            ("W on a zero", s[38] == b'W' && longitude == "00000.00"),
        ] {
            if holds {
                faults.push(what);
            }
        }
        faults
    }

    #[test]
    fn the_inputs_meet_every_fault_behind_a_true_sum_and_a_wrong_one() {
        let mut met: BTreeMap<(u32, &str), usize> = BTreeMap::new();
        for input in Inputs::new(FORM, 12).take(60_000) {
            let Err(refusal @ 4..=6) = read(FORM, &input) else {
                continue;
            };
            for fault in faults(&input) {
                *met.entry((refusal, fault)).or_default() += 1;
            }
        }
        let times = |refusal, fault: &'static str| met.get(&(refusal, fault)).copied();
        for fault in [
            "latitude minutes",
            "longitude minutes",
            "minutes of 89 degrees",
            "minutes of 179 degrees",
            "latitude",
            "longitude",
            "hour",
            "minute",
            "second",
            "month",
        ] {
            assert!(times(4, fault) > Some(50), "{fault}: {met:?}");
            assert!(times(6, fault) > Some(5), "{fault}: {met:?}");
            assert_eq!(times(5, fault), None);
        }
        for fault in ["S on a zero", "W on a zero"] {
            assert!(times(5, fault) > Some(50), "{fault}: {met:?}");
            assert!(times(4, fault) > Some(5), "{fault}: {met:?}");
            assert!(times(6, fault) > Some(5), "{fault}: {met:?}");
        }
    }

    #[test]
    fn one_changed_byte_with_its_sum_put_right_is_judged_by_itself() {
        let mut random = Random::new(13);
        let mut met = [0; 7];
        for _ in 0..5000 {
            let s = valid_string(FORM, &mut random);
            let s = damage_the_sum_hides(s, &mut random);
            met[read(FORM, &s).err().unwrap_or(0) as usize] += 1;
        }
        assert!(met[0] > 100 && met[3] > 100 && met[4] > 100, "{met:?}");
        assert_eq!((met[1], met[2], met[6]), (0, 0, 0));
    }

    #[test]
    fn streams_have_strings_beside_other_sentences() {
        let mut random = Random::new(14);
        let (mut beside, mut alone) = (0, 0);
        for _ in 0..2000 {
            let stream = stream(FORM, &mut random);
            let foreign = OTHER_SENTENCES.iter().any(|sentence| {
                let sentence = sentence.as_bytes();
                stream.windows(sentence.len()).any(|w| w == sentence)
            });
            let valid = search(FORM, &stream, 0).is_ok();
            beside += usize::from(foreign && valid);
            alone += usize::from(foreign && !valid);
        }
        assert!(beside > 100 && alone > 5, "{beside} {alone}");
    }
}
