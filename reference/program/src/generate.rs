//! Endless lists of inputs, records, streams and requests, always the same for a seed.

use crate::block::KEYS;
use crate::calendar;
use crate::forms::{carried_fields_are_there, string_length, write};
use crate::forms::{FORMS, FRAME_FORMS, LONGEST_BLOCK, SERIAL_FORMS};
use crate::frame::{bits, digits, is_always_zero, is_mark, put, put_parity};
use crate::protocol::{hex, spell_fields};
use crate::record::{Date, Fraction, Position, Record};
use crate::serial::{number, spa_sum, spell_sum};

mod lists;
mod racks;
mod rmc;
mod rows;
mod runs;
mod tables;

#[cfg(test)]
pub(crate) use lists::record_list;

/// The generator "splitmix64".
#[derive(Clone, Debug)]
pub struct Random(u64);

impl Random {
    pub fn new(seed: u64) -> Self {
        Random(seed)
    }

    pub fn next_u64(&mut self) -> u64 {
        self.0 = self.0.wrapping_add(0x9e37_79b9_7f4a_7c15);
        let mut z = self.0;
        z = (z ^ (z >> 30)).wrapping_mul(0xbf58_476d_1ce4_e5b9);
        z = (z ^ (z >> 27)).wrapping_mul(0x94d0_49bb_1331_11eb);
        z ^ (z >> 31)
    }

    /// A number from 0 to `limit - 1`.
    pub fn below(&mut self, limit: usize) -> usize {
        (self.next_u64() % limit as u64) as usize
    }

    fn between(&mut self, low: i32, high: i32) -> i32 {
        low + self.below((high - low + 1) as usize) as i32
    }

    fn one_in(&mut self, chances: usize) -> bool {
        self.below(chances) == 0
    }

    fn pick<T: Copy>(&mut self, list: &[T]) -> T {
        list[self.below(list.len())]
    }

    /// One of the texts between the bars.
    fn pick_of(&mut self, list: &'static str) -> &'static str {
        let texts: Vec<&str> = list.split('|').collect();
        self.pick(&texts)
    }

    fn byte(&mut self) -> u8 {
        self.next_u64() as u8
    }

    fn bytes(&mut self, length: usize) -> Vec<u8> {
        (0..length).map(|_| self.byte()).collect()
    }

    /// Mostly an edge, sometimes any number up to `limit`.
    fn number(&mut self, limit: u32, edges: &[u32]) -> u32 {
        if self.one_in(2) {
            self.pick(edges)
        } else {
            self.below(limit as usize + 1) as u32
        }
    }

    /// As `number`, with either sign.
    fn signed(&mut self, limit: i32, edges: &[i32]) -> i32 {
        if self.one_in(2) {
            self.pick(edges)
        } else {
            self.between(-limit, limit)
        }
    }
}

/// Years of either century at its ends, leap years and the common years beside them.
const YEARS: [u32; 14] = [0, 1, 4, 23, 24, 76, 79, 80, 81, 84, 91, 93, 96, 99];

fn good_full_date(random: &mut Random) -> Date {
    let year = random.number(99, &YEARS);
    let month = 1 + random.number(11, &[0, 1, 1, 2, 11]);
    let last = calendar::days_in_month(year, month);
    let day = 1 + random.number(last - 1, &[0, last - 1]);
    Date::Full { year, month, day }
}

fn good_date(random: &mut Random) -> Date {
    if random.one_in(2) {
        good_full_date(random)
    } else {
        Date::DayOfYear(1 + random.number(365, &[0, 58, 59, 98, 99, 364, 365]))
    }
}

fn good_fraction(random: &mut Random) -> Fraction {
    match random.below(3) {
        0 => Fraction::Hundredths(random.number(99, &[0, 1, 9, 10, 98, 99])),
        1 => Fraction::Thousandths(random.number(999, &[0, 1, 9, 10, 99, 100, 999])),
        _ => Fraction::TenMillionths(random.number(9_999_999, &[0, 1, 999, 1_000_000, 9_999_999])),
    }
}

fn good_position(random: &mut Random) -> Position {
    if random.one_in(2) {
        good_degrees(random)
    } else {
        rmc::good_minutes(random)
    }
}

fn good_degrees(random: &mut Random) -> Position {
    let near_zero = [-10_000, -9_999, -1, 0, 1, 9_999, 10_000, 99_999, -100_000];
    let mut latitudes = vec![-900_000, -899_999, 899_999, 900_000];
    let mut longitudes = vec![-1_800_000, -999_999, 1_000_000, 1_799_999, 1_800_000];
    latitudes.extend(near_zero);
    longitudes.extend(near_zero);
    Position::Degrees {
        latitude: random.signed(900_000, &latitudes),
        longitude: random.signed(1_800_000, &longitudes),
        altitude: random.number(9_999, &[0, 1, 9, 10, 99, 100, 431, 999, 1000, 9999]),
    }
}

/// A record without one of its thirteen fields beside the time.
fn without(record: &Record, field: usize) -> Record {
    let mut thinner = *record;
    match field {
        0 => thinner.date = None,
        1 => thinner.fraction = None,
        2 => thinner.channel = None,
        3 => thinner.sync = None,
        4 => thinner.fix = None,
        5 => thinner.utc = None,
        6 => thinner.summer = None,
        7 => thinner.change = None,
        8 => thinner.leap = None,
        9 => thinner.offset = None,
        10 => thinner.position = None,
        11 => thinner.dsp = None,
        _ => thinner.lsp = None,
    }
    thinner
}

/// A record of which every field is there and in its range.
fn record_with_every_field(form: u32, random: &mut Random) -> Record {
    Record {
        date: Some(match form {
            6 | 9 => good_date(random),
            _ => good_full_date(random),
        }),
        hour: random.number(23, &[0, 9, 10, 12, 19, 20, 23]),
        minute: random.number(59, &[0, 9, 10, 59]),
        second: random.number(60, &[0, 9, 10, 59, 60, 60]),
        fraction: Some(good_fraction(random)),
        channel: Some(random.below(2) as u32),
        sync: Some(random.one_in(2)),
        fix: Some(random.one_in(2)),
        utc: Some(random.one_in(2)),
        summer: Some(random.one_in(2)),
        change: Some(random.one_in(2)),
        leap: Some(random.one_in(2)),
        offset: Some(random.signed(840, &[-840, -839, -60, -59, -1, 0, 1, 59, 60, 345, 840])),
        position: Some(good_position(random)),
        dsp: Some(random.one_in(2)),
        lsp: Some(random.one_in(2)),
    }
}

/// A good record of which every field is there, of kinds and values that suit the form.
fn full_record(form: u32, random: &mut Random) -> Record {
    let mut record = record_with_every_field(form, random);
    if record.utc_and_summer() {
        if random.one_in(2) {
            record.utc = Some(false);
        } else {
            record.summer = Some(false);
        }
    }
    if form == 1 && record.change == Some(true) {
        record.leap = Some(false);
    }
    if FRAME_FORMS.contains(&form) {
        record.offset = record.offset.map(|offset| offset / 30 * 30);
    }
    while !carried_fields_are_there(form, &record) {
        record.fraction = Some(good_fraction(random));
        record.position = Some(good_position(random));
    }
    record
}

/// A good record that the form can write, some or all of the fields it does not carry absent.
pub fn good_record(form: u32, random: &mut Random) -> Record {
    let mut record = full_record(form, random);
    // The block carries every field, and needs none.
    let bare = form != 9 && random.one_in(8);
    for field in 0..13 {
        let thinner = without(&record, field);
        if (bare || random.one_in(3)) && carried_fields_are_there(form, &thinner) {
            record = thinner;
        }
    }
    record
}

/// The string of a record that the form can write.
pub(crate) fn string_of(form: u32, record: &Record) -> Vec<u8> {
    let mut buffer = [0; LONGEST_BLOCK];
    let length = write(form, record, &mut buffer).expect("a good record is written");
    buffer[..length].to_vec()
}

/// A valid string of the form.
pub fn valid_string(form: u32, random: &mut Random) -> Vec<u8> {
    string_of(form, &good_record(form, random))
}

/// A byte to put in place of another.
fn other_byte(form: u32, old: u8, random: &mut Random) -> u8 {
    let usual = b" 0123456789+-:.;?#*US!ALNEWmDTCHXG>=\x01\x02\x03\r\n";
    match random.below(4) {
        0 => random.byte(),
        1 => old ^ (1 << random.below(8)),
        2 => old.wrapping_add(random.pick(&[1, 255])),
        _ if FRAME_FORMS.contains(&form) => random.pick(&[0, 1, 2, 3]),
        _ if form == 10 => random.pick(b" 0123456789.:/#*!AUTCESMZutces\x02\x03\r\n"),
        _ if form == 12 => random.pick(b" 0123456789.,ABCDEFNSWVGPRMabc$*\r\n"),
        _ => random.pick(usual),
    }
}

pub(crate) fn one_byte_changed(form: u32, mut s: Vec<u8>, random: &mut Random) -> Vec<u8> {
    let place = random.below(s.len());
    s[place] = other_byte(form, s[place], random);
    s
}

fn one_byte_lost(mut s: Vec<u8>, random: &mut Random) -> Vec<u8> {
    let place = random.below(s.len());
    s.remove(place);
    s
}

fn one_byte_added(form: u32, mut s: Vec<u8>, random: &mut Random) -> Vec<u8> {
    let place = random.below(s.len() + 1);
    let byte = other_byte(form, b'0', random);
    s.insert(place, byte);
    s
}

/// A piece from the front or from the end.
fn cut(s: Vec<u8>, random: &mut Random) -> Vec<u8> {
    let place = random.below(s.len() + 1);
    if random.one_in(2) {
        s[..place].to_vec()
    } else {
        s[place..].to_vec()
    }
}

fn lengthened(form: u32, mut s: Vec<u8>, random: &mut Random) -> Vec<u8> {
    match random.below(3) {
        0 => {
            let length = 1 + random.below(4);
            s.extend(random.bytes(length));
        }
        1 => s.extend(valid_string(form, random)),
        _ => s.push(random.pick(&[b'\r', b'\n', 0x03, b' ', 2])),
    }
    s
}

/// Random bytes out of a valid string, in any order and number.
fn shuffled(s: &[u8], random: &mut Random) -> Vec<u8> {
    s.iter().map(|_| random.pick(s)).collect()
}

pub(crate) fn put_digits(s: &mut [u8], place: usize, width: usize, value: u32) {
    let text = format!("{value:0width$}");
    s[place..place + width].copy_from_slice(text.as_bytes());
}

/// Where year, month and day stand in a serial string, or in a block with a full date.
fn date_places(form: u32) -> Option<(usize, usize, usize)> {
    match form {
        1 => Some((9, 6, 3)),
        2 => Some((10, 7, 4)),
        3 => Some((7, 4, 1)),
        4 => Some((7, 10, 13)),
        5 => Some((3, 5, 7)),
        7 => Some((2, 5, 8)),
        9 => Some((5, 8, 11)),
        10 => Some((7, 4, 1)),
        12 => Some((52, 50, 48)),
        _ => None,
    }
}

/// Where hour, minute and second stand in a serial string.
fn time_places(form: u32) -> [usize; 3] {
    match form {
        1 => [18, 21, 24],
        2 => [13, 16, 19],
        3 => [14, 17, 20],
        4 => [16, 19, 22],
        5 => [9, 11, 13],
        6 => [5, 8, 11],
        10 => [12, 15, 18],
        12 => [7, 9, 11],
        _ => [14, 17, 20],
    }
}

/// Where the weekday stands and how wide it is.
pub(crate) fn weekday_place(form: u32) -> Option<(usize, usize)> {
    match form {
        1 => Some((14, 1)),
        3 => Some((11, 1)),
        7 => Some((11, 2)),
        10 => Some((10, 1)),
        _ => None,
    }
}

/// Year, month and day at or beyond the edges.
const DATES: [(u32, u32, u32); 29] = [
    (80, 1, 1),
    (80, 2, 29),
    (80, 2, 30),
    (81, 2, 29),
    (99, 2, 29),
    (79, 2, 29),
    (79, 12, 31),
    (23, 2, 29),
    (24, 2, 29),
    (24, 2, 30),
    (0, 2, 29),
    (0, 2, 30),
    (1, 2, 29),
    (1, 2, 28),
    (24, 4, 30),
    (24, 4, 31),
    (24, 6, 31),
    (24, 9, 31),
    (24, 11, 31),
    (24, 1, 31),
    (24, 1, 32),
    (24, 12, 31),
    (24, 13, 1),
    (24, 0, 1),
    (24, 1, 0),
    (0, 1, 1),
    (99, 12, 31),
    (99, 99, 99),
    (0, 0, 0),
];

const DAYS_OF_YEAR: [u32; 9] = [0, 1, 59, 60, 365, 366, 367, 399, 999];

/// Puts year, month and day where they stand.
pub(crate) fn put_date(form: u32, s: &mut [u8], date: (u32, u32, u32)) {
    if let Some((year, month, day)) = date_places(form) {
        put_digits(s, year, 2, date.0);
        put_digits(s, month, 2, date.1);
        put_digits(s, day, 2, date.2);
    }
}

fn bend_date(form: u32, s: &mut [u8], random: &mut Random) {
    match date_places(form) {
        Some(_) => put_date(form, s, random.pick(&DATES)),
        None => put_digits(s, 1, 3, random.pick(&DAYS_OF_YEAR)),
    }
}

fn bend_time(form: u32, s: &mut [u8], random: &mut Random) {
    let [hour, minute, second] = time_places(form);
    match random.below(3) {
        0 => put_digits(s, hour, 2, random.pick(&[0, 23, 24, 25, 29, 30, 99])),
        1 => put_digits(s, minute, 2, random.pick(&[0, 59, 60, 61, 99])),
        _ => put_digits(s, second, 2, random.pick(&[0, 59, 60, 60, 61, 61, 62, 99])),
    }
}

const OFFSETS: &str =
    "+14:00|-14:00|+14:01|-14:01|+15:59|-15:59|+13:59|+13:60|+00:60|-00:60|-00:00|+00:00\
    |-00:01|-00:30|+99:99| 01:00|+0x:00";

const LATITUDES: &str =
    "  0.0000N|  0.0000S|  0.0001S|  0.0001N| 90.0000N| 90.0000S| 90.0001N| 90.0001S\
    | 89.9999S|100.0000N|999.9999S|047.3500N| 07.3500N|   .3500N|4 7.3500N|47 .3500S\
    |  0.000 N|  0.0000E";

const LONGITUDES: &str =
    "  0.0000E|  0.0000W|  0.0001W|  0.0001E|180.0000E|180.0000W|180.0001E|180.0001W\
    |179.9999W|181.0000E|999.9999W|008.0625E| 08.0625W|   .0625E|8  .0625E| 80.06 5E\
    |  0.0000N";

const ALTITUDES: &str = "   0m|   9m|9999m|1000m|    m|0431m|  01m|1  1m|431 m|  -1m| 431M";

fn put_text(s: &mut [u8], place: usize, text: &str) {
    s[place..place + text.len()].copy_from_slice(text.as_bytes());
}

fn bend_erlangen(s: &mut [u8], random: &mut Random) {
    match random.below(6) {
        0 => put_text(s, 24, random.pick_of(OFFSETS)),
        1 => put_text(s, 40, random.pick_of(LATITUDES)),
        2 => put_text(s, 50, random.pick_of(LONGITUDES)),
        3 => put_text(s, 60, random.pick_of(ALTITUDES)),
        4 => s[38] = random.pick(b"L L "),
        _ => s[32 + random.below(7)] = random.pick(b"#*S!AL "),
    }
}

/// The three words, the German ones of documents 001 and 002, shortened and lengthened words, small
/// letters, and words padded otherwise or standing elsewhere.
const ZONES: &str = "UTC |CET |CEST|UTC |CET |CEST|MEZ |MESZ|UT  |U   |CE  |CES |C   |    \
    |UTCS|UTCU|CETS|CESS|CEET|utc |cet |cest|Utc |UTc |CEsT|CESt|mez | UTC| CET| CES\
    |U TC|UT C|C ET|UTC\t|UTC\0|UTC_|UTC0|CET#|CET!|CET\r|GMT |BST |EET |EEST|WET |MSK \
    |TUC |TEC |CTE |ESTC";

/// A word in place of the zone, or letters of the string or of other strings in place of u and v.
fn bend_sat(s: &mut [u8], random: &mut Random) {
    match random.below(4) {
        0 | 1 => put_text(s, 20, random.pick_of(ZONES)),
        2 => s[24] = random.pick(b"# #*!AU"),
        _ => s[25] = random.pick(b"! !A#*S"),
    }
}

/// A string whose zone has no space behind it, as the manuals print the layout, or one too many, or
/// the space in front; the word that has four letters loses one of them.
fn other_padding(mut s: Vec<u8>, random: &mut Random) -> Vec<u8> {
    match random.below(3) {
        0 => drop(s.remove(23)),
        1 => s.insert(24, b' '),
        _ => s[20..24].rotate_right(1),
    }
    s
}

/// A bend of what this form alone has.
fn bend_own(form: u32, s: &mut [u8], random: &mut Random) {
    match form {
        1 => s[27 + random.below(4)] = random.pick(b"#*US!A U"),
        2 => s[2] = random.pick(b"0123456789"),
        3 => bend_erlangen(s, random),
        4 => s[29 + random.below(2)] = random.pick(b"0123456789ABCDEFabcG"),
        5 => s[random.below(3)] = random.pick(b"XGUxgu"),
        6 => s[13] = random.pick(b" ??#*"),
        10 => bend_sat(s, random),
        12 => rmc::bend(s, random),
        _ => put_digits(s, 11, 2, random.pick(&[0, 1, 7, 8, 10, 17, 99])),
    }
}

fn bend_weekday(form: u32, s: &mut [u8], random: &mut Random) {
    match weekday_place(form) {
        Some((place, width)) => put_digits(s, place, width, random.below(10) as u32),
        None => bend_own(form, s, random),
    }
}

fn put_true_weekday(form: u32, s: &mut [u8]) {
    let (Some((year, month, day)), Some((place, width))) = (date_places(form), weekday_place(form))
    else {
        return;
    };
    let [year, month, day] = [year, month, day].map(|at| number(&s[at..at + 2]));
    if calendar::date_exists(year, month, day) {
        put_digits(s, place, width, calendar::weekday(year, month, day));
    }
}

/// Puts the sum right in a string that has one.
pub(crate) fn put_true_sum(form: u32, s: &mut [u8]) {
    match form {
        4 => put_text(s, 29, &spell_sum(spa_sum(s))),
        12 => rmc::put_true_sum(s),
        _ => {}
    }
}

fn put_true_leap_letter(s: &mut [u8]) {
    s[38] = if &s[20..22] == b"60" { b'L' } else { b' ' };
}

fn bend_serial(form: u32, s: &mut [u8], random: &mut Random) {
    let bent = random.below(4);
    match bent {
        0 => bend_date(form, s, random),
        1 => bend_time(form, s, random),
        2 => bend_weekday(form, s, random),
        _ => bend_own(form, s, random),
    }
    // What follows from the bent field is mostly put right, so that the bend itself is judged.
    if bent < 2 && !random.one_in(4) {
        put_true_weekday(form, s);
    }
    if form == 3 && bent < 2 && !random.one_in(4) {
        put_true_leap_letter(s);
    }
    if bent < 2 && !random.one_in(4) {
        put_true_sum(form, s);
    }
}

fn put_true_seconds_of_the_day(e: &mut [u8]) {
    let d = digits(e);
    let seconds = (d[4] + 10 * d[5]) * 3600 + (d[2] + 10 * d[3]) * 60 + d[0] + 10 * d[1];
    put(e, 80..=88, seconds % 512);
    put(e, 90..=97, seconds / 512);
}

fn bend_frame_date(e: &mut [u8], random: &mut Random) {
    let day = random.pick(&DAYS_OF_YEAR[..8]);
    put(e, 30..=33, day % 10);
    put(e, 35..=38, day / 10 % 10);
    put(e, 40..=41, day / 100);
    if random.one_in(2) {
        put(e, 50..=53, random.below(16) as u32);
        put(e, 55..=58, random.below(16) as u32);
    }
}

fn bend_frame_time(e: &mut [u8], random: &mut Random) {
    let places = [1..=4, 6..=8, 10..=13, 15..=17, 20..=23, 25..=26];
    let group = places[random.below(6)].clone();
    put(e, group, random.below(16) as u32);
    if random.one_in(3) {
        let second = random.pick(&[59, 60, 61]);
        put(e, 1..=4, second % 10);
        put(e, 6..=8, second / 10);
    }
}

fn bend_frame_offset(e: &mut [u8], random: &mut Random) {
    put(e, 64..=64, random.below(2) as u32);
    put(e, 65..=68, random.pick(&[0, 0, 1, 13, 14, 15]));
    put(e, 70..=70, random.below(2) as u32);
}

/// An element 0 or 1 turned into the other.
fn turn(e: &mut [u8], place: usize) {
    e[place] = 1 - e[place].min(1);
}

/// The sign turned and nothing else of the offset, or 1 on a zero.
fn bend_frame_sign(e: &mut [u8], random: &mut Random) {
    if random.one_in(2) {
        turn(e, 64);
    } else {
        put(e, 64..=68, 1);
        put(e, 70..=70, 0);
    }
}

/// A mark lost, an always-zero element set, or an element that is no number.
fn bend_frame_spelling(e: &mut [u8], random: &mut Random) {
    let place = random.below(100);
    e[place] = if is_mark(place) {
        random.pick(&[0, 1, 3])
    } else if is_always_zero(place) {
        random.pick(&[1, 2])
    } else {
        random.pick(&[2, 3, 128, 255])
    };
}

fn bend_seconds_of_the_day(e: &mut [u8], random: &mut Random) {
    let seconds = bits(e, 80..=88) + 512 * bits(e, 90..=97);
    let other = match random.below(3) {
        0 => seconds + 1,
        1 => seconds.saturating_sub(1),
        _ => random.below(131_072) as u32,
    };
    put(e, 80..=88, other % 512);
    put(e, 90..=97, other / 512);
}

fn bend_frame(e: &mut [u8], random: &mut Random) {
    match random.below(9) {
        0 => bend_frame_date(e, random),
        1 => {
            bend_frame_time(e, random);
            if !random.one_in(4) {
                put_true_seconds_of_the_day(e);
            }
        }
        2 => bend_frame_offset(e, random),
        3 => put(e, 71..=74, random.below(16) as u32),
        4 => e[61] = 1,
        5 => bend_seconds_of_the_day(e, random),
        6 => turn(e, 75),
        7 => bend_frame_sign(e, random),
        _ => {
            bend_frame_spelling(e, random);
            return;
        }
    }
    if !random.one_in(4) {
        put_parity(e);
    }
}

/// Well spelled values for a line of the block, in and out of range.
fn spelled_values(key: &str) -> &'static str {
    match key {
        "date" => {
            "-|24-02-29|23-02-29|24-04-31|24-13-01|24-00-10|24-01-00|24-01-32|00-02-29|99-12-31\
             |79-12-31|80-01-01|80-02-29|81-02-29|91-06-30|91-06-31|99-02-29|79-02-29\
             |day-000|day-001|day-366|day-367|day-999"
        }
        "time" => {
            "00:00:00|23:59:60|00:00:60|24:00:00|23:60:00|23:59:61|99:99:99|12:34:56|29:00:00"
        }
        "fraction" => "-|00|99|01|10|000|999|001|0000000|9999999|0000001",
        "channel" => "-|0|1|2|3|9",
        "offset" => {
            "-|+00:00|-00:00|+14:00|-14:00|+14:01|-14:01|+15:59|-15:59|+13:60|+13:59|+00:60\
             |-00:60|-00:01|+99:99|+14:60"
        }
        "position" => {
            "-|+047.3500 +008.0625 0431|+000.0000 +000.0000 0000|-000.0000 +000.0000 0000\
             |+000.0000 -000.0000 0000|-000.0001 -000.0001 0001|+090.0000 +180.0000 9999\
             |-090.0000 -180.0000 9999|+090.0001 +180.0000 9999|-090.0001 +180.0000 9999\
             |+090.0000 +180.0001 9999|-090.0000 -180.0001 9999|+999.9999 -999.9999 9999\
             |-000.0000 +999.9999 9999\
             |+4721.00 +00803.75|-4721.00 -00803.75|+0000.00 +00000.00|-0000.00 +00000.00\
             |+0000.00 -00000.00|-0000.01 -00000.01|+0059.99 -00059.99|+8959.99 -17959.99\
             |+9000.00 +18000.00|-9000.00 -18000.00|+9000.01 +18000.00|-9000.01 +00000.00\
             |+9000.00 +18000.01|+0000.00 -18000.01|+0060.00 +00000.00|-8960.00 +00000.00\
             |+0000.00 +00060.00|+0000.00 -17960.00|-0000.00 +00060.00|+9060.00 +18060.00\
             |+9999.99 -99999.99|-0000.00 +18000.01|+0900.00 +01800.00"
        }
        _ => "-|yes|no",
    }
}

/// Misspelled values for a line of the block.
fn misspelled_values(key: &str) -> &'static str {
    match key {
        "date" => "|day-60|day-06x|DAY-060|day_060|24-1-01|2024-01-01|24.02.29|--|day--|day-0060",
        "time" => "-||1:00:00|00.00.00|00:00:0x|00:00:00 |00:00",
        "fraction" => "|0|0x| 0|.0|0000|000000|00000000|.000|12x|--| 00",
        "channel" => "|00|01|10|x|--| ",
        "offset" => "|01:00|+1:00|+01:0|+0100| 01:00|+14:00 |--|+|+0x:00",
        "position" => {
            "|047.3500 +008.0625 0431|+47.3500 +008.0625 0431|+047.3500  008.0625 0431\
             |+047,3500 +008.0625 0431|+047.3500 +008.0625 431|+047.3500 +008.0625  431\
             |+047.3500 +008.0625 -001|+047.3500 +008.0625|--\
             |+4721.00 +008.0625 0431|+4721.00 +008.0625|+4721.00 +00803.75 0431|+4721.00\
             |+4721.00 +00803.75 |+047.3500 +00803.75|+047.3500 +00803.75 0431|+00803.75\
             |+04721.00 +00803.75|+4721.00 +0803.75|+4721.0 +00803.75|+4721.00 +00803.7\
             |+4721.00  00803.75| 4721.00 +00803.75|+ 721.00 +00803.75|+4721.00 +  803.75\
             |+4721,00 +00803.75|+4721.00 +00803,75|+4721.00,+00803.75|+47:21.00 +008:03.75\
             |4721.00N 00803.75E|+4721.00 +00803.7x|+00803.75 +4721.00|+4721.00 -"
        }
        _ => "|Yes|NO|ye|noo|--|1|no ",
    }
}

fn block_lines(s: &[u8]) -> Vec<String> {
    let text = String::from_utf8_lossy(s).into_owned();
    text.lines().map(str::to_string).collect()
}

/// Fraction and position, whose values come in kinds of their own, and in mixtures that are none.
const LINES_OF_KINDS: [usize; 2] = [2, 11];

fn bend_block_value(lines: &mut [String], random: &mut Random) {
    let line = if random.one_in(4) {
        random.pick(&LINES_OF_KINDS)
    } else {
        random.below(KEYS.len())
    };
    let key = KEYS[line];
    let value = if random.one_in(4) {
        random.pick_of(misspelled_values(key))
    } else {
        random.pick_of(spelled_values(key))
    };
    lines[line] = format!("{key}={value}");
}

fn bend_block_lines(lines: &mut Vec<String>, random: &mut Random) {
    let (one, other) = (random.below(lines.len()), random.below(lines.len()));
    match random.below(7) {
        0 => lines.swap(one, other),
        1 => drop(lines.remove(one)),
        2 => lines.insert(one, lines[other].clone()),
        3 => lines[one].push(' '),
        4 => lines[one].push('\r'),
        5 => lines[one] = lines[one].to_uppercase(),
        _ => lines[one] = lines[one].replace('=', " = "),
    }
}

fn bend_block(s: &[u8], random: &mut Random) -> Vec<u8> {
    let mut lines = block_lines(s);
    match random.below(8) {
        0 => bend_block_lines(&mut lines, random),
        1 => {
            lines[6] = "utc=yes".to_string();
            lines[7] = "summer=yes".to_string();
        }
        2 | 3 => {
            bend_block_value(&mut lines, random);
            bend_block_value(&mut lines, random);
        }
        _ => bend_block_value(&mut lines, random),
    }
    let mut text: String = lines.iter().map(|line| format!("{line}\n")).collect();
    match random.below(24) {
        0 => text.push('\n'),
        1 => drop(text.pop()),
        _ => {}
    }
    text.into_bytes()
}

/// A string with one or two fields just at or beyond the edge, or disagreeing.
fn bent(form: u32, mut s: Vec<u8>, random: &mut Random) -> Vec<u8> {
    let bends = 1 + random.below(2);
    for _ in 0..bends {
        match form {
            8 | 11 => bend_frame(&mut s, random),
            9 => return bend_block(&s, random),
            _ => bend_serial(form, &mut s, random),
        }
    }
    s
}

/// A block of 175 bytes: everything at its longest, and utc and summer both yes.
pub fn too_long_block() -> Vec<u8> {
    let flags = "sync=yes\nfix=yes\nutc=yes\nsummer=yes\nchange=yes\nleap=yes\n";
    let head = "date=24-02-29\ntime=23:59:60\nfraction=0000000\nchannel=1\n";
    let tail = "offset=+01:00\nposition=+047.3500 +008.0625 0431\ndsp=yes\nlsp=yes\n";
    format!("{head}{flags}{tail}").into_bytes()
}

fn wrong_length(form: u32, random: &mut Random) -> usize {
    let right = string_length(form).unwrap_or(LONGEST_BLOCK);
    match random.below(4) {
        0 => right + 1,
        1 => right - 1,
        2 => 0,
        _ => random.below(2 * right),
    }
}

fn right_length(form: u32, random: &mut Random) -> usize {
    string_length(form).unwrap_or_else(|| random.between(118, 174) as usize)
}

/// Random bytes, but with a frame's marks where they belong.
fn random_elements(random: &mut Random) -> Vec<u8> {
    (0..100)
        .map(|place| match place {
            _ if is_mark(place) => 2,
            _ if is_always_zero(place) => 0,
            _ => random.below(2) as u8,
        })
        .collect()
}

/// Two defects at once: which of them is named first?
fn two_defects(form: u32, s: Vec<u8>, random: &mut Random) -> Vec<u8> {
    let s = bent(form, s, random);
    if form == 12 && random.one_in(2) {
        rmc::damage_the_sum_hides(s, random)
    } else {
        one_byte_changed(form, s, random)
    }
}

/// The endless list of inputs for one form, 1..12.
#[derive(Clone, Debug)]
pub struct Inputs {
    form: u32,
    random: Random,
    turn: usize,
}

impl Inputs {
    pub fn new(form: u32, seed: u64) -> Self {
        let random = Random::new(seed ^ (u64::from(form) << 56));
        let turn = 0;
        Inputs { form, random, turn }
    }
}

impl Iterator for Inputs {
    type Item = Vec<u8>;

    fn next(&mut self) -> Option<Vec<u8>> {
        let form = self.form;
        let random = &mut self.random;
        let s = valid_string(form, random);
        let kind = self.turn % 27;
        self.turn += 1;
        Some(match kind {
            0..=2 => s,
            3..=7 => one_byte_changed(form, s, random),
            8 => one_byte_lost(s, random),
            9 => one_byte_added(form, s, random),
            10 => cut(s, random),
            11 => lengthened(form, s, random),
            12..=19 => bent(form, s, random),
            20 => {
                let length = right_length(form, random);
                random.bytes(length)
            }
            21 => {
                let length = wrong_length(form, random);
                random.bytes(length)
            }
            22 if FRAME_FORMS.contains(&form) => random_elements(random),
            22 if form == 9 => too_long_block(),
            22 if form == 10 => other_padding(s, random),
            22 if form == 12 => rmc::damage_the_sum_hides(s, random),
            22 | 23 => shuffled(&s, random),
            _ => two_defects(form, s, random),
        })
    }
}

/// The first byte of a string, with which a false start is made.
fn start_byte(form: u32) -> u8 {
    match form {
        1 | 3 | 8 | 10 | 11 => 0x02,
        2 => b'C',
        4 => b'>',
        5 => b'X',
        6 => 0x01,
        9 => b'd',
        12 => b'$',
        _ => b'T',
    }
}

/// A stream of strings of a form: back to back, halves of them, false starts and garbage.
pub fn stream(form: u32, random: &mut Random) -> Vec<u8> {
    let mut stream = Vec::new();
    let pieces = random.below(8);
    for _ in 0..pieces {
        let s = valid_string(form, random);
        match random.below(12) {
            0..=4 => stream.extend(s),
            5 => stream.extend(cut(s, random)),
            6 => stream.extend(one_byte_changed(form, s, random)),
            7 => stream.extend(bent(form, s, random)),
            8 => {
                let length = random.below(20);
                stream.extend(random.bytes(length));
            }
            9 => stream.extend(vec![start_byte(form); 1 + random.below(3)]),
            10 => {
                let other = random.pick(&SERIAL_FORMS);
                stream.extend(valid_string(other, random));
            }
            _ if form == 10 => stream.extend(other_padding(s, random)),
            _ if form == 12 => stream.extend(rmc::other_sentence(random)),
            // Document 002, section 3.3, what a clock sends between capture strings.
            _ => stream.extend(b"*** capture overrun\r\n"),
        }
    }
    stream
}

/// A record with one value just beyond its range, or with utc and summer both yes.
fn spoil(record: &mut Record, random: &mut Random) {
    let date = random.pick(&DATES);
    match random.below(10) {
        0 => {
            record.date = Some(Date::Full {
                year: date.0,
                month: date.1,
                day: date.2,
            })
        }
        1 => {
            record.date = Some(Date::Full {
                year: random.pick(&[100, 255]),
                month: 1,
                day: 1,
            })
        }
        2 => record.date = Some(Date::DayOfYear(random.pick(&[0, 367, 400, 65_535]))),
        3 => record.hour = random.pick(&[24, 25, 255]),
        4 => record.minute = random.pick(&[60, 61, 255]),
        5 => record.second = random.pick(&[61, 62, 255]),
        6 => {
            record.fraction = Some(random.pick(&[
                Fraction::Hundredths(100),
                Fraction::Hundredths(u32::MAX),
                Fraction::Thousandths(1000),
                Fraction::Thousandths(u32::MAX),
                Fraction::TenMillionths(10_000_000),
                Fraction::TenMillionths(u32::MAX),
            ]))
        }
        7 => record.channel = Some(random.pick(&[2, 3, 255])),
        8 => record.offset = Some(random.pick(&[841, -841, 900, 32_767, -32_768])),
        _ => spoil_position_or_zone(record, random),
    }
}

/// A position in degrees with one number beyond its range.
fn bad_degrees(random: &mut Random) -> Position {
    let (mut latitude, mut longitude, mut altitude) = (473_500, 80_625, 431);
    match random.below(3) {
        0 => latitude = random.pick(&[900_001, -900_001, i32::MAX, i32::MIN]),
        1 => longitude = random.pick(&[1_800_001, -1_800_001, i32::MAX, i32::MIN]),
        _ => altitude = random.pick(&[10_000, 65_535]),
    }
    Position::Degrees {
        latitude,
        longitude,
        altitude,
    }
}

fn spoil_position_or_zone(record: &mut Record, random: &mut Random) {
    match random.below(5) {
        0 | 1 => record.position = Some(bad_degrees(random)),
        2 | 3 => record.position = Some(rmc::bad_minutes(random)),
        _ => {
            record.utc = Some(true);
            record.summer = Some(true);
        }
    }
}

/// A record to be written: good, with fields absent or of the other kind, unsayable, or bad.
pub fn any_record(form: u32, random: &mut Random) -> Record {
    let mut record = good_record(form, random);
    if random.one_in(4) {
        record = without(&record, random.below(13));
    }
    if random.one_in(8) {
        record.date = Some(good_date(random));
    }
    if random.one_in(8) {
        record.fraction = (!random.one_in(4)).then(|| good_fraction(random));
        record.position = (!random.one_in(4)).then(|| good_position(random));
    }
    if random.one_in(8) {
        record.change = Some(true);
        record.leap = Some(true);
        record.offset = Some(random.pick(&[345, 15, -15, 31, -29, 30, -30, 839]));
    }
    if random.one_in(4) {
        spoil(&mut record, random);
    }
    if form == 10 && random.one_in(16) {
        record.utc = Some(true);
        record.summer = Some(true);
    }
    record
}

/// The length of a buffer: exact, short by one, longer, or anything.
fn buffer_length(form: u32, record: &Record, random: &mut Random) -> usize {
    let mut buffer = [0; LONGEST_BLOCK];
    let usual = string_length(form).unwrap_or(LONGEST_BLOCK);
    let exact = write(form, record, &mut buffer).unwrap_or(usual);
    match random.below(8) {
        0 | 1 => exact - 1,
        2 => exact + 1 + random.below(4),
        3 => random.below(exact + 1),
        4 if random.one_in(4) => 0,
        _ => exact,
    }
}

/// A listener's state and a byte: mostly one byte before the end of a valid string.
fn feed_request(form: u32, random: &mut Random) -> String {
    let s = valid_string(form, random);
    let length = s.len();
    let (mut kept, byte) = (s[..length - 1].to_vec(), s[length - 1]);
    match random.below(8) {
        0 => drop(kept.remove(0)),
        1 => kept.insert(0, random.byte()),
        2 => kept = cut(kept, random),
        _ => {}
    }
    let byte = if random.one_in(8) {
        random.byte()
    } else {
        byte
    };
    let distances = [
        0,
        1,
        length - 2,
        length - 1,
        length - 1,
        length,
        length,
        length + 1,
    ];
    let distance = random.pick(&distances);
    format!("feed {form} {distance} {} {byte:02x}", hex(&kept))
}

/// A state whose form is not the string's, mostly one that no listener knows, with the string's head
/// as its kept bytes. They and the distance are no longer than in a listener of some other form.
fn wrong_feed_request(wrong: u32, s: &[u8], random: &mut Random) -> String {
    let kept = random.below(s.len().min(66));
    let distance = random.below(68);
    let (head, byte) = (hex(&s[..kept]), s[kept]);
    format!("feed {wrong} {distance} {head} {byte:02x}")
}

/// Numbers that no reader and no writer knows; three of them are 10, 11 and 12 in their low eight
/// bits. Later requests make 13 (W-213) and 14 (W-214) forms.
const NOT_A_FORM: [u32; 9] = [0, 13, 14, 15, 255, 266, 267, 268, u32::MAX];

/// Numbers that search and listener do not know: those, the two frames and the block; and forms 10
/// and 12, which a stream of another form is then searched for.
const NOT_THIS_FORM: [u32; 14] = [
    0,
    8,
    9,
    10,
    11,
    12,
    13,
    14,
    15,
    255,
    266,
    267,
    268,
    u32::MAX,
];

/// The endless list of requests over all forms and kinds; one in twelve is for the runs of W-206 and
/// W-207.
#[derive(Clone, Debug)]
pub struct Requests {
    random: Random,
    inputs: Vec<Inputs>,
    turn: usize,
}

impl Requests {
    pub fn new(seed: u64) -> Self {
        let mut random = Random::new(seed);
        let inputs = FORMS
            .map(|form| Inputs::new(form, random.next_u64()))
            .collect();
        let turn = 0;
        Requests {
            random,
            inputs,
            turn,
        }
    }

    fn read_request(&mut self, form: u32) -> String {
        let input = self.inputs[form as usize - 1].next().unwrap_or_default();
        let form = self.sometimes_wrong(form, &NOT_A_FORM);
        format!("read {form} {}", hex(&input))
    }

    fn write_request(&mut self, form: u32) -> String {
        let record = any_record(form, &mut self.random);
        let length = buffer_length(form, &record, &mut self.random);
        let form = self.sometimes_wrong(form, &NOT_A_FORM);
        format!("writeraw {form} {} {length}", spell_fields(&record))
    }

    fn search_request(&mut self, form: u32) -> String {
        let stream = stream(form, &mut self.random);
        let start = match self.random.below(4) {
            0 | 1 => 0,
            2 => self.random.below(stream.len() + 1),
            _ => self.random.below(stream.len() + 40),
        };
        let form = self.sometimes_wrong(form, &NOT_THIS_FORM);
        format!("search {form} {start} {}", hex(&stream))
    }

    fn listen_request(&mut self, form: u32) -> String {
        let stream = stream(form, &mut self.random);
        let form = self.sometimes_wrong(form, &NOT_THIS_FORM);
        format!("listen {form} {}", hex(&stream))
    }

    fn feed_request(&mut self, form: u32) -> String {
        let asked = self.sometimes_wrong(form, &NOT_THIS_FORM);
        if asked == form && SERIAL_FORMS.contains(&form) {
            return feed_request(form, &mut self.random);
        }
        let s = valid_string(form, &mut self.random);
        wrong_feed_request(asked, &s, &mut self.random)
    }

    fn sometimes_wrong(&mut self, form: u32, wrong: &[u32]) -> u32 {
        if self.random.one_in(40) {
            self.random.pick(wrong)
        } else {
            form
        }
    }

    /// The form whose strings are searched or listened for. A frame or a block gives its turn to a
    /// serial form, but sometimes asks for itself, and must be refused.
    fn form_of_stream(&mut self, form: u32) -> u32 {
        if SERIAL_FORMS.contains(&form) || self.random.one_in(4) {
            form
        } else {
            self.random.pick(&SERIAL_FORMS)
        }
    }
}

impl Iterator for Requests {
    type Item = String;

    fn next(&mut self) -> Option<String> {
        let forms = FORMS.count();
        let form = (self.turn % forms) as u32 + 1;
        let kind = self.turn / forms % 12;
        self.turn += 1;
        let streamed = self.form_of_stream(form);
        Some(match kind {
            0..=5 => self.read_request(form),
            6 | 7 => self.write_request(form),
            8 => self.search_request(streamed),
            9 => self.listen_request(streamed),
            10 => self.feed_request(streamed),
            _ => runs::request(&mut self.random),
        })
    }
}

#[cfg(test)]
mod tests {
    use std::collections::{BTreeMap, BTreeSet};

    use super::*;
    use crate::protocol::{answer, unhex};
    use crate::{read, search, Heard, Listener};

    /// The numbers that a reader of a form can answer.
    fn possible_answers(form: u32) -> &'static [u32] {
        match form {
            1 | 3 | 7 | 9 | 10 => &[0, 2, 3, 4, 5],
            4 => &[0, 2, 3, 4, 6],
            8 | 11 | 12 => &[0, 2, 3, 4, 5, 6],
            _ => &[0, 2, 3, 4],
        }
    }

    #[test]
    fn every_possible_answer_occurs_and_no_other() {
        for form in FORMS {
            let mut seen = [0; 14];
            for input in Inputs::new(form, 1).take(5000) {
                seen[read(form, &input).err().unwrap_or(0) as usize] += 1;
            }
            for (answer, times) in seen.iter().enumerate() {
                let possible = possible_answers(form).contains(&(answer as u32));
                assert_eq!(possible, *times > 20, "form {form}: {answer} {times} times");
                assert_eq!(possible, *times > 0, "form {form}: {answer} {times} times");
            }
        }
    }

    #[test]
    fn every_year_is_drawn_in_every_form() {
        for form in FORMS {
            let mut random = Random::new(u64::from(form));
            let mut years = BTreeMap::new();
            for _ in 0..20_000 {
                let record = good_record(form, &mut random);
                if let Some(Date::Full { year, .. }) = record.date {
                    *years.entry(year).or_insert(0) += 1;
                }
            }
            assert!(years.keys().copied().eq(0..=99), "form {form}: {years:?}");
            let before_2000: usize = years.range(80..).map(|(_, times)| times).sum();
            let all: usize = years.values().sum();
            assert!((all / 4..all / 2).contains(&before_2000), "form {form}");
        }
    }

    #[test]
    fn every_refusal_of_a_writer_occurs() {
        for form in FORMS {
            let mut random = Random::new(u64::from(form));
            let mut seen = [0; 14];
            for _ in 0..5000 {
                let record = any_record(form, &mut random);
                let mut buffer = vec![0x55; buffer_length(form, &record, &mut random)];
                match write(form, &record, &mut buffer) {
                    Ok(length) => {
                        seen[0] += 1;
                        assert!(buffer[length..].iter().all(|byte| *byte == 0x55));
                    }
                    Err(refusal) => {
                        seen[refusal as usize] += 1;
                        assert!(buffer.iter().all(|byte| *byte == 0x55));
                    }
                }
            }
            assert!(seen[0] > 100 && seen[7] > 100 && seen[10] > 100);
            assert_eq!(seen[8] > 100, form != 9);
            assert_eq!(seen[9] > 20, form == 1 || FRAME_FORMS.contains(&form));
        }
    }

    #[test]
    fn an_accepted_input_written_again_is_the_same_bytes() {
        for form in FORMS {
            for input in Inputs::new(form, 2).take(5000) {
                let Ok(record) = read(form, &input) else {
                    continue;
                };
                assert!(!record.is_bad());
                let mut buffer = vec![0; input.len()];
                assert_eq!(write(form, &record, &mut buffer), Ok(input.len()));
                assert_eq!(buffer, input);
            }
        }
    }

    #[test]
    fn a_record_written_as_a_block_and_read_back_is_the_same() {
        let mut random = Random::new(3);
        for _ in 0..5000 {
            let record = good_record(9, &mut random);
            let mut buffer = [0; 174];
            let length = write(9, &record, &mut buffer).unwrap();
            assert_eq!(read(9, &buffer[..length]), Ok(record));
        }
    }

    #[test]
    fn one_byte_replaced_in_a_string_with_a_sum_is_refused() {
        // Demand 2 says it of the SPA string; the sum of the RMC string tells as much.
        for form in [4, 12] {
            let mut random = Random::new(4);
            for _ in 0..20 {
                let good = valid_string(form, &mut random);
                for place in 0..good.len() {
                    for byte in (0..=255).filter(|byte| *byte != good[place]) {
                        let mut changed = good.clone();
                        changed[place] = byte;
                        assert!(matches!(read(form, &changed), Err(3 | 6)));
                    }
                }
            }
        }
    }

    fn heard(form: u32, stream: &[u8]) -> Vec<(usize, Record)> {
        let (refusal, mut listener) = Listener::start(form);
        assert_eq!(refusal, 0);
        let mut records = Vec::new();
        for (before, byte) in stream.iter().enumerate() {
            let (next, heard) = listener.feed(*byte);
            listener = next;
            match heard {
                Heard::Nothing => {}
                Heard::Record(record) => records.push((before + 1, record)),
                Heard::Refused(refusal) => panic!("refused with {refusal}"),
            }
        }
        records
    }

    fn found(form: u32, stream: &[u8]) -> Vec<(usize, Record)> {
        let length = string_length(form).unwrap();
        let mut records = Vec::new();
        let mut start = 0;
        while let Ok((place, record)) = search(form, stream, start) {
            start = place + length;
            records.push((start, record));
        }
        records
    }

    #[test]
    fn repeated_search_and_the_listener_agree() {
        for form in SERIAL_FORMS {
            let mut random = Random::new(u64::from(form));
            let mut number = 0;
            for _ in 0..500 {
                let stream = stream(form, &mut random);
                let records = heard(form, &stream);
                number += records.len();
                assert_eq!(records, found(form, &stream));
            }
            assert!(number > 500);
        }
    }

    #[test]
    fn every_request_is_understood_and_repeated_for_its_seed() {
        let requests: Vec<String> = Requests::new(5).take(5000).collect();
        assert!(requests.iter().all(|request| answer(request) != "?"));
        assert!(Requests::new(5).take(5000).eq(requests.iter().cloned()));
        assert!(!Requests::new(6).take(50).eq(requests.into_iter().take(50)));
    }

    #[test]
    fn every_word_in_place_of_the_zone_has_four_letters() {
        for word in ZONES.split('|') {
            assert_eq!(word.len(), 4, "{word}");
        }
    }

    /// How an answer begins, a record and a list of records in short.
    fn beginning(answer: &str) -> &str {
        let word = answer.split(' ').next().unwrap_or_default();
        match word {
            _ if word.starts_with("64617465") => "record",
            _ if word.contains(':') => "records",
            _ => word,
        }
    }

    #[test]
    fn the_requests_of_forms_8_and_10_to_12_and_their_neighbours_meet_every_answer() {
        let mut seen: BTreeMap<String, BTreeSet<String>> = BTreeMap::new();
        for request in Requests::new(8).take(80_000) {
            let answer = answer(&request);
            let kind: Vec<&str> = request.split(' ').take(2).collect();
            let answers = seen.entry(kind.join(" ")).or_default();
            answers.insert(beginning(&answer).to_string());
        }
        let met = |kind: &str| seen[kind].iter().cloned().collect::<Vec<_>>().join(" ");
        assert_eq!(met("read 10"), "0 2 3 4 5");
        assert_eq!(met("read 12"), "0 2 3 4 5 6");
        for form in [10, 12] {
            assert_eq!(met(&format!("writeraw {form}")), "0 10 7 8");
            assert_eq!(met(&format!("search {form}")), "0 12");
            assert_eq!(met(&format!("listen {form}")), "- records");
            assert_eq!(met(&format!("feed {form}")), "!11 !13 - record");
        }
        for frame in FRAME_FORMS {
            assert_eq!(met(&format!("read {frame}")), "0 2 3 4 5 6");
            assert_eq!(met(&format!("writeraw {frame}")), "0 10 7 8 9");
        }
        let serial = |form: &u32| SERIAL_FORMS.contains(form);
        for wrong in NOT_THIS_FORM.into_iter().filter(|form| !serial(form)) {
            assert_eq!(met(&format!("search {wrong}")), "1");
            assert_eq!(met(&format!("listen {wrong}")), "1");
            assert_eq!(met(&format!("feed {wrong}")), "!11");
        }
        for wrong in NOT_A_FORM {
            assert_eq!(met(&format!("read {wrong}")), "1");
            assert_eq!(met(&format!("writeraw {wrong}")), "1");
        }
    }

    /// On which side of zero an offset lies.
    fn side(offset: i32) -> &'static str {
        match offset.signum() {
            1 => "above zero",
            -1 => "below zero",
            _ => "zero",
        }
    }

    /// How often an answer occurs with each side of zero, or with each sign.
    type Sides = BTreeMap<(u32, String), usize>;

    fn frames_met(form: u32) -> Sides {
        let mut met = Sides::new();
        for input in Inputs::new(form, 9).take(20_000) {
            let (answer, told) = match read(form, &input) {
                Ok(record) => (0, side(record.offset.unwrap()).to_string()),
                Err(refusal @ 4..=6) => {
                    let zero = bits(&input, 65..=68) + bits(&input, 70..=70) == 0;
                    let told = if zero { "on a zero" } else { "on an offset" };
                    (refusal, format!("sign {} {told}", input[64]))
                }
                Err(_) => continue,
            };
            *met.entry((answer, told)).or_default() += 1;
        }
        met
    }

    #[test]
    fn the_frames_read_meet_every_sign_with_every_answer() {
        for form in FRAME_FORMS {
            let met = frames_met(form);
            let times = |answer, told: &str| met.get(&(answer, told.to_string())).copied();
            for told in ["above zero", "below zero", "zero"] {
                assert!(times(0, told) > Some(500), "form {form}: {met:?}");
            }
            for refusal in [4, 5, 6] {
                for sign in 0..=1 {
                    for zero in ["on a zero", "on an offset"] {
                        let told = format!("sign {sign} {zero}");
                        assert!(times(refusal, &told) > Some(50), "form {form}: {met:?}");
                    }
                }
            }
        }
    }

    #[test]
    fn the_frames_written_meet_every_side_with_every_answer() {
        for form in FRAME_FORMS {
            let mut random = Random::new(u64::from(form));
            let (mut met, mut offsets) = (Sides::new(), BTreeSet::new());
            for _ in 0..20_000 {
                let record = any_record(form, &mut random);
                let mut buffer = vec![0; buffer_length(form, &record, &mut random)];
                let answer = write(form, &record, &mut buffer).err().unwrap_or(0);
                let Some(offset) = record.offset else {
                    continue;
                };
                if answer == 0 {
                    offsets.insert(offset);
                }
                *met.entry((answer, side(offset).to_string())).or_default() += 1;
            }
            for answer in [0, 7, 8, 9, 10] {
                for side in ["above zero", "below zero", "zero"] {
                    // Zero is a multiple of 30.
                    let possible = !(answer == 9 && side == "zero");
                    let times = met.get(&(answer, side.to_string())).copied();
                    assert_eq!(possible, times > Some(50), "form {form}: {met:?}");
                }
            }
            assert!(offsets.into_iter().eq((-840..=840).step_by(30)));
        }
    }

    #[test]
    fn streams_in_which_frames_lie_are_asked_for_frames() {
        let kinds = ["search 8", "search 11", "listen 8", "listen 11"];
        let mut met = [0; 4];
        for request in Requests::new(10).take(20_000) {
            let words: Vec<&str> = request.split(' ').collect();
            let asked = words[..2].join(" ");
            let Some(kind) = kinds.iter().position(|kind| *kind == asked) else {
                continue;
            };
            let form = words[1].parse().unwrap();
            let stream = unhex(words[words.len() - 1]).unwrap();
            if stream.windows(100).any(|e| read(form, e).is_ok()) {
                met[kind] += 1;
            }
        }
        assert!(met.iter().all(|times| *times > 10), "{met:?}");
    }

    #[test]
    fn the_feed_requests_meet_11_and_13() {
        let answers: Vec<String> = Requests::new(7)
            .filter(|request| request.starts_with("feed"))
            .take(2000)
            .map(|request| answer(&request))
            .collect();
        for start in ["- ", "!11 ", "!13 ", "64617465"] {
            let times = answers.iter().filter(|one| one.starts_with(start)).count();
            assert!(times > 50, "{start}: {times}");
        }
    }
}
