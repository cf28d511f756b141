//! The layouts of the serial forms, to say where a string that is refused goes wrong. What is valid the library alone decides.

use std::ops::RangeInclusive;

use lindenscoop::{read, Date, Form, Refusal};

use crate::forms;

/// A valid string, and below each of its bytes a letter that names its field; a dot is a byte that never changes.
pub struct Layout {
    form: Form,
    pub sample: &'static [u8],
    pub fields: &'static [u8],
    /// so many bytes at the head tell the form
    head: usize,
}

const LAYOUTS: [Layout; 9] = [
    Layout {
        form: Form::STANDARD,
        sample: b"\x02D:01.01.24;T:1;U:12.00.00;  U \x03",
        fields: b"...dd.mm.yy...w...HH.MM.SS.uvxa.",
        head: 3,
    },
    Layout {
        form: Form::CAPTURE,
        sample: b"CH0 01.01.24 12:00:00.0000000\r\n",
        fields: b"..n.dd.mm.yy.HH.MM.SS.fffffff..",
        head: 4,
    },
    Layout {
        form: Form::ERLANGEN,
        sample: b"\x0201.01.24; 1; 13:00:00; +01:00; #*     ; 47.3500N   8.0625E  431m\x03",
        fields: b".dd.mm.yy..w..HH.MM.SS..+oo.oo..uvscl.i.ppp.qqqqN.PPP.QQQQE.hhhh..",
        head: 10,
    },
    Layout {
        form: Form::SPA,
        sample: b">900WD:24-01-01 12.00;00.000:3A\r",
        fields: b".......yy.mm.dd.HH.MM.SS.fff.kk.",
        head: 7,
    },
    Layout {
        form: Form::RACAL,
        sample: b"XGU000229000000\r",
        fields: b"...yymmddHHMMSS.",
        head: 3,
    },
    Layout {
        form: Form::SYSPLEX,
        sample: b"\x01366:23:59:60?\r\n",
        fields: b".jjj.HH.MM.SS?..",
        head: 5,
    },
    Layout {
        form: Form::COMPUTIME,
        sample: b"T:24:01:01:01:12:00:00\r\n",
        fields: b"..yy.mm.dd.ww.HH.MM.SS..",
        head: 5,
    },
    Layout {
        form: Form::SAT,
        sample: b"\x0201.01.24/1/12:00:00UTC   \r\n\x03",
        fields: b".dd.mm.yy.w.HH.MM.SSzzzzuc...",
        head: 10,
    },
    Layout {
        form: Form::RMC,
        sample: b"$GPRMC,120000.00,A,4721.00,N,00803.75,E,0.0,0.0,010124,0.0,E*54\r\n",
        fields: b".......HHMMSS.ff.V.bbBB.BB.N.gggGG.GG.E.........ddmmyy.......kk..",
        head: 7,
    },
];

const DIGITS: &[u8] = b"0123456789";
const PADDED: &[u8] = b" 0123456789";

/// Where a sign stands, its byte for a minus, and the letters of the digits that it stands on.
const SIGNS: [(u8, u8, &[u8]); 3] = [
    (b'+', b'-', b"o"),
    (b'N', b'S', b"pqbB"),
    (b'E', b'W', b"PQgG"),
];

/// The name of a field and the bytes that its places take.
pub fn field(letter: u8) -> (&'static str, &'static [u8]) {
    match letter {
        b'd' => ("the day", DIGITS),
        b'm' => ("the month", DIGITS),
        b'y' => ("the year", DIGITS),
        b'j' => ("the day of the year", DIGITS),
        b'w' => ("the weekday", DIGITS),
        b'H' => ("the hour", DIGITS),
        b'M' => ("the minute", DIGITS),
        b'S' => ("the second", DIGITS),
        b'f' => ("the fraction", DIGITS),
        b'n' => ("the channel", DIGITS),
        b'u' => ("the letter for sync", b"# "),
        b'?' => ("the letter for sync", b" ?"),
        b'V' => ("the status", b"AV"),
        b'v' => ("the letter for fix", b"* "),
        b'x' => ("the letter for utc and summer", b"U S"),
        b'a' => ("the letter for change and leap", b"!A "),
        b's' => ("the letter for summer", b"S "),
        b'c' => ("the letter for change", b"! "),
        b'l' => ("the letter for leap", b"A "),
        b'i' => ("the letter of second 60", b"L "),
        b'+' => ("the sign of the offset", b"+-"),
        b'o' => ("the offset", DIGITS),
        b'p' | b'P' => ("whole degrees", PADDED),
        b'q' | b'Q' => ("parts of a degree", DIGITS),
        b'b' => ("the degrees of latitude", DIGITS),
        b'B' => ("the minutes of latitude", DIGITS),
        b'g' => ("the degrees of longitude", DIGITS),
        b'G' => ("the minutes of longitude", DIGITS),
        b'N' => ("north or south", b"NS"),
        b'E' => ("east or west", b"EW"),
        b'h' => ("the altitude", PADDED),
        b'k' => ("the checksum", b"0123456789ABCDEF"),
        b'z' => ("the zone", b"UTCES "),
        _ => ("a fixed byte", b""),
    }
}

pub fn layout(form: Form) -> &'static Layout {
    let found = LAYOUTS.iter().find(|layout| layout.form == form);
    found.expect("each form that is listened for has a layout")
}

impl Layout {
    pub fn takes(&self, at: usize, byte: u8) -> bool {
        match self.fields[at] {
            b'.' => self.sample[at] == byte,
            letter => field(letter).1.contains(&byte),
        }
    }

    /// The first place that does not fit; of a zone its head, since a wrong letter does not tell which word was meant.
    fn misfit(&self, window: &[u8]) -> Option<usize> {
        let at = (0..window.len()).find(|at| !self.takes(*at, window[*at]))?;
        match self.fields[at] {
            b'z' => self.place_of(b'z'),
            _ => Some(at),
        }
    }

    fn place_of(&self, letter: u8) -> Option<usize> {
        self.fields.iter().position(|field| *field == letter)
    }

    /// The number that a field's digits spell, without a point between them.
    pub fn number(&self, window: &[u8], letter: u8) -> Option<u32> {
        let places = (0..window.len()).filter(|at| self.fields[*at] == letter);
        let text: String = places.map(|at| char::from(window[at])).collect();
        text.trim_start().parse().ok()
    }

    /// The date, whether there is such a one or not; None where the form has none.
    fn date(&self, window: &[u8]) -> Option<Date> {
        Some(Date::Full {
            yy: self.number(window, b'y')?,
            month: self.number(window, b'm')?,
            day: self.number(window, b'd')?,
        })
    }

    /// The hundredths of a minute that may stand behind degrees: none behind the last.
    fn minutes_behind(&self, window: &[u8], degrees: u8, last: u32) -> RangeInclusive<u32> {
        match self.number(window, degrees) {
            Some(number) if number == last => 0..=0,
            _ => 0..=5999,
        }
    }

    /// Whether the number of a field is out of its range; of a day, whether the library's calendar has no such date.
    pub fn is_out_of_range(&self, window: &[u8], letter: u8) -> bool {
        let range = match letter {
            b'd' => {
                let date = self.date(window);
                return date.is_some_and(|date| date.days_since_1980().is_none());
            }
            b'n' => 0..=1,
            b'j' => 1..=366,
            b'm' => 1..=12,
            b'w' => 1..=7,
            b'H' => 0..=23,
            b'M' => 0..=59,
            b'b' => 0..=90,
            b'B' => self.minutes_behind(window, b'b', 90),
            b'g' => 0..=180,
            b'G' => self.minutes_behind(window, b'g', 180),
            _ => 0..=60,
        };
        let number = self.number(window, letter);
        number.is_some_and(|number| !range.contains(&number))
    }

    /// The first field that is out of range: channel, day of year, month, day, weekday, hour, minute, second, latitude, longitude. Where each
    /// is in it an offset or a position in degrees is not, and the day is told.
    fn out_of_range(&self, window: &[u8]) -> usize {
        let is_out = |letter: &u8| self.is_out_of_range(window, *letter);
        let letter = b"njmdwHMSbBgG".iter().copied().find(is_out);
        self.place_of(letter.unwrap_or(b'd')).unwrap_or(0)
    }

    /// The minus, S or W that stands on a zero.
    pub fn minus_on_a_zero(&self, window: &[u8]) -> Option<usize> {
        SIGNS.iter().find_map(|(sign, minus, digits)| {
            let at = self.place_of(*sign)?;
            let mut places = (0..window.len()).filter(|at| digits.contains(&self.fields[*at]));
            let is_zero = places.all(|at| matches!(window[at], b'0' | b' '));
            (is_zero && window.get(at) == Some(minus)).then_some(at)
        })
    }
}

/// Which bytes each place of a form takes, as a table, for a look at every place of a long file.
pub struct Places {
    takes: Vec<[bool; 256]>,
    head: usize,
}

impl Places {
    pub fn new(form: Form) -> Places {
        let layout = layout(form);
        let takes = |at| std::array::from_fn(|byte| layout.takes(at, byte as u8));
        Places {
            takes: (0..layout.fields.len()).map(takes).collect(),
            head: layout.head,
        }
    }

    /// Whether a string was meant to begin here: its head stands there, or all but an eighth of its bytes fit.
    pub fn is_near(&self, rest: &[u8]) -> bool {
        let length = self.takes.len();
        let most = if rest.len() < length { 0 } else { length / 8 };
        let mut misfits = 0;
        for (at, (takes, byte)) in self.takes.iter().zip(rest).enumerate() {
            misfits += usize::from(!takes[usize::from(*byte)]);
            if misfits > most {
                return false;
            }
            if misfits == 0 && at + 1 == self.head {
                return true;
            }
        }
        rest.len() >= length
    }
}

/// Why the string that was meant to begin here is refused, and at which of its bytes.
pub fn failure(form: Form, rest: &[u8]) -> Option<(Refusal, usize)> {
    let layout = layout(form);
    let window = &rest[..rest.len().min(forms::length(form))];
    let refusal = read(form, window).err()?;
    let misfit = layout.misfit(window);
    let at = match refusal {
        Refusal::WrongLength => misfit.unwrap_or(window.len()),
        // every byte may fit and a number still be padded wrongly, or the zone be no word
        Refusal::WrongByte => misfit
            .or(layout.place_of(b'p'))
            .or(layout.place_of(b'z'))
            .unwrap_or(0),
        Refusal::WrongChecksum => layout.place_of(b'k').unwrap_or(0),
        Refusal::OutOfRange => layout.out_of_range(window),
        _ => disagreement(form, window),
    };
    Some((refusal, at))
}

/// The weekday, where another one would do; else the letter of second 60, or a sign on a zero.
fn disagreement(form: Form, window: &[u8]) -> usize {
    let layout = layout(form);
    let weekday = layout.fields.iter().rposition(|field| *field == b'w');
    let fits = |at: &usize| {
        (b'1'..=b'7').any(|day| {
            let mut other = window.to_vec();
            other[*at] = day;
            read(form, &other).is_ok()
        })
    };
    let is_wrong = |at: &usize| {
        let is_60 = layout.number(window, b'S') == Some(60);
        (window[*at] == b'L') != is_60
    };
    weekday
        .filter(fits)
        .or(layout.place_of(b'i').filter(is_wrong))
        .or(layout.minus_on_a_zero(window))
        .or(weekday)
        .unwrap_or(0)
}

#[cfg(test)]
mod tests {
    use super::*;
    use crate::telling::described;

    #[test]
    fn samples_are_valid_and_fit() {
        assert_eq!(LAYOUTS.len(), forms::serial_forms().count());
        for form in forms::serial_forms() {
            let layout = layout(form);
            assert_eq!(layout.sample.len(), forms::length(form));
            assert_eq!(layout.fields.len(), forms::length(form));
            assert_eq!(layout.misfit(layout.sample), None, "{form}");
            assert!(read(form, layout.sample).is_ok(), "{form}");
        }
    }

    #[test]
    fn places_of_refusals() {
        let at =
            |form, bytes: &[u8]| failure(form, bytes).map(|(refusal, at)| (refusal.number(), at));
        assert_eq!(
            at(Form::STANDARD, b"\x02D:01.01.24;T:2;U:12.00.00;  U \x03"),
            Some((5, 14))
        );
        assert_eq!(
            at(Form::STANDARD, b"\x02D:01.01.24;T:1;U:24.00.00;  U \x03"),
            Some((4, 18))
        );
        assert_eq!(
            at(Form::STANDARD, b"\x02D:29.02.23;T:4;U:23.59.60;#*S!\x03"),
            Some((4, 3))
        );
        assert_eq!(
            at(Form::SPA, b">900WD:24-01-01 12.00;00.000:00\r"),
            Some((6, 29))
        );
        assert_eq!(at(Form::RACAL, b"XGU000229000000\n"), Some((3, 15)));
        assert_eq!(at(Form::RACAL, b"XGU0002290000"), Some((2, 13)));
    }

    /// Which byte of a string that is out of range is pointed at, and what is told of it.
    fn out_of_range(form: Form, string: &str) -> (usize, String) {
        let (refusal, at) = failure(form, string.as_bytes()).unwrap();
        assert_eq!(refusal, Refusal::OutOfRange, "{string:?}");
        (at, described(form, string.as_bytes(), at))
    }

    #[test]
    fn a_day_that_its_month_does_not_have() {
        let standard = "\x02D:01.01.24;T:1;U:12.00.00;  U \x03";
        let hour = |string: &str| string.replace("U:12", "U:25");
        for date in ["30.02.24", "29.02.23", "31.04.24", "31.11.99", "32.01.24"] {
            let string = standard.replace("01.01.24", date);
            let day = (3, format!("in the day, which is \"{}\"", &date[..2]));
            assert_eq!(out_of_range(Form::STANDARD, &string), day);
            assert_eq!(out_of_range(Form::STANDARD, &hour(&string)), day);
            let weekday = string.replace("T:1", "T:8");
            assert_eq!(out_of_range(Form::STANDARD, &weekday), day);
        }
        let day = "in the day, which is \"00\"".to_string();
        let string = hour(&standard.replace("01.01.24", "00.01.24"));
        assert_eq!(out_of_range(Form::STANDARD, &string), (3, day));
        let told = "in the hour, which is \"25\"".to_string();
        assert_eq!(out_of_range(Form::STANDARD, &hour(standard)), (18, told));
    }

    /// Channel, day of year and month are told before the day, and all of them before the time.
    #[test]
    fn fields_before_the_day() {
        let at = |form, string: &str| out_of_range(form, string).0;
        assert_eq!(
            at(Form::STANDARD, "\x02D:32.13.24;T:1;U:25.00.00;  U \x03"),
            6
        );
        assert_eq!(at(Form::CAPTURE, "CH2 31.04.24 25:00:00.0000000\r\n"), 2);
        assert_eq!(at(Form::CAPTURE, "CH1 31.04.24 25:00:00.0000000\r\n"), 4);
        assert_eq!(at(Form::RACAL, "XGU240431250000\r"), 7);
        assert_eq!(at(Form::RACAL, "XGU240001250000\r"), 5);
        assert_eq!(at(Form::COMPUTIME, "T:23:02:29:08:25:00:00\r\n"), 8);
        assert_eq!(at(Form::SYSPLEX, "\x01367:25:00:00 \r\n"), 1);
        assert_eq!(at(Form::SYSPLEX, "\x01366:25:00:00 \r\n"), 5);
    }

    #[test]
    fn places_of_refusals_of_sat() {
        let at = |old: &str, new: &str| {
            let string = "\x0201.01.24/1/12:00:00UTC   \r\n\x03".replace(old, new);
            let (refusal, at) = failure(Form::SAT, string.as_bytes())?;
            let told = described(Form::SAT, string.as_bytes(), at);
            Some((refusal.number(), at, told))
        };
        let zone = |word: &str| {
            let told = format!("\"{word}\" in the zone, which is \"UTC \", \"CET \" or \"CEST\"");
            Some((3, 20, told))
        };
        assert_eq!(at("", ""), None);
        for word in ["MEZ ", "MESZ", "CETS", " UTC", "CEXT"] {
            assert_eq!(at("UTC ", word), zone(word));
        }
        let told = |number, at, text: &str| Some((number, at, text.to_string()));
        let status = "'*' in the letter for sync";
        assert_eq!(at("UTC  ", "UTC *"), told(3, 24, status));
        let change = "'A' in the letter for change";
        assert_eq!(at("UTC   ", "UTC  A"), told(3, 25, change));
        assert_eq!(at("\r\n", "\n\n"), told(3, 26, "LF instead of CR"));
        let weekday = "in the weekday, which is \"2\"";
        assert_eq!(at("/1/", "/2/"), told(5, 10, weekday));
        let weekday = "in the weekday, which is \"8\"";
        assert_eq!(at("/1/", "/8/"), told(4, 10, weekday));
        let hour = "in the hour, which is \"24\"";
        assert_eq!(at("12:00", "24:00"), told(4, 12, hour));
        let end = "ETX instead of CR";
        assert_eq!(at("\r\n", ""), told(2, 26, end));
    }

    /// A string that is near one form is near no other, also where both begin alike.
    #[test]
    fn forms_are_told_apart() {
        for form in forms::serial_forms() {
            let stream = layout(form).sample.repeat(3);
            for other in forms::serial_forms().filter(|other| *other != form) {
                let places = Places::new(other);
                let near = (0..stream.len()).find(|at| places.is_near(&stream[*at..]));
                assert_eq!(near, None, "a string of {form} is near {other}");
            }
        }
    }
}
