//! What stands at a place of a string that is refused, what belongs there, and what helps, in words.

use std::ops::Range;

use lindenscoop::Form;

use crate::forms;
use crate::layout::{field, layout, Layout};

/// Letters of a zone, the spaces behind it among them.
const ZONE: usize = 4;

fn byte_name(byte: u8) -> String {
    let name = match byte {
        1 => "SOH",
        2 => "STX",
        3 => "ETX",
        b'\n' => "LF",
        b'\r' => "CR",
        b' ' => "space",
        0x21..=0x7e => return format!("'{}'", char::from(byte)),
        _ => return format!("byte {byte:02X}"),
    };
    name.to_string()
}

/// What stands at a place of a string and what belongs there.
pub fn described(form: Form, rest: &[u8], at: usize) -> String {
    let layout = layout(form);
    if at >= rest.len() {
        return "the file ends here".to_string();
    }
    let found = byte_name(rest[at]);
    let remark = remark(form, &rest[..rest.len().min(forms::length(form))], at);
    match layout.fields[at] {
        b'.' => format!("{found} instead of {}", byte_name(layout.sample[at])),
        b'z' if rest.len() >= at + ZONE => format!(
            "\"{}\" in the zone, which is \"UTC \", \"CET \" or \"CEST\"",
            rest[at..at + ZONE].escape_ascii()
        ),
        letter if !layout.takes(at, rest[at]) => format!("{found} in {}{remark}", field(letter).0),
        letter => {
            let spelled = &rest[at..end_of(layout, at).min(rest.len())];
            let (name, spelled) = (field(letter).0, spelled.escape_ascii());
            format!("in {name}, which is \"{spelled}\"{remark}")
        }
    }
}

/// Behind the last place of the field that begins here; a fixed byte between two of its places, such as a point, is inside.
fn end_of(layout: &Layout, at: usize) -> usize {
    let letter = Some(&layout.fields[at]);
    let goes_on = |next: &usize| {
        let is_point = layout.fields[*next] == b'.' && layout.fields.get(next + 1) == letter;
        layout.fields.get(*next) == letter || is_point
    };
    at + (at..layout.fields.len()).take_while(goes_on).count()
}

/// The bytes whose exclusive-or the checksum is.
fn summed(form: Form) -> Range<usize> {
    match form {
        Form::SPA => 0..29,
        Form::RMC => 1..60,
        _ => 0..0,
    }
}

/// What helps beyond what stands at a place; empty where there is nothing to add.
fn remark(form: Form, window: &[u8], at: usize) -> String {
    let layout = layout(form);
    match layout.fields[at] {
        b'b' | b'B' | b'g' | b'G' if window[at] == b' ' => {
            "; manual 002 speaks of spaces for leading zeros, but only zeros are taken".to_string()
        }
        letter @ (b'B' | b'G') if layout.is_out_of_range(window, letter) => {
            match layout.number(window, letter) {
                Some(6000..) => "; a degree has 60 minutes, so that 59.99 is the most".to_string(),
                _ => "; behind the last degree there are none".to_string(),
            }
        }
        letter @ (b'+' | b'N' | b'E') if layout.minus_on_a_zero(window) == Some(at) => {
            format!("; on a zero it is {}", byte_name(letter))
        }
        b'k' => match window.get(summed(form)) {
            Some(bytes) => {
                let sum = bytes.iter().fold(0, |sum, byte| sum ^ byte);
                format!("; the bytes have the sum {sum:02X}")
            }
            None => String::new(),
        },
        _ => String::new(),
    }
}

#[cfg(test)]
mod tests {
    use super::*;
    use crate::layout::failure;

    /// The number, the byte that is pointed at and what is told of it, for an RMC string that is altered and summed again.
    fn told_of_rmc(old: &str, new: &str) -> Option<(u32, usize, String)> {
        let string =
            "$GPRMC,120000.00,A,4721.00,N,00803.75,E,0.0,0.0,010124,0.0,E".replace(old, new);
        let sum = string[1..].bytes().fold(0, |sum, byte| sum ^ byte);
        let string = format!("{string}*{sum:02X}\r\n").into_bytes();
        let (refusal, at) = failure(Form::RMC, &string)?;
        Some((refusal.number(), at, described(Form::RMC, &string, at)))
    }

    #[test]
    fn places_of_refusals_of_rmc() {
        let told = |number, at, text: &str| Some((number, at, text.to_string()));
        let at = told_of_rmc;
        assert_eq!(at("", ""), None);
        assert_eq!(at("$GP", "$GN"), told(3, 2, "'N' instead of 'P'"));
        assert_eq!(at(",A,", ",B,"), told(3, 17, "'B' in the status"));
        assert_eq!(at(",0.0,0", ",0.1,0"), told(3, 42, "'1' instead of '0'"));
        let space = "space in the degrees of longitude; manual 002 speaks of spaces for leading zeros, but only zeros are taken";
        assert_eq!(at(",00803", ",  803"), told(3, 29, space));
        let most = "in the minutes of latitude, which is \"60.00\"; a degree has 60 minutes, so that 59.99 is the most";
        assert_eq!(at("4721", "4760"), told(4, 21, most));
        assert_eq!(at("4721", "9060"), told(4, 21, most));
        let last = "in the minutes of longitude, which is \"00.01\"; behind the last degree there are none";
        assert_eq!(at("00803.75", "18000.01"), told(4, 32, last));
        let degrees = "in the degrees of latitude, which is \"91\"";
        assert_eq!(at("4721", "9100"), told(4, 19, degrees));
        let day = "in the day, which is \"30\"";
        assert_eq!(at("010124", "300224"), told(4, 48, day));
        let second = "in the second, which is \"61\"";
        assert_eq!(at("120000", "120061"), told(4, 11, second));
        let south = "in north or south, which is \"S\"; on a zero it is 'N'";
        assert_eq!(at("4721.00,N", "0000.00,S"), told(5, 27, south));
        let west = "in east or west, which is \"W\"; on a zero it is 'E'";
        assert_eq!(at("00803.75,E", "00000.00,W"), told(5, 38, west));
    }

    #[test]
    fn sums_are_told() {
        let told = |form, string: &[u8]| {
            let (refusal, at) = failure(form, string).unwrap();
            (refusal.number(), at, described(form, string, at))
        };
        let spa = told(Form::SPA, b">900WD:24-01-01 12.00;00.000:00\r");
        let text = "in the checksum, which is \"00\"; the bytes have the sum 3A";
        assert_eq!(spa, (6, 29, text.to_string()));
        let wrong = b"$GPRMC,120000.00,A,4721.00,N,00803.75,E,0.0,0.0,010124,0.0,E*70\r\n";
        let text = "in the checksum, which is \"70\"; the bytes have the sum 54";
        assert_eq!(told(Form::RMC, wrong), (6, 61, text.to_string()));
        let small = b"$GPRMC,220952.00,A,4742.21,N,01200.75,E,0.0,0.0,181223,0.0,E*5a\r\n";
        let text = "'a' in the checksum; the bytes have the sum 5A";
        assert_eq!(told(Form::RMC, small), (3, 62, text.to_string()));
    }

    /// Of the three signs in an Erlangen string the one that stands on a zero is told.
    #[test]
    fn signs_on_a_zero_of_erlangen() {
        let zero = "\x0201.01.24; 1; 13:00:00; +00:00; #*     ;  0.0000N   0.0000E    0m\x03";
        let told = |old: &str, new: &str| {
            let string = zero.replace(old, new).into_bytes();
            let (refusal, at) = failure(Form::ERLANGEN, &string)?;
            let told = described(Form::ERLANGEN, &string, at);
            Some((refusal.number(), at, told))
        };
        let text = |at, name: &str, spelled: &str, right: &str| {
            let told = format!("in {name}, which is \"{spelled}\"; on a zero it is '{right}'");
            Some((5, at, told))
        };
        assert_eq!(told("", ""), None);
        let offset = text(24, "the sign of the offset", "-", "+");
        assert_eq!(told(" +", " -"), offset);
        assert_eq!(told("N", "S"), text(48, "north or south", "S", "N"));
        assert_eq!(told("E", "W"), text(58, "east or west", "W", "E"));
    }
}
