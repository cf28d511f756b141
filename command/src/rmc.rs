//! RMC strings as other receivers send them: those that only a talker or spaces keep from being of form 12, and how the others differ.

/// The string is looked for up to here; NMEA has 82 bytes at most, and some receivers send more.
const MOST: usize = 120;

/// The fields behind the head: what each is called and how form 12 spells it. A small letter stands for a digit.
const FIELDS: [(&str, &[&str]); 11] = [
    ("time", &["hhmmss.ss"]),
    ("status", &["A", "V"]),
    ("latitude", &["bbbb.bb"]),
    ("letter of the latitude", &["N", "S"]),
    ("longitude", &["lllll.ll"]),
    ("letter of the longitude", &["E", "W"]),
    ("speed", &["0.0"]),
    ("course", &["0.0"]),
    ("date", &["ddmmyy"]),
    ("variation", &["0.0"]),
    ("letter of the variation", &["E"]),
];
/// Where latitude and longitude stand, counted from the head.
const LATITUDE: usize = 3;
const LONGITUDE: usize = 5;

fn sum_of(body: &[u8]) -> String {
    let sum = body.iter().fold(0, |sum, byte| sum ^ byte);
    format!("{sum:02X}")
}

/// The RMC strings of any receiver whose sum is right, which were sent as they stand and not damaged on the way: where each begins, and
/// what stands between its `$` and its `*`.
fn sent(bytes: &[u8]) -> impl Iterator<Item = (usize, &[u8])> {
    let heads = bytes.windows(7).enumerate();
    let places = heads.filter(|(_, head)| head[0] == b'$' && head[3..] == *b"RMC,");
    places.filter_map(|(place, _)| {
        let behind = &bytes[place + 1..bytes.len().min(place + MOST)];
        let (body, end) = behind.split_at(behind.iter().position(|byte| *byte == b'*')?);
        let is_right = end.get(1..3)?.eq_ignore_ascii_case(sum_of(body).as_bytes());
        is_right.then_some((place, body))
    })
}

/// The bytes with each of these strings changed and its sum made right again; None where nothing changes.
fn changed(bytes: &[u8], change: impl Fn(&mut [u8])) -> Option<Vec<u8>> {
    let mut out = bytes.to_vec();
    for (place, body) in sent(bytes) {
        let mut body = body.to_vec();
        let star = place + 1 + body.len();
        change(&mut body);
        out[star + 1..star + 3].copy_from_slice(sum_of(&body).as_bytes());
        out[place + 1..star].copy_from_slice(&body);
    }
    Some(out).filter(|out| out != bytes)
}

/// Strings of another talker with the talker of form 12.
pub fn talker(bytes: &[u8]) -> Option<Vec<u8>> {
    changed(bytes, |body| body[..2].copy_from_slice(b"GP"))
}

/// Zeros for the spaces in front of a latitude or longitude.
pub fn padding(bytes: &[u8]) -> Option<Vec<u8>> {
    changed(bytes, |body| {
        let fields = body.split_mut(|byte| *byte == b',').enumerate();
        let places = fields.filter(|(number, _)| [LATITUDE, LONGITUDE].contains(number));
        for byte in places.flat_map(|(_, field)| field) {
            if *byte == b' ' {
                *byte = b'0';
            }
        }
    })
}

/// Whether a field is spelled so. Spaces for leading zeros count as digits here, since `padding` tells of them.
fn fits(field: &[u8], spelling: &str) -> bool {
    let is_taken = |(byte, letter): (&u8, u8)| match letter {
        b'a'..=b'z' => byte.is_ascii_digit() || *byte == b' ',
        letter => *byte == letter,
    };
    field.len() == spelling.len() && field.iter().zip(spelling.bytes()).all(is_taken)
}

/// How a string differs from form 12 in its fields: `speed "0.26" instead of 0.0`.
fn differences(body: &[u8]) -> Vec<String> {
    let mut fields = body.split(|byte| *byte == b',').skip(1);
    let mut told = Vec::new();
    for (name, spellings) in FIELDS {
        let wanted = spellings.join(" or ");
        match fields.next() {
            None => told.push(format!("no {name}")),
            Some(field) if spellings.iter().any(|spelling| fits(field, spelling)) => {}
            Some(field) => told.push(format!(
                "{name} \"{}\" instead of {wanted}",
                field.escape_ascii()
            )),
        }
    }
    let more = fields.map(|field| format!("\"{}\" behind these", field.escape_ascii()));
    told.extend(more);
    told
}

/// A hint on strings whose fields are not those of form 12, with all that the first of them differs in.
pub fn other_layout(bytes: &[u8]) -> Option<String> {
    let others: Vec<(usize, &[u8], Vec<String>)> = sent(bytes)
        .map(|(place, body)| (place, body, differences(body)))
        .filter(|(_, _, told)| !told.is_empty())
        .collect();
    let (place, body, told) = others.first()?;
    let talker = match body.get(..2) {
        Some(b"GP") => String::new(),
        talker => format!(
            "talker \"{}\" instead of GP, ",
            talker.unwrap_or_default().escape_ascii()
        ),
    };
    // `$`, `*`, two digits, CR and LF beside what stands between them
    let length = body.len() + 6;
    Some(format!(
        "RMC strings of another layout: {}; the first begins at byte {place} and has {length} bytes: {talker}{}. Form 12 is $GPRMC,hhmmss.ss,A,bbbb.bb,n,lllll.ll,e,0.0,0.0,ddmmyy,0.0,E*hh with CR LF, 65 bytes, as a Meinberg GPS164DHS sends it; these strings are of another receiver, or of another setting of this one",
        others.len(),
        told.join(", ")
    ))
}

#[cfg(test)]
mod tests {
    use super::*;
    use lindenscoop::{telegrams, Form};

    const GOOD: &[u8] = b"$GPRMC,120000.00,A,4721.00,N,00803.75,E,0.0,0.0,010124,0.0,E*54\r\n";
    const OTHER: &[u8] = b"$GNRMC,120000.00,A,4721.00,N,00803.75,E,0.0,0.0,010124,0.0,E*4A\r\n";
    const PADDED: &[u8] = b"$GPRMC,120000.00,A,4721.00,N,  803.75,E,0.0,0.0,010124,0.0,E*54\r\n";

    fn heard(bytes: &[u8]) -> usize {
        telegrams(Form::RMC, bytes).unwrap().count()
    }

    /// Each of the two is undone by its own function and by no other; what is right stays as it is.
    #[test]
    fn talkers_and_padding_are_undone() {
        let stream = [GOOD, OTHER, b"noise$", PADDED, OTHER].concat();
        assert_eq!(heard(&stream), 1);
        assert_eq!(heard(&talker(&stream).unwrap()), 3);
        assert_eq!(heard(&padding(&stream).unwrap()), 2);
        assert_eq!(
            padding(&talker(&stream).unwrap()).map(|out| heard(&out)),
            Some(4)
        );
        assert_eq!((talker(GOOD), padding(GOOD)), (None, None));
        assert_eq!((talker(PADDED), padding(OTHER)), (None, None));
        assert_eq!(other_layout(&stream), None);
    }

    /// A string whose sum is wrong was damaged, and tells nothing of the receiver.
    #[test]
    fn damaged_strings_give_no_hint() {
        let speed = b"$GNRMC,120000.00,A,4721.00,N,  803.75,E,0.1,0.0,010124,0.0,E*55\r\n";
        assert_eq!((talker(speed), padding(speed)), (None, None));
        for end in 0..OTHER.len() {
            let cut = &OTHER[..end];
            assert_eq!(talker(cut).is_some(), end >= 63, "{end}");
            assert_eq!(other_layout(cut), None);
        }
    }

    fn told(string: &str) -> String {
        let hint = other_layout(string.as_bytes()).unwrap();
        let head = hint.split(" bytes: ").nth(1).unwrap();
        head.split(". Form 12 is").next().unwrap().to_string()
    }

    /// Strings of other receivers, from logs of gpsd and from go-nmea.
    #[test]
    fn other_receivers_are_told() {
        assert_eq!(
            told("$GPRMC,125106,V,3854.5087,N,07726.4523,W,0.0,0.0,241011,10.5,W,S*28"),
            "time \"125106\" instead of hhmmss.ss, latitude \"3854.5087\" instead of bbbb.bb, longitude \"07726.4523\" instead of lllll.ll, variation \"10.5\" instead of 0.0, letter of the variation \"W\" instead of E, \"S\" behind these"
        );
        assert_eq!(
            told("$GNRMC,135651.997,A,5543.0328,N,03724.7198,E,00.00,129.5,051209,,,A*79"),
            "talker \"GN\" instead of GP, time \"135651.997\" instead of hhmmss.ss, latitude \"5543.0328\" instead of bbbb.bb, longitude \"03724.7198\" instead of lllll.ll, speed \"00.00\" instead of 0.0, course \"129.5\" instead of 0.0, variation \"\" instead of 0.0, letter of the variation \"\" instead of E, \"A\" behind these"
        );
        assert_eq!(
            told("$GPRMC,220516,A,5133.82,N,00042.24,W,173.8,231.8,130694,004.2,W*70"),
            "time \"220516\" instead of hhmmss.ss, speed \"173.8\" instead of 0.0, course \"231.8\" instead of 0.0, variation \"004.2\" instead of 0.0, letter of the variation \"W\" instead of E"
        );
        let few = "$GPRMC,120000.00,A,4721.00,N,00803.75,E,0.0,0.0,010124*3F";
        assert_eq!(told(few), "no variation, no letter of the variation");
    }

    #[test]
    fn the_first_of_several_is_told_with_its_place_and_length() {
        let other = b"$GPRMC,,V,,,,,,,260810,1.0,E,N*34\r\n";
        let stream = [GOOD, b"..", other, other].concat();
        let hint = other_layout(&stream).unwrap();
        let head = "RMC strings of another layout: 2; the first begins at byte 67 and has 35 bytes: time \"\" instead of hhmmss.ss, ";
        assert!(hint.starts_with(head), "{hint}");
        assert!(hint.contains("letter of the latitude \"\" instead of N or S"));
    }
}
