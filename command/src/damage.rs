//! What happens to strings on a cable.

/// The string damaged, in a way and at a place that go with the number, so that a run can be repeated. No valid string is left in it.
pub fn damaged(string: &[u8], number: u64, is_valid: impl Fn(&[u8]) -> bool) -> Vec<u8> {
    for attempt in number.. {
        // the step spreads the damage over the string
        let at = (attempt * 37 % string.len() as u64) as usize;
        let bytes = one(string, attempt % 4, at);
        if !is_valid(&bytes) {
            return bytes;
        }
    }
    Vec::new()
}

fn one(string: &[u8], way: u64, at: usize) -> Vec<u8> {
    let mut bytes = string.to_vec();
    match way {
        // a bit turned
        0 => bytes[at] ^= 0x10,
        // a byte lost
        1 => {
            bytes.remove(at);
        }
        // a byte too many
        2 => bytes.insert(at, b'?'),
        // the end lost
        _ => bytes.truncate(at.max(1)),
    }
    bytes
}

#[cfg(test)]
mod tests {
    use super::*;
    use lindenscoop::{search, Form};

    #[test]
    fn no_string_is_left() {
        // of 31, 29 and 65 bytes, so that every way comes to every place
        let strings: [(Form, &[u8]); 3] = [
            (Form::CAPTURE, b"CH0 01.01.24 12:00:00.0000000\r\n"),
            (Form::SAT, b"\x0201.01.24/1/12:00:00UTC   \r\n\x03"),
            (
                Form::RMC,
                b"$GPRMC,120000.00,A,4721.00,N,00803.75,E,0.0,0.0,010124,0.0,E*54\r\n",
            ),
        ];
        for (form, string) in strings {
            for number in 1..=4 * string.len() as u64 {
                let bytes = damaged(string, number, |bytes| search(form, bytes, 0).is_ok());
                assert!(search(form, &bytes, 0).is_err(), "{bytes:?}");
            }
        }
    }
}
