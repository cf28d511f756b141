//! Section "Listening": the listener for a stream of one serial form.

use crate::forms::{read, serial_length};
use crate::record::Record;

/// A listener's state. The fields are open, so that any state can be put together and fed.
#[derive(Clone, Debug, PartialEq, Eq)]
pub struct Listener {
    pub form: u32,
    /// The last bytes fed, at most one fewer than the form's length.
    pub kept: Vec<u8>,
    /// Bytes since the last record was handed out, capped at the form's length.
    pub distance: usize,
}

/// What a byte hands out.
#[derive(Clone, Copy, Debug, PartialEq, Eq)]
pub enum Heard {
    Nothing,
    Record(Record),
    /// 11 or 13.
    Refused(u32),
}

impl Listener {
    /// A fresh listener, with 0; for a wrong form 1, and a state of form 0, no bytes, distance 0.
    pub fn start(form: u32) -> (u32, Listener) {
        let kept = Vec::new();
        match serial_length(form) {
            Some(distance) => (
                0,
                Self {
                    form,
                    kept,
                    distance,
                },
            ),
            None => {
                let (form, distance) = (0, 0);
                (
                    1,
                    Self {
                        form,
                        kept,
                        distance,
                    },
                )
            }
        }
    }

    /// Feeds one byte: the next state and what the byte hands out.
    pub fn feed(self, byte: u8) -> (Listener, Heard) {
        let Some(length) = serial_length(self.form) else {
            return (self, Heard::Refused(11));
        };
        if self.kept.len() > length - 1 || self.distance > length {
            return (self, Heard::Refused(11));
        }

        let mut last = self.kept.clone();
        last.push(byte);
        // Fewer than n bytes are refused with 2, so that only n of them can be a valid string.
        let heard = match read(self.form, &last) {
            Err(_) => Heard::Nothing,
            Ok(_) if self.distance < length - 1 => Heard::Refused(13),
            Ok(record) => Heard::Record(record),
        };
        if last.len() == length {
            last.remove(0);
        }
        let next = Listener {
            form: self.form,
            kept: last,
            distance: match heard {
                Heard::Record(_) => 0,
                _ => length.min(self.distance + 1),
            },
        };
        (next, heard)
    }
}

#[cfg(test)]
mod tests {
    use super::*;

    const RACAL: &[u8; 16] = b"XGU000229000000\r";

    fn state(kept: &[u8], distance: usize) -> Listener {
        Listener {
            form: 5,
            kept: kept.to_vec(),
            distance,
        }
    }

    #[test]
    fn a_string_is_handed_out_at_its_last_byte() {
        let (refusal, mut listener) = Listener::start(5);
        assert_eq!((refusal, &listener), (0, &state(b"", 16)));
        for byte in &RACAL[..15] {
            let (next, heard) = listener.feed(*byte);
            assert_eq!(heard, Heard::Nothing);
            assert_eq!(next.distance, 16);
            listener = next;
        }
        let (next, heard) = listener.feed(b'\r');
        assert_eq!(heard, Heard::Record(read(5, RACAL).unwrap()));
        assert_eq!(next, state(&RACAL[1..], 0));
    }

    #[test]
    fn a_wrong_form_answers_1_and_then_11() {
        for form in [0, 8, 9, 11, 15, 266, 267, 268, u32::MAX] {
            let (refusal, listener) = Listener::start(form);
            assert_eq!(refusal, 1);
            assert_eq!((listener.form, listener.distance), (0, 0));
            assert!(listener.kept.is_empty());
            assert_eq!(listener.clone().feed(b'X'), (listener, Heard::Refused(11)));
        }
    }

    #[test]
    fn refusal_11_leaves_the_state() {
        for bad in [state(RACAL, 16), state(b"", 17)] {
            assert_eq!(bad.clone().feed(0), (bad, Heard::Refused(11)));
        }
    }

    #[test]
    fn refusal_13_stands_below_a_distance_of_15() {
        let kept = &RACAL[..15];
        let (next, heard) = state(kept, 14).feed(b'\r');
        assert_eq!(heard, Heard::Refused(13));
        assert_eq!(next, state(&RACAL[1..], 15));
        let (next, heard) = state(kept, 15).feed(b'\r');
        assert_eq!(heard, Heard::Record(read(5, RACAL).unwrap()));
        assert_eq!(next, state(&RACAL[1..], 0));
    }
}
