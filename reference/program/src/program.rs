//! Section "The program": what `heard` prints for a whole input.

use std::io::{self, Read, Write};

use crate::block::write_block;
use crate::listener::{Heard, Listener};

/// The form of the first line: "one byte `1`..`7`, LF". So forms 10 and 12 cannot be asked for here,
/// and no frame.
fn form_of(head: &[u8]) -> Option<u32> {
    match head {
        [digit @ b'1'..=b'7', b'\n'] => Some(u32::from(digit - b'0')),
        _ => None,
    }
}

/// Reads the input and prints each record as a block and an empty line, and the last line; or `refused=1` alone.
pub fn run(input: impl Read, out: &mut impl Write) -> io::Result<()> {
    let mut bytes = io::BufReader::with_capacity(65536, input).bytes();
    let head: Vec<u8> = bytes.by_ref().take(2).collect::<Result<_, _>>()?;
    let Some(form) = form_of(&head) else {
        return writeln!(out, "refused=1");
    };
    let mut listener = Listener::start(form).1;
    let (mut count, mut telegrams) = (0u64, 0u64);
    for byte in bytes {
        let (next, heard) = listener.feed(byte?);
        listener = next;
        count += 1;
        if let Heard::Record(record) = heard {
            telegrams += 1;
            out.write_all(&write_block(&record))?;
            out.write_all(b"\n")?;
        }
    }
    writeln!(out, "end bytes={count} telegrams={telegrams}")
}

#[cfg(test)]
mod tests {
    use super::*;

    fn printed(input: &[u8]) -> String {
        let mut out = Vec::new();
        run(input, &mut out).unwrap();
        String::from_utf8(out).unwrap()
    }

    #[test]
    fn the_example_of_document_01() {
        let expected = "date=24-01-01\ntime=12:00:00\nfraction=-\nchannel=-\nsync=yes\nfix=yes\nutc=yes\nsummer=no\n\
            change=no\nleap=no\noffset=-\nposition=-\ndsp=-\nlsp=-\n\nend bytes=35 telegrams=1\n";
        assert_eq!(
            printed(b"1\nD:0\x02D:01.01.24;T:1;U:12.00.00;  U \x03"),
            expected
        );
    }

    #[test]
    fn a_bad_or_missing_first_line_is_refused() {
        for input in [&b""[..], b"1", b"8\n", b"0\n", b"1x", b"11\n", b"\n"] {
            assert_eq!(printed(input), "refused=1\n");
        }
        // Forms 10, 11 and 12 have two digits; the bytes behind `9` are none.
        for input in [&b"10\n"[..], b"10", b":\n", b"A\n", b"\n\n"] {
            assert_eq!(printed(input), "refused=1\n");
        }
        for input in [&b"12\n"[..], b"12", b"<\n", b"C\n", b"\x0c\n"] {
            assert_eq!(printed(input), "refused=1\n");
        }
        assert_eq!(printed(b"7\n"), "end bytes=0 telegrams=0\n");
    }
}
