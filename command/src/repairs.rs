//! What recorders do to strings, and how it is undone to see whether it happened.

use crate::rmc;

pub struct Repair {
    /// None where it cannot have happened
    pub undo: fn(&[u8]) -> Option<Vec<u8>>,
    pub cause: &'static str,
    pub advice: &'static str,
}

const RAW: &str = "Record with `lindenscoop listen PORT --record FILE`, which sets the port raw, or run `stty -F PORT raw -echo` first.";

pub const ALL: &[Repair] = &[
    Repair {
        undo: clear_bit_7,
        cause: "bit 7 is set in some bytes: the clock sends a parity bit and the port was set to 8 bits without parity",
        advice: "Listen with --framing 7E1 or 7O1, as the clock is set.",
    },
    Repair {
        undo: lf_pairs,
        cause: "CR was turned into LF: the port was not raw",
        advice: RAW,
    },
    Repair {
        undo: lf_to_cr_lf,
        cause: "there is no CR left in front of LF: the port was not raw, or the file was converted to Unix lines",
        advice: RAW,
    },
    Repair {
        undo: cr_added,
        cause: "each LF has become CR LF: the file was written or copied in text mode",
        advice: "Write and copy it in binary mode.",
    },
    Repair {
        undo: cr_before_strings,
        cause: "CR was left out: the recorder or the port dropped it",
        advice: RAW,
    },
    Repair {
        undo: ends_left_out,
        cause: "STX and ETX were left out or replaced: the recorder drops control bytes, or ETX was the port's interrupt key",
        advice: RAW,
    },
    Repair {
        undo: zone_words,
        cause: "the zone is MEZ or MESZ, as in the manuals of the GLN180PEX and the GPS170SV",
        advice: "Only UTC, CET and CEST are taken, the words of manual 004, that of the GPS180PEX. A clock whose time zone is set to UTC sends UTC by all of them.",
    },
    Repair {
        undo: position_for_sync,
        cause: "the byte behind the zone is '*', which tells of the position in the manual of the GLN180PEX",
        advice: "Only '#' and a space are taken there, which tell of sync in manual 004, that of the GPS180PEX; and of zones only its UTC, CET and CEST.",
    },
    Repair {
        undo: rmc::talker,
        cause: "the RMC strings are of another talker than GP, as a receiver of several satellite systems sends them",
        advice: "Only $GPRMC is taken; set the receiver to the talker GP, or to GPS alone.",
    },
    Repair {
        undo: rmc::padding,
        cause: "the position of the RMC strings has spaces for leading zeros, of which manual 002 speaks",
        advice: "Only zeros are taken there.",
    },
    Repair {
        undo: hex_dump,
        cause: "the file is a hex dump, not the bytes themselves",
        advice: "Turn it back with `xxd -r` (or `xxd -r -p`), or record the bytes.",
    },
    Repair {
        undo: spelled_out,
        cause: "control bytes are spelled out, as ^B or <STX>: the file was copied from a screen",
        advice: "Record the bytes, not what a screen shows of them.",
    },
    Repair {
        undo: wide,
        cause: "there is a NUL at every second byte: the file was stored as UTF-16",
        advice: "Store it as bytes; in PowerShell do not use > for bytes.",
    },
];

fn replaced(bytes: &[u8], pairs: &[(&[u8], &[u8])]) -> Vec<u8> {
    let mut begins = [false; 256];
    for (from, _) in pairs {
        begins[usize::from(from[0])] = true;
    }
    let pair_at = |rest: &[u8]| pairs.iter().find(|(from, _)| rest.starts_with(from));
    let mut out = Vec::with_capacity(bytes.len());
    let mut at = 0;
    while at < bytes.len() {
        // most bytes begin no pair
        match begins[usize::from(bytes[at])]
            .then(|| pair_at(&bytes[at..]))
            .flatten()
        {
            Some((from, to)) => {
                out.extend_from_slice(to);
                at += from.len();
            }
            None => {
                out.push(bytes[at]);
                at += 1;
            }
        }
    }
    out
}

/// The bytes changed, or None where nothing changes.
fn changed(bytes: &[u8], pairs: &[(&[u8], &[u8])]) -> Option<Vec<u8>> {
    Some(replaced(bytes, pairs)).filter(|out| out != bytes)
}

fn clear_bit_7(bytes: &[u8]) -> Option<Vec<u8>> {
    let any = bytes.iter().any(|byte| *byte >= 0x80);
    any.then(|| bytes.iter().map(|byte| byte & 0x7f).collect())
}

fn lf_pairs(bytes: &[u8]) -> Option<Vec<u8>> {
    changed(
        bytes,
        &[(b"\r\n", b"\r\n"), (b"\n\n", b"\r\n"), (b"\n", b"\r")],
    )
}

fn lf_to_cr_lf(bytes: &[u8]) -> Option<Vec<u8>> {
    changed(
        bytes,
        &[(b"\r\n", b"\r\n"), (b"\n\n", b"\n\n"), (b"\n", b"\r\n")],
    )
    .filter(|out| lf_pairs(bytes).as_ref() != Some(out))
}

fn cr_added(bytes: &[u8]) -> Option<Vec<u8>> {
    changed(bytes, &[(b"\r\r\n", b"\r\n")])
}

/// Strings that end in CR alone and stand one behind the other without it.
fn cr_before_strings(bytes: &[u8]) -> Option<Vec<u8>> {
    if bytes.contains(&b'\r') || bytes.contains(&b'\n') {
        return None;
    }
    let mut out = replaced(bytes, &[(b">900WD:", b"\r>900WD:"), (b"XGU", b"\rXGU")]);
    out.push(b'\r');
    Some(out)
}

/// STX put in front of what stands between lines' ends or other control bytes, and ETX behind it; in a SAT string, which is told by the
/// stroke behind its date, CR LF in front of that.
fn ends_left_out(bytes: &[u8]) -> Option<Vec<u8>> {
    if bytes.contains(&2) && bytes.contains(&3) {
        return None;
    }
    let mut out = Vec::with_capacity(bytes.len() * 2);
    for line in bytes.split(|byte| matches!(byte, 2 | 3 | b'\n' | b'\r' | 0)) {
        if !line.is_empty() {
            out.push(2);
            out.extend_from_slice(line);
            if line.get(8) == Some(&b'/') {
                out.extend_from_slice(b"\r\n");
            }
            out.push(3);
        }
    }
    Some(replaced(&out, &[(b"D:", b"\x02D:")]))
}

/// The zones of a SAT string in the words of manual 004; those of manuals 001 and 002 are German. No other form has a zone in words.
fn zone_words(bytes: &[u8]) -> Option<Vec<u8>> {
    changed(bytes, &[(b"MEZ ", b"CET "), (b"MESZ", b"CEST")])
}

/// What manual 001 has for fix where manual 004 has the letter for sync, with the zone in the words of either.
fn position_for_sync(bytes: &[u8]) -> Option<Vec<u8>> {
    let words = zone_words(bytes).unwrap_or_else(|| bytes.to_vec());
    let pairs: [(&[u8], &[u8]); 3] = [
        (b"UTC *", b"UTC #"),
        (b"CET *", b"CET #"),
        (b"CEST*", b"CEST#"),
    ];
    changed(&words, &pairs)
}

fn digit(byte: u8) -> Option<u8> {
    char::from(byte).to_digit(16).map(|digit| digit as u8)
}

/// The words of one line of a dump, without the offset in front and the text behind; whether its words are of two bytes, low one first.
fn dump_words(line: &[u8]) -> (Vec<&[u8]>, bool) {
    let colon = line.iter().position(|byte| *byte == b':');
    if let Some(at) = colon.filter(|at| line[..*at].iter().all(|byte| digit(*byte).is_some())) {
        // xxd: two spaces stand in front of the text
        let body = line[at + 1..].trim_ascii_start();
        let end = body
            .windows(2)
            .position(|pair| pair == b"  ")
            .unwrap_or(body.len());
        return (split(&body[..end]), false);
    }
    let mut found = split(line.split(|byte| *byte == b'|').next().unwrap_or(line));
    if found.len() > 1 && found[0].len() > 5 {
        found.remove(0);
    }
    let are_pairs = found.len() > 1 && found.iter().all(|word| word.len() == 4);
    (found, are_pairs)
}

fn split(part: &[u8]) -> Vec<&[u8]> {
    part.split(|byte| *byte == b' ')
        .filter(|word| !word.is_empty())
        .collect()
}

fn dumped(line: &[u8]) -> Option<Vec<u8>> {
    let (words, are_pairs) = dump_words(line);
    let mut out = Vec::new();
    for word in words {
        let start = out.len();
        for pair in word.chunks(2) {
            let &[high, low] = pair else {
                return None;
            };
            out.push(digit(high)? << 4 | digit(low)?);
        }
        if are_pairs {
            out[start..].reverse();
        }
    }
    Some(out)
}

fn hex_dump(bytes: &[u8]) -> Option<Vec<u8>> {
    let lines = bytes.split(|byte| *byte == b'\n');
    let mut out = Vec::new();
    let mut bad = 0;
    for line in lines
        .map(|line| line.trim_ascii_end())
        .filter(|line| !line.is_empty())
    {
        match dumped(line) {
            Some(part) => out.extend(part),
            None => bad += 1,
        }
    }
    (out.len() > 8 && bad * 10 <= out.len()).then_some(out)
}

fn spelled_out(bytes: &[u8]) -> Option<Vec<u8>> {
    changed(
        bytes,
        &[
            (b"^A", b"\x01"),
            (b"^B", b"\x02"),
            (b"^C", b"\x03"),
            (b"^M\n", b"\r\n"),
            (b"^M", b"\r"),
            (b"^J", b"\n"),
            (b"<SOH>", b"\x01"),
            (b"<STX>", b"\x02"),
            (b"<ETX>", b"\x03"),
            (b"<CR>", b"\r"),
            (b"<LF>", b"\n"),
            (b"\\x01", b"\x01"),
            (b"\\x02", b"\x02"),
            (b"\\x03", b"\x03"),
            (b"\\r", b"\r"),
            (b"\\n", b"\n"),
        ],
    )
}

fn wide(bytes: &[u8]) -> Option<Vec<u8>> {
    let nuls = bytes.iter().filter(|byte| **byte == 0).count();
    (nuls * 3 > bytes.len()).then(|| bytes.iter().copied().filter(|byte| *byte != 0).collect())
}
