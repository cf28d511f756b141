//! The texts of --help.

pub const ALL: &str = "\
lindenscoop reads, writes and listens for the time strings of satellite clocks.
A field that was not sent is absent, never 0; a damaged string is refused.

  lindenscoop listen /dev/ttyUSB0 --form standard     print what a clock sends
  lindenscoop export --csv --form standard clock.log  a log as CSV or JSON
  lindenscoop runs --form standard clock.log          which seconds were heard
  lindenscoop why clock.log                           why a log is silent
  lindenscoop write racal < records.json              strings of JSON lines
  lindenscoop simulate standard --pty                 strings without a clock

Each has its own --help. lindenscoop --version prints the version.

Forms, by name or number: standard (1), capture (2), erlangen (3), spa (4), racal (5),
sysplex (6), computime (7), sat (10), rmc (12); write and simulate also take frame (8),
block (9) and c37118 (11).

Exit status: 0 heard (or written), 1 nothing heard, 2 a wrong call, 3 a read or write failed.
";

pub const LISTEN: &str = "\
lindenscoop listen DEVICE|FILE|- --form FORM [--baud N] [--framing 8N1] [--record FILE]

Prints each record as a block and an empty line, at once when its string has arrived.
Ctrl-C ends it; the counts of bytes and telegrams come on standard error.

A serial port is set raw, with this speed and framing, and put back at the end:
  --baud N        bits a second, 19200 if not given
  --framing DPS   data bits 7 or 8, parity N, E or O, stop bits 1 or 2; 8N1 if not given
  --form FORM     standard, capture, erlangen, spa, racal, sysplex, computime, sat, rmc,
                  or 1 to 7, 10 and 12
  --record FILE   keeps the bytes as they came in a new file, for `lindenscoop why`

A file or pipe is read to its end; - is standard input.

  lindenscoop listen /dev/ttyUSB0 --form standard --baud 9600 --framing 7E2

Exit status: 0 heard, 1 nothing heard, 2 a wrong call, 3 a read or write failed (a port
that was closed or unplugged, a full disk, an ended pipe).
";

pub const EXPORT: &str = "\
lindenscoop export --json|--csv --form FORM FILE..|-

Prints a line for each record, with the place of its string's first byte, counted from 0.
A field that was not sent is null in JSON and an empty cell in CSV, never 0.

  --json          an object to a line: {\"place\":0,\"date\":\"2024-01-01\",..}
  --csv           a line of names, then a row for each record
  --form FORM     standard, capture, erlangen, spa, racal, sysplex, computime, sat, rmc,
                  or 1 to 7, 10 and 12
  --baud, --framing   where a file is a serial port, as for listen

Dates are year-month-day, with the year's century: 80 to 99 in a string mean 1980 to 1999,
00 to 79 mean 2000 to 2079. The time is as the clock sent it, offset is hours:minutes of
local time minus UTC, latitude and longitude are degrees, north and east positive, altitude
is metres. A position that was sent in minutes, as by rmc, stands in latitude_minutes and
longitude_minutes, in minutes of arc (2841.00 is 47 degrees 21 minutes), and is not turned
into degrees. A fraction has 2, 3 or 7 digits, as it was sent. With several files each line
begins with the file's name. `lindenscoop write` makes the strings of the JSON lines again.

Exit status: 0 heard, 1 nothing heard, 2 a wrong call, 3 a read or write failed.
";

pub const RUNS: &str = "\
lindenscoop runs --form FORM [--csv | --json] [--svg PICTURE] [--title TEXT] FILE|- [FILE|-]

Tells which seconds were heard: a line for each run of seconds that follow each other, and
between two runs a line for the seconds that are missing, with the first and the last of
them and how many they are; then a line with the sums.

Two logs are those of two racks, the first of rack 0 and the second of rack 1. They are read
one behind the other, and each has its own list and sums below a line with its name. Neither
changes what is told of the other.

  --form FORM     standard, capture, erlangen, spa, racal, sysplex, computime, sat, rmc,
                  or 1 to 7, 10 and 12; once for both logs, or twice, in the logs' order
  --csv           a line of names, then a row for each line: rack,kind,first,last,seconds
  --json          an object to a line, with these keys; with both the sums come on standard
                  error. The rack of one log is 0
  --svg PICTURE   draws heard and missing seconds in a new file; - prints the picture in
                  place of the list
  --title TEXT    the picture's title, the logs' names if not given
  --baud, --framing   where the log is a serial port, as for listen; one log alone can be

A line is heard, missing, repeat (the next second is the same again) or back (the next second
is earlier, by so many seconds: the clock was set back, or summer time ended). A repeat has no
first, last and seconds, and back no first and last: empty cells in CSV, null in JSON, never 0.

A minute is counted as 60 seconds. A second 60 that was heard is in its run; one that was not
heard is not missing, since nobody knows that there was one. Times are as the clock sent them.
Records without a full date, as all of sysplex, tell no second: they are passed over and
counted, with the refusal 14.

A picture has a line for a minute, ten minutes, an hour or a day, so that it is a page. It
counts each second once, however often it was heard, from the earliest to the latest. Two
racks stand in each line, rack 0 above rack 1, by the times that their clocks sent.

  lindenscoop runs --form standard --svg hall.svg --title 'Great hall, rack A' clock.log
  lindenscoop runs --form standard --form racal --svg hall.svg rack-a.log rack-b.log

Exit status: 0 a second was heard in each log, 1 none in one of them, 2 a wrong call, 3 a read
or write failed.
";

pub const WHY: &str = "\
lindenscoop why FILE|-

Explains why nothing is heard in a file. It tries each form that can be listened for
and says how many strings were heard, which were nearly right, with what number they were
refused, what it means, and at which byte they fail. Then it gives hints on what happened
to the recording: a port that was not raw, parity bits, a hex dump, converted ends of line,
zones in German words, RMC strings of other receivers, an empty file. A hint says how many
strings are heard once the damage is undone.

The first 16 MiB of a longer file are looked at. Bytes are counted from 0.

Exit status: 0 a string of some form was heard, 1 none, 2 a wrong call, 3 a read or write
failed.
";

pub const WRITE: &str = "\
lindenscoop write FORM [FILE..|-]

Makes the strings of JSON lines as `lindenscoop export --json` prints them, and writes them
one behind the other to standard output. Without a file it reads standard input.

  FORM   standard, capture, erlangen, spa, racal, sysplex, computime, frame, block, sat,
         c37118, rmc, or 1 to 12

frame and c37118 are one frame with two rules for its sign: 1 for an offset above zero in
frame (IEEE 1344), below zero in c37118 (IEEE C37.118). A frame does not tell its rule.

A key that is null or not there is an absent field; time must be there. place and file are
passed over. A date is of 1980 to 2079. A fraction and a position must be of the kind that
the form carries: 2 digits and latitude_minutes, longitude_minutes for rmc; 3 digits for
spa, 7 for capture; latitude, longitude, altitude for erlangen. None is turned into another.
A line that is no record, or that the form cannot carry, is refused with its number and the
reason, and the other lines are written.

  echo '{\"date\":\"2024-02-29\",\"time\":\"12:00:00\"}' | lindenscoop write racal

Exit status: 0 every line was written, 1 a line was refused or there was none, 2 a wrong
call, 3 a read or write failed.
";

pub const SIMULATE: &str = "\
lindenscoop simulate FORM [--pty | --to FILE] [--damage N] [--count N] [--interval S]

Sends strings of the running time (UTC, by this computer's clock), one a second at the full
second, to test a recorder without a clock. They go to standard output, or:

  --pty           to a new pseudo-terminal, whose name is printed first; it is in its
                  default mode, as a port is, and the recorder has to set it raw
  --to FILE       to a file (which is made new), a named pipe or a serial port; a port is
                  set raw, with --baud and --framing as for listen
  --damage N      each Nth string is damaged: a bit turned, a byte lost, a byte too many,
                  the end lost, in turn; no valid string is left in it
  --count N       ends after N strings, damaged ones included
  --interval S    seconds between strings, 1 if not given; 0 sends without a pause
  FORM            standard, capture, erlangen, spa, racal, sysplex, computime, frame, block,
                  sat, c37118, rmc, or 1 to 12

Ctrl-C ends it; the counts come on standard error. lost= counts strings for which a
pseudo-terminal that nobody reads had no room.

  lindenscoop simulate standard --pty --damage 5        prints /dev/pts/7, say
  lindenscoop listen /dev/pts/7 --form standard         in another window

Exit status: 0 sent, 1 nothing sent, 2 a wrong call, 3 a write failed.
";

#[cfg(test)]
mod tests {
    use super::*;
    use crate::forms;
    use lindenscoop::Form;

    /// The names behind the word that stands for them, up to the numbers.
    fn listed(text: &'static str, head: &str) -> Vec<&'static str> {
        let behind = text.split(head).nth(1).expect("the list is there");
        let names = behind.split("or 1 to").next().unwrap_or(behind);
        names
            .split([',', ' ', '\n'])
            .filter(|name| !name.is_empty())
            .collect()
    }

    #[test]
    fn every_form_is_named() {
        let every: Vec<&str> = Form::ALL.iter().copied().map(forms::name).collect();
        let serial: Vec<&str> = forms::serial_forms().map(forms::name).collect();
        for form in Form::ALL {
            assert!(ALL.contains(&format!("{form} ({})", form.0)), "{form}");
        }
        assert_eq!(listed(LISTEN, "--form FORM  "), serial);
        assert_eq!(listed(EXPORT, "--form FORM  "), serial);
        assert_eq!(listed(RUNS, "--form FORM  "), serial);
        assert_eq!(listed(WRITE, "  FORM  "), every);
        assert_eq!(listed(SIMULATE, "  FORM  "), every);
    }
}
