//! How much time a line of the grid is, and how much a column.

use crate::moment::{Moment, DAY, HOUR, MINUTE};
use crate::picture::coverage::Coverage;
use crate::picture::lines::touched;
use crate::picture::page::LEAP_WIDTH;

/// How wide a whole line is, in pixels.
pub const LINE_WIDTH: u64 = 1200;
/// How high the lines of a page are, and of each rack a gathered line or a date, in pixels.
const PAGE: u64 = 1680;
const OTHER_LINE: u64 = 24;
/// The lowest line of one rack; and of two, where each has its name and its sums beside it.
const LOWEST: u64 = 8;
const LOWEST_OF_TWO: u64 = 22;

pub struct Unit {
    pub seconds: u64,
    /// of a line, and of a column
    pub words: [&'static str; 2],
    /// seconds of a column
    pub column: u64,
    /// seconds between two ticks, and of what a tick's number counts
    pub tick: u64,
    pub counted: (u64, &'static str),
    /// how many lines may share a label
    pub shares: [u64; 5],
}

/// The first with which a log is a page is taken, the last in any case.
pub const UNITS: [Unit; 4] = [
    Unit {
        seconds: MINUTE,
        words: ["a minute", "a second"],
        column: 1,
        tick: 10,
        counted: (1, "second"),
        shares: [1, 2, 5, 10, 15],
    },
    Unit {
        seconds: 10 * MINUTE,
        words: ["ten minutes", "a second"],
        column: 1,
        tick: MINUTE,
        counted: (MINUTE, "minute"),
        shares: [1, 2, 3, 6, 6],
    },
    Unit {
        seconds: HOUR,
        words: ["an hour", "6 seconds"],
        column: 6,
        tick: 10 * MINUTE,
        counted: (MINUTE, "minute"),
        shares: [1, 2, 3, 6, 12],
    },
    Unit {
        seconds: DAY,
        words: ["a day", "144 seconds"],
        column: 144,
        tick: 3 * HOUR,
        counted: (HOUR, "hour"),
        shares: [1, 2, 4, 7, 14],
    },
];

/// How low the line of a rack may be.
pub fn lowest(racks: usize) -> u64 {
    match racks {
        1 => LOWEST,
        _ => LOWEST_OF_TWO,
    }
}

impl Unit {
    /// The finest unit with which the lines of all racks are a page.
    pub fn of(racks: &[Coverage]) -> &'static Unit {
        let days = lines_of(&touched(racks, DAY));
        let count = racks.len() as u64;
        let (line, other) = (lowest(racks.len()) * count, OTHER_LINE * count);
        let is_page = |unit: &&Unit| {
            let parts = touched(racks, unit.seconds);
            let others = parts.len().saturating_sub(1) as u64 + days;
            lines_of(&parts) * line + other * others <= PAGE
        };
        let [.., last] = &UNITS;
        UNITS.iter().find(is_page).unwrap_or(last)
    }

    pub fn columns(&self) -> u64 {
        self.seconds / self.column
    }

    /// Pixels of a column.
    pub fn column_width(&self) -> u64 {
        LINE_WIDTH / self.columns()
    }

    /// Where in a line something begins that is so many seconds behind the line's beginning.
    pub fn x(&self, seconds: u64) -> u64 {
        seconds * LINE_WIDTH / self.seconds
    }

    /// Whether a second is a column that one sees as such, so that a second 60 has one too.
    pub fn has_wide_columns(&self) -> bool {
        self.column_width() >= LEAP_WIDTH
    }

    pub fn is_day(&self) -> bool {
        self.seconds == DAY
    }

    /// What stands at the left of a line.
    pub fn label(&self, line: u64) -> String {
        let begin = Moment::at(line * self.seconds);
        if self.is_day() {
            begin.date()
        } else {
            begin.hour_and_minute()
        }
    }

    /// How many lines share a label, so that labels are so far apart.
    pub fn share(&self, pitch: u64, apart: u64) -> u64 {
        let [.., most] = self.shares;
        let fits = |share: &u64| share * pitch >= apart;
        self.shares.into_iter().find(fits).unwrap_or(most)
    }
}

fn lines_of(parts: &[(u64, u64)]) -> u64 {
    parts.iter().map(|(first, last)| last - first + 1).sum()
}

#[cfg(test)]
mod tests {
    use super::*;
    use crate::picture::coverage::tests::log;

    #[test]
    fn columns_are_whole_pixels() {
        for unit in &UNITS {
            assert_eq!(unit.seconds % unit.column, 0);
            assert_eq!(unit.columns() * unit.column_width(), LINE_WIDTH);
            assert!(unit.column_width() >= 2);
            assert_eq!(unit.seconds % unit.tick, 0);
            assert_eq!(unit.x(unit.seconds), LINE_WIDTH);
        }
    }

    fn chosen(runs: &[&str]) -> u64 {
        Unit::of(&[Coverage::new(&log(runs, &[]))]).seconds
    }

    #[test]
    fn fits_a_page() {
        assert_eq!(chosen(&["12:00:00 12:00:00"]), MINUTE);
        assert_eq!(chosen(&["12:00:30 15:00:29"]), MINUTE);
        assert_eq!(chosen(&["09:00:00 12:59:59"]), 10 * MINUTE);
        assert_eq!(chosen(&["00:00:00 23:59:59"]), 10 * MINUTE);
        // hours apart, and still a page of minutes
        assert_eq!(chosen(&["00:00:00 00:59:59", "22:00:00 22:59:59"]), MINUTE);
    }

    /// Two racks have a page together, whichever of them is the longer one.
    #[test]
    fn two_racks_fit_a_page() {
        let chosen = |first: &str, second: &str| {
            let racks = [first, second].map(|runs| Coverage::new(&log(&[runs], &[])));
            Unit::of(&racks).seconds
        };
        let short = "12:00:00 12:00:00";
        assert_eq!(chosen(short, short), MINUTE);
        assert_eq!(chosen("12:00:00 12:29:59", short), MINUTE);
        assert_eq!(
            chosen("12:00:00 12:29:59", "11:40:00 12:10:00"),
            10 * MINUTE
        );
        assert_eq!(chosen("12:00:00 17:59:59", short), 10 * MINUTE);
        assert_eq!(chosen(short, "00:00:00 23:59:59"), HOUR);
    }

    /// What is gathered between the lines needs room for each rack.
    #[test]
    fn gathered_lines_of_two_racks_fit_a_page() {
        let chosen = |count: u64| {
            let each = (0..count).map(|n| format!("12:{:02}:00 12:{:02}:00", 3 * n, 3 * n));
            let runs: Vec<String> = each.collect();
            let runs: Vec<&str> = runs.iter().map(String::as_str).collect();
            Unit::of(&[&runs, &runs].map(|runs| Coverage::new(&log(runs, &[])))).seconds
        };
        assert_eq!([18, 19, 20].map(chosen), [60, 600, 600]);
    }

    #[test]
    fn longer_logs() {
        let run = |last: &str| {
            let mut heard = log(&["00:00:00 23:59:59"], &[]);
            heard.runs[0].last = crate::moment::tests::second(last);
            Unit::of(&[Coverage::new(&heard)]).seconds
        };
        assert_eq!(run("2024-01-02 09:00:00"), 10 * MINUTE);
        assert_eq!(run("2024-01-03 00:00:00"), HOUR);
        assert_eq!(run("2024-01-08 00:00:00"), HOUR);
        assert_eq!(run("2024-01-12 00:00:00"), DAY);
        assert_eq!(run("2079-12-31 23:59:60"), DAY);
    }

    #[test]
    fn labels() {
        let [minute, .., day] = &UNITS;
        assert_eq!(minute.label(720), "12:00");
        assert_eq!(day.label(16_071), "2024-01-01");
        assert_eq!([28, 12, 8].map(|pitch| minute.share(pitch, 24)), [1, 2, 5]);
    }
}
