//! Which seconds were heard: the runs of seconds that follow each other, as rows of a table that two racks share.

use crate::ffi;
use crate::record::{Date, Record};
use crate::refusal::Refusal;

/// A second of the calendar, as a record with a full date tells it. The default is no second, since no month is 0.
#[derive(Clone, Copy, Debug, Default, PartialEq, Eq, Hash)]
#[repr(C)]
pub struct Second {
    /// 0..=99: 80..=99 mean 1980 to 1999, 0..=79 mean 2000 to 2079
    pub yy: u32,
    pub month: u32,
    pub day: u32,
    pub hour: u32,
    pub minute: u32,
    /// 60 in a leap second
    pub second: u32,
}

impl Second {
    /// The year with its century, 1980 to 2079; `None` for a `yy` above 99.
    ///
    /// ```
    /// use lindenscoop::Second;
    ///
    /// let second = Second { yy: 91, month: 1, day: 1, ..Second::default() };
    /// assert_eq!(second.full_year(), Some(1991));
    /// assert_eq!(Second { yy: 100, ..second }.full_year(), None);
    /// ```
    pub fn full_year(self) -> Option<u32> {
        self.date().full_year()
    }

    /// Its date, a [`Date::Full`].
    pub fn date(self) -> Date {
        Date::Full {
            yy: self.yy,
            month: self.month,
            day: self.day,
        }
    }

    /// The days from 1 January 1980 to its date; `None` where the calendar has no such date.
    pub fn days_since_1980(self) -> Option<u32> {
        self.date().days_since_1980()
    }
}

/// A run: seconds that were heard one after the other, each the next of the one before. The default holds none.
#[derive(Clone, Copy, Debug, Default, PartialEq, Eq, Hash)]
#[repr(C)]
pub struct Run {
    pub first: Second,
    pub last: Second,
    /// how many seconds, `first` and `last` included
    pub count: u32,
}

/// A row of a table: a run, and the rack that heard it. The default is a row that is not in use.
#[derive(Clone, Copy, Debug, Default, PartialEq, Eq, Hash)]
#[repr(C)]
pub struct Row {
    /// 0 or 1
    pub rack: u32,
    pub run: Run,
}

/// What became of a second that was added.
#[derive(Clone, Copy, Debug, PartialEq, Eq, Hash)]
pub enum Added {
    /// It is the next of the last one of its rack's newest run, and is the last one now.
    Joined,
    /// It is a run of its own, in a row that was not in use.
    Opened,
}

/// Adds the second that a record of one rack tells to a table of the caller's, of which the first `used` rows are in use, in the order in
/// which they were opened, and says how many are afterwards. The second joins the newest run of its own rack if it is the next of that
/// run's last one: 59 is followed by 60 or by the next minute, 60 by the next minute, and nothing follows the last minute of 2079. Any other
/// second, a repeat or one before included, opens row `used`. The rows behind the number in use are not looked at, and no other row is changed.
///
/// Any slice and any numbers are answered. Refused, in this order, with [`Refusal::NoRack`]: a rack that is not 0 or 1; with
/// [`Refusal::BadTable`]: a slice that has not 64 rows, a number over 64, a row in use of another rack, more than 32 rows in use of one
/// rack, a rack's newest run whose last second the calendar does not have or whose count is over 4,000,000,000, whichever rack the record
/// is of; with [`Refusal::NoSecond`]: a record that is bad or has no full date; with [`Refusal::NoRow`]: a second that joins no run where
/// its rack has 32 rows in use. A refusal changes no row, and the number is the one that was handed in.
///
/// ```
/// use lindenscoop::{add_second, read, Added, Form, Refusal, Row, Runs};
///
/// let mut rows = [Row::default(); Runs::ROWS];
/// let record = read(Form::RACAL, b"XGU240101120000\r")?;
/// let next = read(Form::RACAL, b"XGU240101120001\r")?;
/// assert_eq!(add_second(&mut rows, 0, 0, &record), (1, Ok(Added::Opened)));
/// assert_eq!(add_second(&mut rows, 1, 1, &record), (2, Ok(Added::Opened)));
/// assert_eq!(add_second(&mut rows, 2, 0, &next), (2, Ok(Added::Joined)));
/// assert_eq!((rows[0].rack, rows[0].run.count), (0, 2));
/// assert_eq!((rows[1].rack, rows[1].run.count), (1, 1));
///
/// assert_eq!(add_second(&mut rows[..63], 2, 2, &record), (2, Err(Refusal::NoRack)));
/// assert_eq!(add_second(&mut rows[..63], 2, 1, &record), (2, Err(Refusal::BadTable)));
/// assert_eq!(add_second(&mut rows, 65, 1, &record), (65, Err(Refusal::BadTable)));
/// # Ok::<(), Refusal>(())
/// ```
pub fn add_second(
    rows: &mut [Row],
    used: u32,
    rack: u32,
    record: &Record,
) -> (u32, Result<Added, Refusal>) {
    match ffi::add_second(rows, used, rack, record.encode()) {
        (0, after) if after == used => (after, Ok(Added::Joined)),
        (0, after) => (after, Ok(Added::Opened)),
        (number, after) => (after, Err(Refusal::answered(number))),
    }
}

/// A table of its own, which starts empty and only [`add`](Runs::add) writes: the rows of each rack are the runs of its records not refused,
/// whatever the other rack's records are.
///
/// ```
/// use lindenscoop::{telegrams, Added, Form, Refusal, Runs};
///
/// // the leap second at the end of 2016, the second behind it, and that one again; the other rack heard two of them in between
/// let log = b"XGU161231235959\rXGU161231235960\rXGU170101000000\rXGU170101000000\r";
/// let mut runs = Runs::new();
/// let mut told = Vec::new();
/// for (place, found) in telegrams(Form::RACAL, log)?.enumerate() {
///     told.push(runs.add(0, &found.record)?);
///     if place < 2 {
///         runs.add(1, &found.record)?;
///     }
/// }
/// assert_eq!(told, [Added::Opened, Added::Joined, Added::Joined, Added::Opened]);
///
/// let racks: Vec<u32> = runs.rows().iter().map(|row| row.rack).collect();
/// assert_eq!(racks, [0, 1, 0]);
/// let heard: Vec<_> = runs.of_rack(0).collect();
/// let [heard, again] = heard[..] else { panic!("not two runs") };
/// assert_eq!((heard.first.full_year(), heard.first.second, heard.count), (Some(2016), 59, 3));
/// assert_eq!((again.first, again.count), (heard.last, 1));
/// assert_eq!(runs.of_rack(1).next_back().map(|run| run.count), Some(2));
/// # Ok::<(), Refusal>(())
/// ```
#[derive(Clone, Debug, PartialEq, Eq)]
pub struct Runs {
    rows: [Row; Runs::ROWS],
    used: u32,
}

impl Runs {
    /// How many rows a table has.
    pub const ROWS: usize = 64;

    /// How many racks log into a table: their numbers are 0 and 1.
    pub const RACKS: u32 = 2;

    /// How many rows of a table one rack may have in use.
    pub const RACK_ROWS: usize = 32;

    /// An empty table.
    pub fn new() -> Runs {
        Runs {
            rows: [Row::default(); Runs::ROWS],
            used: 0,
        }
    }

    /// Adds the second that a record of one rack tells. Refused with [`Refusal::NoRack`] where the rack is not 0 or 1, with
    /// [`Refusal::NoSecond`] where the record tells none, and with [`Refusal::NoRow`] where it needs a row and its rack has 32; a refusal
    /// changes nothing.
    pub fn add(&mut self, rack: u32, record: &Record) -> Result<Added, Refusal> {
        let (used, told) = add_second(&mut self.rows, self.used, rack, record);
        self.used = used;
        told
    }

    /// The rows in use, of both racks, in the order in which they were opened.
    pub fn rows(&self) -> &[Row] {
        &self.rows[..self.used as usize]
    }

    /// The runs of one rack, in the order in which they were opened; the newest is the last. A rack that is not 0 or 1 has none.
    pub fn of_rack(&self, rack: u32) -> impl DoubleEndedIterator<Item = &Run> {
        self.rows()
            .iter()
            .filter(move |row| row.rack == rack)
            .map(|row| &row.run)
    }

    /// Hands out the runs of one rack, in the order in which they were opened, and leaves it no row; those of the other rack stay as they
    /// are, in their order. It is what to do on [`Refusal::NoRow`] before the record is added again. A record that needs a row joins no run,
    /// so the runs of a rack handed out one after the other are those of a table without an end:
    ///
    /// ```
    /// use lindenscoop::{Date, Record, Refusal, Run, Runs};
    ///
    /// let date = Date::of_full_year(2024, 2, 29);
    /// let (mut runs, mut heard) = (Runs::new(), [Vec::<Run>::new(), Vec::new()]);
    /// for at in 0..24 * 60 {
    ///     // rack 1 hears the first hour without a gap, rack 0 a second of each minute
    ///     let first_hour = Record { date, minute: at / 60, second: at % 60, ..Record::default() };
    ///     runs.add(1, &first_hour)?;
    ///     let record = Record { date, hour: at / 60, minute: at % 60, ..Record::default() };
    ///     if runs.add(0, &record) == Err(Refusal::NoRow) {
    ///         heard[0].extend(runs.take(0));
    ///         runs.add(0, &record)?;
    ///     }
    /// }
    /// heard[0].extend(runs.take(0));
    /// heard[1].extend(runs.take(1));
    /// assert_eq!(heard[0].len(), 24 * 60);
    /// assert_eq!((heard[1].len(), heard[1][0].count), (1, 24 * 60));
    /// assert!(runs.rows().is_empty());
    /// # Ok::<(), Refusal>(())
    /// ```
    ///
    /// Taken at any other time, the newest run of this rack ends there, and the second that follows it opens another one. A rack that is not
    /// 0 or 1 has no runs: none are handed out, and the table stays as it is.
    pub fn take(&mut self, rack: u32) -> Vec<Run> {
        let taken = self.of_rack(rack).copied().collect();
        let before = std::mem::take(self);
        for row in before.rows().iter().filter(|row| row.rack != rack) {
            self.rows[self.used as usize] = *row;
            self.used += 1;
        }
        taken
    }
}

impl Default for Runs {
    fn default() -> Runs {
        Runs::new()
    }
}
