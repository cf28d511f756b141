//! Document 02, W-206 ("Which seconds were really heard") and W-207 ("Two racks, one table"): the
//! runs of heard seconds as rows of a lent table, and the call that adds a rack's record to it.

use crate::calendar;
use crate::record::{time_in_range, Date, Record};

/// "A lent table of 64 rows." It is lent in any length, and another length is refused.
pub const ROWS: usize = 64;

/// "Rows carry the rack, 0 or 1"; another number is refused.
pub const RACKS: u32 = 2;

/// "Each rack may open 32."
pub const ROWS_OF_A_RACK: usize = 32;

/// "Its count over 4,000,000,000" is refused.
pub const HIGHEST_COUNT: u32 = 4_000_000_000;

/// A second of the calendar. The numbers are open, so that any table can be put together.
#[derive(Clone, Copy, Debug, Default, PartialEq, Eq)]
pub struct Second {
    pub year: u32,
    pub month: u32,
    pub day: u32,
    pub hour: u32,
    pub minute: u32,
    pub second: u32,
}

/// A run: seconds of one rack of which each is the next of the one before.
#[derive(Clone, Copy, Debug, Default, PartialEq, Eq)]
pub struct Row {
    pub rack: u32,
    pub first: Second,
    pub last: Second,
    pub count: u32,
}

impl Second {
    /// Year, month, day, hour, minute and second, in this order.
    pub fn from_numbers(numbers: [u32; 6]) -> Second {
        let [year, month, day, hour, minute, second] = numbers;
        Second {
            year,
            month,
            day,
            hour,
            minute,
            second,
        }
    }

    /// The same numbers in the same order.
    pub fn numbers(&self) -> [u32; 6] {
        [
            self.year,
            self.month,
            self.day,
            self.hour,
            self.minute,
            self.second,
        ]
    }

    /// The second that a record tells, if it has a full date.
    pub fn of(record: &Record) -> Option<Second> {
        let Some(Date::Full { year, month, day }) = record.date else {
            return None;
        };
        Some(Second {
            year,
            month,
            day,
            hour: record.hour,
            minute: record.minute,
            second: record.second,
        })
    }

    /// A record that tells this second and nothing else.
    pub fn record(&self) -> Record {
        self.told_by(Record::default())
    }

    /// A record with its date and time replaced by this second.
    pub fn told_by(&self, record: Record) -> Record {
        let [year, month, day, hour, minute, second] = self.numbers();
        Record {
            date: Some(Date::Full { year, month, day }),
            hour,
            minute,
            second,
            ..record
        }
    }

    /// Second 60 is possible in any minute, as in a record.
    pub fn is_possible(&self) -> bool {
        calendar::date_exists(self.year, self.month, self.day)
            && time_in_range(self.hour, self.minute, self.second)
    }
}

/// Year, month and day of the day after, or none after the calendar's last day.
fn day_after(year: u32, month: u32, day: u32) -> Option<(u32, u32, u32)> {
    if day < calendar::days_in_month(year, month) {
        Some((year, month, day + 1))
    } else if month < 12 {
        Some((year, month + 1, 1))
    } else if year == 79 {
        None
    } else if year == 99 {
        Some((0, 1, 1))
    } else {
        Some((year + 1, 1, 1))
    }
}

/// The first second of the next minute. "No minute follows the calendar's last."
pub(crate) fn minute_after(second: &Second) -> Option<Second> {
    let mut next = *second;
    next.second = 0;
    if second.minute < 59 {
        next.minute += 1;
        return Some(next);
    }
    next.minute = 0;
    if second.hour < 23 {
        next.hour += 1;
        return Some(next);
    }
    next.hour = 0;
    (next.year, next.month, next.day) = day_after(second.year, second.month, second.day)?;
    Some(next)
}

/// The seconds that may come next: "59 is followed by 60 or by the next minute, 60 by the next
/// minute".
pub fn seconds_after(second: &Second) -> Vec<Second> {
    let mut after = Vec::new();
    if second.second < 60 {
        after.push(Second {
            second: second.second + 1,
            ..*second
        });
    }
    if second.second >= 59 {
        after.extend(minute_after(second));
    }
    after
}

/// Whether a rack's rows in use are too many, or its newest one is refused. Of that row the last
/// second and the count are looked at; a rack without a row in use has no newest row.
fn rack_is_refused(in_use: &[Row], rack: u32) -> bool {
    let own = in_use.iter().filter(|row| row.rack == rack);
    let newest = own.clone().next_back();
    own.count() > ROWS_OF_A_RACK
        || newest.is_some_and(|row| !row.last.is_possible() || row.count > HIGHEST_COUNT)
}

/// Whether the call answers 21 before it looks at the record. Both racks' rows in use are looked at,
/// whichever rack the record is of; of the rows beyond, nothing is.
fn table_is_refused(table: &[Row], used: u32) -> bool {
    if table.len() != ROWS || used > ROWS as u32 {
        return true;
    }
    let in_use = &table[..used as usize];
    in_use.iter().any(|row| row.rack >= RACKS)
        || (0..RACKS).any(|rack| rack_is_refused(in_use, rack))
}

/// Adds a rack's record to the table, of which the first `used` rows are in use, in the order of
/// arrival. Answers 0 or the refusal, in the order 16, 21, 14, 15, and the number in use.
///
/// The requests do not say which number in use a refusal carries. Since refusals change nothing,
/// it is here the number that was handed in.
pub fn add(table: &mut [Row], used: u32, rack: u32, record: &Record) -> (u32, u32) {
    if rack >= RACKS {
        return (16, used);
    }
    if table_is_refused(table, used) {
        return (21, used);
    }
    let heard = match Second::of(record) {
        Some(heard) if !record.is_bad() => heard,
        _ => return (14, used),
    };
    let in_use = table[..used as usize].iter_mut();
    let mut own: Vec<&mut Row> = in_use.filter(|row| row.rack == rack).collect();
    if let Some(newest) = own.last_mut() {
        if seconds_after(&newest.last).contains(&heard) {
            newest.last = heard;
            newest.count += 1;
            return (0, used);
        }
    }
    if own.len() == ROWS_OF_A_RACK {
        return (15, used);
    }
    // Neither rack has over 32 and this one has fewer, so that fewer than 64 are in use.
    table[used as usize] = Row {
        rack,
        first: heard,
        last: heard,
        count: 1,
    };
    (0, used + 1)
}

#[cfg(test)]
mod tests {
    use super::*;

    fn at(numbers: [u32; 6]) -> Second {
        Second::from_numbers(numbers)
    }

    /// A table of 64 rows, all of rack 0, of which the one at `used - 1` has this last second and
    /// count.
    fn table(used: usize, last: [u32; 6], count: u32) -> Vec<Row> {
        let mut table = vec![Row::default(); ROWS];
        table[used - 1].last = at(last);
        table[used - 1].count = count;
        table
    }

    /// "The table of W-206 is read as the case of rack 0 alone, now with 32."
    fn add_alone(table: &mut [Row], used: u32, record: &Record) -> (u32, u32) {
        add(table, used, 0, record)
    }

    const LEAP_DAY: [u32; 6] = [24, 2, 29, 23, 59, 59];

    #[test]
    fn known_seconds_that_may_come_next() {
        let cases: [([u32; 6], &[[u32; 6]]); 12] = [
            ([24, 1, 1, 12, 0, 0], &[[24, 1, 1, 12, 0, 1]]),
            ([24, 1, 1, 12, 0, 58], &[[24, 1, 1, 12, 0, 59]]),
            (
                [24, 1, 1, 12, 0, 59],
                &[[24, 1, 1, 12, 0, 60], [24, 1, 1, 12, 1, 0]],
            ),
            ([24, 1, 1, 12, 0, 60], &[[24, 1, 1, 12, 1, 0]]),
            ([24, 1, 1, 12, 59, 60], &[[24, 1, 1, 13, 0, 0]]),
            ([24, 2, 28, 23, 59, 60], &[[24, 2, 29, 0, 0, 0]]),
            ([24, 2, 29, 23, 59, 60], &[[24, 3, 1, 0, 0, 0]]),
            ([23, 2, 28, 23, 59, 60], &[[23, 3, 1, 0, 0, 0]]),
            ([16, 12, 31, 23, 59, 60], &[[17, 1, 1, 0, 0, 0]]),
            ([99, 12, 31, 23, 59, 60], &[[0, 1, 1, 0, 0, 0]]),
            ([79, 12, 31, 23, 59, 59], &[[79, 12, 31, 23, 59, 60]]),
            ([79, 12, 31, 23, 59, 60], &[]),
        ];
        for (one, after) in cases {
            let after: Vec<Second> = after.iter().map(|other| at(*other)).collect();
            assert_eq!(seconds_after(&at(one)), after, "{one:?}");
        }
    }

    #[test]
    fn a_join_changes_last_and_count_and_an_opened_row_is_the_next() {
        let (mut joined, mut opened) = (table(3, LEAP_DAY, 7), table(3, LEAP_DAY, 7));
        let next = at([24, 3, 1, 0, 0, 0]);
        assert_eq!(add_alone(&mut joined, 3, &next.record()), (0, 3));
        assert_eq!(joined, table(3, next.numbers(), 8));

        let other = at([24, 3, 1, 0, 0, 1]);
        // What stood in a row that was not in use is gone.
        opened[3] = joined[2];
        assert_eq!(add_alone(&mut opened, 3, &other.record()), (0, 4));
        let mut expected = table(3, LEAP_DAY, 7);
        expected[3] = Row {
            rack: 0,
            first: other,
            last: other,
            count: 1,
        };
        assert_eq!(opened, expected);
    }

    /// The answer, where the call must change nothing.
    fn unchanged(mut table: Vec<Row>, used: u32, record: &Record) -> (u32, u32) {
        let before = table.clone();
        let answer = add_alone(&mut table, used, record);
        assert_eq!(table, before);
        answer
    }

    #[test]
    fn refusal_21() {
        let next = at([24, 3, 1, 0, 0, 0]).record();
        for length in [0, 1, 63, 65, 128] {
            let mut other = table(1, LEAP_DAY, 1);
            other.resize(length, Row::default());
            for used in [0, 1, 63, 64, 65, u32::MAX] {
                assert_eq!(unchanged(other.clone(), used, &next), (21, used));
            }
        }
        for used in [65, 66, 256, 257, u32::MAX] {
            assert_eq!(unchanged(table(1, LEAP_DAY, 1), used, &next), (21, used));
        }
        for last in [
            [100, 2, 29, 23, 59, 59],
            [24, 0, 29, 23, 59, 59],
            [24, 13, 29, 23, 59, 59],
            [24, 2, 0, 23, 59, 59],
            [24, 2, 30, 23, 59, 59],
            [23, 2, 29, 23, 59, 59],
            [24, 2, 29, 24, 59, 59],
            [24, 2, 29, 23, 60, 59],
            [24, 2, 29, 23, 59, 61],
            [24, 2, 29, 23, 59, u32::MAX],
            [u32::MAX; 6],
            [0; 6],
        ] {
            assert_eq!(unchanged(table(1, last, 1), 1, &next), (21, 1), "{last:?}");
        }
        for used in 33..=64 {
            let over = table(used, LEAP_DAY, 1);
            assert_eq!(unchanged(over, used as u32, &next), (21, used as u32));
        }
        for count in [HIGHEST_COUNT + 1, u32::MAX] {
            assert_eq!(unchanged(table(32, LEAP_DAY, count), 32, &next), (21, 32));
        }
    }

    #[test]
    fn the_highest_count_still_joins_and_is_then_over() {
        let (next, other) = (at([24, 3, 1, 0, 0, 0]), at([24, 3, 1, 0, 0, 1]));
        let mut table = table(1, LEAP_DAY, HIGHEST_COUNT);
        assert_eq!(add_alone(&mut table.clone(), 1, &other.record()), (0, 2));
        assert_eq!(add_alone(&mut table, 1, &next.record()), (0, 1));
        assert_eq!(table[0].count, HIGHEST_COUNT + 1);
        assert_eq!(unchanged(table, 1, &other.record()), (21, 1));
    }

    /// Records that are refused with 14: no date, a day of year alone, and bad ones.
    fn refused_with_14() -> Vec<Record> {
        let next = at([24, 3, 1, 0, 0, 0]).record();
        let mut list = vec![next; 5];
        list[0].date = None;
        list[1].date = Some(Date::DayOfYear(61));
        list[2].offset = Some(841);
        list[3].utc = Some(true);
        list[3].summer = Some(true);
        list[4].channel = Some(2);
        for wrong in [[24, 2, 30, 0, 0, 0], [24, 3, 1, 24, 0, 0]] {
            list.push(at(wrong).record());
        }
        list.push(at([24, 3, 1, 0, 60, 0]).record());
        list.push(at([24, 2, 29, 23, 59, 61]).record());
        list
    }

    #[test]
    fn refusals_stand_in_the_order_21_14_15() {
        let (next, other) = (at([24, 3, 1, 0, 0, 0]), at([24, 3, 1, 0, 0, 1]));
        for record in refused_with_14() {
            let over = table(32, LEAP_DAY, HIGHEST_COUNT + 1);
            assert_eq!(unchanged(over, 32, &record), (21, 32));
            assert_eq!(unchanged(table(1, LEAP_DAY, 1), 65, &record), (21, 65));
            for used in [1, 32] {
                let full = table(used, LEAP_DAY, 1);
                let used = used as u32;
                assert_eq!(unchanged(full, used, &record), (14, used), "{record:?}");
            }
            assert_eq!(unchanged(table(1, LEAP_DAY, 1), 0, &record), (14, 0));
        }
        let mut full = table(32, LEAP_DAY, 1);
        assert_eq!(unchanged(full.clone(), 32, &other.record()), (15, 32));
        assert_eq!(add_alone(&mut full, 32, &next.record()), (0, 32));
        assert_eq!(full, table(32, next.numbers(), 2));
    }

    #[test]
    fn with_no_row_in_use_no_row_is_looked_at() {
        let unused = Row {
            rack: RACKS,
            count: u32::MAX,
            ..Row::default()
        };
        let mut rows = vec![unused; ROWS];
        let first = at(LEAP_DAY);
        assert_eq!(add_alone(&mut rows, 0, &first.record()), (0, 1));
        let opened = Row {
            rack: 0,
            first,
            last: first,
            count: 1,
        };
        assert_eq!(rows[..2], [opened, unused]);
    }
}
