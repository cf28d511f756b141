//! The runs of W-206 as requests, so that no end of a day, no date and no count is left to a draw; and
//! behind them those of the racks of W-207.

use crate::calendar::days_in_month;
use crate::every_rack;
use crate::protocol::{spell_add, spell_records};
use crate::record::Record;
use crate::runs::{minute_after, Row, Second, HIGHEST_COUNT, ROWS};

/// Year, month and day.
type Day = [u32; 3];

/// Hour, minute and second.
type Time = [u32; 3];

fn at([year, month, day]: Day, [hour, minute, second]: Time) -> Second {
    Second::from_numbers([year, month, day, hour, minute, second])
}

const LEAP_DAY: Day = [24, 2, 29];
const DAY_BEFORE: Day = [24, 2, 28];

/// The days of the calendar in order.
fn days() -> Vec<Day> {
    let mut days = Vec::new();
    for year in (80..=99).chain(0..=79) {
        for month in 1..=12 {
            days.extend((1..=days_in_month(year, month)).map(|day| [year, month, day]));
        }
    }
    days
}

const LAST_OF_A_DAY: [Time; 3] = [[23, 59, 58], [23, 59, 59], [23, 59, 60]];
const FIRST_OF_A_DAY: [Time; 2] = [[0, 0, 0], [0, 0, 1]];

/// The last seconds of a day and the first of the next as they follow one another, and then each of
/// those last seconds with each of the first ones of two other days. All of these pairs stand in one
/// list; between two of them the clock is set back, so that each opens a row. Both racks hear every
/// second, so that between two of one rack there is always one of the other.
fn pairs_of_days(day: Day, others: [Day; 2]) -> String {
    let mut seconds = LAST_OF_A_DAY.map(|last| at(day, last)).to_vec();
    seconds.push(at(others[0], FIRST_OF_A_DAY[0]));
    for last in LAST_OF_A_DAY {
        for other in others {
            for first in FIRST_OF_A_DAY {
                seconds.extend([at(day, last), at(other, first)]);
            }
        }
    }
    let both = |second: &Second| [(0, second.record()), (1, second.record())];
    let records: Vec<(u32, Record)> = seconds.iter().flat_map(both).collect();
    format!("addall {}", spell_records(&records))
}

/// A day with the day after it and the one after that. After the calendar's last day its first
/// stands, which does not follow it.
fn end_of_day(days: &[Day], place: usize) -> String {
    let day = |place: usize| days[place % days.len()];
    pairs_of_days(day(place), [day(place + 1), day(place + 2)])
}

fn ends_of_days() -> impl Iterator<Item = String> {
    let days = days();
    (0..days.len()).map(move |place| end_of_day(&days, place))
}

/// One rack's call on a table whose rows are all of rack 0, the newest at `used - 1`. Of that row only
/// the last second and the count are told.
fn call(used: u32, last: Second, count: u32, rack: u32, heard: Second) -> String {
    let mut table = vec![Row::default(); ROWS];
    table[used as usize - 1].last = last;
    table[used as usize - 1].count = count;
    spell_add(&table, used, rack, &heard.record())
}

/// A record after a newest row of its own rack, the only one in use.
fn after(last: Second, heard: Second) -> String {
    call(1, last, 1, 0, heard)
}

/// Hours at the ends of a day and of a digit.
const HOURS: [u32; 8] = [0, 1, 9, 11, 12, 19, 22, 23];

/// The last six seconds of every minute of these hours with each other and with the first three of
/// the next minute.
fn ends_of_minutes() -> impl Iterator<Item = String> {
    let minutes = |hour| (0..60).map(move |minute| at(DAY_BEFORE, [hour, minute, 0]));
    HOURS.into_iter().flat_map(minutes).flat_map(|minute| {
        let lasts = (55..=60).map(move |second| Second { second, ..minute });
        let next = minute_after(&minute);
        let firsts = (0..=2).filter_map(move |second| next.map(|next| Second { second, ..next }));
        let heard = lasts.clone().chain(firsts);
        lasts.flat_map(move |last| heard.clone().map(move |heard| after(last, heard)))
    })
}

/// Every two seconds of a minute, the last seconds of every two minutes of an hour with the first,
/// and those of every two hours of a day.
fn pairs_within_a_day() -> impl Iterator<Item = String> {
    let pairs = |limit| (0..limit).flat_map(move |one| (0..limit).map(move |two| (one, two)));
    let seconds = pairs(61).map(|(one, two)| ([12, 34, one], [12, 34, two]));
    let minutes = pairs(60).map(|(one, two)| ([12, one, 59], [12, two, 0]));
    let hours = pairs(24).map(|(one, two)| ([one, 59, 60], [two, 0, 0]));
    let times = seconds.chain(minutes).chain(hours);
    times.map(|(one, two)| after(at(LEAP_DAY, one), at(LEAP_DAY, two)))
}

/// Every year, and months and days from 0 to one beyond the last.
fn dates() -> impl Iterator<Item = Day> {
    let months = |year| (0..=13).map(move |month| (year, month));
    let days = |(year, month)| (0..=32).map(move |day| [year, month, day]);
    (0..=99).flat_map(months).flat_map(days)
}

/// Years beyond the last, and every hour, minute and second up to some beyond the last.
fn other_numbers() -> impl Iterator<Item = Second> {
    let years = (100..=255).map(|year| at([year, 1, 1], [0, 0, 0]));
    let hours = (0..=99).map(|hour| at(LEAP_DAY, [hour, 0, 0]));
    let minutes = (0..=99).map(|minute| at(LEAP_DAY, [0, minute, 0]));
    let seconds = (0..=99).map(|second| at(LEAP_DAY, [0, 0, second]));
    years.chain(hours).chain(minutes).chain(seconds)
}

/// Possible and impossible seconds.
fn seconds() -> impl Iterator<Item = Second> {
    let dates = dates().map(|date| at(date, [12, 0, 0]));
    dates.chain(other_numbers())
}

/// As the last second of a newest row, the rack's own or the other's. The record opens a row if that
/// second is possible.
fn seconds_in_rows(rack: u32) -> impl Iterator<Item = String> {
    seconds().map(move |last| call(1, last, 1, rack, at(LEAP_DAY, [23, 59, 59])))
}

/// As the second of a record.
fn seconds_in_records() -> impl Iterator<Item = String> {
    seconds().map(|heard| after(at(LEAP_DAY, [23, 59, 59]), heard))
}

/// One number of a newest row's last second at a time, with each of its high bits set alone.
fn high_bits() -> impl Iterator<Item = String> {
    let bits = |place| (7..32).map(move |bit| (place, 1 << bit));
    (0..6).flat_map(bits).map(|(place, bit)| {
        let mut numbers = at(LEAP_DAY, [23, 59, 59]).numbers();
        numbers[place] |= bit;
        after(Second::from_numbers(numbers), at([24, 3, 1], [0, 0, 0]))
    })
}

/// Counts around the highest that is taken, and at both ends, in a newest row of the rack itself or of
/// the other, with a record that follows it and one that does not, and with 1, 31 and 32 in use.
fn counts(rack: u32) -> impl Iterator<Item = String> {
    let around = HIGHEST_COUNT - 5..=HIGHEST_COUNT + 5;
    let counts = (0..=5).chain(around).chain(u32::MAX - 5..=u32::MAX);
    let uses = |count| [1, 31, 32].map(|used| (count, used));
    let heard = |(count, used)| [0, 1].map(|second| (count, used, second));
    let calls = counts.flat_map(uses).flat_map(heard);
    calls.map(move |(count, used, second)| {
        let last = at(LEAP_DAY, [23, 59, 59]);
        call(used, last, count, rack, at([24, 3, 1], [0, 0, second]))
    })
}

/// Calls and lists of calls over every end of a day, every date and every number, and those of the
/// racks: some 270,000 requests, of which 36,525 are lists of 56 records.
pub fn requests() -> impl Iterator<Item = String> {
    ends_of_days()
        .chain(ends_of_minutes())
        .chain(pairs_within_a_day())
        .chain((0..2).flat_map(seconds_in_rows))
        .chain(seconds_in_records())
        .chain(high_bits())
        .chain((0..2).flat_map(counts))
        .chain(every_rack::requests())
}

#[cfg(test)]
mod tests {
    use super::*;
    use crate::protocol::{answer, numbers_answered};

    /// How many records join the only row in use, and how many open a second one. None is refused.
    fn joined_and_opened(requests: impl Iterator<Item = String>) -> [usize; 2] {
        let mut met = [0; 2];
        for request in requests {
            let answer = answer(&request);
            match &answer[..4] {
                "0 1 " => met[0] += 1,
                "0 2 " => met[1] += 1,
                _ => panic!("{request} {answer}"),
            }
        }
        met
    }

    #[test]
    fn the_days_are_those_of_the_calendar() {
        let days = days();
        assert_eq!(days.len(), 36_525);
        assert_eq!((days[0], days[36_524]), ([80, 1, 1], [79, 12, 31]));
        let leap_days = days.iter().filter(|day| day[1..] == [2, 29]);
        assert_eq!(leap_days.count(), 25);
    }

    #[test]
    fn a_run_and_two_pairs_of_twelve_join_at_the_end_of_each_day_but_the_last() {
        // Of all days every twenty-third, and the last one among them.
        let days = days();
        let places = (0..days.len()).step_by(23);
        let lists: Vec<String> = places.map(|place| end_of_day(&days, place)).collect();
        let last = lists.len() - 1;
        assert!(lists[last].contains("full:79:12:31,23:59:60"));
        for (place, list) in lists.iter().enumerate() {
            let answer = answer(list);
            let calls = answer.split(' ').next().unwrap();
            assert!(calls.split(';').all(|call| call.starts_with("0:")));
            // For each rack a row for the run and two for each pair that does not join, else one.
            let in_use = 2 * if place == last { 2 + 24 } else { 1 + 22 };
            assert!(calls.ends_with(&format!("0:{in_use}")), "{list} {calls}");
        }
    }

    #[test]
    fn seconds_that_join_within_a_day() {
        // 55 to 59 are followed by the next second, 59 and 60 by the next minute's first one.
        let minutes = 8 * 60;
        let expected = [minutes * (5 + 2), minutes * (6 * 9 - 7)];
        assert_eq!(joined_and_opened(ends_of_minutes()), expected);
        // Each second but 60, each minute but 59, each hour but 23.
        let joined = 60 + 59 + 23;
        let opened = 61 * 61 + 60 * 60 + 24 * 24 - joined;
        assert_eq!(joined_and_opened(pairs_within_a_day()), [joined, opened]);
    }

    #[test]
    fn each_second_is_taken_or_refused() {
        // All days of a hundred years, 24 hours, 60 minutes and 61 seconds.
        let possible = 36_525 + 24 + 60 + 61;
        let others = 46_200 + 156 + 300 - possible;
        for rack in [0, 1] {
            let rows = numbers_answered(seconds_in_rows(rack));
            assert_eq!(rows, [(0, possible), (21, others)].into());
        }
        let records = numbers_answered(seconds_in_records());
        assert_eq!(records, [(0, possible), (14, others)].into());
        assert_eq!(numbers_answered(high_bits()), [(21, 6 * 25)].into());
    }

    #[test]
    fn each_count_is_taken_or_refused() {
        // Six counts from zero on and six up to the highest that is taken; five over it and the last
        // six of all. A record that does not join needs a row, of which 32 leave none; the other rack
        // has none in use.
        let (good, over) = (6 + 6, 5 + 6);
        let own = [(0, good * 5), (15, good), (21, over * 6)];
        assert_eq!(numbers_answered(counts(0)), own.into());
        let others = [(0, good * 6), (21, over * 6)];
        assert_eq!(numbers_answered(counts(1)), others.into());
    }
}
