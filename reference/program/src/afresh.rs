//! Document 02, W-206: "the rows must equal those worked out afresh from the records not refused".
//! Here they are worked out with no table, and each rack's (W-207) with none of the other's records.
//! What is shared with the call is what a second is and which records are bad, and no step of it.

use crate::record::Record;
use crate::runs::{Row, Second, RACKS, ROWS_OF_A_RACK};

/// The number of a minute, by a formula, where the call counts. A year begins in March here, so that
/// its leap day is its last; the months from March have 153 days in every five.
pub(crate) fn minute_number(second: &Second) -> u64 {
    let (month, day) = (u64::from(second.month), u64::from(second.day));
    let century = if second.year < 80 { 2000 } else { 1900 };
    let mut year = century + u64::from(second.year);
    let mut months = month + 9;
    if month > 2 {
        months = month - 3;
    } else {
        year -= 1;
    }
    let days = 365 * year + year / 4 - year / 100 + year / 400 + (153 * months + 2) / 5 + day;
    days * 1440 + u64::from(second.hour) * 60 + u64::from(second.minute)
}

/// Whether one second is the next of another. Behind the calendar's last minute there is none, since
/// the minute numbers do not start again.
pub(crate) fn is_next(one: &Second, other: &Second) -> bool {
    let (minute, next) = (minute_number(one), minute_number(other));
    let in_this_minute = next == minute && other.second == one.second + 1;
    let in_the_next = next == minute + 1 && one.second >= 59 && other.second == 0;
    in_this_minute || in_the_next
}

/// The maximal runs of a list of seconds of one rack. Each second stands behind the place of its
/// record, and each run behind the place of its first.
fn maximal_runs(rack: u32, heard: &[(usize, Second)]) -> Vec<(usize, Row)> {
    let runs = heard.chunk_by(|(_, one), (_, other)| is_next(one, other));
    runs.map(|run| {
        let (place, first) = run[0];
        let (_, last) = run[run.len() - 1];
        let count = run.len() as u32;
        let row = Row {
            rack,
            first,
            last,
            count,
        };
        (place, row)
    })
    .collect()
}

/// What one rack's records come to if there are no others: the number of each, put at its place, and
/// the maximal runs of the list of those not refused. A record is refused with 15 if the runs of
/// those before it and of itself are more than 32.
fn rack_alone(rack: u32, records: &[(u32, Record)], numbers: &mut [u32]) -> Vec<(usize, Row)> {
    let mut heard = Vec::new();
    for (place, (_, record)) in records
        .iter()
        .enumerate()
        .filter(|(_, call)| call.0 == rack)
    {
        let second = Second::of(record);
        let (Some(second), false) = (second, record.is_bad()) else {
            numbers[place] = 14;
            continue;
        };
        heard.push((place, second));
        numbers[place] = 0;
        if maximal_runs(rack, &heard).len() > ROWS_OF_A_RACK {
            heard.pop();
            numbers[place] = 15;
        }
    }
    maximal_runs(rack, &heard)
}

/// What a list of records, each behind its rack, comes to, from an empty table: each record's number,
/// and the rows in use. They "stand in order of arrival", which is that of their first seconds. A
/// record that is of neither rack is refused with 16.
pub fn worked_out_afresh(records: &[(u32, Record)]) -> (Vec<u32>, Vec<Row>) {
    let mut numbers = vec![16; records.len()];
    let mut runs = Vec::new();
    for rack in 0..RACKS {
        runs.extend(rack_alone(rack, records, &mut numbers));
    }
    runs.sort_by_key(|(place, _)| *place);
    (numbers, runs.into_iter().map(|(_, row)| row).collect())
}

#[cfg(test)]
mod tests {
    use std::collections::BTreeMap;

    use super::*;
    use crate::generate::{record_list, Random};
    use crate::pairs::{between, BREAKS, ENDS};
    use crate::record::Date;
    use crate::runs::{add, minute_after, seconds_after, ROWS};

    fn at(numbers: [u32; 6]) -> Second {
        Second::from_numbers(numbers)
    }

    /// Both readings of "the next second", on two seconds.
    fn agree(one: &Second, two: &Second) {
        let after = seconds_after(one).contains(two);
        assert_eq!(is_next(one, two), after, "{one:?} {two:?}");
    }

    #[test]
    fn both_readings_of_the_next_second_agree_on_every_day() {
        let mut minute = at([80, 1, 1, 23, 59, 0]);
        let first = minute_number(&minute);
        let mut days = 1;
        loop {
            assert_eq!(minute_number(&minute), first + (days - 1) * 1440);
            let seconds = around(minute);
            for one in &seconds {
                seconds.iter().for_each(|two| agree(one, two));
            }
            let Some(next) = minute_after(&minute) else {
                break;
            };
            minute = Second {
                hour: 23,
                minute: 59,
                ..next
            };
            days += 1;
        }
        assert_eq!(minute, at([79, 12, 31, 23, 59, 0]));
        assert_eq!(days, 36_525);
    }

    #[test]
    fn both_readings_of_the_next_second_agree_within_a_day() {
        for minute in 0..1440 {
            let seconds = around(at([24, 2, 28, minute / 60, minute % 60, 0]));
            for one in &seconds {
                seconds.iter().for_each(|two| agree(one, two));
            }
        }
        let minute = (0..=60).map(|second| at([24, 2, 28, 12, 0, second]));
        for one in minute.clone() {
            minute.clone().for_each(|two| agree(&one, &two));
        }
    }

    /// Adds a list to an empty table and compares every answer and every row with those worked out
    /// afresh. Answers both.
    fn compare(records: &[(u32, Record)]) -> (Vec<u32>, Vec<Row>) {
        let mut table = vec![Row::default(); ROWS];
        let (mut used, mut numbers) = (0, Vec::new());
        for (rack, record) in records {
            let (number, then) = add(&mut table, used, *rack, record);
            assert!(then == used || (number == 0 && then == used + 1));
            used = then;
            numbers.push(number);
        }
        let (expected, mut runs) = worked_out_afresh(records);
        assert_eq!(numbers, expected);
        assert_eq!(used as usize, runs.len());
        runs.resize(ROWS, Row::default());
        assert_eq!(table, runs);
        table.truncate(used as usize);
        (numbers, table)
    }

    /// The last three seconds of a minute and the first two of the next. After the calendar's last
    /// minute its first one stands, which does not follow.
    fn around(minute: Second) -> [Second; 5] {
        let next = minute_after(&minute).unwrap_or(at([80, 1, 1, 0, 0, 0]));
        let second = |minute: Second, second| Second { second, ..minute };
        [
            second(minute, 58),
            second(minute, 59),
            second(minute, 60),
            second(next, 0),
            second(next, 1),
        ]
    }

    #[test]
    fn every_short_list_around_every_kind_of_end() {
        for end in [
            [24, 1, 1, 12, 0, 0],
            [24, 1, 1, 12, 59, 0],
            [24, 1, 1, 23, 59, 0],
            [24, 4, 30, 23, 59, 0],
            [24, 2, 28, 23, 59, 0],
            [24, 2, 29, 23, 59, 0],
            [23, 2, 28, 23, 59, 0],
            [0, 2, 28, 23, 59, 0],
            [16, 12, 31, 23, 59, 0],
            [99, 12, 31, 23, 59, 0],
            [79, 12, 31, 23, 59, 0],
        ] {
            let seconds = around(at(end));
            // Four digits to the base of five name each list of four.
            for list in 0..625 {
                let places = [list / 125, list / 25 % 5, list / 5 % 5, list % 5];
                compare(&places.map(|place| (0, seconds[place].record())));
            }
        }
    }

    #[test]
    fn every_short_list_over_both_racks() {
        let seconds = around(at([16, 12, 31, 23, 59, 0]));
        // Five digits to the base of eight name each list of five: a rack, and one of the seconds from
        // 59 on.
        for list in 0..8_usize.pow(5) {
            let digits = [0, 1, 2, 3, 4].map(|digit| list >> (3 * digit) & 7);
            compare(&digits.map(|digit| (digit as u32 % 2, seconds[1 + digit / 2].record())));
        }
    }

    /// What a record is in itself.
    fn kind(record: &Record, number: u32) -> &'static str {
        match (record.date, number) {
            (_, 0) => "not refused",
            (_, 15) => "refused for a row",
            (_, 16) => "refused for its rack",
            (None, _) => "no date",
            (Some(Date::DayOfYear(_)), _) => "a day of year",
            _ => "bad",
        }
    }

    /// The numbers of one rack's records, and its seconds that are not refused.
    fn of_rack(rack: u32, records: &[(u32, Record)], numbers: &[u32]) -> (Vec<u32>, Vec<Second>) {
        let told = records.iter().zip(numbers);
        let own = told.filter(|((of, _), _)| *of == rack);
        let heard = own.clone().filter(|(_, number)| **number == 0);
        let heard = heard.filter_map(|((_, record), _)| Second::of(record));
        (
            own.clone().map(|(_, number)| *number).collect(),
            heard.collect(),
        )
    }

    fn is_joined_when_full(numbers: &[u32]) -> bool {
        let full = numbers.iter().position(|number| *number == 15);
        full.is_some_and(|place| numbers[place..].contains(&0))
    }

    /// What is met in a list of which these are the rows in the end.
    fn kinds(records: &[(u32, Record)], numbers: &[u32], rows: &[Row]) -> Vec<&'static str> {
        let told = records.iter().zip(numbers);
        let mut kinds: Vec<_> = told
            .map(|((_, record), number)| kind(record, *number))
            .collect();
        let own = [0, 1].map(|rack| of_rack(rack, records, numbers));
        for (numbers, heard) in &own {
            kinds.extend(
                heard
                    .windows(2)
                    .flat_map(|pair| between(&pair[0], &pair[1])),
            );
            kinds.extend(is_joined_when_full(numbers).then_some("a join where 32 are in use"));
        }
        let turns = rows.windows(2).filter(|pair| pair[0].rack != pair[1].rack);
        for (what, holds) in [
            ("rack 0 alone", rows.iter().all(|row| row.rack == 0)),
            ("rack 1 alone", rows.iter().all(|row| row.rack == 1)),
            ("the racks in turn", turns.count() > 8),
            ("both full", rows.len() == ROWS),
            ("one full", own[0].0.contains(&15) != own[1].0.contains(&15)),
        ] {
            kinds.extend(holds.then_some(what));
        }
        kinds
    }

    #[test]
    fn seeded_lists_come_to_the_runs_worked_out_afresh() {
        let mut random = Random::new(206);
        let mut met: BTreeMap<&str, usize> = BTreeMap::new();
        for _ in 0..3000 {
            let records = record_list(&mut random);
            let (numbers, rows) = compare(&records);
            for what in kinds(&records, &numbers, &rows) {
                *met.entry(what).or_default() += 1;
            }
        }
        assert_eq!(met.len(), ENDS + BREAKS + 6 + 1 + 5, "{met:?}");
        assert!(met.values().all(|times| *times > 50), "{met:?}");
    }
}
