//! Requests for the runs of W-206 and W-207: seconds and records in turn.

use super::{good_date, good_full_date, good_record, lists, spoil, tables, Random};
use crate::record::{Date, Record};
use crate::runs::{seconds_after, Second};

/// Days at whose end a month, a year, a century or the calendar ends, the days beside them, and
/// those of February with and without a leap day.
const DAYS: [[u32; 3]; 25] = [
    [24, 2, 28],
    [24, 2, 29],
    [23, 2, 28],
    [0, 2, 28],
    [0, 2, 29],
    [80, 2, 29],
    [96, 2, 28],
    [99, 2, 28],
    [76, 2, 29],
    [79, 2, 28],
    [24, 1, 31],
    [24, 4, 30],
    [91, 6, 30],
    [24, 9, 30],
    [24, 10, 31],
    [23, 11, 30],
    [23, 12, 31],
    [16, 12, 31],
    [98, 12, 31],
    [99, 12, 31],
    [99, 12, 31],
    [80, 1, 1],
    [79, 12, 30],
    [79, 12, 31],
    [79, 12, 31],
];

/// A possible second, mostly before the end of a minute, an hour or a day.
pub(super) fn good_second(random: &mut Random) -> Second {
    let [year, month, day] = match good_full_date(random) {
        Date::Full { year, month, day } if random.one_in(2) => [year, month, day],
        _ => random.pick(&DAYS),
    };
    let (hour, minute) = match random.below(4) {
        0 => (random.below(24) as u32, random.below(60) as u32),
        1 => (random.number(23, &[0, 9, 22]), 59),
        _ => (23, 59),
    };
    let second = if random.one_in(4) {
        random.below(61) as u32
    } else {
        random.pick(&[0, 57, 58, 59, 59, 59, 60, 60])
    };
    Second::from_numbers([year, month, day, hour, minute, second])
}

/// The calendar's first second, which does not follow its last.
const CALENDARS_FIRST: [u32; 6] = [80, 1, 1, 0, 0, 0];

/// A second that may come next.
pub(super) fn next(second: &Second, random: &mut Random) -> Second {
    let after = seconds_after(second);
    if after.is_empty() {
        Second::from_numbers(CALENDARS_FIRST)
    } else {
        random.pick(&after)
    }
}

/// What a wrong carry takes for the next second: one number goes up by one or stays, and those
/// behind it start again.
pub(super) fn carried(second: &Second, random: &mut Random) -> Second {
    let mut numbers = second.numbers();
    let place = random.below(5);
    numbers[place] += random.pick(&[0, 1, 1]);
    numbers[place + 1..].copy_from_slice(&CALENDARS_FIRST[place + 1..]);
    Second::from_numbers(numbers)
}

/// A record of this second: nothing else in it, or any other fields, which play no part.
pub(super) fn record_of(second: &Second, random: &mut Random) -> Record {
    if random.one_in(2) {
        second.record()
    } else {
        second.told_by(good_record(9, random))
    }
}

/// A record that is mostly refused: without a full date, or bad.
pub(super) fn refused(mut record: Record, random: &mut Random) -> Record {
    match random.below(8) {
        0 => record.date = None,
        1 => record.date = Some(good_date(random)),
        2 => record.date = Some(Date::DayOfYear(1 + random.below(366) as u32)),
        3 => {
            record.utc = Some(true);
            record.summer = Some(true);
        }
        _ => spoil(&mut record, random),
    }
    record
}

/// A possible second that mostly does not come next: a repeat, one after a gap, an earlier one of the
/// list, one after a wrong carry, or one elsewhere.
fn jump(heard: &[Second], random: &mut Random) -> Second {
    let now = heard[heard.len() - 1];
    let two = next(&now, random);
    let other = match random.below(5) {
        0 => now,
        1 => next(&two, random),
        2 => random.pick(heard),
        3 => carried(&now, random),
        _ => good_second(random),
    };
    if other.is_possible() {
        other
    } else {
        good_second(random)
    }
}

/// Up to so many records as a clock sends them, with one jump in so many of them, from a list of
/// nothing else to a list of nearly none.
pub(super) fn clock(longest: usize, random: &mut Random) -> Vec<Record> {
    let edges = [0, 1, 2, 32, 33, 34, 100, longest as u32];
    let length = random.number(longest as u32, &edges) as usize;
    let calm = random.pick(&[1, 2, 4, 16, 64]);
    let mut heard = vec![good_second(random)];
    let mut records = Vec::new();
    while records.len() < length {
        let now = heard[heard.len() - 1];
        let record = record_of(&now, random);
        match random.below(64) {
            // Nothing stands in place of the second, or a refused record in place of it or before it,
            // or a second that the clock then does not go on from.
            0 => {}
            1 => records.push(refused(record, random)),
            2..=4 => records.extend([refused(record, random), record]),
            5..=12 => records.extend([jump(&heard, random).record(), record]),
            _ => records.push(record),
        }
        heard.push(if random.one_in(calm) {
            jump(&heard, random)
        } else {
            next(&now, random)
        });
    }
    records.truncate(length);
    records
}

/// A single call, or sometimes a list, which takes as long as many calls.
pub(super) fn request(random: &mut Random) -> String {
    if random.one_in(10) {
        lists::request(random)
    } else {
        tables::request(random)
    }
}

#[cfg(test)]
mod tests {
    use crate::generate::Requests;
    use crate::protocol::answer;

    #[test]
    fn one_request_in_twelve_is_for_runs_and_some_are_lists() {
        let (mut single, mut lists, mut refused, mut full) = (0, 0, [0, 0], 0);
        let mut longest = 0;
        for request in Requests::new(5).take(28_800) {
            if request.starts_with("add ") {
                single += 1;
            } else if request.starts_with("addall ") {
                lists += 1;
                let answer = answer(&request);
                let calls: Vec<&str> = answer.split(' ').next().unwrap().split(';').collect();
                let met = |start: &str| calls.iter().any(|call| call.starts_with(start));
                refused[0] += usize::from(met("15:"));
                refused[1] += usize::from(met("16:"));
                full += usize::from(met("15:64"));
                longest = longest.max(calls.len());
            }
        }
        assert_eq!(single + lists, 2400);
        assert!((100..300).contains(&lists), "{lists}");
        assert!(
            refused[0].min(refused[1]).min(full) > 20,
            "{refused:?} {full}"
        );
        assert_eq!(longest, 200);
    }
}
