//! Tables of runs that no calls made, and records that tell no second.

use lindenscoop::{
    add_second, Added, Date, Fraction, Position, Record, Refusal, Row, Run, Runs, Second,
};

use crate::runs::{alone, filled, newest, record, refused, rows_of, second, told, LAYOUTS};

const LARGEST_COUNT: u32 = 4_000_000_000;

/// Refused as no table, whichever rack the record is of and whether or not it tells a second; and first of all where there is no such rack.
fn no_table(rows: &mut [Row], used: u32, record: &Record) {
    for record in [record, &Record::default()] {
        for rack in 0..Runs::RACKS {
            refused(rows, used, rack, record, Refusal::BadTable);
        }
        refused(rows, used, Runs::RACKS, record, Refusal::NoRack);
    }
}

#[test]
fn what_is_no_table_is_refused_before_the_record() {
    let good = told("24-02-29 12:03:08");
    for layout in LAYOUTS {
        for rows in [0, 1, 4, 63, 65, 128] {
            let mut table = [filled(layout), filled(layout)].concat();
            for used in [0, 1, 4, 64, 65, u32::MAX] {
                no_table(&mut table[..rows], used, &good);
            }
        }
        // rows that could be the newest stand behind the table
        let mut table = [filled(layout), filled(layout)].concat();
        for used in [65, 66, 68, 128, 1 << 16, u32::MAX] {
            no_table(&mut table[..64], used, &good);
        }
    }
}

/// Wherever the row stands; behind the rows in use it is not looked at.
#[test]
fn a_row_in_use_of_another_rack_is_refused() {
    let other = second("91-06-30 23:59:60");
    for wrong in [2, 3, 32, 1 << 31, u32::MAX] {
        for used in [0, 1, 2, 33, 63, 64_u32] {
            for place in 0..64 {
                let mut rows = filled(LAYOUTS[0]);
                rows[place].rack = wrong;
                if place < used as usize {
                    no_table(&mut rows, used, &record(other));
                    continue;
                }
                let mut expected = rows;
                expected[used as usize] = alone(1, other);
                let told = add_second(&mut rows, used, 1, &record(other));
                assert_eq!((told, rows), ((used + 1, Ok(Added::Opened)), expected));
            }
        }
    }
}

/// 32 rows of a rack are a table; those behind the rows in use do not count.
#[test]
fn over_32_rows_of_one_rack_are_refused() {
    let other = second("91-06-30 23:59:60");
    for rack in 0..Runs::RACKS {
        for used in 0..=64 {
            let mut rows = filled([|_| 0, |_| 1][rack as usize]);
            if used > 32 {
                no_table(&mut rows, used, &record(other));
                continue;
            }
            let (mut own, mut expected) = (rows, rows);
            expected[used as usize] = alone(1 - rack, other);
            let told = add_second(&mut rows, used, 1 - rack, &record(other));
            assert_eq!((told, rows), ((used + 1, Ok(Added::Opened)), expected));
            if used == 32 {
                refused(&mut own, used, rack, &record(other), Refusal::NoRow);
                continue;
            }
            expected[used as usize] = alone(rack, other);
            let told = add_second(&mut own, used, rack, &record(other));
            assert_eq!((told, own), ((used + 1, Ok(Added::Opened)), expected));
        }
    }
}

/// Last seconds that the calendar does not have.
fn impossible() -> Vec<Second> {
    let texts = [
        "24-00-01 12:00:00",
        "24-13-01 12:00:00",
        "24-02-00 12:00:00",
        "24-02-30 12:00:00",
        "23-02-29 12:00:00",
        "24-04-31 12:00:00",
        "24-01-32 12:00:00",
        "24-02-29 24:00:00",
        "24-02-29 12:60:00",
        "24-02-29 12:00:61",
    ];
    let numbers: [fn(&mut Second) -> &mut u32; 6] = [
        |second| &mut second.yy,
        |second| &mut second.month,
        |second| &mut second.day,
        |second| &mut second.hour,
        |second| &mut second.minute,
        |second| &mut second.second,
    ];
    let mut seconds = texts.map(second).to_vec();
    for number in numbers {
        for wide in [100, 1991, u32::MAX] {
            let mut wrong = second("24-02-29 12:00:07");
            *number(&mut wrong) = wide;
            seconds.push(wrong);
        }
    }
    seconds
}

/// Whichever rack the record is of.
#[test]
fn an_impossible_last_second_is_refused_in_either_newest_row() {
    let next = told("24-02-29 12:00:08");
    for (layout, used) in LAYOUTS
        .into_iter()
        .flat_map(|l| [1, 2, 33, 63, 64].map(|u| (l, u)))
    {
        for last in impossible() {
            for rack in 0..Runs::RACKS {
                let mut rows = filled(layout);
                let Some(place) = newest(&rows, used, rack) else {
                    continue;
                };
                rows[place].run.last = last;
                no_table(&mut rows, used, &record(last));
                no_table(&mut rows, used, &next);
            }
        }
    }
}

/// Rows of which each is wrong but for the last second and the count of the two newest ones.
fn hardly_right(layout: fn(u32) -> u32, used: u32, wrong: Second) -> [Row; Runs::ROWS] {
    let run = |first, last, count| Run { first, last, count };
    let mut rows = filled(layout);
    for row in rows.iter_mut() {
        row.run = run(wrong, wrong, u32::MAX);
    }
    let both = [0, 1].map(|rack| newest(&rows, used, rack));
    for place in both.into_iter().flatten() {
        rows[place].run = run(wrong, second("24-02-29 12:00:07"), 8);
    }
    rows
}

/// Of the two newest rows the first second, of those before them the run, of those behind them all.
#[test]
fn the_rest_of_a_table_is_not_looked_at() {
    let (next, other) = (second("24-02-29 12:00:08"), second("91-06-30 23:59:60"));
    for (layout, used) in LAYOUTS
        .into_iter()
        .flat_map(|l| [1, 2, 33, 63, 64].map(|u| (l, u)))
    {
        for (wrong, rack) in impossible().into_iter().flat_map(|w| [(w, 0), (w, 1)]) {
            let mut rows = hardly_right(layout, used, wrong);
            rows[used as usize..]
                .iter_mut()
                .for_each(|row| row.rack = 7);
            let (mut joined, mut opened, mut expected) = (rows, rows, rows);
            if let Some(place) = newest(&rows, used, rack) {
                (expected[place].run.last, expected[place].run.count) = (next, 9);
                let told = add_second(&mut joined, used, rack, &record(next));
                assert_eq!((told, joined), ((used, Ok(Added::Joined)), expected));
            }
            if rows_of(&rows, used, rack) == Runs::RACK_ROWS {
                refused(&mut opened, used, rack, &record(other), Refusal::NoRow);
                continue;
            }
            let told = add_second(&mut opened, used, rack, &record(other));
            rows[used as usize] = alone(rack, other);
            assert_eq!((told, opened), ((used + 1, Ok(Added::Opened)), rows));
        }
    }
}

#[test]
fn a_count_over_the_largest_is_refused_in_either_newest_row() {
    let next = told("24-02-29 12:00:08");
    for rack in 0..Runs::RACKS {
        let place = rack as usize;
        let mut rows = filled(LAYOUTS[0]);
        rows[place].run.last.minute = 0;
        for (count, grown) in [(0, 1), (1, 2), (LARGEST_COUNT, LARGEST_COUNT + 1)] {
            let mut rows = rows;
            rows[place].run.count = count;
            let added = add_second(&mut rows, 2, rack, &next);
            let found = rows[place].run.count;
            assert_eq!((added, found), ((2, Ok(Added::Joined)), grown));
        }
        for count in [LARGEST_COUNT + 1, u32::MAX] {
            rows[place].run.count = count;
            for record in [next, told("91-01-01 00:00:00")] {
                no_table(&mut rows, 2, &record);
                // the row of this rack is not its newest one any more
                let told = add_second(&mut rows.clone(), 4, rack, &record);
                assert_eq!(told, (5, Ok(Added::Opened)));
            }
        }
    }
}

/// Records that tell no second: without a full date, or bad in a field that the second has no part in.
fn without_a_second() -> Vec<Record> {
    fn in_minutes(latitude: i32) -> Option<Position> {
        Some(Position::Minutes {
            latitude,
            longitude: 0,
        })
    }
    let changes: [fn(&mut Record); 9] = [
        |record| *record = Record::default(),
        |record| record.date = None,
        |record| record.date = Some(Date::DayOfYear(60)),
        |record| (record.utc, record.summer) = (Some(true), Some(true)),
        |record| record.offset = Some(841),
        |record| record.channel = Some(2),
        |record| record.fraction = Some(Fraction::Hundredths(100)),
        |record| record.position = in_minutes(540_001),
        |record| record.position = in_minutes(i32::MIN),
    ];
    let bad = changes.into_iter().map(|change| {
        let mut record = told("24-02-29 12:00:08");
        change(&mut record);
        record
    });
    bad.chain(impossible().into_iter().map(record)).collect()
}

/// Before the want of a row, behind the table.
#[test]
fn a_record_without_a_second_is_refused() {
    for record in without_a_second() {
        for rack in 0..Runs::RACKS {
            for (layout, used) in LAYOUTS
                .into_iter()
                .flat_map(|l| [0, 1, 32, 63, 64].map(|u| (l, u)))
            {
                refused(&mut filled(layout), used, rack, &record, Refusal::NoSecond);
            }
            let mut runs = Runs::new();
            assert_eq!(runs.add(rack, &record), Err(Refusal::NoSecond));
            assert_eq!(runs, Runs::new());
        }
    }
}
