//! Tests: document 02, W-207 ("Two racks, one table"), by calls on tables of which every number is
//! told.

use crate::record::Record;
use crate::runs::{add, Row, Second, HIGHEST_COUNT, ROWS, ROWS_OF_A_RACK};

fn at(numbers: [u32; 6]) -> Second {
    Second::from_numbers(numbers)
}

/// A second of one minute, to which the rows are to be told apart.
fn second(second: u32) -> Second {
    at([24, 2, 29, 12, 0, second])
}

/// A run of one second.
fn run(rack: u32, at: Second) -> Row {
    Row {
        rack,
        first: at,
        last: at,
        count: 1,
    }
}

/// A table of 64 rows which begins with these.
fn table(rows: &[Row]) -> Vec<Row> {
    let mut table = rows.to_vec();
    table.resize(ROWS, Row::default());
    table
}

/// The answer, where the call must change nothing.
fn unchanged(table: &[Row], used: u32, rack: u32, record: &Record) -> (u32, u32) {
    let mut after = table.to_vec();
    let answer = add(&mut after, used, rack, record);
    assert_eq!(after, table);
    answer
}

#[test]
fn a_record_joins_the_newest_run_of_its_own_rack() {
    let rows = [run(0, second(10)), run(1, second(20)), run(1, second(30))];
    for (rack, place, last) in [(0, 0, 11), (1, 2, 31)] {
        let mut joined = table(&rows);
        assert_eq!(add(&mut joined, 3, rack, &second(last).record()), (0, 3));
        let mut expected = table(&rows);
        expected[place].last = second(last);
        expected[place].count = 2;
        assert_eq!(joined, expected);
    }
    // The next of the other rack's newest run, of its own older run, and of a row not in use.
    for (rack, used, heard) in [(0, 3, 31), (1, 3, 11), (1, 3, 21), (1, 2, 31)] {
        let mut opened = table(&rows);
        let answer = add(&mut opened, used, rack, &second(heard).record());
        assert_eq!(answer, (0, used + 1));
        let mut expected = table(&rows);
        expected[used as usize] = run(rack, second(heard));
        assert_eq!(opened, expected);
    }
}

/// As many rows of rack 0 and then of rack 1; the newest of each has second 10 and 20.
fn split(zeros: usize, ones: usize) -> Vec<Row> {
    let mut rows = vec![run(0, second(40)); zeros];
    rows.extend(vec![run(1, second(50)); ones]);
    if zeros > 0 {
        rows[zeros - 1] = run(0, second(10));
    }
    if ones > 0 {
        rows[zeros + ones - 1] = run(1, second(20));
    }
    table(&rows)
}

#[test]
fn each_rack_may_open_32() {
    for (zeros, ones) in [(32, 0), (0, 32), (32, 31), (31, 32), (32, 32)] {
        let used = (zeros + ones) as u32;
        for (rack, own, next) in [(0, zeros, 11), (1, ones, 21)] {
            let full = own == ROWS_OF_A_RACK;
            let mut rows = split(zeros, ones);
            let apart = second(0).record();
            if full {
                assert_eq!(unchanged(&rows, used, rack, &apart), (15, used));
                assert_eq!(
                    add(&mut rows, used, rack, &second(next).record()),
                    (0, used)
                );
            } else {
                assert_eq!(add(&mut rows, used, rack, &apart), (0, used + 1));
                assert_eq!(rows[used as usize], run(rack, second(0)));
            }
        }
    }
}

#[test]
fn over_32_of_one_rack_is_21_for_both() {
    for (zeros, ones) in [(33, 0), (0, 33), (33, 31), (31, 33), (64, 0), (0, 64)] {
        let used = (zeros + ones) as u32;
        for (rack, next) in [(0, 11), (1, 21)] {
            let rows = split(zeros, ones);
            assert_eq!(
                unchanged(&rows, used, rack, &second(next).record()),
                (21, used)
            );
            // With the row at the end not in use, only the racks with 33 have too many.
            let mut fewer = split(zeros, ones);
            let refused = zeros > 33 || ones > 33 || (zeros == 33 && ones > 0);
            let answer = add(&mut fewer, used - 1, rack, &second(next).record());
            assert_eq!(answer.0 == 21, refused, "{zeros} {ones}");
        }
    }
}

#[test]
fn another_rack_number_in_use_is_21_and_beyond_it_is_not_looked_at() {
    for wrong in [2, 3, 256, 257, 1 << 31, u32::MAX] {
        for place in 0..ROWS {
            let mut rows = split(32, 31);
            rows[place].rack = wrong;
            let record = second(21).record();
            let answer = add(&mut rows.clone(), 63, 1, &record);
            assert_eq!(answer.0 == 21, place < 63, "{wrong} {place}");
        }
    }
}

/// A last second that is impossible, and a count that is over.
fn spoiled(row: Row) -> [Row; 2] {
    let mut rows = [row; 2];
    rows[0].last.hour = 24;
    rows[1].count = HIGHEST_COUNT + 1;
    rows
}

#[test]
fn both_newest_rows_are_read_and_no_older_one() {
    let rows = [0, 1, 0, 1, 1].map(|rack| run(rack, second(30)));
    for place in 0..rows.len() {
        for row in spoiled(rows[place]) {
            let mut table = table(&rows);
            table[place] = row;
            for rack in [0, 1] {
                let answer = add(&mut table.clone(), 5, rack, &second(31).record());
                let is_newest = place == 2 || place == 4;
                assert_eq!(answer.0 == 21, is_newest, "{place} {rack}");
            }
        }
    }
}

#[test]
fn refusal_16_is_first_of_all() {
    let good = second(31).record();
    let no_date = Record { date: None, ..good };
    let mut spoiled = table(&[run(0, second(30)), run(2, second(30))]);
    spoiled[1].last.hour = 24;
    for wrong in [2, 3, 255, 256, 257, 1 << 16, 1 << 31, u32::MAX] {
        for record in [good, no_date] {
            let full = split(32, 32);
            for (table, used) in [
                (&full, 64),
                (&full, 65),
                (&full[..63].to_vec(), 63),
                (&Vec::new(), u32::MAX),
                (&spoiled, 2),
                (&spoiled, 0),
            ] {
                assert_eq!(unchanged(table, used, wrong, &record), (16, used));
            }
        }
    }
}

#[test]
fn then_21_then_14_then_15() {
    let no_date = Record::default();
    for rack in [0, 1] {
        assert_eq!(unchanged(&split(33, 31), 64, rack, &no_date), (21, 64));
        assert_eq!(unchanged(&split(31, 33), 64, rack, &no_date), (21, 64));
        assert_eq!(unchanged(&split(32, 32), 64, rack, &no_date), (14, 64));
        let apart = second(0).record();
        assert_eq!(unchanged(&split(32, 32), 64, rack, &apart), (15, 64));
    }
}
