//! The library's answers to the requests for runs of heard seconds of two racks.

use lindenscoop::{add_second, Record, Row, Run, Second};
use reference::protocol::{parse_records, parse_table, spell_table};
use reference::runs::ROWS;

use crate::convert;

fn row(row: &reference::runs::Row) -> Row {
    let second = |numbers: [u32; 6]| {
        let [yy, month, day, hour, minute, second] = numbers;
        Second {
            yy,
            month,
            day,
            hour,
            minute,
            second,
        }
    };
    let run = Run {
        first: second(row.first.numbers()),
        last: second(row.last.numbers()),
        count: row.count,
    };
    Row {
        rack: row.rack,
        run,
    }
}

fn back(row: &Row) -> reference::runs::Row {
    let second = |s: Second| {
        reference::runs::Second::from_numbers([s.yy, s.month, s.day, s.hour, s.minute, s.second])
    };
    reference::runs::Row {
        rack: row.rack,
        first: second(row.run.first),
        last: second(row.run.last),
        count: row.run.count,
    }
}

fn spelled(rows: &[Row]) -> String {
    let rows: Vec<reference::runs::Row> = rows.iter().map(back).collect();
    spell_table(&rows)
}

/// The number of a call's answer, and the number in use.
fn call(rows: &mut [Row], used: u32, rack: u32, record: &Record) -> (u32, u32) {
    let (used, told) = add_second(rows, used, rack, record);
    (told.err().map_or(0, |refusal| refusal.number()), used)
}

/// One call on a table of any length.
pub fn answer_add(table: [&str; 2], used: &str, rack: &str, record: &Record) -> Option<String> {
    let [length, rows] = table;
    let table = parse_table(length.parse().ok()?, rows)?;
    let mut rows: Vec<Row> = table.iter().map(row).collect();
    let (number, used) = call(&mut rows, used.parse().ok()?, rack.parse().ok()?, record);
    Some(format!("{number} {used} {}", spelled(&rows)))
}

/// A list of records, each with its rack, from an empty table, each on what the one before it left.
pub fn answer_add_all(records: &str) -> Option<String> {
    let mut rows = [Row::default(); ROWS];
    let mut used = 0;
    let mut calls = Vec::new();
    for (rack, record) in parse_records(records)? {
        let (number, after) = call(&mut rows, used, rack, &convert::record(&record));
        used = after;
        calls.push(format!("{number}:{used}"));
    }
    let calls = if calls.is_empty() {
        "-".to_string()
    } else {
        calls.join(";")
    };
    Some(format!("{calls} {}", spelled(&rows)))
}
