//! The requests for the runs of W-206 and W-207: tables, lists of records and the answers of calls as
//! text.

use super::{parse_fields, parse_number, spell_fields};
use crate::record::Record;
use crate::runs::{add, Row, Second, ROWS};

/// Stands between the entries of a list, and neither in a record nor in a row.
const SEPARATOR: &str = ";";

/// A list as one word; no entries at all are `-`.
fn joined(entries: Vec<String>) -> String {
    if entries.is_empty() {
        "-".to_string()
    } else {
        entries.join(SEPARATOR)
    }
}

fn entries(text: &str) -> Vec<&str> {
    if text == "-" {
        Vec::new()
    } else {
        text.split(SEPARATOR).collect()
    }
}

fn parse_second(numbers: &[u32]) -> Option<Second> {
    Some(Second::from_numbers(numbers.try_into().ok()?))
}

/// A row with its place: the place, the rack, six numbers of the first second, six of the last, the
/// count.
fn parse_row(text: &str) -> Option<(usize, Row)> {
    let (place, numbers) = text.split_once(':')?;
    let numbers: Option<Vec<u32>> = numbers.split(':').map(parse_number).collect();
    let numbers = numbers?;
    if numbers.len() != 14 {
        return None;
    }
    let row = Row {
        rack: numbers[0],
        first: parse_second(&numbers[1..7])?,
        last: parse_second(&numbers[7..13])?,
        count: numbers[13],
    };
    Some((parse_number(place)?, row))
}

fn spell_row(place: usize, row: &Row) -> String {
    let mut numbers = vec![place.to_string(), row.rack.to_string()];
    numbers.extend(row.first.numbers().map(|number| number.to_string()));
    numbers.extend(row.last.numbers().map(|number| number.to_string()));
    numbers.push(row.count.to_string());
    numbers.join(":")
}

/// A table of a length. Rows that the text does not give are all zero; one that it gives lies inside
/// the table.
pub fn parse_table(length: usize, text: &str) -> Option<Vec<Row>> {
    let mut table = vec![Row::default(); length];
    for entry in entries(text) {
        let (place, row) = parse_row(entry)?;
        *table.get_mut(place)? = row;
    }
    Some(table)
}

/// The rows that are not all zero, in the order of their places.
pub fn spell_table(table: &[Row]) -> String {
    let rows = table.iter().enumerate();
    let rows = rows.filter(|(_, row)| **row != Row::default());
    joined(rows.map(|(place, row)| spell_row(place, row)).collect())
}

/// The request for one call.
pub fn spell_add(table: &[Row], used: u32, rack: u32, record: &Record) -> String {
    let (length, rows) = (table.len(), spell_table(table));
    format!("add {length} {used} {rack} {rows} {}", spell_fields(record))
}

/// Stands between a record's rack and its fields, and in neither.
const RACK_END: char = '=';

fn parse_record(text: &str) -> Option<(u32, Record)> {
    let (rack, fields) = text.split_once(RACK_END)?;
    Some((parse_number(rack)?, parse_fields(fields)?))
}

/// Records, each behind its rack.
pub fn parse_records(text: &str) -> Option<Vec<(u32, Record)>> {
    entries(text).into_iter().map(parse_record).collect()
}

pub fn spell_records(records: &[(u32, Record)]) -> String {
    let records = records.iter();
    let spelled = records.map(|(rack, record)| format!("{rack}{RACK_END}{}", spell_fields(record)));
    joined(spelled.collect())
}

pub(super) fn answer_add(mut table: Vec<Row>, used: u32, rack: u32, record: &Record) -> String {
    let (number, used) = add(&mut table, used, rack, record);
    format!("{number} {used} {}", spell_table(&table))
}

/// Each call is handed the table and the number in use that the call before it left.
pub(super) fn answer_add_all(records: &[(u32, Record)]) -> String {
    let mut table = vec![Row::default(); ROWS];
    let mut used = 0;
    let mut calls = Vec::new();
    for (rack, record) in records {
        let (number, used_then) = add(&mut table, used, *rack, record);
        used = used_then;
        calls.push(format!("{number}:{used}"));
    }
    format!("{} {}", joined(calls), spell_table(&table))
}

#[cfg(test)]
mod tests {
    use super::*;
    use crate::protocol::answer;

    const ROW: &str = "1:1:24:2:29:23:59:58:24:2:29:23:59:59:2";

    fn fields(date: &str, time: &str) -> String {
        format!("{date},{time},-,-,-,-,-,-,-,-,-,-,-,-")
    }

    #[test]
    fn tables_go_both_ways() {
        let huge = "63:4294967295:0:0:0:0:0:0:0:0:0:0:0:0:4294967295";
        let rack = "2:4294967295:0:0:0:0:0:0:0:0:0:0:0:0:0";
        for text in ["-", ROW, huge, rack, &format!("{ROW};{rack};{huge}")] {
            let table = parse_table(64, text).unwrap();
            assert_eq!(table.len(), 64);
            assert_eq!(spell_table(&table), text);
        }
        let table = parse_table(2, ROW).unwrap();
        assert_eq!(table[0], Row::default());
        assert_eq!(table[1].rack, 1);
        assert_eq!(table[1].first.numbers(), [24, 2, 29, 23, 59, 58]);
        assert_eq!(table[1].last.numbers(), [24, 2, 29, 23, 59, 59]);
        assert_eq!(table[1].count, 2);
    }

    #[test]
    fn a_text_that_is_no_table() {
        let (short, long) = (&ROW[..ROW.len() - 2], format!("{ROW}:0"));
        let negative = ROW.replace("24", "-24");
        let over = format!("{short}:4294967296");
        for text in ["", ";", "1", "x", short, &long, &negative, &over] {
            assert_eq!(parse_table(64, text), None, "{text}");
        }
        assert_eq!(parse_table(1, ROW), None);
    }

    #[test]
    fn lists_of_records_go_both_ways() {
        let one = format!("1={}", fields("full:24:2:29", "23:59:60"));
        let other = format!("4294967295={}", fields("-", "0:0:0"));
        for text in ["-", &one, &format!("{one};{other};{one}")] {
            assert_eq!(spell_records(&parse_records(text).unwrap()), text);
        }
        let without = &one[2..];
        for rack in ["", "=", "x=", "-1=", "4294967296=", "1=1="] {
            let text = format!("{rack}{without}");
            assert_eq!(parse_records(&text), None, "{text}");
        }
        assert_eq!(parse_records(""), None);
        assert_eq!(parse_records("-;-"), None);
    }

    #[test]
    fn single_calls_are_answered() {
        let next = fields("full:24:3:1", "0:0:0");
        let call = |table: &str| answer(&format!("add {table} {next}"));
        let before = "0:0:24:2:29:23:59:58:24:2:29:23:59:59:2";
        let rows = format!("{before};{ROW}");
        let joined = format!("{before};1:1:24:2:29:23:59:58:24:3:1:0:0:0:3");
        assert_eq!(call(&format!("64 2 1 {rows}")), format!("0 2 {joined}"));
        let (table, record) = (parse_table(64, &rows), parse_fields(&next));
        let spelled = spell_add(&table.unwrap(), 2, 1, &record.unwrap());
        assert_eq!(spelled, format!("add 64 2 1 {rows} {next}"));
        let opened = "0:1:24:3:1:0:0:0:24:3:1:0:0:0:1";
        assert_eq!(call("64 0 1 -"), format!("0 1 {opened}"));
        // Of a row that is all zero, the last second is impossible.
        assert_eq!(call(&format!("64 1 0 {ROW}")), format!("21 1 {ROW}"));
        assert_eq!(call(&format!("63 2 1 {rows}")), format!("21 2 {rows}"));
        assert_eq!(call("0 4294967295 0 -"), "21 4294967295 -");
        assert_eq!(call("0 4294967295 4294967295 -"), "16 4294967295 -");
        for wrong in [
            "64 2 0",
            "64 0 -",
            "2 2 0 2:1",
            "64 4294967296 0 -",
            "64 0 4294967296 -",
            "64 0 -1 -",
            "-1 0 0 -",
            "64 0 0 - -",
        ] {
            assert_eq!(call(wrong), "?", "{wrong}");
        }
    }

    #[test]
    fn lists_of_calls_are_answered() {
        assert_eq!(answer("addall -"), "- -");
        let next = fields("full:24:3:1", "0:0:0");
        let list = [
            format!("1={next}"),
            format!("0={}", fields("day:61", "0:0:1")),
            format!("0={next}"),
            format!("2={next}"),
            format!("1={}", fields("full:24:3:1", "0:0:1")),
        ];
        let rows = "0:1:24:3:1:0:0:0:24:3:1:0:0:1:2;1:0:24:3:1:0:0:0:24:3:1:0:0:0:1";
        let expected = format!("0:1;14:1;0:2;16:2;0:2 {rows}");
        assert_eq!(answer(&format!("addall {}", list.join(";"))), expected);
        assert_eq!(answer("addall"), "?");
        assert_eq!(answer(&format!("addall {next}")), "?");
    }
}
