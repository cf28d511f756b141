//! Requests for single calls on the table of W-206 and W-207: made-up tables, each with a rack and a
//! record.

use super::racks::{either, in_turn, NO_RACKS};
use super::rows::{good_row, nonsense, pair, spoil_row};
use super::runs::{good_second, record_of, refused};
use super::Random;
use crate::protocol::spell_add;
use crate::record::Record;
use crate::runs::{Row, Second, ROWS};

/// A number in use over 64; some are 0 to 64 in their low eight or sixteen bits.
const TOO_MANY: [u32; 12] = [
    65,
    66,
    128,
    255,
    256,
    257,
    320,
    65_536,
    65_600,
    1 << 31,
    u32::MAX - 1,
    u32::MAX,
];

/// A number in use for a table of a length of which so many rows have been given a rack.
fn number_in_use(given: usize, length: usize, random: &mut Random) -> u32 {
    if random.one_in(16) {
        random.pick(&TOO_MANY)
    } else if length != ROWS && random.one_in(2) {
        length as u32
    } else {
        given as u32
    }
}

fn table_length(random: &mut Random) -> usize {
    if random.one_in(12) {
        random.pick(&[0, 1, 2, 63, 63, 65, 65])
    } else {
        ROWS
    }
}

/// How many rows of each rack are in use, rarely too many of one.
fn numbers_of_rows(random: &mut Random) -> [usize; 2] {
    let mut numbers = [0; 2].map(|_: usize| random.number(32, &[0, 1, 2, 31, 32, 32, 32]) as usize);
    if random.one_in(20) {
        let over = random.below(2);
        numbers[over] = random.pick(&[33, 33, 34, 63, 64]);
        numbers[1 - over] = numbers[1 - over].min(ROWS - numbers[over]);
    }
    numbers
}

/// Rows of these racks and behind them rows that are not in use. From few of them to half are not all
/// zero: nonsense, or a row that would be joined if it were the newest.
fn older_rows(length: usize, racks: &[u32], last: &Second, random: &mut Random) -> Vec<Row> {
    let chances = random.pick(&[2, 8, 64, 64, 64]);
    let mut table = vec![Row::default(); length];
    for (place, row) in table.iter_mut().enumerate() {
        if random.one_in(chances) {
            *row = match random.below(2) {
                0 => nonsense(random),
                _ => good_row(either(random), last, random),
            };
        }
        if let Some(rack) = racks.get(place) {
            row.rack = *rack;
        }
    }
    table
}

/// The newest row of a rack among those in use.
fn newest(table: &mut [Row], used: u32, rack: u32) -> Option<&mut Row> {
    let in_use = table.iter_mut().take(used as usize);
    in_use.rev().find(|row| row.rack == rack)
}

/// The last seconds of the rack's newest row and of the other rack's. The record may follow either,
/// both or none.
fn last_seconds(last: Second, heard: Second, random: &mut Random) -> [Second; 2] {
    let other = good_second(random);
    match random.below(4) {
        0 => [last, last],
        1 => [other, last],
        2 if heard.is_possible() => [last, heard],
        _ => [last, other],
    }
}

/// Gives a row another rack number: one in use rarely, which is refused, and one beyond more often,
/// which is not looked at.
fn put_other_racks(table: &mut [Row], used: u32, random: &mut Random) {
    let (length, used) = (table.len(), used as usize);
    if random.one_in(16) && used > 0 {
        let any = random.below(used);
        let place = random.pick(&[0, used - 1, used - 1, any]);
        if let Some(row) = table.get_mut(place) {
            row.rack = random.pick(&NO_RACKS);
        }
    }
    if random.one_in(6) && used < length {
        let any = used + random.below(length - used);
        let place = random.pick(&[used, used, any]);
        table[place].rack = random.pick(&NO_RACKS);
    }
}

/// What a call is handed.
struct Handed {
    table: Vec<Row>,
    used: u32,
    rack: u32,
    record: Record,
}

fn made_up(random: &mut Random) -> Handed {
    let (last, heard) = pair(random);
    let length = table_length(random);
    let racks = in_turn(numbers_of_rows(random), random);
    let used = number_in_use(racks.len(), length, random);
    let mut table = older_rows(length, &racks, &last, random);
    let rack = either(random);
    for (of, last) in [rack, 1 - rack]
        .into_iter()
        .zip(last_seconds(last, heard, random))
    {
        if let Some(row) = newest(&mut table, used, of) {
            *row = good_row(of, &last, random);
        }
    }
    if random.one_in(5) {
        if let Some(row) = newest(&mut table, used, either(random)) {
            spoil_row(row, random);
        }
    }
    put_other_racks(&mut table, used, random);
    let (rack, record) = (
        sometimes_wrong(rack, random),
        sometimes_refused(&heard, random),
    );
    Handed {
        table,
        used,
        rack,
        record,
    }
}

fn sometimes_wrong(rack: u32, random: &mut Random) -> u32 {
    if random.one_in(16) {
        random.pick(&NO_RACKS)
    } else {
        rack
    }
}

fn sometimes_refused(heard: &Second, random: &mut Random) -> Record {
    let record = record_of(heard, random);
    if random.one_in(6) {
        refused(record, random)
    } else {
        record
    }
}

pub(super) fn request(random: &mut Random) -> String {
    let handed = made_up(random);
    spell_add(&handed.table, handed.used, handed.rack, &handed.record)
}

#[cfg(test)]
mod tests;
