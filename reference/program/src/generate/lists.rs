//! Requests for lists of calls of both racks of W-207, from the records that one or two clocks send.

use super::racks::{either, in_turn, NO_RACKS};
use super::runs::clock;
use super::Random;
use crate::protocol::spell_records;
use crate::record::Record;

/// The longest list.
const LONGEST: usize = 200;

/// Each rack's own records, in some order of the racks.
fn mixed(zeros: Vec<Record>, ones: Vec<Record>, random: &mut Random) -> Vec<(u32, Record)> {
    let racks = in_turn([zeros.len(), ones.len()], random);
    let mut records = [zeros.into_iter(), ones.into_iter()];
    let calls = racks.into_iter().filter_map(|rack| {
        let record = records[rack as usize].next()?;
        Some((rack, record))
    });
    calls.collect()
}

/// One clock's records, each heard by one of the racks: what follows in the list mostly does not
/// follow in a rack.
fn dealt_out(records: Vec<Record>, random: &mut Random) -> Vec<(u32, Record)> {
    let zeros = random.below(records.len() + 1);
    let racks = in_turn([zeros, records.len() - zeros], random);
    racks.into_iter().zip(records).collect()
}

/// One clock's records, each heard by both racks, but that either misses some.
fn heard_by_both(records: &[Record], random: &mut Random) -> Vec<(u32, Record)> {
    let mut calls = Vec::new();
    for record in records {
        let first = either(random);
        for rack in [first, 1 - first] {
            if !random.one_in(16) {
                calls.push((rack, *record));
            }
        }
    }
    calls
}

/// Puts in calls of racks that there are not, each with the record of the call behind it.
fn with_other_racks(calls: Vec<(u32, Record)>, random: &mut Random) -> Vec<(u32, Record)> {
    let mut all = Vec::new();
    for (rack, record) in calls {
        if random.one_in(16) {
            all.push((random.pick(&NO_RACKS), record));
        }
        all.push((rack, record));
    }
    all
}

/// Up to 200 records, each behind its rack.
pub(crate) fn record_list(random: &mut Random) -> Vec<(u32, Record)> {
    let records = clock(LONGEST, random);
    let mut calls = match random.below(8) {
        0 => mixed(records, Vec::new(), random),
        1 => mixed(Vec::new(), records, random),
        2 => dealt_out(records, random),
        3 => heard_by_both(&records, random),
        _ => mixed(records, clock(LONGEST, random), random),
    };
    if random.one_in(3) {
        calls = with_other_racks(calls, random);
    }
    calls.truncate(LONGEST);
    calls
}

pub(super) fn request(random: &mut Random) -> String {
    format!("addall {}", spell_records(&record_list(random)))
}
