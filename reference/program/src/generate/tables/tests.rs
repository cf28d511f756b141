//! Tests: what the made-up tables meet.

use std::collections::BTreeMap;

use super::*;
use crate::afresh::is_next;
use crate::pairs::{between, BREAKS, ENDS};
use crate::record::Date;
use crate::runs::{add, HIGHEST_COUNT, RACKS, ROWS_OF_A_RACK};

/// What a call is handed and what it leaves.
struct Call {
    handed: Handed,
    number: u32,
    used_then: u32,
    after: Vec<Row>,
}

fn call(random: &mut Random) -> Call {
    let handed = made_up(random);
    let mut after = handed.table.clone();
    let (number, used_then) = add(&mut after, handed.used, handed.rack, &handed.record);
    Call {
        handed,
        number,
        used_then,
        after,
    }
}

fn calls(seed: u64, count: usize) -> impl Iterator<Item = Call> {
    let mut random = Random::new(seed);
    (0..count).map(move |_| call(&mut random))
}

impl Call {
    fn in_use(&self) -> &[Row] {
        let length = self.handed.table.len();
        &self.handed.table[..length.min(self.handed.used as usize)]
    }

    fn newest_place(&self, rack: u32) -> Option<usize> {
        self.in_use().iter().rposition(|row| row.rack == rack)
    }

    fn newest(&self, rack: u32) -> Option<&Row> {
        Some(&self.in_use()[self.newest_place(rack)?])
    }

    fn other(&self) -> u32 {
        1 - self.handed.rack
    }

    fn is_full(&self, rack: u32) -> bool {
        let own = self.in_use().iter().filter(|row| row.rack == rack);
        own.count() == ROWS_OF_A_RACK
    }

    /// Whether the record is the next of a row.
    fn follows(&self, row: &Row) -> bool {
        let heard = Second::of(&self.handed.record);
        heard.is_some_and(|heard| row.last.is_possible() && is_next(&row.last, &heard))
    }

    /// Whether no row but the one at this place has changed.
    fn changed_only(&self, place: usize) -> bool {
        let mut after = self.after.clone();
        after[place] = self.handed.table[place];
        after == self.handed.table
    }
}

#[test]
fn a_call_changes_one_row_or_none() {
    let (mut joined, mut opened, mut refused) = (0, 0, 0);
    for call in calls(1, 20_000) {
        let (used, rack) = (call.handed.used, call.handed.rack);
        match (call.number, call.used_then.wrapping_sub(used)) {
            (0, 0) => {
                joined += 1;
                assert!(call.changed_only(call.newest_place(rack).unwrap()));
            }
            (0, 1) => {
                opened += 1;
                assert!(call.changed_only(used as usize));
            }
            (_, more) => {
                refused += 1;
                assert_eq!((more, &call.after), (0, &call.handed.table));
            }
        }
    }
    let least = joined.min(opened).min(refused);
    assert!(least > 2000, "{joined} {opened} {refused}");
}

type Reasons = Vec<(&'static str, bool)>;

/// How often each reason holds.
fn count_reasons(all: impl Iterator<Item = Reasons>) -> BTreeMap<&'static str, usize> {
    let mut met = BTreeMap::new();
    for (what, holds) in all.flatten() {
        *met.entry(what).or_default() += usize::from(holds);
    }
    met
}

/// Why a newest row is refused.
fn row_reasons(row: &Row) -> Reasons {
    let [year, month, day, hour, minute, second] = row.last.numbers();
    let high = row.last.numbers().into_iter().max();
    vec![
        ("year 100", year == 100),
        ("month 0", month == 0),
        ("month 13", month == 13),
        ("day 0", day == 0),
        ("day 32", day == 32),
        ("30 February", (month, day) == (2, 30)),
        ("29 February", (year, month, day) == (23, 2, 29)),
        ("31 April", (month, day) == (4, 31)),
        ("hour 24", hour == 24),
        ("minute 60", minute == 60),
        ("second 61", second == 61),
        ("over eight bits", high > Some(255)),
        ("the highest number", high == Some(u32::MAX)),
        ("count over", row.count == HIGHEST_COUNT + 1),
        ("highest count", row.count == u32::MAX),
    ]
}

/// Why a table is refused, or a number in use.
fn table_reasons(length: usize, used: u32) -> Reasons {
    vec![
        ("no rows", length == 0),
        ("1 row", length == 1),
        ("63 rows", length == 63),
        ("65 rows", length == 65),
        ("65 rows and 65 in use", (length, used) == (65, 65)),
        ("65 in use", length == ROWS && used == 65),
        ("256 in use", length == ROWS && used == 256),
        ("320 in use", length == ROWS && used == 320),
        ("too many in use", length == ROWS && used == u32::MAX),
    ]
}

/// Why the racks of the rows in use are refused.
fn rack_reasons(in_use: &[Row]) -> Reasons {
    let rows = |rack| in_use.iter().filter(|row| row.rack == rack).count();
    let wrong = |row: Option<&Row>| row.is_some_and(|row| row.rack >= RACKS);
    let low = |row: &Row| row.rack >= RACKS && row.rack & 255 < RACKS;
    let between = in_use
        .len()
        .checked_sub(1)
        .and_then(|end| in_use.get(1..end));
    vec![
        ("33 of rack 0", rows(0) == 33),
        ("33 of rack 1", rows(1) == 33),
        (
            "33 of one rack, 31 of the other",
            rows(0) == 33 && rows(1) == 31,
        ),
        ("64 of one rack", rows(0) == 64 || rows(1) == 64),
        ("a wrong rack at first", wrong(in_use.first())),
        ("a wrong rack at last", wrong(in_use.last())),
        (
            "a wrong rack between",
            between.is_some_and(|rows| rows.iter().any(|row| wrong(Some(row)))),
        ),
        ("a rack in eight bits", in_use.iter().any(low)),
        ("rack 2", in_use.iter().any(|row| row.rack == 2)),
    ]
}

/// Whether the table's length and the number in use are taken.
fn has_rows_in_use(call: &Call) -> bool {
    call.handed.table.len() == ROWS && call.handed.used <= ROWS as u32
}

#[test]
fn refusal_21_is_met_for_every_reason() {
    let refused = calls(2, 60_000).filter(|call| call.number == 21);
    let met = count_reasons(refused.map(|call| {
        let no_date = call.handed.record.date.is_none();
        let mut reasons = table_reasons(call.handed.table.len(), call.handed.used);
        if has_rows_in_use(&call) {
            reasons.extend(rack_reasons(call.in_use()));
        }
        reasons.push(("14 as well", no_date));
        reasons.push((
            "14 and no row left as well",
            no_date && call.is_full(call.handed.rack),
        ));
        reasons
    }));
    assert_eq!(met.len(), 9 + 9 + 2);
    assert!(met.values().all(|times| *times > 15), "{met:?}");
}

/// Calls in which the table is refused for a newest row and for nothing else.
fn refused_for_a_row(call: &Call) -> bool {
    let no_wrong_racks = rack_reasons(call.in_use()).iter().all(|(_, holds)| !holds);
    call.number == 21 && has_rows_in_use(call) && no_wrong_racks
}

#[test]
fn refusal_21_is_met_for_every_reason_of_either_newest_row() {
    let mut met: BTreeMap<(u32, u32, &str), usize> = BTreeMap::new();
    for call in calls(5, 60_000).filter(refused_for_a_row) {
        for rack in [0, 1] {
            let reasons = call.newest(rack).map(row_reasons).unwrap_or_default();
            for (what, holds) in reasons {
                *met.entry((call.handed.rack, rack, what)).or_default() += usize::from(holds);
            }
        }
    }
    // For the calls of either rack, and in either newest row.
    assert_eq!(met.len(), 2 * 2 * 15);
    assert!(met.values().all(|times| *times > 8), "{met:?}");
}

/// Why a call would be refused, or how it would be taken, if its rack were one.
fn reasons_beside_16(call: &Call) -> Reasons {
    let spoiled = |row: &Row| !row.last.is_possible() || row.count > HIGHEST_COUNT;
    let newest = [0, 1].map(|rack| call.newest(rack)).into_iter().flatten();
    let has_rack = |wrong: &dyn Fn(u32) -> bool| call.in_use().iter().any(|row| wrong(row.rack));
    let (rack, record) = (call.handed.rack, &call.handed.record);
    vec![
        ("none in use", call.handed.used == 0),
        ("64 in use", call.handed.used == 64),
        ("too many in use", call.handed.used > 64),
        ("another length", call.handed.table.len() != ROWS),
        ("a refused newest row", newest.clone().any(spoiled)),
        ("a wrong rack in a row", has_rack(&|of| of >= RACKS)),
        ("its own number in a row", has_rack(&|of| of == rack)),
        ("no date", record.date.is_none()),
        ("a bad record", record.is_bad()),
        (
            "a second that follows",
            newest.clone().any(|row| call.follows(row)),
        ),
        ("rack 2", rack == 2),
        ("the low eight bits a rack's", rack & 255 < RACKS),
        ("the highest number", rack == u32::MAX),
    ]
}

#[test]
fn refusal_16_is_met_with_every_other_reason() {
    let refused = calls(6, 60_000).filter(|call| call.number == 16);
    let met = count_reasons(refused.map(|call| reasons_beside_16(&call)));
    assert_eq!(met.len(), 13);
    assert!(met.values().all(|times| *times > 10), "{met:?}");
}

#[test]
fn rows_that_are_not_refused_have_every_count() {
    let accepted = calls(2, 10_000).filter(|call| call.number == 0);
    let rows = accepted.flat_map(|call| [0, 1].map(|rack| call.newest(rack).copied()));
    let met = count_reasons(rows.flatten().map(|row| good_row_reasons(&row)));
    assert!(met.values().all(|times| *times > 50), "{met:?}");
}

/// What may be unusual in a newest row that is not refused.
fn good_row_reasons(row: &Row) -> Reasons {
    vec![
        ("count 0", row.count == 0),
        ("count 1", row.count == 1),
        ("one under the highest", row.count == HIGHEST_COUNT - 1),
        ("the highest", row.count == HIGHEST_COUNT),
        ("an impossible first second", !row.first.is_possible()),
    ]
}

/// Why a record is refused.
fn record_reasons(record: &Record) -> Reasons {
    let [no_date, day, over, no_such] = match record.date {
        None => [true, false, false, false],
        Some(Date::DayOfYear(day)) => [false, day <= 366, day > 366, false],
        Some(date) => [false, false, false, !date.in_range()],
    };
    vec![
        ("no date", no_date),
        ("a day of year", day),
        ("a day of year over 366", over),
        ("no such date", no_such),
        ("hour", record.hour == 24),
        ("minute", record.minute == 60),
        ("second", record.second == 61),
        ("fraction", record.fraction.is_some_and(|f| !f.in_range())),
        ("channel", record.channel > Some(1)),
        ("offset", record.offset == Some(841)),
        ("position", record.position.is_some_and(|p| !p.in_range())),
        ("utc and summer", record.utc_and_summer()),
    ]
}

#[test]
fn refusal_14_is_met_for_every_reason_and_number_in_use() {
    let refused = calls(3, 60_000).filter(|call| call.number == 14);
    let met = count_reasons(refused.map(|call| {
        let [full, other_full] = [call.handed.rack, call.other()].map(|rack| call.is_full(rack));
        let mut reasons = record_reasons(&call.handed.record);
        reasons.push(("none in use", call.handed.used == 0));
        reasons.push(("no row left for this rack", full && !other_full));
        reasons.push(("no row left for the other", !full && other_full));
        reasons.push(("64 in use", full && other_full));
        reasons
    }));
    assert_eq!(met.len(), 12 + 4);
    assert!(met.values().all(|times| *times > 15), "{met:?}");
}

#[test]
fn joined_and_opened_rows_meet_every_end_and_every_break() {
    let mut met: BTreeMap<(bool, &str), usize> = BTreeMap::new();
    for call in calls(4, 90_000).filter(|call| [0, 15].contains(&call.number)) {
        let Some(row) = call.newest(call.handed.rack) else {
            continue;
        };
        let heard = Second::of(&call.handed.record).unwrap();
        for what in between(&row.last, &heard) {
            *met.entry((call.is_full(call.handed.rack), what))
                .or_default() += 1;
        }
    }
    // Each where the rack has fewer than 32 and where it has 32.
    assert_eq!(met.len(), 2 * (ENDS + BREAKS), "{met:?}");
    assert!(met.values().all(|times| *times > 10), "{met:?}");
}

/// What stands beside a row that is joined.
fn beside_joined(call: &Call) -> Reasons {
    let [own, other] = [call.handed.rack, call.other()].map(|rack| call.newest_place(rack));
    let follows_other = call
        .newest(call.other())
        .is_some_and(|row| call.follows(row));
    let joined = call.number == 0 && call.used_then == call.handed.used;
    vec![
        ("joined behind the other's", joined && own > other),
        ("joined before the other's", joined && own < other),
        ("joined where both follow", joined && follows_other),
        ("joined with 64 in use", joined && call.used_then == 64),
    ]
}

/// What stands beside a row that is opened or missing.
fn beside_opened(call: &Call) -> Reasons {
    let own = call.newest(call.handed.rack);
    let full = call.is_full(call.other());
    let follows_other = call
        .newest(call.other())
        .is_some_and(|row| call.follows(row));
    let rows = call.in_use().iter();
    let follows_own = rows.filter(|row| row.rack == call.handed.rack);
    let follows_own = follows_own.filter(|row| call.follows(row)).count() > 0;
    let opened = call.used_then > call.handed.used;
    vec![
        ("opened as the rack's first", opened && own.is_none()),
        ("opened where the other is full", opened && full),
        ("opened where it follows the other", opened && follows_other),
        ("opened where it follows an older", opened && follows_own),
        ("no row left for this rack", call.number == 15 && !full),
        ("no row left", call.number == 15 && full),
    ]
}

/// What is not looked at.
fn beside_all(call: &Call) -> Reasons {
    let newest = [0, 1].map(|rack| call.newest_place(rack));
    let rows = call.in_use().iter().enumerate();
    let older = rows.filter(|(place, _)| !newest.contains(&Some(*place)));
    let impossible = older.clone().any(|(_, row)| !row.last.is_possible());
    let over = older.clone().any(|(_, row)| row.count > HIGHEST_COUNT);
    let mut beyond = call.handed.table.iter().skip(call.handed.used as usize);
    vec![
        ("an older row is impossible", impossible),
        ("an older row's count is over", over),
        ("a wrong rack beyond", beyond.any(|row| row.rack >= RACKS)),
    ]
}

fn beside(call: &Call) -> Reasons {
    [beside_joined, beside_opened, beside_all]
        .map(|reasons| reasons(call))
        .concat()
}

#[test]
fn either_rack_meets_every_neighbour() {
    let taken = calls(7, 30_000).filter(|call| [0, 15].contains(&call.number));
    let (zero, one): (Vec<Call>, Vec<Call>) = taken.partition(|call| call.handed.rack == 0);
    for calls in [zero, one] {
        let met = count_reasons(calls.iter().map(beside));
        assert_eq!(met.len(), 13);
        assert!(met.values().all(|times| *times > 30), "{met:?}");
    }
}
