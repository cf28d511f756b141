//! The racks of W-207 as requests, so that no length of a table, no number in use, no split of the
//! rows between the racks and no place of a newest row is left to a draw.

use crate::protocol::{spell_add, spell_records};
use crate::record::Record;
use crate::runs::{Row, Second, HIGHEST_COUNT, RACKS, ROWS, ROWS_OF_A_RACK};

fn second(second: u32) -> Second {
    Second::from_numbers([24, 2, 29, 12, 0, second])
}

/// The last second of a rack's newest row.
fn last_of(rack: u32) -> Second {
    second(10 + 10 * rack)
}

/// The next second of a rack's newest row, and of no other row.
fn next_of(rack: u32) -> Record {
    second(11 + 10 * rack).record()
}

/// The place of a rack's newest row, if it has a row.
fn newest(racks: &[u32], rack: u32) -> Option<usize> {
    racks.iter().rposition(|of| *of == rack)
}

/// A table of 64 rows of which the first are of these racks. Those that are not the newest of a rack
/// tell nothing but the rack, since their last seconds are not to be looked at.
fn table(racks: &[u32]) -> Vec<Row> {
    let mut table = vec![Row::default(); ROWS];
    for (row, rack) in table.iter_mut().zip(racks) {
        row.rack = *rack;
    }
    for rack in 0..RACKS {
        let place = newest(racks, rack);
        if let Some(row) = place.and_then(|place| table.get_mut(place)) {
            row.first = last_of(rack);
            row.last = last_of(rack);
            row.count = 1;
        }
    }
    table
}

/// What a call is handed.
struct Call {
    table: Vec<Row>,
    used: usize,
    rack: u32,
    record: Record,
}

impl Call {
    fn spelled(&self) -> String {
        spell_add(&self.table, self.used as u32, self.rack, &self.record)
    }
}

/// A rack's call with what follows the newest row of a rack, its own or the other.
fn call(table: &[Row], used: usize, rack: u32, next: u32) -> Call {
    Call {
        table: table.to_vec(),
        used,
        rack,
        record: next_of(next),
    }
}

fn in_turn(rows: usize) -> Vec<u32> {
    (0..rows).map(|place| place as u32 % RACKS).collect()
}

/// Every length up to two rows too many with every number in use up to two too many, and with both
/// racks and two that there are not.
fn lengths_and_numbers_in_use() -> impl Iterator<Item = Call> {
    let uses = |length| (0..=66).map(move |used| (length, used));
    let racks = |(length, used)| (0..=3).map(move |rack| (length, used, rack));
    let calls = (0..=66).flat_map(uses).flat_map(racks);
    calls.map(|(length, used, rack)| {
        let mut table = table(&in_turn(used));
        table.resize(length, Row::default());
        call(&table, used, rack, rack)
    })
}

/// So many rows of either rack: all of one and then all of the other, and by turns as long as both
/// have some.
fn orders(zeros: usize, ones: usize) -> [Vec<u32>; 3] {
    let numbers = [zeros, ones];
    let all = |rack: usize| vec![rack as u32; numbers[rack]];
    let mut turns = in_turn(2 * zeros.min(ones));
    turns.resize(zeros + ones, u32::from(ones > zeros));
    [[all(0), all(1)].concat(), [all(1), all(0)].concat(), turns]
}

/// Every number of rows of either rack up to one too many, with the next second of either newest row.
fn splits() -> impl Iterator<Item = Call> {
    let highest = ROWS_OF_A_RACK + 1;
    let pairs = (0..=highest).flat_map(move |zeros| (0..=highest).map(move |ones| (zeros, ones)));
    let tables = pairs.flat_map(|(zeros, ones)| orders(zeros, ones));
    tables.flat_map(|racks| {
        let calls = [(0, 0), (0, 1), (1, 0), (1, 1)];
        let table = table(&racks);
        calls.map(|(rack, next)| call(&table, racks.len(), rack, next))
    })
}

/// Racks of rows of which each rack's newest is at this place, and none of which has too many; none
/// where there are no such. Behind the earlier of both places all rows are of one rack.
fn with_newest_at(places: [usize; 2]) -> Option<Vec<u32>> {
    let later = usize::from(places[1] > places[0]);
    let (end, before) = (places[later], places[1 - later]);
    let mut racks = vec![later as u32; end + 1];
    let from = before.saturating_sub(ROWS_OF_A_RACK - 1);
    racks[from..=before].fill(1 - later as u32);
    let too_many = racks.len() - (before + 1 - from) > ROWS_OF_A_RACK;
    (!too_many).then_some(racks)
}

/// Every two places of the newest rows, as they are, with an impossible last second in one and with a
/// count that is over in the other.
fn places_of_newest_rows() -> impl Iterator<Item = Call> {
    let places = (0..ROWS).flat_map(|zero| (0..ROWS).map(move |one| [zero, one]));
    let places = places.filter(|[zero, one]| zero != one);
    let tables = places.filter_map(|places| Some((places, with_newest_at(places)?)));
    tables.flat_map(|(places, racks)| {
        let good = table(&racks);
        let (mut impossible, mut over) = (good.clone(), good.clone());
        impossible[places[0]].last.hour = 24;
        over[places[1]].count = HIGHEST_COUNT + 1;
        let used = racks.len();
        let tables = [good, impossible, over].into_iter();
        let calls = move |table: Vec<Row>| [0, 1].map(|rack| call(&table, used, rack, rack));
        tables.flat_map(calls)
    })
}

/// A rack that there is not at every place of a table, with every number in use.
fn places_of_wrong_racks() -> impl Iterator<Item = Call> {
    let places = |used| (0..ROWS).map(move |place| (used, place));
    let calls = (0..=ROWS).flat_map(places);
    calls.flat_map(|(used, place)| {
        let mut table = table(&in_turn(used));
        table[place].rack = RACKS;
        [0, 1].map(|rack| call(&table, used, rack, rack))
    })
}

/// Either rack's number with each higher bit set alone: as the rack of a call, and in the first, the
/// last and the next row behind those in use.
fn bits_of_racks() -> impl Iterator<Item = Call> {
    let racks = (1..32).flat_map(|bit| [1 << bit, 1 << bit | 1]);
    racks.flat_map(|wrong| {
        let good = table(&in_turn(8));
        let row = |place: usize| {
            let mut table = good.clone();
            table[place].rack = wrong;
            call(&table, 8, 0, 0)
        };
        let wrong = call(&good, 8, wrong, 0);
        [wrong, row(0), row(7), row(8)]
    })
}

/// Every list of six calls of which each is of either rack and of either of two seconds in turn.
fn short_lists() -> impl Iterator<Item = String> {
    (0..4_u32.pow(6)).map(|list| {
        // Six digits to the base of four name each list.
        let digits = [0, 1, 2, 3, 4, 5].map(|digit| list >> (2 * digit) & 3);
        let records = digits.map(|digit| (digit % 2, second(digit / 2).record()));
        format!("addall {}", spell_records(&records))
    })
}

/// Lists in which either rack opens rows by repeats, up to one too many, and then each joins its
/// newest.
fn lists_that_fill() -> impl Iterator<Item = String> {
    let numbers = [0, 1, 31, 32, 33];
    let pairs = numbers
        .map(|zeros| numbers.map(|ones| (zeros, ones)))
        .concat();
    let lists = pairs
        .into_iter()
        .flat_map(|(zeros, ones)| orders(zeros, ones));
    lists.map(|racks| {
        let repeats = racks.iter().map(|rack| (*rack, last_of(*rack).record()));
        let joins = [(0, next_of(0)), (1, next_of(1))];
        let records: Vec<(u32, Record)> = repeats.chain(joins).collect();
        format!("addall {}", spell_records(&records))
    })
}

/// Some 60,000 requests, of which 4,171 are lists.
pub(crate) fn requests() -> impl Iterator<Item = String> {
    lengths_and_numbers_in_use()
        .chain(splits())
        .chain(places_of_newest_rows())
        .chain(places_of_wrong_racks())
        .chain(bits_of_racks())
        .map(|call| call.spelled())
        .chain(short_lists())
        .chain(lists_that_fill())
}

#[cfg(test)]
mod tests {
    use std::collections::BTreeMap;

    use super::*;
    use crate::protocol::answer;
    use crate::runs::add;

    /// How often each number is answered.
    fn numbers_answered(calls: impl Iterator<Item = Call>) -> BTreeMap<u32, usize> {
        let mut met = BTreeMap::new();
        for mut call in calls {
            let (number, _) = add(&mut call.table, call.used as u32, call.rack, &call.record);
            *met.entry(number).or_default() += 1;
        }
        met
    }

    #[test]
    fn each_length_number_in_use_and_rack_is_taken_or_refused() {
        let numbers = numbers_answered(lengths_and_numbers_in_use());
        let (all, good) = (67 * 67, 65);
        let expected = [(0, 2 * good), (16, 2 * all), (21, 2 * (all - good))];
        assert_eq!(numbers, expected.into());
    }

    #[test]
    fn each_split_is_taken_or_refused() {
        // In three orders: up to 32 of either rack are taken. What follows the other's newest row needs
        // a row, which a rack that has 32 is refused.
        let (all, good) = (34 * 34, 33 * 33);
        let full = 2 * 33;
        let expected = [
            (0, 3 * (4 * good - full)),
            (15, 3 * full),
            (21, 3 * 4 * (all - good)),
        ];
        assert_eq!(numbers_answered(splits()), expected.into());
    }

    #[test]
    fn racks_with_their_newest_rows_at_two_places() {
        let all = (0..ROWS).flat_map(|zero| (0..ROWS).map(move |one| [zero, one]));
        let mut met = 0;
        for places in all.filter(|[zero, one]| zero != one) {
            let [zero, one] = places;
            let Some(racks) = with_newest_at(places) else {
                // Over 32 of one rack would stand behind the other's newest row.
                assert!(zero.abs_diff(one) > ROWS_OF_A_RACK);
                continue;
            };
            met += 1;
            assert_eq!(newest(&racks, 0), Some(zero));
            assert_eq!(newest(&racks, 1), Some(one));
            assert!(zero.abs_diff(one) <= ROWS_OF_A_RACK);
        }
        // Of 64 times 63 the pairs that are 33 to 63 apart are missing.
        assert_eq!(met, 64 * 63 - 2 * (1..=31).sum::<usize>());
    }

    #[test]
    fn each_place_is_taken_or_refused() {
        let places = 3040;
        let expected = [(0, 2 * places), (21, 2 * 2 * places)];
        assert_eq!(numbers_answered(places_of_newest_rows()), expected.into());
        // Every place below the number in use, and every other.
        let places = (0..=64).sum::<usize>();
        let expected = [(0, 2 * (65 * 64 - places)), (21, 2 * places)];
        assert_eq!(numbers_answered(places_of_wrong_racks()), expected.into());
        let expected = [(0, 62), (16, 62), (21, 2 * 62)];
        assert_eq!(numbers_answered(bits_of_racks()), expected.into());
    }

    /// The numbers that a list's calls are answered, without the numbers in use.
    fn told(list: &str) -> Vec<u32> {
        let answer = answer(list);
        let calls = answer.split(' ').next().unwrap().split(';');
        calls
            .map(|call| call.split(':').next().unwrap().parse().unwrap())
            .collect()
    }

    #[test]
    fn lists_open_as_many_rows_as_either_rack_may() {
        let mut lists = 0;
        for list in lists_that_fill() {
            lists += 1;
            let rack = |of: &str| list.matches(of).count() - 1;
            let [zeros, ones] = [rack("0=full"), rack("1=full")];
            let refused = usize::from(zeros > 32) + usize::from(ones > 32);
            let told = told(&list);
            assert_eq!(told.len(), zeros + ones + 2);
            assert_eq!(told.iter().filter(|number| **number == 15).count(), refused);
            assert_eq!(
                told.iter().filter(|number| **number == 0).count(),
                told.len() - refused
            );
        }
        assert_eq!(lists, 75);
        assert!(short_lists().all(|list| told(&list) == [0; 6]));
        assert_eq!(short_lists().count(), 4096);
    }
}
