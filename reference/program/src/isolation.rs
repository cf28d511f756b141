//! Tests: document 02, W-207: "what one rack is told, and the list of its own rows in order, must be
//! the same however the other rack's records are changed, dropped or added".

use crate::generate::{record_list, Random};
use crate::record::Record;
use crate::runs::{add, Row, HIGHEST_COUNT, ROWS};

/// Records, each behind its rack.
type Calls = Vec<(u32, Record)>;

/// What one rack is told and its own rows in order, without the numbers of the rows and the numbers
/// in use, and where those rows stand.
fn told(rack: u32, calls: &Calls) -> (Vec<u32>, Vec<Row>, Vec<usize>) {
    let mut table = vec![Row::default(); ROWS];
    let (mut used, mut numbers) = (0, Vec::new());
    for (of, record) in calls {
        let (number, then) = add(&mut table, used, *of, record);
        used = then;
        if *of == rack {
            numbers.push(number);
        }
    }
    let in_use = table[..used as usize].iter().enumerate();
    let (places, rows) = in_use.filter(|(_, row)| row.rack == rack).unzip();
    (numbers, rows, places)
}

/// The calls with some of those changed, dropped or added that are not this rack's. What comes in
/// their place, or beside them, is from another list.
fn tampered(rack: u32, calls: &Calls, random: &mut Random) -> Calls {
    let chances = [1, 4, 16][random.below(3)];
    let mut others = foreign(rack, random).into_iter();
    let mut tampered = Vec::new();
    for call in calls {
        let touched = random.below(chances) == 0;
        match random.below(3) {
            0 if touched && call.0 != rack => tampered.extend(others.next()),
            1 if touched && call.0 != rack => {}
            2 if touched => tampered.extend(others.next().into_iter().chain([*call])),
            _ => tampered.push(*call),
        }
    }
    tampered
}

/// Another list without those that are this rack's.
fn foreign(rack: u32, random: &mut Random) -> Calls {
    let list = record_list(random).into_iter();
    list.filter(|(of, _)| *of != rack).collect()
}

/// All that is not this rack's, gone.
fn alone(rack: u32, calls: &Calls) -> Calls {
    let own = calls.iter().filter(|(of, _)| *of == rack);
    own.copied().collect()
}

/// This rack's records in their order among those of another list that are not its own.
fn among(rack: u32, calls: &Calls, random: &mut Random) -> Calls {
    let mut own = alone(rack, calls).into_iter();
    let mut mixed = Vec::new();
    for call in foreign(rack, random) {
        mixed.extend(own.by_ref().take(random.below(3)));
        mixed.push(call);
    }
    mixed.extend(own);
    mixed
}

#[test]
fn neither_rack_learns_of_the_other() {
    let mut random = Random::new(207);
    let (mut moved, mut full, mut joined) = (0, 0, 0);
    for _ in 0..600 {
        let calls = record_list(&mut random);
        for rack in [0, 1] {
            let (numbers, rows, places) = told(rack, &calls);
            assert!(numbers.iter().all(|number| [0, 14, 15].contains(number)));
            full += usize::from(numbers.contains(&15));
            joined += usize::from(rows.iter().any(|row| row.count > 1));
            for other in [
                alone(rack, &calls),
                tampered(rack, &calls, &mut random),
                tampered(rack, &calls, &mut random),
                among(rack, &calls, &mut random),
            ] {
                let then = told(rack, &other);
                assert_eq!((&then.0, &then.1), (&numbers, &rows));
                moved += usize::from(then.2 != places);
            }
        }
    }
    assert!(
        moved > 500 && full > 100 && joined > 200,
        "{moved} {full} {joined}"
    );
}

#[test]
fn no_run_of_the_calendar_reaches_a_count_that_is_refused() {
    // 21 for one rack's count would be told to the other. Each second of a run is later than the one
    // before, so that a run has no more seconds than the calendar.
    let minutes_of_the_calendar = 36_525 * 24 * 60;
    assert!(minutes_of_the_calendar * 61 <= HIGHEST_COUNT);
}
