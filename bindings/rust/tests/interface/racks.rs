//! Two racks in one table: the runs of each, what one is told beside the other, and what is taken out.

use lindenscoop::{add_second, Added, Record, Refusal, Row, Run, Runs, Second};

use crate::runs::{
    afresh, alone, filled, newest, record, refused, rows_of, second, told, wandering, Numbers,
    LAYOUTS,
};

/// A rack's own list, as it stands in the table.
fn listed(runs: &Runs, rack: u32) -> Vec<Run> {
    runs.of_rack(rack).copied().collect()
}

/// Whichever rack hears at a time: the runs that are taken one after the other are those worked out afresh, refused records left out.
#[test]
fn the_rows_of_each_rack_are_the_runs_worked_out_afresh() {
    let mut numbers = Numbers(206);
    let mut taken = 0;
    for _ in 0..100 {
        let seconds = [(); 2].map(|()| wandering(&mut numbers, 2_000));
        let (mut runs, mut heard) = (Runs::new(), [Vec::new(), Vec::new()]);
        let mut places = [0, 0];
        while let Some(rack) = next_rack(&mut numbers, &seconds, places) {
            let (own, place) = (rack as usize, places[rack as usize]);
            let record = record(seconds[own][place]);
            if runs.add(rack, &record) == Err(Refusal::NoRow) {
                let before = listed(&runs, 1 - rack);
                assert_eq!(
                    listed(&runs, rack),
                    afresh(&seconds[own][..place])[heard[own].len()..]
                );
                heard[own].extend(runs.take(rack));
                assert_eq!(runs.of_rack(rack).count(), 0);
                assert_eq!(listed(&runs, 1 - rack), before);
                assert_eq!(runs.add(rack, &record), Ok(Added::Opened));
                taken += 1;
            }
            places[own] += 1;
            if numbers.below(4) == 0 {
                let told = runs.add(numbers.below(2), &Record::default());
                assert_eq!(told, Err(Refusal::NoSecond));
            }
        }
        for rack in 0..Runs::RACKS {
            heard[rack as usize].extend(runs.take(rack));
        }
        assert_eq!(runs, Runs::new());
        assert_eq!(heard, seconds.map(|seconds| afresh(&seconds)));
    }
    assert!(taken > 100, "{taken}");
}

/// A rack of which not all seconds were added, if there is one.
fn next_rack(numbers: &mut Numbers, seconds: &[Vec<Second>; 2], places: [usize; 2]) -> Option<u32> {
    match [0, 1].map(|rack| places[rack] < seconds[rack].len()) {
        [true, true] => Some(numbers.below(2)),
        [true, false] => Some(0),
        [false, true] => Some(1),
        [false, false] => None,
    }
}

/// What one rack is told, and its own list. Before each of its records come at most so many of the other rack's.
fn lane(
    rack: u32,
    own: &[Record],
    numbers: &mut Numbers,
    most: u32,
) -> (Vec<Result<Added, Refusal>>, Vec<Run>) {
    let others: Vec<Record> = wandering(numbers, 5_000).into_iter().map(record).collect();
    let (mut runs, mut others) = (Runs::new(), others.into_iter().cycle());
    let mut told = Vec::new();
    for record in own {
        for _ in 0..numbers.below(most + 1) {
            let any = [*record, Record::default(), others.next().unwrap()];
            // what the other rack is told is of no matter here
            let _ = runs.add(1 - rack, &any[numbers.below(8).min(2) as usize]);
        }
        told.push(runs.add(rack, record));
    }
    (told, listed(&runs, rack))
}

#[test]
fn what_a_rack_is_told_does_not_depend_on_the_other() {
    let mut numbers = Numbers(207);
    let mut full = 0;
    for time in 0..60 {
        let length = [100, 600, 2_500][time % 3];
        let mut own: Vec<Record> = wandering(&mut numbers, length)
            .into_iter()
            .map(record)
            .collect();
        for _ in 0..10 {
            let place = numbers.below(own.len() as u32) as usize;
            own.insert(place, Record::default());
        }
        let alone = lane(0, &own, &mut numbers, 0);
        full += usize::from(alone.0.contains(&Err(Refusal::NoRow)));
        for (rack, most) in [(0, 1), (0, 3), (0, 9), (1, 0), (1, 2)] {
            assert_eq!(lane(rack, &own, &mut numbers, most), alone);
        }
    }
    assert!((10..50).contains(&full), "{full}");
}

/// What would join the other rack's newest run opens a row.
#[test]
fn no_run_of_the_other_rack_is_joined() {
    for layout in LAYOUTS {
        for (used, rack) in (1..64_u32).flat_map(|used| [(used, 0), (used, 1)]) {
            let mut rows = filled(layout);
            let Some(place) = newest(&rows, used, 1 - rack) else {
                continue;
            };
            if rows_of(&rows, used, rack) == Runs::RACK_ROWS {
                continue;
            }
            let mut next = rows[place].run.last;
            next.second += 1;
            let mut expected = rows;
            expected[used as usize] = alone(rack, next);
            let told = add_second(&mut rows, used, rack, &record(next));
            assert_eq!(told, (used + 1, Ok(Added::Opened)));
            assert_eq!(rows, expected);
        }
    }
}

/// From an empty table on, in any order: 32 rows of each rack, which stand in the order of the calls, and none more. The newest run of a
/// rack without a row left goes on.
#[test]
fn each_rack_opens_32_rows() {
    for layout in LAYOUTS {
        let (mut runs, mut expected) = (Runs::new(), Vec::new());
        for row in filled(layout) {
            let first = row.run.first;
            assert_eq!(runs.add(row.rack, &record(first)), Ok(Added::Opened));
            expected.push(alone(row.rack, first));
            assert_eq!(runs.rows(), expected);
            for rack in 0..Runs::RACKS {
                if runs.of_rack(rack).count() == Runs::RACK_ROWS {
                    assert_eq!(runs.add(rack, &record(first)), Err(Refusal::NoRow));
                }
            }
        }
        assert_eq!(runs.rows(), expected);
        for rack in 0..Runs::RACKS {
            let run = &mut expected[newest(runs.rows(), 64, rack).unwrap()].run;
            (run.last.second, run.count) = (1, 2);
            assert_eq!(runs.add(rack, &record(run.last)), Ok(Added::Joined));
            assert_eq!(runs.rows(), expected);
            assert_eq!(
                runs.add(rack, &told("91-01-01 00:00:00")),
                Err(Refusal::NoRow)
            );
        }
    }
    assert_eq!((Runs::ROWS, Runs::RACKS, Runs::RACK_ROWS), (64, 2, 32));
}

/// First of all: where the record would be added, where it tells no second, where no row is left, where the rows are of that rack, and
/// where the table is none.
#[test]
fn a_rack_that_there_is_not_is_refused_first() {
    for rack in [2, 3, 32, 64, 1 << 31, u32::MAX] {
        for record in [told("91-06-30 23:59:60"), Record::default()] {
            for used in [0, 1, 2, 32, 63, 64, 65, u32::MAX] {
                let mut rows = [filled(LAYOUTS[0]), filled(LAYOUTS[1])].concat();
                for length in [0, 63, 64, 65, 128] {
                    refused(&mut rows[..length], used, rack, &record, Refusal::NoRack);
                }
                rows.iter_mut().for_each(|row| row.rack = rack);
                refused(&mut rows[..64], used, rack, &record, Refusal::NoRack);
                rows.iter_mut().for_each(|row| row.run.count = u32::MAX);
                refused(&mut rows[..64], used, rack, &record, Refusal::NoRack);
            }
            let mut runs = Runs::new();
            assert_eq!(runs.add(rack, &record), Err(Refusal::NoRack));
            assert_eq!(runs, Runs::new());
        }
    }
}

/// A table of which the first rows are in use.
fn table(layout: fn(u32) -> u32, used: usize) -> (Runs, Vec<Row>) {
    let (mut runs, mut rows) = (Runs::new(), Vec::new());
    for row in &filled(layout)[..used] {
        rows.push(alone(row.rack, row.run.first));
        runs.add(row.rack, &record(row.run.first)).unwrap();
    }
    assert_eq!(runs.rows(), rows);
    (runs, rows)
}

#[test]
fn the_runs_of_one_rack_are_taken() {
    for layout in LAYOUTS {
        for (used, rack) in (0..=64).flat_map(|used| [(used, 0), (used, 1)]) {
            let (mut runs, rows) = table(layout, used);
            let (own, other): (Vec<Row>, Vec<Row>) = rows.iter().partition(|row| row.rack == rack);
            let own: Vec<Run> = own.iter().map(|row| row.run).collect();
            assert_eq!(listed(&runs, rack), own);
            assert!(runs.of_rack(rack).rev().eq(own.iter().rev()));
            for none in [2, 3, u32::MAX] {
                assert_eq!((runs.of_rack(none).count(), runs.take(none).len()), (0, 0));
                assert_eq!(runs.rows(), rows);
            }
            assert_eq!(runs.take(rack), own);
            assert_eq!(runs.rows(), other);
            assert_eq!(runs.take(rack), []);
            if let Some(Row { rack, run }) = other.last() {
                let mut next = run.last;
                next.second += 1;
                assert_eq!(runs.add(*rack, &record(next)), Ok(Added::Joined));
                assert_eq!(runs.take(*rack).last().map(|run| run.count), Some(2));
            }
            assert_eq!(runs, Runs::default());
        }
    }
}

/// A run of the other rack is not cut where the rows of a rack are taken; a run of that rack is.
#[test]
fn taking_cuts_no_run_of_the_other_rack() {
    let mut runs = Runs::new();
    let [seven, eight, nine] = [7, 8, 9].map(|number| Second {
        second: number,
        ..second("24-02-29 12:00:00")
    });
    for rack in 0..Runs::RACKS {
        assert_eq!(runs.add(rack, &record(seven)), Ok(Added::Opened));
        assert_eq!(runs.add(rack, &record(eight)), Ok(Added::Joined));
    }
    assert_eq!(runs.take(0).len(), 1);
    assert_eq!(runs.add(1, &record(nine)), Ok(Added::Joined));
    assert_eq!(runs.add(0, &record(nine)), Ok(Added::Opened));
    let racks: Vec<(u32, u32)> = runs
        .rows()
        .iter()
        .map(|row| (row.rack, row.run.count))
        .collect();
    assert_eq!(racks, [(1, 3), (0, 1)]);
}
