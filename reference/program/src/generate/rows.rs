//! Rows for made-up tables of W-206 and W-207, good and refused ones.

use super::runs::{carried, good_second, next};
use super::Random;
use crate::runs::{Row, Second, HIGHEST_COUNT};

/// The same second but for one number, which is one off either way.
fn one_off(second: &Second, random: &mut Random) -> Second {
    let mut numbers = second.numbers();
    let place = random.below(6);
    numbers[place] = match numbers[place] {
        0 => 1,
        number => random.pick(&[number - 1, number + 1]),
    };
    Second::from_numbers(numbers)
}

/// The newest row's last second and the record's.
pub(super) fn pair(random: &mut Random) -> (Second, Second) {
    let one = good_second(random);
    let two = next(&one, random);
    let three = next(&two, random);
    match random.below(12) {
        0..=3 => (one, two),
        // A repeat, a second missing, and a clock set back by one second or by two.
        4 => (one, one),
        5 => (one, three),
        6 => (two, one),
        7 => (three, one),
        8 => (one, carried(&one, random)),
        9 => (one, one_off(&two, random)),
        10 => (one, one_off(&one, random)),
        _ => (one, good_second(random)),
    }
}

/// Dates that there are not, each in a year and a month that there are.
const NO_DATES: [[u32; 3]; 13] = [
    [24, 1, 32],
    [24, 2, 30],
    [24, 2, 31],
    [23, 2, 29],
    [0, 2, 30],
    [80, 2, 30],
    [81, 2, 29],
    [99, 2, 29],
    [79, 2, 29],
    [24, 4, 31],
    [24, 6, 31],
    [91, 9, 31],
    [24, 11, 31],
];

/// A second that there is not: one number of it, or its date, is beyond its range.
fn impossible(second: &Second, random: &mut Random) -> Second {
    let mut numbers = second.numbers();
    let place = random.below(6);
    match random.below(9) {
        0 => numbers[..3].copy_from_slice(&random.pick(&NO_DATES)),
        1 => numbers[0] = random.pick(&[100, 101, 179, 180, 1999, 2024]),
        2 => numbers[1] = random.pick(&[0, 13, 14, 99]),
        3 => numbers[2] = random.pick(&[0, 32, 99]),
        4 => numbers[3] = random.pick(&[24, 25, 99]),
        5 => numbers[4] = random.pick(&[60, 61, 99]),
        6 => numbers[5] = random.pick(&[61, 62, 99]),
        // Numbers that are possible again in their low eight, sixteen or thirty-one bits.
        7 => numbers[place] += random.pick(&[1 << 8, 1 << 16, 1 << 31]),
        _ => numbers[place] = u32::MAX,
    }
    Second::from_numbers(numbers)
}

/// A row that says nothing, not even of which rack it is.
pub(super) fn nonsense(random: &mut Random) -> Row {
    let number = |random: &mut Random| match random.below(4) {
        0 => 0,
        1 => random.next_u64() as u32,
        2 => random.pick(&[u32::MAX, u32::MAX - 1, HIGHEST_COUNT, 1 << 31]),
        _ => random.below(100) as u32,
    };
    let mut second = || Second::from_numbers([0; 6].map(|_: u32| number(random)));
    Row {
        first: second(),
        last: second(),
        rack: number(random),
        count: number(random),
    }
}

/// A row that is not refused where it is the newest of this rack. Its first second is never looked
/// at.
pub(super) fn good_row(rack: u32, last: &Second, random: &mut Random) -> Row {
    Row {
        rack,
        first: if random.one_in(4) {
            nonsense(random).first
        } else {
            good_second(random)
        },
        last: *last,
        count: random.number(100_000, &[0, 1, 2, HIGHEST_COUNT - 1, HIGHEST_COUNT]),
    }
}

/// Makes a row one that is refused where it is a rack's newest.
pub(super) fn spoil_row(row: &mut Row, random: &mut Random) {
    if random.one_in(3) {
        row.count = random.pick(&[HIGHEST_COUNT + 1, HIGHEST_COUNT + 2, u32::MAX]);
    } else {
        row.last = impossible(&row.last, random);
    }
}
