//! Tests: what two seconds in turn have between them, so that a test can say which ends and breaks it
//! has met.

use crate::afresh::{is_next, minute_number};
use crate::runs::Second;

/// How many kinds of ends, and of breaks, there are.
pub(crate) const ENDS: usize = 12;
pub(crate) const BREAKS: usize = 4;

/// A kind, and whether it holds.
type Holds = (&'static str, bool);

/// What a second and its next have between them.
fn ends_between(one: &Second, two: &Second) -> [Holds; ENDS] {
    let dates = [one, two].map(|s| (s.month, s.day));
    [
        ("59 to 60", two.second == 60),
        ("60 to the next minute", one.second == 60),
        ("59 to the next minute", one.second == 59 && two.second == 0),
        ("an hour's end", one.hour + 1 == two.hour),
        ("a day's end", one.day + 1 == two.day),
        ("a month's end", one.month + 1 == two.month),
        ("a year's end", one.year + 1 == two.year),
        ("the end of 1999", one.year == 99 && two.year == 0),
        ("28 to 29 February", dates == [(2, 28), (2, 29)]),
        ("28 February to 1 March", dates == [(2, 28), (3, 1)]),
        ("29 February to 1 March", dates == [(2, 29), (3, 1)]),
        ("the calendar's last minute", is_last_minute(one)),
    ]
}

fn is_last_minute(second: &Second) -> bool {
    second.numbers()[..5] == [79, 12, 31, 23, 59]
}

/// What a second has between it and another that is not its next.
fn breaks_between(one: &Second, two: &Second) -> [Holds; BREAKS] {
    let [before, after] = [one, two].map(|s| (minute_number(s), s.second));
    [
        ("the calendar's end", is_last_minute(one) && two.year == 80),
        ("a repeat", one == two),
        ("a clock set back", after < before),
        ("missing seconds", after > before),
    ]
}

/// All that holds of two seconds in turn.
pub(crate) fn between(one: &Second, two: &Second) -> Vec<&'static str> {
    let all = if is_next(one, two) {
        ends_between(one, two).to_vec()
    } else {
        breaks_between(one, two).to_vec()
    };
    let met = all.into_iter().filter(|(_, holds)| *holds);
    met.map(|(what, _)| what).collect()
}
