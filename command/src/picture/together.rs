//! What two racks have in common: seconds that both heard, one of them alone, or that are missing in both.

use crate::picture::coverage::{Coverage, Span};

/// Numbers of different seconds.
#[derive(Clone, Copy, Debug, PartialEq, Eq)]
pub struct Together {
    pub both: u64,
    /// by the rack's number
    pub alone: [u64; 2],
    pub missing: u64,
}

impl Together {
    /// Of two racks of each of which something was heard; else there is nothing to compare.
    pub fn of(racks: &[Coverage]) -> Option<Together> {
        let [first, second] = racks else {
            return None;
        };
        first.ends.and(second.ends)?;
        let both = common(&first.heard, &second.heard) + common_leap_seconds(first, second);
        Some(Together {
            both,
            alone: [first, second].map(|rack| rack.seconds_heard() - both),
            missing: common(&first.missing, &second.missing),
        })
    }
}

/// How many seconds two lists of spans have both; each list is in order and without overlap.
fn common(first: &[Span], second: &[Span]) -> u64 {
    let (mut one, mut other) = (first.iter().peekable(), second.iter().peekable());
    let mut seconds = 0;
    while let (Some(a), Some(b)) = (one.peek(), other.peek()) {
        seconds += a.within(**b).seconds();
        if a.to <= b.to {
            one.next();
        } else {
            other.next();
        }
    }
    seconds
}

fn common_leap_seconds(first: &Coverage, second: &Coverage) -> u64 {
    let of_second = |minute| second.leap_seconds.iter().any(|leap| leap.minute == minute);
    let both = first
        .leap_seconds
        .iter()
        .filter(|leap| of_second(leap.minute));
    both.count() as u64
}

#[cfg(test)]
mod tests {
    use super::*;
    use crate::hearing::Heard;
    use crate::picture::coverage::tests::log;

    fn together(first: &Heard, second: &Heard) -> Option<Together> {
        Together::of(&[first, second].map(Coverage::new))
    }

    #[test]
    fn seconds_of_two_racks() {
        let first = log(&["12:00:00 12:00:09", "12:00:20 12:00:39"], &[]);
        let second = log(
            &[
                "12:00:05 12:00:14",
                "12:00:18 12:00:24",
                "12:00:30 12:00:59",
            ],
            &[],
        );
        // heard of both 05 to 09, 20 to 24 and 30 to 39, missing in both 15 to 17
        let wanted = Together {
            both: 20,
            alone: [10, 27],
            missing: 3,
        };
        assert_eq!(together(&first, &second), Some(wanted));
        let wanted = Together {
            alone: [27, 10],
            ..wanted
        };
        assert_eq!(together(&second, &first), Some(wanted));
    }

    #[test]
    fn leap_seconds() {
        let first = log(&["12:00:58 12:01:01"], &["12:00:60"]);
        let second = log(&["12:00:60 12:00:60"], &["12:00:60"]);
        let without = log(&["12:00:58 12:01:01"], &[]);
        let told = |second| together(&first, second).map(|told| (told.both, told.alone));
        assert_eq!(told(&second), Some((1, [4, 0])));
        assert_eq!(told(&without), Some((4, [1, 0])));
        assert_eq!(told(&first), Some((5, [0, 0])));
    }

    #[test]
    fn nothing_to_compare() {
        let heard = log(&["12:00:00 12:00:09"], &[]);
        assert_eq!(together(&heard, &Heard::default()), None);
        assert_eq!(together(&Heard::default(), &heard), None);
        assert_eq!(Together::of(&[Coverage::new(&heard)]), None);
    }
}
