//! What the picture says in words.

use crate::picture::coverage::{Coverage, Span};
use crate::picture::together::Together;
use crate::picture::Rack;

/// What a client has to know of the times, and what the picture cannot know.
pub const FOOT: &str = "Times are as the clock sent them. Where the clock tells local time, the hour of a change to or from summer time shows as missing or as heard twice. A leap second that was not heard is not counted as missing. Before the first second and behind the last nothing is known.";

/// Of two racks besides.
pub const FOOT_OF_TWO: &str = "Both racks stand on one time axis, by the times that their clocks sent: where one clock tells local time and the other UTC, a second that both heard stands in two places.";

/// So many gaps are listed for those who cannot see the picture.
const LISTED: usize = 20;

/// A number with a comma between thousands.
pub fn grouped(number: u64) -> String {
    let digits = number.to_string();
    let mut out = String::new();
    for (at, digit) in digits.chars().enumerate() {
        if at > 0 && (digits.len() - at).is_multiple_of(3) {
            out.push(',');
        }
        out.push(digit);
    }
    out
}

/// `1 gap`, `7 gaps`
fn counted(number: u64, word: &str) -> String {
    let end = if number == 1 { "" } else { "s" };
    format!("{} {word}{end}", grouped(number))
}

/// What part was heard, to the nearest hundredth; but it is 100 only where nothing is missing, and not 0 where something was heard.
fn percent(heard: u64, whole: u64) -> String {
    let hundredths = (heard * 20_000 + whole) / (2 * whole.max(1));
    match hundredths {
        _ if heard == whole => "100 %".to_string(),
        0 if heard > 0 => "less than 0.01 %".to_string(),
        10_000.. => "99.99 %".to_string(),
        _ => format!("{}.{:02} %", hundredths / 100, hundredths % 100),
    }
}

pub fn totals(coverage: &Coverage) -> String {
    if coverage.ends.is_none() {
        return "No second was heard".to_string();
    }
    let (heard, missing) = (coverage.seconds_heard(), coverage.seconds_missing());
    let whole = heard + missing;
    let share = percent(heard, whole);
    let gaps = coverage.missing.len() as u64;
    let rest = match gaps {
        0 => "none missing".to_string(),
        _ => format!("{} missing in {}", grouped(missing), counted(gaps, "gap")),
    };
    let heard = grouped(heard);
    format!(
        "Heard {heard} of {} ({share}), {rest}",
        counted(whole, "second")
    )
}

/// The lines on a rack but for the totals.
pub fn facts(rack: &Rack, coverage: &Coverage) -> Vec<String> {
    let times = coverage
        .ends
        .map(|(first, last)| format!(", from {first} to {last}"));
    let times = times.unwrap_or_default();
    let mut facts = vec![format!("Time strings of form {}{times}", rack.form)];
    let again = coverage.seconds_again();
    if again > 0 {
        facts.push(format!("{} heard more than once", counted(again, "second")));
    }
    if coverage.steps_back > 0 {
        let times = counted(coverage.steps_back, "time");
        facts.push(format!("The time went back {times}: what was heard at least once is drawn as heard, and the list of runs tells each time"));
    }
    let leap = coverage.leap_seconds.as_slice();
    if let [first, rest @ ..] = leap {
        let more = match rest.len() {
            0 => String::new(),
            more => format!(" and {}", counted(more as u64, "other")),
        };
        facts.push(format!("Leap second heard: {}{more}", first.moment()));
    }
    if rack.passed_over > 0 {
        let strings = counted(rack.passed_over, "string");
        facts.push(format!(
            "{strings} passed over: without a full date no second is told"
        ));
    }
    facts
}

/// What two racks have in common, where both heard something.
pub fn together(racks: &[Coverage]) -> Option<String> {
    let Together {
        both,
        alone: [first, second],
        missing,
    } = Together::of(racks)?;
    let [both, first, second, missing] = [both, first, second, missing].map(grouped);
    Some(format!("Seconds that both racks heard: {both}; rack 0 alone: {first}; rack 1 alone: {second}; missing in both: {missing}"))
}

/// The heading of one of two racks.
pub fn heading(number: usize, rack: &Rack) -> String {
    format!("Rack {number}: {}", rack.name)
}

/// The picture for those who cannot see it.
pub fn description(racks: &[Rack], coverages: &[Coverage]) -> String {
    if let ([rack], [coverage]) = (racks, coverages) {
        return description_of(rack, coverage);
    }
    let each = racks.iter().zip(coverages).enumerate();
    let mut parts: Vec<String> = each
        .map(|(number, (rack, coverage))| {
            let told = description_of(rack, coverage);
            format!("{}. {told}", heading(number, rack))
        })
        .collect();
    parts.extend(together(coverages));
    parts.join(" ")
}

fn description_of(rack: &Rack, coverage: &Coverage) -> String {
    let facts = facts(rack, coverage).join(". ");
    let mut out = format!("{facts}. {}.", totals(coverage));
    let told = |gap: &Span| format!("{} ({} s)", gap.words(), grouped(gap.seconds()));
    let gaps: Vec<String> = coverage.missing.iter().take(LISTED).map(told).collect();
    if !gaps.is_empty() {
        out += &format!(" Missing: {}", gaps.join("; "));
    }
    let more = coverage.missing.len().saturating_sub(LISTED);
    if more > 0 {
        out += &format!("; and {} more", counted(more as u64, "gap"));
    }
    out
}

#[cfg(test)]
mod tests {
    use super::*;
    use crate::picture::coverage::tests::log;

    #[test]
    fn numbers() {
        let told = [0, 12, 999, 1000, 10_234, 1_000_000, 3_155_760_000].map(grouped);
        let wanted = [
            "0",
            "12",
            "999",
            "1,000",
            "10,234",
            "1,000,000",
            "3,155,760,000",
        ];
        assert_eq!(told, wanted);
    }

    /// Never 100 while a second is missing, never 0 while one was heard.
    #[test]
    fn shares() {
        assert_eq!(percent(10_234, 10_800), "94.76 %");
        assert_eq!(percent(3_155_759_999, 3_155_760_000), "99.99 %");
        assert_eq!(percent(99_994, 100_000), "99.99 %");
        assert_eq!(percent(99_996, 100_000), "99.99 %");
        assert_eq!(percent(10_800, 10_800), "100 %");
        assert_eq!(percent(1, 1_000_000), "less than 0.01 %");
        assert_eq!(percent(1, 3), "33.33 %");
        assert_eq!(percent(1, 1000), "0.10 %");
    }

    #[test]
    fn sentences() {
        let told = |runs: &[&str], leap: &[&str]| {
            let heard = log(runs, leap);
            totals(&Coverage::new(&heard))
        };
        assert_eq!(
            told(&["12:00:00 12:29:59"], &[]),
            "Heard 1,800 of 1,800 seconds (100 %), none missing"
        );
        assert_eq!(
            told(&["12:00:00 12:00:00", "12:00:02 12:00:02"], &[]),
            "Heard 2 of 3 seconds (66.67 %), 1 missing in 1 gap"
        );
        assert_eq!(
            told(&["12:00:60 12:00:60"], &["12:00:60"]),
            "Heard 1 of 1 second (100 %), none missing"
        );
    }

    /// A second that was missing and is heard after the clock was set back is not missing, which has to be said.
    #[test]
    fn steps_back() {
        let heard = log(
            &[
                "12:00:00 12:00:00",
                "12:00:02 12:00:05",
                "12:00:01 12:00:03",
            ],
            &[],
        );
        let rack = Rack {
            name: "a",
            form: "racal",
            heard: &heard,
            passed_over: 0,
        };
        let told = facts(&rack, &Coverage::new(&heard));
        assert_eq!(told[1], "2 seconds heard more than once");
        assert!(told[2].starts_with("The time went back 1 time: what was heard at least once"));
        assert_eq!(told.len(), 3);
    }

    #[test]
    fn gaps_are_listed() {
        let minutes: Vec<String> = (0..23)
            .map(|n| format!("12:{n:02}:00 12:{n:02}:58"))
            .collect();
        let runs: Vec<&str> = minutes.iter().map(String::as_str).collect();
        let heard = log(&runs, &[]);
        let rack = Rack {
            name: "a",
            form: "racal",
            heard: &heard,
            passed_over: 1,
        };
        let told = description(&[rack], &[Coverage::new(&heard)]);
        assert!(told.starts_with(
            "Time strings of form racal, from 2024-01-01 12:00:00 to 2024-01-01 12:22:58. 1 string passed over"
        ));
        assert!(told.contains(". Missing: 2024-01-01 12:00:59 (1 s); 2024-01-01 12:01:59 (1 s); "));
        assert!(
            told.ends_with(" 2024-01-01 12:19:59 (1 s); and 2 gaps more"),
            "{told}"
        );
    }
}
