//! The picture of the heard and missing seconds of a log, or of two on one time axis, as SVG: one page that can be handed on without its logs.
//!
//! It has no script, no reference to anything outside and no time of its making: the same logs give the same bytes.

mod band;
mod coverage;
mod grid;
mod legend;
mod lines;
mod marks;
mod page;
mod svg;
mod together;
mod unit;
mod words;

use crate::hearing::Heard;
use coverage::Coverage;
use grid::Grid;
use marks::{FAINT, PAPER};
use page::{FONT, LEFT, RIGHT, TITLE, TOTALS};
use svg::{escaped, wrapped, Font, Svg};
use unit::Unit;

const FONTS: &str = "Helvetica, Arial, 'Liberation Sans', 'DejaVu Sans', sans-serif";

/// Room above what is said of one of two racks, and of both.
const ABOVE_RACK: u64 = 10;

/// What is drawn, and what is said of it: one rack or two.
pub struct Subject<'a> {
    pub title: &'a str,
    pub racks: Vec<Rack<'a>>,
}

/// A rack, by its log.
pub struct Rack<'a> {
    pub name: &'a str,
    pub form: &'a str,
    pub heard: &'a Heard,
    /// records that tell no second
    pub passed_over: u64,
}

/// The picture; none where nothing was heard of any rack.
pub fn draw(subject: &Subject) -> Option<String> {
    let racks: Vec<Coverage> = subject
        .racks
        .iter()
        .map(|rack| Coverage::new(rack.heard))
        .collect();
    racks.iter().find_map(|coverage| coverage.ends)?;
    let unit = Unit::of(&racks);
    let mut page = Svg::default();
    let y = head(&mut page, subject, &racks);
    let y = legend::draw(&mut page, &racks, unit, y + 16);
    let y = Grid::new(&racks, unit).draw(&mut page, y + 4);
    let height = foot(&mut page, racks.len(), y + 24) + 16;
    let width = page::width(racks.len());
    let mut whole = Svg::default();
    whole.line(format_args!("<svg xmlns=\"http://www.w3.org/2000/svg\" version=\"1.1\" width=\"{width}\" height=\"{height}\" viewBox=\"0 0 {width} {height}\" role=\"img\" aria-labelledby=\"title description\" font-family=\"{FONTS}\">"));
    let title = escaped(subject.title);
    whole.line(format_args!("<title id=\"title\">{title}</title>"));
    let description = escaped(&words::description(&subject.racks, &racks));
    whole.line(format_args!(
        "<desc id=\"description\">{description}</desc>"
    ));
    whole.line(format_args!(
        "<rect width=\"{width}\" height=\"{height}\" fill=\"{PAPER}\"/>"
    ));
    whole.text += &page.text;
    whole.line("</svg>");
    Some(whole.text)
}

/// Title, and totals and facts of each rack; returns where they end.
fn head(page: &mut Svg, subject: &Subject, racks: &[Coverage]) -> u64 {
    let mut y = 22;
    let mut put = |above: u64, font: Font, text: &str| {
        y += above;
        for line in wrapped(text, font, RIGHT - LEFT) {
            y += font.size + font.size / 3;
            page.words(LEFT, y, font, &line);
        }
    };
    put(0, FONT.size(TITLE).bold(), subject.title);
    for (number, (rack, coverage)) in subject.racks.iter().zip(racks).enumerate() {
        if racks.len() > 1 {
            let heading = words::heading(number, rack);
            put(ABOVE_RACK, FONT.size(TOTALS).bold(), &heading);
        }
        put(0, FONT.size(TOTALS), &words::totals(coverage));
        for fact in words::facts(rack, coverage) {
            put(0, FONT, &fact);
        }
    }
    if let Some(together) = words::together(racks) {
        put(ABOVE_RACK, FONT, &together);
    }
    y + 12
}

/// What the picture cannot know; returns where it ends.
fn foot(page: &mut Svg, racks: usize, y: u64) -> u64 {
    let more = if racks > 1 { words::FOOT_OF_TWO } else { "" };
    let mut y = y;
    for line in wrapped(&format!("{} {more}", words::FOOT), FONT, RIGHT - LEFT) {
        y += FONT.size + FONT.size / 3;
        page.words(LEFT, y, FONT.colour(FAINT), &line);
    }
    y
}

#[cfg(test)]
mod tests {
    use super::*;
    use crate::moment::tests::{moment, second};
    use coverage::tests::log;

    fn drawn_of(title: &str, logs: &[&Heard]) -> Option<String> {
        let racks = logs.iter().map(|heard| Rack {
            name: "a.log",
            form: "racal",
            heard,
            passed_over: 0,
        });
        draw(&Subject {
            title,
            racks: racks.collect(),
        })
    }

    fn drawn(title: &str, runs: &[&str], leap: &[&str]) -> String {
        drawn_of(title, &[&log(runs, leap)]).unwrap()
    }

    #[test]
    fn names_are_escaped() {
        let picture = drawn("<a & \"b\">\n\u{1b}.log", &["12:00:00 12:00:09"], &[]);
        let name = "&lt;a &amp; &quot;b&quot;&gt; \u{fffd}.log";
        assert!(picture.contains(&format!("<title id=\"title\">{name}</title>")));
        assert!(picture.contains(&format!(">{name}</text>")));
        assert!(!picture.contains("<a ") && !picture.contains('\u{1b}'));
    }

    #[test]
    fn whole_and_alone() {
        let picture = drawn("a", &["12:00:00 12:00:09"], &[]);
        assert!(picture.starts_with("<svg xmlns=") && picture.ends_with("</svg>\n"));
        assert_eq!(picture.matches("http").count(), 1);
        for word in ["<script", "href", "url(", "<image", "<style"] {
            assert!(!picture.contains(word), "{word}");
        }
    }

    #[test]
    fn a_long_title_is_not_cut() {
        let title = "long name ".repeat(40);
        let picture = drawn(&title, &["12:00:00 12:00:09"], &[]);
        let told = picture.matches("font-size=\"38\"").count();
        assert!(told > 5, "{told}");
    }

    #[test]
    fn a_leap_second_alone() {
        let picture = drawn("a", &["12:00:60 12:00:60"], &["12:00:60"]);
        assert!(picture.contains("Heard 1 of 1 second (100 %), none missing"));
        assert!(picture.contains("<title>leap second heard: 2024-01-01 12:00:60</title>"));
    }

    /// The last second that there is has nothing behind it that could be told.
    #[test]
    fn end_of_the_calendar() {
        let mut heard = log(&["23:59:50 23:59:60"], &[]);
        heard.runs[0].first = second("2079-12-31 23:59:50");
        heard.runs[0].last = second("2079-12-31 23:59:60");
        heard.leap_seconds = vec![moment("2079-12-31 23:59:60")];
        let picture = drawn_of("a", &[&heard]).unwrap();
        assert!(picture.contains("Heard 11 of 11 seconds (100 %)"));
        assert!(picture.contains("heard 10 s: 2079-12-31 23:59:50 to 2079-12-31 23:59:59"));
    }

    #[test]
    fn nothing_heard() {
        let nothing = Heard::default();
        assert!(drawn_of("a", &[&nothing]).is_none());
        assert!(drawn_of("a", &[&nothing, &nothing]).is_none());
    }

    /// One rack of which nothing was heard keeps the other one from nothing, and it says so.
    #[test]
    fn nothing_heard_of_one_rack() {
        let heard = log(&["12:00:00 12:00:09"], &[]);
        let nothing = Heard::default();
        for logs in [[&heard, &nothing], [&nothing, &heard]] {
            let picture = drawn_of("a", &logs).unwrap();
            assert_eq!(picture.matches(">No second was heard<").count(), 1);
            assert_eq!(picture.matches(">Heard 10 of 10 seconds").count(), 1);
            assert!(!picture.contains("both racks heard:"));
        }
    }

    #[test]
    fn two_racks() {
        let first = log(&["12:00:00 12:00:09"], &[]);
        let second = log(&["12:00:05 12:00:05", "12:00:08 12:00:19"], &[]);
        let picture = drawn_of("a", &[&first, &second]).unwrap();
        for words in [
            ">Rack 0: a.log<",
            ">Rack 1: a.log<",
            ">Heard 10 of 10 seconds (100 %), none missing<",
            ">Heard 13 of 15 seconds (86.67 %), 2 missing in 1 gap<",
            ">Seconds that both racks heard: 3; rack 0 alone: 7; rack 1 alone: 10; missing in both: 0<",
        ] {
            assert_eq!(picture.matches(words).count(), 1, "{words}");
        }
        assert_eq!(picture.matches("id=\"legend\"").count(), 1);
    }
}
