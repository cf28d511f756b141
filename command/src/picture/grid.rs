//! The grid: ticks on top, a band for each line with its label and its sums; of two racks a band for each in every line.

use crate::moment::{Moment, DAY};
use crate::picture::band::{self, Sums};
use crate::picture::coverage::{Coverage, Span};
use crate::picture::lines::{line_span, lines, Line};
use crate::picture::marks::{self, Band, FAINT, GUIDE, INK, MISSING};
use crate::picture::page::{
    self, AGAIN_END, BESIDE, FONT, LABEL_END, LEAP, LEAP_WIDTH, LEFT, MISSING_END, TEXT,
};
use crate::picture::svg::{Area, Font, Svg};
use crate::picture::unit::{lowest, Unit, LINE_WIDTH};
use crate::picture::words::grouped;

/// The bands of a page are so high together, and each of them at most so high.
const HEIGHT: u64 = 1850;
const HIGHEST: u64 = 30;
/// A line with a date, and one with several lines gathered.
const DATE_LINE: u64 = 46;
const GATHERED_LINE: u64 = 36;
/// Behind the bands of two racks, so that those of one line are seen as such.
const BEHIND_TWO: u64 = 10;
/// Labels are so far apart, so that none touches another.
const APART: u64 = 26;
/// From a text's base to the middle of its digits.
const HALF_DIGIT: u64 = 7;

/// Labels and sums end at one place.
const AT_END: Font = Font {
    anchor: "end",
    ..FONT
};

pub struct Grid<'a> {
    racks: &'a [Coverage],
    unit: &'static Unit,
    lines: Vec<Line>,
    /// from one band's top to the next one's
    pitch: u64,
    /// where bands begin
    band_x: u64,
}

/// The lines since the last label: what of them is missing and heard again is told beside that label.
#[derive(Default)]
struct Block {
    label: Option<u64>,
    sums: Sums,
}

impl<'a> Grid<'a> {
    pub fn new(racks: &'a [Coverage], unit: &'static Unit) -> Grid<'a> {
        let lines = lines(racks, unit);
        let mut grid = Grid {
            racks,
            unit,
            lines,
            pitch: 0,
            band_x: page::band_x(racks.len()),
        };
        let others: u64 = grid.lines.iter().map(|line| grid.height(line)).sum();
        let of_time = |line: &&Line| matches!(line, Line::Time(_));
        let bands = grid.lines.iter().filter(of_time).count() * racks.len();
        let pitch = HEIGHT.saturating_sub(others) / bands.max(1) as u64;
        grid.pitch = pitch.clamp(lowest(racks.len()), HIGHEST);
        grid
    }

    /// The height of a line with the bands of all racks.
    fn height(&self, line: &Line) -> u64 {
        let racks = self.racks.len() as u64;
        let behind = if racks > 1 { BEHIND_TWO } else { 0 };
        match line {
            Line::Date(_) => DATE_LINE,
            Line::Gathered { .. } => GATHERED_LINE * racks + behind,
            Line::Time(_) => self.pitch * racks + behind,
        }
    }

    /// Draws it from y on, and returns where it ends.
    pub fn draw(&self, svg: &mut Svg, y: u64) -> u64 {
        let words = self.words();
        svg.words(self.band_x, y + TEXT, FONT.colour(FAINT), &words);
        let top = y + 4 * TEXT;
        self.headings(svg, top - 12);
        // the guides are below all else, and their end is known when all else is drawn
        let mut bands = Svg::default();
        let bottom = self.bands(&mut bands, top);
        self.ticks(svg, top, bottom);
        svg.open("id=\"lines\"", "");
        svg.text += &bands.text;
        svg.close();
        bottom
    }

    /// How the grid is read.
    fn words(&self) -> String {
        let [line, column] = self.unit.words;
        let mut words = format!("One line is {line}, one column is {column}.");
        if self.racks.len() > 1 {
            words += " In each line rack 0 is above, rack 1 below.";
        } else if self.unit.share(self.pitch, APART) > 1 {
            // a sum of two minutes may be over 60
            words += " A sum at the right is of the lines from its label to the next one.";
        }
        words
    }

    /// What the columns are, and the sums at the right.
    fn headings(&self, svg: &mut Svg, y: u64) {
        let (per, counted) = self.unit.counted;
        let font = AT_END.colour(FAINT);
        svg.words(self.band_x - BESIDE - TEXT / 2, y, font, counted);
        // a wide column has its number in its middle, and the last one no end of its own
        let (shift, last) = match self.unit.has_wide_columns() {
            true => (self.unit.column_width() / 2, self.unit.seconds - 1),
            false => (0, self.unit.seconds),
        };
        for at in (0..=last).step_by(self.unit.tick as usize) {
            let x = self.band_x + self.unit.x(at) + shift;
            svg.words(x, y, font.anchor("middle"), &(at / per).to_string());
        }
        let has_leap = |coverage: &Coverage| !coverage.leap_seconds.is_empty();
        if self.unit.has_wide_columns() && self.racks.iter().any(has_leap) {
            let x = self.band_x + LEAP + LEAP_WIDTH / 2;
            svg.words(x, y, font.anchor("middle"), "60");
        }
        self.headings_of_sums(svg, y);
    }

    /// Of those sums that some rack has.
    fn headings_of_sums(&self, svg: &mut Svg, y: u64) {
        let has_missing = |coverage: &Coverage| coverage.seconds_missing() > 0;
        let has_again = |coverage: &Coverage| coverage.seconds_again() > 0;
        let sums = [
            (
                self.racks.iter().any(has_missing),
                MISSING_END,
                MISSING,
                "missing",
            ),
            (self.racks.iter().any(has_again), AGAIN_END, INK, "again"),
        ];
        for (_, end, colour, words) in sums.into_iter().filter(|(is_there, ..)| *is_there) {
            let (x, font) = (self.band_x + end, AT_END.colour(colour));
            svg.words(x, y - TEXT - 4, font, "seconds");
            svg.words(x, y, font, words);
        }
    }

    fn ticks(&self, svg: &mut Svg, top: u64, bottom: u64) {
        svg.open("id=\"ticks\"", "");
        for at in (0..=self.unit.seconds).step_by(self.unit.tick as usize) {
            let guide = Area {
                x: self.band_x + self.unit.x(at),
                y: top - 8,
                width: 1,
                height: bottom + 8 - top,
            };
            svg.rect(guide, GUIDE);
        }
        svg.close();
    }

    /// Draws all lines and returns where they end.
    fn bands(&self, svg: &mut Svg, top: u64) -> u64 {
        let mut y = top;
        let mut block = Block::default();
        for line in &self.lines {
            match (*line, self.racks) {
                (Line::Time(line), [coverage]) => {
                    self.label(svg, &mut block, line, y);
                    let band = self.place(y);
                    let sums = band::draw(svg, coverage, self.unit, line, band);
                    block.sums.missing += sums.missing;
                    block.sums.again += sums.again;
                }
                (Line::Time(line), _) => self.line_of_two(svg, line, y),
                (Line::Date(day), _) => {
                    block.end(svg, self.band_x);
                    let date = Moment::at(day * DAY).date();
                    let font = FONT.bold();
                    svg.words(LEFT, y + DATE_LINE - 14, font, &date);
                }
                (Line::Gathered { first, lines }, _) => {
                    block.end(svg, self.band_x);
                    self.gathered(svg, first, lines, y);
                }
            }
            y += self.height(line);
        }
        block.end(svg, self.band_x);
        y
    }

    /// The label of a line, where it has one: where a block begins, and at round times.
    fn label(&self, svg: &mut Svg, block: &mut Block, line: u64, y: u64) {
        let middle = middle(self.place(y));
        let is_round = line.is_multiple_of(self.unit.share(self.pitch, APART));
        let has_label = block
            .label
            .is_none_or(|last| is_round && middle >= last + APART);
        if has_label {
            block.end(svg, self.band_x);
            block.label = Some(middle);
            svg.words(LABEL_END, middle, AT_END, &self.unit.label(line));
        }
    }

    /// A line of two racks: its label once, and for each rack its name, its band and its sums.
    fn line_of_two(&self, svg: &mut Svg, line: u64, y: u64) {
        let between = y + self.pitch + self.place(0).above / 2;
        svg.words(
            LABEL_END,
            between + HALF_DIGIT,
            AT_END,
            &self.unit.label(line),
        );
        for (rack, coverage) in self.racks.iter().enumerate() {
            let band = self.place(y + self.pitch * rack as u64);
            self.open_rack(svg, rack, middle(band));
            let sums = band::draw(svg, coverage, self.unit, line, band);
            let label = Some(middle(band));
            Block { label, sums }.end(svg, self.band_x);
            close_rack(svg);
        }
    }

    /// One of two racks: what is drawn until it is closed is its own, as each title says.
    fn open_rack(&self, svg: &mut Svg, rack: usize, y: u64) {
        svg.open(&format!("class=\"rack-{rack}\""), "");
        svg.lead = format!("rack {rack}: ");
        let font = AT_END.colour(FAINT);
        svg.words(self.band_x - BESIDE, y, font, &format!("rack {rack}"));
    }

    /// The band of the line at y. Narrow columns need room above it for the marks of single seconds.
    fn place(&self, y: u64) -> Band {
        let above = match self.unit.has_wide_columns() {
            true => (self.pitch / 7).max(1),
            false => (self.pitch / 4).max(3),
        };
        Band {
            x: self.band_x,
            y: y + above,
            height: self.pitch - above,
            above,
        }
    }

    /// Several lines on which nothing was heard, as one for each rack.
    fn gathered(&self, svg: &mut Svg, first: u64, lines: u64, y: u64) {
        let mut span = line_span(first, self.unit);
        span.to += (lines - 1) * self.unit.seconds;
        for (rack, coverage) in self.racks.iter().enumerate() {
            let area = Area {
                x: self.band_x,
                y: y + 5 + GATHERED_LINE * rack as u64,
                width: LINE_WIDTH,
                height: GATHERED_LINE - 7,
            };
            if self.racks.len() == 1 {
                gathered_of(svg, coverage, span, lines, area);
                continue;
            }
            self.open_rack(svg, rack, area.y + area.height / 2 + HALF_DIGIT);
            gathered_of(svg, coverage, span, lines, area);
            close_rack(svg);
        }
    }
}

/// Of one rack: where it was not listened to before or behind these lines, nothing is missing.
fn gathered_of(svg: &mut Svg, coverage: &Coverage, span: Span, lines: u64, area: Area) {
    let (lines, seconds, times) = (grouped(lines), span.seconds(), span.words());
    let is_missing = span.within(coverage.whole) == span;
    let words = if is_missing {
        marks::gathered(svg, area, &format!("missing {seconds} s: {times}"));
        let seconds = grouped(seconds);
        format!("… {lines} lines, nothing heard: {times}, {seconds} s")
    } else {
        marks::outside(svg, area);
        format!("… {lines} lines, not known: {times}")
    };
    let base = area.y + area.height / 2 + HALF_DIGIT;
    svg.words(area.x + 16, base, FONT, &words);
}

/// Where the base of a text is that stands in the middle of a band.
fn middle(band: Band) -> u64 {
    band.y + band.height / 2 + HALF_DIGIT
}

fn close_rack(svg: &mut Svg) {
    svg.lead.clear();
    svg.close();
}

impl Block {
    /// Tells the sums beside the block's label, if there are any.
    fn end(&mut self, svg: &mut Svg, band_x: u64) {
        let Block { label, sums } = std::mem::take(self);
        let Some(y) = label else {
            return;
        };
        if sums.missing > 0 {
            let font = AT_END.colour(MISSING);
            svg.words(band_x + MISSING_END, y, font, &grouped(sums.missing));
        }
        if sums.again > 0 {
            svg.words(band_x + AGAIN_END, y, AT_END, &grouped(sums.again));
        }
    }
}

#[cfg(test)]
mod tests {
    use super::*;
    use crate::picture::coverage::tests::log;

    fn drawn(first: &[&str], second: &[&str]) -> String {
        let racks = [first, second].map(|runs| Coverage::new(&log(runs, &[])));
        let mut svg = Svg::default();
        Grid::new(&racks, Unit::of(&racks)).draw(&mut svg, 0);
        svg.text
    }

    /// Each rack's bands in each line, however little of it was heard there.
    #[test]
    fn two_racks() {
        let text = drawn(&["12:00:00 12:01:59"], &["12:01:30 12:02:09"]);
        for rack in ["class=\"rack-0\"", "class=\"rack-1\""] {
            assert_eq!(text.matches(rack).count(), 3, "{text}");
        }
        assert!(text.contains("<title>rack 0: heard 60 s: 2024-01-01 12:00:00 to"));
        assert!(text.contains("<title>rack 1: heard 30 s: 2024-01-01 12:01:30 to"));
        assert!(text.contains("In each line rack 0 is above, rack 1 below."));
        assert!(!text.contains("missing"), "{text}");
    }

    /// What one rack's gap is, is not known of the other where that was not listened to.
    #[test]
    fn gathered_lines_of_two_racks() {
        let apart = ["12:00:00 12:00:59", "12:10:00 12:10:59"];
        let text = drawn(&apart, &["12:00:30 12:00:40"]);
        let times = "2024-01-01 12:01:00 to 2024-01-01 12:09:59";
        assert!(text.contains(&format!("<title>rack 0: missing 540 s: {times}</title>")));
        assert!(text.contains(&format!("… 9 lines, nothing heard: {times}, 540 s<")));
        assert!(text.contains(&format!("… 9 lines, not known: {times}<")));
        assert!(!text.contains("rack 1: missing"));
        let text = drawn(&["12:00:00 12:00:59"], &["12:10:00 12:10:59"]);
        assert_eq!(text.matches("lines, not known").count(), 2);
        assert!(!text.contains("missing"), "{text}");
    }
}
