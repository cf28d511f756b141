//! One line of the grid, as a band of heard and missing seconds.

use crate::picture::coverage::Coverage;
use crate::picture::lines::{again, line_span, lines, pieces, Kind, Line, Piece};
use crate::picture::marks::{self, Band, NARROW};
use crate::picture::page::{LEAP, LEAP_WIDTH, POINTER};
use crate::picture::svg::Svg;
use crate::picture::unit::Unit;

/// A line of more pieces is drawn as a whole. Each of them alone could not be told from the next, and a clock that sends a string
/// every other second would make a file that few programs open.
const DENSE: usize = 90;

/// Seconds of a line.
#[derive(Clone, Copy, Default)]
pub struct Sums {
    pub missing: u64,
    pub again: u64,
}

/// Whether a line of the grid is drawn as a whole, of some rack.
pub fn has_dense(racks: &[Coverage], unit: &Unit) -> bool {
    let is_dense = |line: u64| {
        let mut pieces = racks.iter().map(|coverage| pieces(coverage, line, unit));
        pieces.any(|pieces| pieces.len() > DENSE)
    };
    lines(racks, unit).iter().any(|line| match line {
        Line::Time(line) => is_dense(*line),
        Line::Date(_) | Line::Gathered { .. } => false,
    })
}

/// Where a piece stands: x and width.
fn place(piece: &Piece, unit: &Unit, band: Band) -> (u64, u64) {
    let column = unit.column_width();
    (band.x + piece.first * column, piece.columns * column)
}

/// Draws a line by its number.
pub fn draw(svg: &mut Svg, coverage: &Coverage, unit: &Unit, line: u64, band: Band) -> Sums {
    let pieces = pieces(coverage, line, unit);
    let is_dense = pieces.len() > DENSE;
    if is_dense {
        dense(svg, unit, band, &pieces);
    } else {
        for each in &pieces {
            piece(svg, unit, band, each);
        }
    }
    let again = draw_again(svg, coverage, unit, line, band);
    // drawn last, so that no mark hides them
    let with_missing = pieces.iter().filter(|piece| piece.missing > 0);
    for (x, width) in with_missing.clone().map(|piece| place(piece, unit, band)) {
        if width < NARROW && !is_dense {
            marks::triangle(svg, band, x, width);
        }
    }
    let missing = with_missing.map(|piece| piece.missing).sum();
    if missing > 0 {
        marks::pointer(svg, band, band.x + POINTER);
    }
    Sums { missing, again }
}

fn piece(svg: &mut Svg, unit: &Unit, band: Band, piece: &Piece) {
    let (x, width) = place(piece, unit, band);
    let Piece { heard, missing, .. } = piece;
    match piece.kind {
        Kind::Outside => marks::outside(svg, band.area(x, width)),
        Kind::Heard => {
            let title = format!("heard {heard} s: {}", piece.span.words());
            marks::heard(svg, band.area(x, width), &title);
        }
        Kind::Missing => {
            let title = format!("missing {missing} s: {}", piece.span.words());
            marks::missing(svg, band, x, width, &title);
        }
        Kind::Mixed => {
            let title = format!(
                "heard {heard} s, missing {missing} s: {}",
                piece.span.words()
            );
            marks::mixed(svg, band, x, width, &title);
        }
    }
}

/// Many pieces as one: white, with all that was heard on it.
fn dense(svg: &mut Svg, unit: &Unit, band: Band, pieces: &[Piece]) {
    let outside = |piece: &&Piece| piece.kind == Kind::Outside;
    for piece in pieces.iter().filter(outside) {
        let (x, width) = place(piece, unit, band);
        marks::outside(svg, band.area(x, width));
    }
    let known: Vec<&Piece> = pieces.iter().filter(|piece| !outside(piece)).collect();
    let [first, .., last] = known[..] else {
        return;
    };
    let heard: u64 = known.iter().map(|piece| piece.heard).sum();
    let missing: u64 = known.iter().map(|piece| piece.missing).sum();
    let mut span = first.span;
    span.to = last.span.to;
    let title = format!("heard {heard} s, missing {missing} s: {}", span.words());
    let (x, (end, width)) = (place(first, unit, band).0, place(last, unit, band));
    let areas = known.iter().filter_map(|piece| {
        let (x, width) = place(piece, unit, band);
        match piece.kind {
            Kind::Heard => Some(band.area(x, width)),
            Kind::Mixed => Some(band.lower_third(x, width)),
            Kind::Missing | Kind::Outside => None,
        }
    });
    marks::dense(svg, band.area(x, end + width - x), areas, &title);
}

/// Draws what was heard more than once, and the seconds 60; how many seconds were heard more than once.
fn draw_again(svg: &mut Svg, coverage: &Coverage, unit: &Unit, line: u64, band: Band) -> u64 {
    let column = unit.column_width();
    let parts = again(coverage, line, unit);
    let places = parts
        .iter()
        .map(|(first, columns, _)| (band.x + first * column, columns * column));
    let sum: u64 = parts.iter().map(|(_, _, seconds)| seconds).sum();
    if parts.len() > DENSE {
        let strips = places.map(|(x, width)| band.lower_third(x, width));
        marks::again_dense(svg, strips, &format!("heard more than once: {sum} s"));
    } else {
        for ((_, _, seconds), (x, width)) in parts.iter().zip(places) {
            let title = format!("heard more than once: {seconds} s");
            marks::again(svg, band, x, width, &title);
        }
    }
    sum + draw_leap_seconds(svg, coverage, unit, line, band)
}

/// Draws the seconds 60; how many of them were heard more than once.
fn draw_leap_seconds(
    svg: &mut Svg,
    coverage: &Coverage,
    unit: &Unit,
    line: u64,
    band: Band,
) -> u64 {
    let span = line_span(line, unit);
    let mut again = 0;
    for leap in &coverage.leap_seconds {
        let before = leap.number_before();
        if !(span.from..span.to).contains(&before) {
            continue;
        }
        let title = format!("leap second heard: {}", leap.moment());
        let (x, behind) = (band.x + unit.x(before + 1 - span.from), band.x + LEAP);
        match unit.has_wide_columns() {
            true => marks::leap_column(svg, band.area(behind, LEAP_WIDTH), &title),
            false => marks::leap_mark(svg, band, Some(x), behind, &title),
        }
        if leap.times > 1 {
            let title = format!("heard more than once: {}", leap.moment());
            marks::again(svg, band, behind, LEAP_WIDTH, &title);
            again += 1;
        }
    }
    again
}

#[cfg(test)]
mod tests {
    use super::*;
    use crate::moment::tests::moment;
    use crate::picture::coverage::tests::log;
    use crate::picture::unit::UNITS;

    const BAND: Band = Band {
        x: 180,
        y: 10,
        height: 20,
        above: 5,
    };

    /// The ten minutes from 12:00 on, of which every so many seconds one is missing.
    fn drawn(each: usize) -> (String, Sums) {
        let [_, unit, ..] = &UNITS;
        let runs: Vec<String> = (0..600)
            .filter(|second| second % each != 1)
            .map(|second| format!("12:{:02}:{:02}", second / 60, second % 60))
            .map(|second| format!("{second} {second}"))
            .collect();
        let runs: Vec<&str> = runs.iter().map(String::as_str).collect();
        let coverage = Coverage::new(&log(&runs, &[]));
        let line = moment("2024-01-01 12:00:00").number() / unit.seconds;
        let mut svg = Svg::default();
        let sums = draw(&mut svg, &coverage, unit, line, BAND);
        (svg.text, sums)
    }

    #[test]
    fn each_missing_second_has_its_mark() {
        let (text, sums) = drawn(20);
        assert_eq!(sums.missing, 30);
        assert_eq!(text.matches("class=\"missing\"").count(), 30);
        // as wide as the one heard second before the first of them
        assert_eq!(text.matches("width=\"2\"").count(), 31);
    }

    #[test]
    fn many_heard_again_are_drawn_as_one() {
        let [_, unit, ..] = &UNITS;
        let mut runs = vec!["12:00:00 12:09:59".to_string()];
        for second in (0..600).step_by(2) {
            let at = format!("12:{:02}:{:02}", second / 60, second % 60);
            runs.push(format!("{at} {at}"));
        }
        let runs: Vec<&str> = runs.iter().map(String::as_str).collect();
        let coverage = Coverage::new(&log(&runs, &[]));
        let line = moment("2024-01-01 12:00:00").number() / unit.seconds;
        let mut svg = Svg::default();
        let sums = draw(&mut svg, &coverage, unit, line, BAND);
        assert_eq!((sums.missing, sums.again), (0, 300));
        assert_eq!(svg.text.matches("h2v7h-2z").count(), 300);
        assert!(svg.text.len() < 9000, "{}", svg.text.len());
    }

    #[test]
    fn many_are_drawn_as_one() {
        let (text, sums) = drawn(2);
        assert_eq!(sums.missing, 299);
        assert!(text.contains("<title>heard 300 s, missing 299 s: 2024-01-01 12:00:00 to 2024-01-01 12:09:58</title>"), "{text}");
        assert_eq!(text.matches("h2v20h-2z").count(), 300);
        assert!(text.len() < 9000, "{}", text.len());
    }
}
