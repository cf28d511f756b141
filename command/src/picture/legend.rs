//! What each mark means; only those that the picture may have.

use crate::picture::band::has_dense;
use crate::picture::coverage::Coverage;
use crate::picture::marks::{self, Band};
use crate::picture::page::{FONT, LEFT, RIGHT};
use crate::picture::svg::{width, Svg};
use crate::picture::unit::Unit;

const SAMPLE: u64 = 44;
const HEIGHT: u64 = 22;
const LINE: u64 = 36;
const APART: u64 = 36;

type Draw = fn(&mut Svg, Band, u64);

fn heard(svg: &mut Svg, band: Band, x: u64) {
    marks::heard(svg, band.area(x, SAMPLE), "");
}

fn missing(svg: &mut Svg, band: Band, x: u64) {
    marks::missing(svg, band, x, SAMPLE, "");
}

/// One as it stands between heard seconds.
fn missing_narrow(svg: &mut Svg, band: Band, x: u64) {
    let half = (SAMPLE - 2) / 2;
    marks::heard(svg, band.area(x, half), "");
    marks::missing(svg, band, x + half, 2, "");
    marks::triangle(svg, band, x + half, 2);
    marks::heard(svg, band.area(x + half + 2, half), "");
}

fn mixed(svg: &mut Svg, band: Band, x: u64) {
    let half = (SAMPLE - 2) / 2;
    marks::heard(svg, band.area(x, half), "");
    marks::mixed(svg, band, x + half, 2, "");
    marks::triangle(svg, band, x + half, 2);
    marks::heard(svg, band.area(x + half + 2, half), "");
}

fn dense(svg: &mut Svg, band: Band, x: u64) {
    let heard = (0..SAMPLE / 4).map(|at| band.area(x + 4 * at, 2));
    marks::dense(svg, band.area(x, SAMPLE), heard, "");
}

fn again(svg: &mut Svg, band: Band, x: u64) {
    heard(svg, band, x);
    marks::again(svg, band, x, SAMPLE, "");
}

fn leap_column(svg: &mut Svg, band: Band, x: u64) {
    marks::leap_column(svg, band.area(x + SAMPLE - 20, 20), "");
}

fn leap_mark(svg: &mut Svg, band: Band, x: u64) {
    marks::leap_mark(svg, band, None, x + SAMPLE - 20, "");
}

fn outside(svg: &mut Svg, band: Band, x: u64) {
    marks::outside(svg, band.area(x, SAMPLE));
}

fn entries(racks: &[Coverage], unit: &Unit) -> Vec<(Draw, &'static str)> {
    let is_coarse = unit.column > 1;
    let is_narrow = !unit.has_wide_columns();
    let has_leap = racks
        .iter()
        .any(|coverage| !coverage.leap_seconds.is_empty());
    let has_again = racks.iter().any(|coverage| coverage.seconds_again() > 0);
    let every: [(bool, Draw, &str); 9] = [
        (true, heard, "heard"),
        (true, missing, "missing"),
        (is_narrow, missing_narrow, "missing, one column"),
        (is_coarse, mixed, "one column, part heard and part missing"),
        (has_dense(racks, unit), dense, "many gaps"),
        (has_again, again, "heard more than once"),
        (has_leap && !is_narrow, leap_column, "leap second heard"),
        (
            has_leap && is_narrow,
            leap_mark,
            "line with a leap second heard",
        ),
        (
            true,
            outside,
            "not known: before the first or behind the last second",
        ),
    ];
    let shown = every.into_iter().filter(|(is_shown, _, _)| *is_shown);
    shown.map(|(_, draw, words)| (draw, words)).collect()
}

/// Draws it from y on, and returns where it ends.
pub fn draw(svg: &mut Svg, racks: &[Coverage], unit: &Unit, y: u64) -> u64 {
    let (mut x, mut y) = (LEFT, y);
    svg.open("id=\"legend\"", "");
    for (draw, words) in entries(racks, unit) {
        let needed = SAMPLE + 12 + width(words, FONT);
        if x > LEFT && x + needed > RIGHT {
            (x, y) = (LEFT, y + LINE);
        }
        let band = Band {
            x,
            y,
            height: HEIGHT,
            above: 6,
        };
        draw(svg, band, x);
        svg.words(x + SAMPLE + 12, y + HEIGHT - 5, FONT, words);
        x += needed + APART;
    }
    svg.close();
    y + LINE
}
