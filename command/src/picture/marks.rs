//! How seconds are drawn. Each kind differs from the others in shape as well as in colour, and in grey as well.

use std::fmt::Write;

use crate::picture::svg::{Area, Svg};

pub const PAPER: &str = "#ffffff";
pub const INK: &str = "#222222";
pub const FAINT: &str = "#5a5a5a";
pub const GUIDE: &str = "#d5d5d5";
pub const HEARD: &str = "#1b5e7d";
pub const MISSING: &str = "#c62828";
const AGAIN: &str = "#f5b301";
const OUTSIDE: &str = "#e6e6e6";

/// Where it is narrower or lower an outline would leave little white in it.
pub const NARROW: u64 = 10;
const LOW: u64 = 12;

/// A band of a line, with some room above it.
#[derive(Clone, Copy)]
pub struct Band {
    pub x: u64,
    pub y: u64,
    pub height: u64,
    pub above: u64,
}

impl Band {
    pub fn area(self, x: u64, width: u64) -> Area {
        Area {
            x,
            y: self.y,
            width,
            height: self.height,
        }
    }

    pub fn lower_third(self, x: u64, width: u64) -> Area {
        let height = self.height.div_ceil(3);
        Area {
            y: self.y + self.height - height,
            height,
            ..self.area(x, width)
        }
    }
}

pub fn outside(svg: &mut Svg, area: Area) {
    svg.rect(area, OUTSIDE);
}

pub fn heard(svg: &mut Svg, area: Area, title: &str) {
    svg.open("class=\"heard\"", title);
    svg.rect(area, HEARD);
    svg.close();
}

/// White with a red outline; a narrow one is white alone, and has a [`triangle`] above.
fn slit(svg: &mut Svg, area: Area) {
    if area.width < NARROW {
        svg.rect(area, PAPER);
        return;
    }
    let edge = if area.height < LOW { 1 } else { 2 };
    let inner = Area {
        x: area.x + edge,
        y: area.y + edge,
        width: area.width - 2 * edge,
        height: area.height - 2 * edge,
    };
    svg.rect(area, MISSING);
    svg.rect(inner, PAPER);
}

/// A red triangle above the band that points to a narrow one, so that it is seen at the end of a line too.
pub fn triangle(svg: &mut Svg, band: Band, x: u64, width: u64) {
    let (above, half) = (band.above, band.above.max(7));
    let (left, top) = (x + width / 2 - half, band.y - above);
    svg.line(format_args!(
        "<path d=\"M{left} {top}h{}l-{half} {above}z\" fill=\"{MISSING}\"/>",
        2 * half
    ));
}

/// A red triangle behind a line with missing seconds that points to the line.
pub fn pointer(svg: &mut Svg, band: Band, x: u64) {
    let (middle, half) = (band.y + band.height / 2, (band.height / 2).min(8));
    svg.line(format_args!(
        "<path d=\"M{x} {middle}l10 -{half}v{}z\" fill=\"{MISSING}\"/>",
        2 * half
    ));
}

pub fn missing(svg: &mut Svg, band: Band, x: u64, width: u64, title: &str) {
    svg.open("class=\"missing\"", title);
    slit(svg, band.area(x, width));
    svg.close();
}

/// Several lines on which nothing was heard.
pub fn gathered(svg: &mut Svg, area: Area, title: &str) {
    svg.open("class=\"gathered\"", title);
    slit(svg, area);
    svg.close();
}

/// Heard and missing seconds in one column: what is missing is above, what was heard below, and neither covers the other.
pub fn mixed(svg: &mut Svg, band: Band, x: u64, width: u64, title: &str) {
    let lower = band.lower_third(x, width);
    let upper = Area {
        height: band.height - lower.height,
        ..band.area(x, width)
    };
    svg.open("class=\"mixed\"", title);
    slit(svg, upper);
    svg.rect(lower, HEARD);
    svg.close();
}

/// Many heard pieces on white, with a red line above instead of a triangle for each of those that are missing.
pub fn dense(svg: &mut Svg, area: Area, heard: impl Iterator<Item = Area>, title: &str) {
    svg.open("class=\"dense\"", title);
    svg.rect(area, PAPER);
    let line = Area {
        y: area.y - 2,
        height: 2,
        ..area
    };
    svg.rect(line, MISSING);
    filled(svg, heard, HEARD);
    svg.close();
}

/// Several areas as one element, which is shorter.
fn filled(svg: &mut Svg, areas: impl Iterator<Item = Area>, colour: &str) {
    let mut path = String::new();
    for area in areas {
        let (width, height) = (area.width, area.height);
        let _ = write!(path, "M{} {}h{width}v{height}h-{width}z", area.x, area.y);
    }
    svg.line(format_args!("<path d=\"{path}\" fill=\"{colour}\"/>"));
}

/// A light strip at the foot of what was heard; a narrow one has a dot above the band.
pub fn again(svg: &mut Svg, band: Band, x: u64, width: u64, title: &str) {
    svg.open("class=\"again\"", title);
    svg.rect(band.lower_third(x, width), AGAIN);
    if width < NARROW {
        let radius = (band.above / 2).max(1);
        svg.line(format_args!(
            "<circle cx=\"{}\" cy=\"{}\" r=\"{radius}\" fill=\"{AGAIN}\" stroke=\"{INK}\"/>",
            x + width / 2,
            band.y - radius - 1
        ));
    }
    svg.close();
}

/// Many such strips.
pub fn again_dense(svg: &mut Svg, strips: impl Iterator<Item = Area>, title: &str) {
    svg.open("class=\"again\"", title);
    filled(svg, strips, AGAIN);
    svg.close();
}

/// A second 60 where a column is a second: a column of its own.
pub fn leap_column(svg: &mut Svg, area: Area, title: &str) {
    svg.open("class=\"leap\"", title);
    svg.rect(area, HEARD);
    svg.close();
}

/// A second 60 where it has no column: a diamond behind the line, and a mark above the band at the end of its minute.
pub fn leap_mark(svg: &mut Svg, band: Band, x: Option<u64>, diamond: u64, title: &str) {
    svg.open("class=\"leap\"", title);
    if let Some(x) = x {
        let mark = Area {
            y: band.y - band.above,
            height: band.above,
            ..band.area(x - 1, 2)
        };
        svg.rect(mark, INK);
    }
    let (middle, half) = (band.y + band.height / 2, (band.height / 2).min(8));
    svg.line(format_args!(
        "<path d=\"M{diamond} {middle}l{half} -{half}l{half} {half}l-{half} {half}z\" fill=\"{HEARD}\"/>"
    ));
    svg.close();
}
