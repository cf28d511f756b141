//! Where things stand on the page, and how large letters are.

use crate::picture::marks::INK;
use crate::picture::svg::Font;
use crate::picture::unit::LINE_WIDTH;

/// All letters are of 11 pixels or more even where the picture is shown at half its size.
pub const TITLE: u64 = 38;
pub const TOTALS: u64 = 28;
pub const TEXT: u64 = 22;

/// The page of one rack, and where its text begins and ends.
const WIDTH: u64 = 1650;
pub const LEFT: u64 = 34;
pub const RIGHT: u64 = WIDTH - LEFT;

/// Where labels end; the bands of one rack begin behind them, those of two behind the racks' names.
pub const LABEL_END: u64 = 168;
pub const BESIDE: u64 = 12;
const NAMES: u64 = 84;

/// From a band's beginning: the column of second 60, the pointer to a line with missing seconds, the sums.
pub const LEAP: u64 = LINE_WIDTH + 6;
pub const LEAP_WIDTH: u64 = 20;
pub const POINTER: u64 = LINE_WIDTH + 34;
pub const MISSING_END: u64 = LINE_WIDTH + 134;
pub const AGAIN_END: u64 = LINE_WIDTH + 236;

fn names(racks: usize) -> u64 {
    match racks {
        1 => 0,
        _ => NAMES,
    }
}

/// Where bands begin.
pub fn band_x(racks: usize) -> u64 {
    LABEL_END + BESIDE + names(racks)
}

pub fn width(racks: usize) -> u64 {
    WIDTH + names(racks)
}

pub const FONT: Font = Font {
    size: TEXT,
    is_bold: false,
    colour: INK,
    anchor: "start",
};
