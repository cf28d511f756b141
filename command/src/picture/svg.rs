//! SVG as text. All places and sizes are whole pixels, so that edges are sharp.

use std::fmt::{Display, Write};

/// Where something is drawn.
#[derive(Clone, Copy, Debug, PartialEq, Eq)]
pub struct Area {
    pub x: u64,
    pub y: u64,
    pub width: u64,
    pub height: u64,
}

/// How a text is set.
#[derive(Clone, Copy)]
pub struct Font {
    pub size: u64,
    pub is_bold: bool,
    pub colour: &'static str,
    /// `start`, `middle` or `end`: which of its points stands at x
    pub anchor: &'static str,
}

impl Font {
    pub fn size(self, size: u64) -> Font {
        Font { size, ..self }
    }

    pub fn bold(self) -> Font {
        Font {
            is_bold: true,
            ..self
        }
    }

    pub fn colour(self, colour: &'static str) -> Font {
        Font { colour, ..self }
    }

    pub fn anchor(self, anchor: &'static str) -> Font {
        Font { anchor, ..self }
    }
}

#[derive(Default)]
pub struct Svg {
    pub text: String,
    /// what each title begins with: the rack, where there are two
    pub lead: String,
}

impl Svg {
    /// A line as it is.
    pub fn line(&mut self, line: impl Display) {
        let _ = writeln!(self.text, "{line}");
    }

    /// Opens a group, whose title is shown where a mouse rests on it.
    pub fn open(&mut self, attributes: &str, title: &str) {
        self.line(format_args!("<g {attributes}>"));
        if !title.is_empty() {
            let title = escaped(&format!("{}{title}", self.lead));
            self.line(format_args!("<title>{title}</title>"));
        }
    }

    pub fn close(&mut self) {
        self.line("</g>");
    }

    pub fn rect(&mut self, area: Area, colour: &str) {
        let Area {
            x,
            y,
            width,
            height,
        } = area;
        self.line(format_args!(
            "<rect x=\"{x}\" y=\"{y}\" width=\"{width}\" height=\"{height}\" fill=\"{colour}\"/>"
        ));
    }

    pub fn words(&mut self, x: u64, y: u64, font: Font, words: &str) {
        let weight = if font.is_bold {
            " font-weight=\"bold\""
        } else {
            ""
        };
        self.line(format_args!(
            "<text x=\"{x}\" y=\"{y}\" font-size=\"{}\"{weight} fill=\"{}\" text-anchor=\"{}\">{}</text>",
            font.size,
            font.colour,
            font.anchor,
            escaped(words)
        ));
    }
}

/// A text in which no letter ends it or begins an element. XML cannot spell control letters, which names of files may have.
pub fn escaped(text: &str) -> String {
    let mut out = String::with_capacity(text.len());
    for letter in text.chars() {
        match letter {
            '&' => out.push_str("&amp;"),
            '<' => out.push_str("&lt;"),
            '>' => out.push_str("&gt;"),
            '"' => out.push_str("&quot;"),
            '\t' | '\n' | '\r' => out.push(' '),
            '\u{fffe}' | '\u{ffff}' => out.push(char::REPLACEMENT_CHARACTER),
            letter if letter.is_control() => out.push(char::REPLACEMENT_CHARACTER),
            letter => out.push(letter),
        }
    }
    out
}

/// Letters from here on, Chinese ones and their like, are about as wide as high.
const WIDE: char = '\u{2e80}';

/// About how wide a text is; rather more, since the reader's font is not known.
pub fn width(text: &str, font: Font) -> u64 {
    let plain = if font.is_bold { 7 } else { 6 };
    let tenths: u64 = text
        .chars()
        .map(|letter| if letter >= WIDE { 11 } else { plain })
        .sum();
    (tenths * font.size).div_ceil(10)
}

/// A text in lines that are not wider than that; a word that is too long is cut.
pub fn wrapped(text: &str, font: Font, most: u64) -> Vec<String> {
    let mut lines = vec![String::new()];
    for word in text.split_whitespace() {
        let line = lines.last_mut().expect("there is a line");
        let longer = format!("{line} {word}");
        if !line.is_empty() && width(&longer, font) <= most {
            *line = longer;
            continue;
        }
        if !line.is_empty() {
            lines.push(String::new());
        }
        for letter in word.chars() {
            let line = lines.last_mut().expect("there is a line");
            line.push(letter);
            if width(line, font) > most && line.chars().count() > 1 {
                line.pop();
                lines.push(letter.to_string());
            }
        }
    }
    lines
}

#[cfg(test)]
mod tests {
    use super::*;

    #[test]
    fn letters() {
        assert_eq!(
            escaped("a<b>&\"c\" 'd' é€"),
            "a&lt;b&gt;&amp;&quot;c&quot; 'd' é€"
        );
        assert_eq!(escaped("a\nb\tc\rd"), "a b c d");
        assert_eq!(escaped("\0\x1b\x7f\u{85}\u{ffff}"), "\u{fffd}".repeat(5));
    }

    #[test]
    fn lines() {
        let font = Font {
            size: 10,
            is_bold: false,
            colour: "",
            anchor: "",
        };
        let lines = |text: &str| wrapped(text, font, 30);
        assert_eq!(lines("aa bb cc"), ["aa bb", "cc"]);
        assert_eq!(lines("aa bbbbbbb cc"), ["aa", "bbbbb", "bb cc"]);
        assert_eq!(lines(""), [""]);
        assert_eq!(lines("  a  b "), ["a b"]);
        assert_eq!(lines("\u{4e00}\u{4e01}\u{4e02}").len(), 2);
        assert_eq!(wrapped("aa bb", font.bold(), 30), ["aa", "bb"]);
        for line in lines(&"x".repeat(1000)) {
            assert!(width(&line, font) <= 30);
        }
    }
}
