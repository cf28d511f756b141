//! Records of the one program as records of the other.

use lindenscoop::{Date, Fraction, Position, Record};

fn fraction(fraction: reference::Fraction) -> Fraction {
    match fraction {
        reference::Fraction::Hundredths(value) => Fraction::Hundredths(value),
        reference::Fraction::Thousandths(value) => Fraction::Thousandths(value),
        reference::Fraction::TenMillionths(value) => Fraction::TenMillionths(value),
    }
}

fn position(position: reference::Position) -> Position {
    match position {
        reference::Position::Degrees {
            latitude,
            longitude,
            altitude,
        } => Position::Degrees {
            latitude,
            longitude,
            altitude,
        },
        reference::Position::Minutes {
            latitude,
            longitude,
        } => Position::Minutes {
            latitude,
            longitude,
        },
    }
}

pub fn record(r: &reference::Record) -> Record {
    Record {
        hour: r.hour,
        minute: r.minute,
        second: r.second,
        date: r.date.map(|date| match date {
            reference::Date::Full { year, month, day } => Date::Full {
                yy: year,
                month,
                day,
            },
            reference::Date::DayOfYear(day) => Date::DayOfYear(day),
        }),
        fraction: r.fraction.map(fraction),
        channel: r.channel,
        sync: r.sync,
        fix: r.fix,
        utc: r.utc,
        summer: r.summer,
        change: r.change,
        leap: r.leap,
        offset: r.offset,
        position: r.position.map(position),
        dsp: r.dsp,
        lsp: r.lsp,
    }
}
