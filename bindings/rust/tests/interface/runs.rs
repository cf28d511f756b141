use lindenscoop::{add_second, read, Added, Date, Form, Record, Refusal, Row, Run, Runs, Second};

/// A second told as `24-02-29 23:59:60`, of any two-digit numbers.
pub fn second(told: &str) -> Second {
    let number = |place: usize| told[place..place + 2].parse().unwrap();
    Second {
        yy: number(0),
        month: number(3),
        day: number(6),
        hour: number(9),
        minute: number(12),
        second: number(15),
    }
}

pub fn record(second: Second) -> Record {
    Record {
        hour: second.hour,
        minute: second.minute,
        second: second.second,
        date: Some(second.date()),
        ..Record::default()
    }
}

pub fn told(text: &str) -> Record {
    record(second(text))
}

pub fn run(first: &str, last: &str, count: u32) -> Run {
    let (first, last) = (second(first), second(last));
    Run { first, last, count }
}

pub fn alone(rack: u32, second: Second) -> Row {
    let run = Run {
        first: second,
        last: second,
        count: 1,
    };
    Row { rack, run }
}

/// In which order the racks opened their rows, 32 each: by turns, one after the other, or three at a time.
pub const LAYOUTS: [fn(u32) -> u32; 4] = [
    |place| place % 2,
    |place| place / 32,
    |place| 1 - place / 32,
    |place| (place + 1) / 3 % 2,
];

/// Rows that differ from each other, of which each may be the newest.
pub fn filled(layout: fn(u32) -> u32) -> [Row; Runs::ROWS] {
    let run = run("24-02-29 12:00:00", "24-02-29 12:00:07", 8);
    let mut rows = [Row { rack: 0, run }; Runs::ROWS];
    for (place, row) in (0..).zip(rows.iter_mut()) {
        (row.rack, row.run.count) = (layout(place), 8 + place);
        (row.run.first.minute, row.run.last.minute) = (place % 60, place % 60);
    }
    rows
}

/// Where the newest row of a rack stands, if it has one in use.
pub fn newest(rows: &[Row], used: u32, rack: u32) -> Option<usize> {
    rows[..used as usize]
        .iter()
        .rposition(|row| row.rack == rack)
}

/// How many rows in use are of a rack.
pub fn rows_of(rows: &[Row], used: u32, rack: u32) -> usize {
    let in_use = &rows[..used as usize];
    in_use.iter().filter(|row| row.rack == rack).count()
}

/// Adds to a table and sees that a refusal changes nothing.
pub fn refused(rows: &mut [Row], used: u32, rack: u32, record: &Record, refusal: Refusal) {
    let before = rows.to_vec();
    let told = add_second(rows, used, rack, record);
    assert_eq!(told, (used, Err(refusal)), "rack {rack}");
    assert_eq!(rows, before);
}

/// What is told of one second behind another one of the same rack, with the rows looked at. The other rack heard one in between.
fn behind_in(rack: u32, between: Option<Second>, before: Second, after: Second) -> Added {
    let mut runs = Runs::new();
    let mut expected = vec![alone(rack, before)];
    assert_eq!(runs.add(rack, &record(before)), Ok(Added::Opened));
    if let Some(second) = between {
        expected.push(alone(1 - rack, second));
        assert_eq!(runs.add(1 - rack, &record(second)), Ok(Added::Opened));
    }
    assert_eq!(runs.rows(), expected);
    let added = runs.add(rack, &record(after)).unwrap();
    match added {
        Added::Opened => expected.push(alone(rack, after)),
        Added::Joined => (expected[0].run.last, expected[0].run.count) = (after, 2),
    }
    assert_eq!(runs.rows(), expected);
    added
}

/// The same for either rack, whichever of the two seconds the other one heard in between, or none.
fn behind(before: Second, after: Second) -> Added {
    let told = behind_in(0, None, before, after);
    for between in [None, Some(before), Some(after)] {
        for rack in 0..Runs::RACKS {
            assert_eq!(behind_in(rack, between, before, after), told);
        }
    }
    told
}

#[test]
fn the_next_second_joins() {
    for (before, after) in [
        ("24-01-01 12:00:00", "24-01-01 12:00:01"),
        ("24-01-01 12:00:58", "24-01-01 12:00:59"),
        ("24-01-01 12:00:59", "24-01-01 12:00:60"),
        ("24-01-01 12:00:59", "24-01-01 12:01:00"),
        ("24-01-01 12:00:60", "24-01-01 12:01:00"),
        ("24-01-01 12:59:59", "24-01-01 13:00:00"),
        ("24-01-01 12:59:60", "24-01-01 13:00:00"),
        ("24-02-28 23:59:59", "24-02-29 00:00:00"),
        ("24-02-29 23:59:60", "24-03-01 00:00:00"),
        ("23-02-28 23:59:59", "23-03-01 00:00:00"),
        ("00-02-28 23:59:59", "00-02-29 00:00:00"),
        ("91-04-30 23:59:59", "91-05-01 00:00:00"),
        ("16-12-31 23:59:60", "17-01-01 00:00:00"),
        ("99-12-31 23:59:59", "00-01-01 00:00:00"),
        ("79-12-31 23:59:59", "79-12-31 23:59:60"),
    ] {
        let added = behind(second(before), second(after));
        assert_eq!(added, Added::Joined, "{before}, {after}");
    }
}

#[test]
fn any_other_second_opens_a_row() {
    for (before, after) in [
        ("24-01-01 12:00:00", "24-01-01 12:00:00"),
        ("24-01-01 12:00:60", "24-01-01 12:00:60"),
        ("24-01-01 12:00:01", "24-01-01 12:00:00"),
        ("24-01-01 12:00:00", "24-01-01 12:00:02"),
        ("24-01-01 12:00:58", "24-01-01 12:00:60"),
        ("24-01-01 12:00:58", "24-01-01 12:01:00"),
        ("24-01-01 12:00:59", "24-01-01 12:00:00"),
        ("24-01-01 12:00:59", "24-01-01 12:01:01"),
        ("24-01-01 12:00:59", "24-01-01 12:01:60"),
        ("24-01-01 12:00:59", "24-01-01 12:02:00"),
        ("24-01-01 12:00:60", "24-01-01 12:01:01"),
        ("24-01-01 12:59:59", "24-01-01 12:00:00"),
        ("24-01-01 23:59:59", "24-01-01 00:00:00"),
        ("24-01-01 23:59:59", "24-01-03 00:00:00"),
        ("24-01-01 12:00:00", "24-01-02 12:00:01"),
        ("24-01-01 12:00:00", "24-02-01 12:00:01"),
        ("24-01-01 12:00:00", "25-01-01 12:00:01"),
        ("24-02-28 23:59:59", "24-03-01 00:00:00"),
        ("24-01-31 23:59:59", "24-01-01 00:00:00"),
        ("24-12-31 23:59:59", "24-01-01 00:00:00"),
        ("79-12-31 23:59:59", "80-01-01 00:00:00"),
        ("79-12-31 23:59:60", "80-01-01 00:00:00"),
        ("79-12-31 23:59:60", "79-12-31 23:59:00"),
    ] {
        let added = behind(second(before), second(after));
        assert_eq!(added, Added::Opened, "{before}, {after}");
    }
}

/// From each day's last second the first of the day after is next, and the last of all has none behind it.
#[test]
fn days_follow_each_other() {
    let mut runs = Runs::new();
    let mut days = 0;
    for yy in (80..=99).chain(0..=79) {
        for (month, day) in (1..=12).flat_map(|month| (1..=31).map(move |day| (month, day))) {
            let [first, last] = [(0, 0, 0), (23, 59, 59)].map(|(hour, minute, second)| Second {
                yy,
                month,
                day,
                hour,
                minute,
                second,
            });
            for rack in 0..Runs::RACKS {
                if first.days_since_1980().is_none() {
                    assert_eq!(runs.add(rack, &record(first)), Err(Refusal::NoSecond));
                    continue;
                }
                days += 1;
                let first_told = runs.add(rack, &record(first));
                let expected = [Added::Joined, Added::Opened][usize::from(days <= 2)];
                assert_eq!(first_told, Ok(expected), "{first:?}");
                runs.take(rack);
                assert_eq!(runs.add(rack, &record(last)), Ok(Added::Opened));
            }
        }
    }
    assert_eq!(days, 2 * 36_525);
    for rack in 0..Runs::RACKS {
        let told = runs.add(rack, &told("80-01-01 00:00:00"));
        assert_eq!(told, Ok(Added::Opened));
    }
}

/// Whichever number is in use, one row is changed: the newest of the rack, or the one behind all.
#[test]
fn one_row_is_changed() {
    let other = told("91-06-30 23:59:60");
    for layout in LAYOUTS {
        for (used, rack) in (0..=64_u32).flat_map(|used| [(used, 0), (used, 1)]) {
            let (mut joined, mut opened) = (filled(layout), filled(layout));
            let mut expected = filled(layout);
            if let Some(place) = newest(&expected, used, rack) {
                let run = &mut expected[place].run;
                (run.last.second, run.count) = (8, run.count + 1);
                let told = add_second(&mut joined, used, rack, &record(run.last));
                assert_eq!(told, (used, Ok(Added::Joined)));
                assert_eq!(joined, expected);
            }
            if rows_of(&opened, used, rack) == Runs::RACK_ROWS {
                refused(&mut opened, used, rack, &other, Refusal::NoRow);
                continue;
            }
            let mut expected = filled(layout);
            expected[used as usize] = alone(rack, second("91-06-30 23:59:60"));
            let told = add_second(&mut opened, used, rack, &other);
            assert_eq!(told, (used + 1, Ok(Added::Opened)));
            assert_eq!(opened, expected);
        }
    }
}

/// A second is date and time, whatever else was sent.
#[test]
fn the_other_fields_are_of_no_matter() {
    let block = "date=24-02-29\ntime=23:59:60\nfraction=0000431\nchannel=1\nsync=no\nfix=yes\nutc=yes\nsummer=no\nchange=yes\nleap=yes\noffset=-03:30\nposition=-047.3500 +008.0625 0431\ndsp=yes\nlsp=yes\n";
    let full = read(Form::BLOCK, block.as_bytes()).unwrap();
    let mut runs = Runs::new();
    let told = [
        runs.add(1, &told("24-02-29 23:59:59")),
        runs.add(1, &full),
        runs.add(1, &told("24-03-01 00:00:00")),
    ];
    assert_eq!(told, [Added::Opened, Added::Joined, Added::Joined].map(Ok));
    let run = run("24-02-29 23:59:59", "24-03-01 00:00:00", 3);
    assert_eq!(runs.rows(), [Row { rack: 1, run }]);
}

/// Numbers without a pattern, the same in every run of the test.
pub struct Numbers(pub u64);

impl Numbers {
    pub fn below(&mut self, end: u32) -> u32 {
        self.0 = self
            .0
            .wrapping_mul(6_364_136_223_846_793_005)
            .wrapping_add(1);
        (self.0 >> 33) as u32 % end
    }
}

/// Seconds from 1 January 1980, each minute with 61 of them, so that second 60 has a place of its own.
fn count(second: Second) -> u64 {
    let days = u64::from(second.days_since_1980().unwrap());
    let minutes = (days * 24 + u64::from(second.hour)) * 60 + u64::from(second.minute);
    minutes * 61 + u64::from(second.second)
}

fn is_next(before: Second, after: Second) -> bool {
    match count(after).checked_sub(count(before)) {
        Some(1) => true,
        Some(2) => before.second == 59 && after.second == 0,
        _ => false,
    }
}

/// The runs of seconds, worked out afresh: a run ends wherever the second behind it is not the next one.
pub fn afresh(seconds: &[Second]) -> Vec<Run> {
    seconds
        .chunk_by(|before, after| is_next(*before, *after))
        .map(|run| Run {
            first: run[0],
            last: run[run.len() - 1],
            count: run.len() as u32,
        })
        .collect()
}

/// Seconds that mostly go on, around the ends of minutes, days, months and years.
pub fn wandering(numbers: &mut Numbers, length: usize) -> Vec<Second> {
    let places = [
        "24-02-28", "24-02-29", "24-03-01", "99-12-31", "00-01-01", "79-12-31",
    ];
    let mut seconds = Vec::new();
    while seconds.len() < length {
        let (hour, minute) = (
            [0, 11, 23][numbers.below(3) as usize],
            [0, 58, 59][numbers.below(3) as usize],
        );
        let place = places[numbers.below(6) as usize];
        let start = numbers.below(61);
        let last = 58 + numbers.below(3);
        for number in start..=last.max(start) {
            seconds.push(second(&format!(
                "{place} {hour:02}:{minute:02}:{number:02}"
            )));
        }
        if hour == 11 && minute < 59 && last >= 59 {
            seconds.push(second(&format!("{place} {hour}:{:02}:00", minute + 1)));
        }
    }
    seconds
}

#[test]
fn a_second_has_its_date() {
    let heard = second("91-01-01 12:00:00");
    assert_eq!(Some(heard.date()), Date::of_full_year(1991, 1, 1));
    assert_eq!(
        (heard.full_year(), heard.days_since_1980()),
        (Some(1991), Some(4_018))
    );
    let none = Second::default();
    assert_eq!(
        (none.full_year(), none.days_since_1980()),
        (Some(2000), None)
    );
    assert_eq!(Second { yy: 100, ..heard }.full_year(), None);
}
