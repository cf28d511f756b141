//! The runs of one log or two, record by record, in one table. The library joins seconds to the runs of their own rack; a rack that has used its
//! rows is emptied and the other is not, so that each log has as many runs as it has.

use lindenscoop::{Added, Record, Refusal, Run, Runs};

use crate::moment::Moment;

/// What a picture is drawn of.
#[derive(Clone, Debug, Default)]
pub struct Heard {
    pub runs: Vec<Run>,
    /// each second 60 that was heard, since a run does not tell in which of its minutes
    pub leap_seconds: Vec<Moment>,
}

/// What is kept of a rack beside the table.
#[derive(Clone, Debug, Default)]
pub struct Rack {
    /// where a picture is wanted; a list needs none
    pub kept: Option<Heard>,
    /// records that tell no second
    pub passed_over: u64,
}

pub struct Hearing {
    table: Runs,
    /// by the rack's number
    pub racks: Vec<Rack>,
}

impl Hearing {
    pub fn new(racks: usize, is_kept: bool) -> Hearing {
        let rack = Rack {
            kept: is_kept.then(Heard::default),
            ..Rack::default()
        };
        Hearing {
            table: Runs::new(),
            racks: vec![rack; racks],
        }
    }

    /// Adds the second that a record tells. The run of this rack that is ended by that is returned.
    pub fn add(&mut self, rack: u32, record: &Record) -> Option<Run> {
        let ended = match self.table.add(rack, record) {
            Ok(Added::Joined) => None,
            Ok(Added::Opened) => self.table.of_rack(rack).nth_back(1).copied(),
            Err(Refusal::NoSecond) => {
                self.rack(rack).passed_over += 1;
                return None;
            }
            Err(Refusal::NoRow) => self.empty_and_add(rack, record),
            Err(refusal) => unreachable!("only the library writes the table: {refusal}"),
        };
        if record.second == 60 {
            self.keep_leap_second(rack);
        }
        self.keep(rack, ended)
    }

    fn rack(&mut self, rack: u32) -> &mut Rack {
        &mut self.racks[rack as usize]
    }

    /// A record that needs a row joins no run, so that it makes no difference that its rack has none left.
    fn empty_and_add(&mut self, rack: u32, record: &Record) -> Option<Run> {
        let ended = self.table.take(rack).last().copied();
        self.table
            .add(rack, record)
            .expect("a rack without rows has one for a second");
        ended
    }

    /// The last run of a rack, at its log's end. It stays in the table, where the other rack's records do not change it.
    pub fn end(&mut self, rack: u32) -> Option<Run> {
        let last = self.table.of_rack(rack).next_back().copied();
        self.keep(rack, last)
    }

    fn keep(&mut self, rack: u32, ended: Option<Run>) -> Option<Run> {
        if let Some(kept) = &mut self.rack(rack).kept {
            kept.runs.extend(ended);
        }
        ended
    }

    fn keep_leap_second(&mut self, rack: u32) {
        let newest = self.table.of_rack(rack).next_back();
        let moment = newest.map(|run| Moment::of(&run.last));
        if let Some(kept) = &mut self.rack(rack).kept {
            kept.leap_seconds.extend(moment);
        }
    }
}

#[cfg(test)]
mod tests {
    use super::*;
    use crate::moment::tests::{moment, second};
    use lindenscoop::Date;

    fn record(text: &str) -> Record {
        let second = second(text);
        Record {
            date: Some(second.date()),
            hour: second.hour,
            minute: second.minute,
            second: second.second,
            ..Record::default()
        }
    }

    /// Each run is returned once and in order, however often the rack's rows are emptied.
    #[test]
    fn more_runs_than_rows() {
        for count in [1, 2, 31, 32, 33, 34, 64, 65, 128, 129, 500] {
            let mut hearing = Hearing::new(1, true);
            let mut runs = Vec::new();
            for number in 0..count {
                let at = format!("2024-01-01 {:02}:{:02}:", number / 60, number % 60);
                runs.extend(hearing.add(0, &record(&(at.clone() + "10"))));
                runs.extend(hearing.add(0, &record(&(at + "11"))));
            }
            runs.extend(hearing.end(0));
            let told = runs.iter().map(|run| (run.first.hour, run.first.minute));
            assert!(told.eq((0..count).map(|number| (number / 60, number % 60))));
            assert!(runs.iter().all(|run| run.count == 2));
            assert_eq!(hearing.racks[0].kept.as_ref().unwrap().runs, runs);
        }
    }

    /// The runs of each rack and what is kept of it, where a record of each comes in turn.
    fn in_turn(logs: [&[Record]; 2]) -> [(Vec<Run>, Rack); 2] {
        let mut hearing = Hearing::new(2, true);
        let mut runs = [Vec::new(), Vec::new()];
        for at in 0..logs[0].len().max(logs[1].len()) {
            for rack in 0..2 {
                let record = logs[rack].get(at);
                let ended = record.and_then(|record| hearing.add(rack as u32, record));
                runs[rack].extend(ended);
            }
        }
        let [first, second] = [0, 1].map(|rack| {
            runs[rack].extend(hearing.end(rack as u32));
            (runs[rack].clone(), hearing.racks[rack].clone())
        });
        [first, second]
    }

    /// What is told of a rack is what is told of it alone: the other one's records, its full rows and its emptying cut no run.
    #[test]
    fn racks_do_not_touch_each_other() {
        let at = |n: u32| {
            format!(
                "2024-01-01 {:02}:{:02}:{:02}",
                n / 3600,
                n / 60 % 60,
                n % 60
            )
        };
        // one run, over all the time in which the other rack has 150 of three seconds and one that tells none
        let long: Vec<Record> = (0..600).map(|n| record(&at(n))).collect();
        let short = (0..600).map(|n| match n % 4 {
            3 => Record::default(),
            _ => record(&at(n)),
        });
        let short: Vec<Record> = short.collect();
        for logs in [
            [&long[..], &short[..]],
            [&short, &long],
            [&short, &short],
            [&long, &[]],
        ] {
            let both = in_turn(logs);
            let alone = [
                in_turn([logs[0], &[]])[0].clone(),
                in_turn([&[], logs[1]])[1].clone(),
            ];
            for (both, alone) in both.iter().zip(&alone) {
                assert_eq!(both.0, alone.0);
                assert_eq!(both.1.passed_over, alone.1.passed_over);
                assert_eq!(both.1.kept.as_ref().unwrap().runs, both.0);
            }
        }
        let [(first, _), (second, of_short)] = in_turn([&long, &short]);
        assert_eq!((first.len(), first[0].count), (1, 600));
        assert_eq!((second.len(), of_short.passed_over), (150, 150));
        assert!(second.iter().all(|run| run.count == 3));
    }

    #[test]
    fn no_second_is_passed_over() {
        let mut hearing = Hearing::new(2, true);
        assert_eq!(hearing.add(0, &Record::default()), None);
        let day_of_year = Record {
            date: Some(Date::DayOfYear(366)),
            second: 60,
            ..Record::default()
        };
        assert_eq!(hearing.add(0, &day_of_year), None);
        assert_eq!(hearing.add(1, &day_of_year), None);
        assert_eq!((hearing.end(0), hearing.end(1)), (None, None));
        assert_eq!(hearing.racks[0].passed_over, 2);
        assert_eq!(hearing.racks[1].passed_over, 1);
        let kept = hearing.racks[0].kept.as_ref().unwrap();
        assert!(kept.leap_seconds.is_empty());
    }

    #[test]
    fn leap_seconds_are_kept() {
        let mut hearing = Hearing::new(2, true);
        let texts = [
            "2016-12-31 23:59:59",
            "2016-12-31 23:59:60",
            "2017-01-01 00:00:00",
            "2016-12-31 23:59:60",
        ];
        let mut ended = Vec::new();
        for text in texts {
            ended.extend(hearing.add(1, &record(text)));
            hearing.add(0, &record("2015-06-30 23:59:58"));
        }
        assert_eq!(ended.len(), 1);
        assert_eq!((ended[0].count, hearing.end(1).unwrap().count), (3, 1));
        let leap = moment("2016-12-31 23:59:60");
        let of_rack = |rack: &Rack| rack.kept.as_ref().unwrap().leap_seconds.clone();
        let kept: Vec<Vec<Moment>> = hearing.racks.iter().map(of_rack).collect();
        assert_eq!(kept, [vec![], vec![leap, leap]]);
    }
}
