//! Answers of the published Rust about Dates that need not come from a text.
//! A line asks, in numbers between blanks. A Datetime is twelve of them: year,
//! 1 and month, 1 and day, 1 and hour, minute, second, then offset (0 none, 1
//! UTC, 2 ahead, 3 behind), its hours and minutes; 0 for what is absent.
//!
//!     c DATETIME DATETIME                     -1 less, 0 equal, 1 greater, 2 none
//!     w SHAPE UNCERTAIN APPROXIMATE DATETIME DATETIME    the text
//!     f SHAPE UNCERTAIN APPROXIMATE DATETIME DATETIME    the fields, name=value and a semicolon each
//!     t HOUR MINUTE SECOND OFFSET HOURS MINUTES          whether from_hms or from_hms_offset makes a time
//!
//! A panic is answered by 9 and a bang.

use std::cmp::Ordering;
use std::io::{self, BufRead, Write};
use std::panic::{self, catch_unwind};

use oracle::published::{to_fieldset, Date, DateValue, Datetime, Time, TimeOffset, Type};

fn main() -> io::Result<()> {
    panic::set_hook(Box::new(|_| {}));
    let mut out = io::BufWriter::new(io::stdout().lock());
    for line in io::stdin().lock().lines() {
        let line = line?;
        let (what, numbers) = line.split_once(' ').expect("what is asked, and numbers");
        let n: Vec<i64> = numbers.split(' ').map(|n| n.parse().expect("a number")).collect();
        let said = catch_unwind(|| answer(what, &n)).unwrap_or_else(|_| "9!".to_string());
        writeln!(out, "{said}")?;
    }
    out.flush()
}

fn answer(what: &str, n: &[i64]) -> String {
    match what {
        "c" => match datetime(&n[..12]).partial_cmp(&datetime(&n[12..])) {
            Some(Ordering::Less) => "-1".to_string(),
            Some(Ordering::Equal) => "0".to_string(),
            Some(Ordering::Greater) => "1".to_string(),
            None => "2".to_string(),
        },
        "w" => date(n).to_chunks().iter().map(|chunk| chunk.v.get()).collect(),
        "f" => {
            to_fieldset(date(n)).iter().map(|(name, value)| format!("{name}={value};")).collect()
        }
        "t" => {
            let [hour, minute, second] = [n[0], n[1], n[2]].map(|n| n as u8);
            let made = match offset(&n[3..]) {
                Some(offset) => Time::from_hms_offset(hour, minute, second, offset),
                None => Time::from_hms(hour, minute, second),
            };
            made.map_or("none".to_string(), |time| time.to_utc_seconds().to_string())
        }
        _ => panic!("c, w, f or t"),
    }
}

fn offset(n: &[i64]) -> Option<TimeOffset> {
    match n[0] {
        0 => None,
        1 => Some(TimeOffset::Utc),
        sign => Some(TimeOffset::offset(sign == 2, n[1] as u8, n[2] as u8)),
    }
}

fn datetime(n: &[i64]) -> Datetime {
    let part = |at: usize| (n[at] != 0).then_some(n[at + 1] as u8);
    let time = part(5).map(|hour| Time {
        hour,
        minute: n[7] as u8,
        second: n[8] as u8,
        offset: offset(&n[9..]),
    });
    Datetime { year: n[0] as i32, month: part(1), day: part(3), time }
}

fn date(n: &[i64]) -> Date {
    let (first, second) = (datetime(&n[3..15]), datetime(&n[15..27]));
    let value = match n[0] {
        0 => DateValue::At(first),
        1 => DateValue::After(first),
        2 => DateValue::Before(first),
        _ => DateValue::Between(first, second),
    };
    Date { value, uncertain: n[1] != 0, approximate: n[2] != 0 }
}
