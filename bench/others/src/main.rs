//! Reads two texts by this library and by what a user would pick instead, in turn.
//!
//!     others check            every reader reads the same
//!     others list             a line each: number, text, reader
//!     others times            a line each: text, reader, ns
//!     others count NUMBER N   N calls of a reader, to be counted by callgrind

use bench::cases::Input;
use bench::ffi;
use bench::rounds::{least, times, Run};
use oracle::published::{Date, DateValue, TimeOffset};
use std::hint::black_box;

/// The texts: a day, and a time on it.
const DAY: &str = "2000-02-29";
const TIME: &str = "2000-02-29T10:20:30+02:00";

/// What is read: year, month and day; hour, minute, second, and minutes ahead of UTC.
type Read = ((i32, u8, u8), Option<(u8, u8, u8, i32)>);

struct Reader {
    text: &'static str,
    name: String,
    run: Run,
    read: Box<dyn Fn() -> Read>,
}

/// A reader of what is at hand for each call, and what its answer says.
fn reader<I: Copy + 'static, R: 'static>(
    text: &'static str,
    name: impl Into<String>,
    input: I,
    call: impl Fn(I) -> R + Copy + 'static,
    says: impl Fn(R) -> Read + 'static,
) -> Reader {
    let run: Run = Some(Box::new(move |n| times(n, || call(black_box(input)))));
    Reader { text, name: name.into(), run, read: Box::new(move || says(call(input))) }
}

/// This library's and the published Rust's: they are given a list of one chunk, which is made once, outside what is
/// measured.
fn lists(text: &'static str) -> [Reader; 3] {
    let input: &'static Input = Box::leak(Box::new(Input::text(text)));
    let raw = |a: ffi::Answer| {
        let d = a.date();
        assert!(a.refusal == 0 && d.shape == 0);
        let [y0, y1, y2, y3, _, month, _, day] = d.first.day.to_ne_bytes();
        let [has_time, hour, minute, second, offset, hours, minutes, _] =
            d.first.time.to_ne_bytes();
        // months and days are counted from 0; 2 is an offset ahead of UTC
        let time = (has_time == 1).then(|| {
            assert!(offset == 2);
            (hour, minute, second, i32::from(hours) * 60 + i32::from(minutes))
        });
        ((i32::from_ne_bytes([y0, y1, y2, y3]), month + 1, day + 1), time)
    };
    let theirs = |d: Date| {
        let DateValue::At(d) = d.value else { panic!("a point is needed") };
        let time = d.time.map(|t| match t.offset {
            Some(TimeOffset::Offset { positive: true, hours, minutes }) => {
                (t.hour, t.minute, t.second, i32::from(hours) * 60 + i32::from(minutes))
            }
            _ => panic!("an offset is needed"),
        });
        ((d.year, d.month.unwrap() + 1, d.day.unwrap() + 1), time)
    };
    [
        reader(text, "`knobstream_parse`", input, |i| ffi::parse(i.list()), raw),
        reader(text, "`knobstream_parse_strict`", input, |i| ffi::parse_strict(i.list()), raw),
        reader(
            text,
            "biblatex, `Date::parse`",
            input,
            |i| Date::parse(&i.chunks),
            move |d| theirs(d.unwrap()),
        ),
    ]
}

#[cfg(feature = "chrono")]
fn chrono() -> Vec<Reader> {
    use ::chrono::{DateTime, Datelike, FixedOffset, NaiveDate, Timelike};
    let name = |call| format!("chrono {}, `{call}`", env!("CHRONO_VERSION"));
    let day = |d: NaiveDate| (d.year(), d.month() as u8, d.day() as u8);
    let time = move |d: DateTime<FixedOffset>| {
        let ahead = d.offset().local_minus_utc() / 60;
        let time = (d.hour() as u8, d.minute() as u8, d.second() as u8, ahead);
        (day(d.naive_local().date()), Some(time))
    };
    vec![
        reader(
            DAY,
            name("NaiveDate::parse_from_str"),
            DAY,
            |t| NaiveDate::parse_from_str(t, "%Y-%m-%d"),
            move |d| (day(d.unwrap()), None),
        ),
        reader(
            DAY,
            name("NaiveDate::from_str"),
            DAY,
            |t| t.parse::<NaiveDate>(),
            move |d| (day(d.unwrap()), None),
        ),
        reader(
            TIME,
            name("DateTime::parse_from_rfc3339"),
            TIME,
            |t| DateTime::parse_from_rfc3339(t),
            move |d| time(d.unwrap()),
        ),
    ]
}

#[cfg(feature = "time")]
fn time() -> Vec<Reader> {
    use ::time::format_description::{parse, well_known::Rfc3339};
    use ::time::{Date, OffsetDateTime};
    let name = |call| format!("time {}, `{call}`", env!("TIME_VERSION"));
    let day = |d: Date| (d.year(), d.month() as u8, d.day());
    let time = move |d: OffsetDateTime| {
        let ahead = i32::from(d.offset().whole_minutes());
        (day(d.date()), Some((d.hour(), d.minute(), d.second(), ahead)))
    };
    // the description is made once, outside what is measured
    let form = &*Box::leak(Box::new(parse("[year]-[month]-[day]").unwrap()));
    vec![
        reader(
            DAY,
            name("Date::parse"),
            DAY,
            move |t| Date::parse(t, form),
            move |d| (day(d.unwrap()), None),
        ),
        reader(
            TIME,
            name("OffsetDateTime::parse"),
            TIME,
            |t| OffsetDateTime::parse(t, &Rfc3339),
            move |d| time(d.unwrap()),
        ),
    ]
}

/// All readers of the first text, then those of the second.
fn all() -> Vec<Reader> {
    let mut all = Vec::from(lists(DAY));
    all.extend(lists(TIME));
    #[cfg(feature = "chrono")]
    all.extend(chrono());
    #[cfg(feature = "time")]
    all.extend(time());
    all.sort_by_key(|r| r.text.len());
    all
}

fn check(all: &[Reader]) {
    for r in all {
        let time = (r.text == TIME).then_some((10, 20, 30, 120));
        assert_eq!((r.read)(), ((2000, 2, 29), time), "{} of {}", r.name, r.text);
    }
    println!("{} other readings, all the same", all.len());
}

fn main() {
    let args: Vec<String> = std::env::args().skip(1).collect();
    let mut all = all();
    match args.iter().map(String::as_str).collect::<Vec<_>>()[..] {
        ["check"] => check(&all),
        ["list"] => {
            for (i, r) in all.iter().enumerate() {
                println!("{i}\t{}\t{}", r.text, r.name);
            }
        }
        ["times"] => {
            let runs: Vec<Run> = all.iter_mut().map(|r| r.run.take()).collect();
            for (r, ns) in all.iter().zip(&least(&[&runs])[0]) {
                println!("{}\t{}\t{ns:.1}", r.text, r.name);
            }
        }
        ["count", reader, n] => {
            let reader = &all[reader.parse::<usize>().expect("a reader's number")];
            reader.run.as_ref().unwrap()(n.parse().expect("a number of calls"));
        }
        _ => {
            eprintln!("others check | list | times | count NUMBER N");
            std::process::exit(2);
        }
    }
}
