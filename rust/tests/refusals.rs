//! Each refusal that a call of the crate can give, by its number; and those that
//! none can give.

use knobstream::{
    parse_pages, Chronology, Chunk, Date, DateValue, Datetime, PageRange, Season, Span, Spanned,
    Time, TypeError, TypeErrorKind,
};
use std::error::Error;
use TypeErrorKind::*;

fn at(text: &str, start: usize) -> [Spanned<Chunk<'_>>; 1] {
    [Spanned::new(Chunk::Normal(text), start..start + text.len())]
}

fn year(year: i32) -> Datetime {
    Datetime { year, month: None, day: None, time: None, season: None }
}

fn single(at: Datetime) -> Date {
    Date { value: DateValue::At(at), uncertain: false, approximate: false }
}

fn three_fields(year: &str, month: &str) -> Result<Date, TypeError> {
    Date::parse_three_fields(&at(year, 100), Some(&at(month, 200)), None)
}

/// A call is refused by this number, which is of this kind, at this place.
fn refused<T: std::fmt::Debug>(
    answer: Result<T, TypeError>,
    number: u8,
    kind: TypeErrorKind,
    span: Span,
) {
    let error = answer.unwrap_err();
    assert_eq!((error.kind, error.kind.number()), (kind, number));
    assert_eq!(error.span, span, "{kind:?}");
    assert_eq!(kind.has_place(), matches!(number, 1..=8 | 10 | 11));
    let (shown, message) = (error.to_string(), kind.to_string());
    if kind.has_place() {
        assert_eq!(shown, format!("{message}: {}-{}", span.start, span.end));
    } else {
        assert_eq!(shown, message);
    }
    let error: Box<dyn Error + Send + Sync> = Box::new(error);
    assert_eq!(error.to_string(), shown);
}

#[test]
fn of_readers() {
    refused(Date::parse(&at("../..", 100)), 1, UndefinedRange, 100..105);
    refused(Date::parse(&at("1900-02-29", 100)), 2, DayOutOfRange, 100..110);
    refused(Date::parse(&at("2000-13", 100)), 3, MonthOutOfRange, 105..107);
    let (y, m) = (at("2000", 100), at("2", 200));
    let day = |text| Date::parse_three_fields(&y, Some(&m), Some(&at(text, 300)));
    refused(day("x"), 4, InvalidNumber, 300..301);
    refused(day(""), 5, MissingNumber, 300..300);
    refused(three_fields("12345", "1"), 6, WrongNumberOfDigits, 100..105);
    refused(Date::parse(&at("123", 100)), 7, InvalidFormat, 100..103);
    refused(three_fields("0 AD", "1"), 8, YearZeroCE, 100..104);
    refused(three_fields("- 5", "1"), 9, RustPanics, 0..0);
    refused(Date::parse(&at("20\u{20AC}", 100)), 11, UnsupportedChar, 2..5);
    refused(Date::parse_strict(&at("49", 100)), 12, NotStrict, 0..0);
    refused(Date::parse(&at(&" ".repeat(4097), 100)), 16, TooLong, 0..0);
    refused(Date::parse_level_one(&at("49", 100)), 23, NotLevelOne, 0..0);
}

#[test]
fn of_writers() {
    let time = Some(Time { hour: 24, minute: 0, second: 0, offset: None });
    let late = single(Datetime { month: Some(0), day: Some(0), time, ..year(2000) });
    let spring = single(Datetime { season: Some(Season::Spring), ..year(2000) });
    let none = single(Datetime { month: Some(255), ..year(2000) });
    let mut out = [7; 80];
    refused(none.write(&mut out).map(str::len), 9, RustPanics, 0..0);
    refused(none.write_timed(&mut out).map(str::len), 9, RustPanics, 0..0);
    refused(single(year(1)).write(&mut out[..3]).map(str::len), 13, NoRoom, 0..0);
    refused(single(year(1)).write_timed(&mut out[..3]).map(str::len), 13, NoRoom, 0..0);
    refused(late.write_timed(&mut []).map(str::len), 22, BadTime, 0..0);
    refused(late.timed_length(), 22, BadTime, 0..0);
    refused(spring.write(&mut out).map(str::len), 24, HasSeason, 0..0);
    refused(spring.write_timed(&mut out).map(str::len), 24, HasSeason, 0..0);
    refused(spring.timed_length(), 24, HasSeason, 0..0);
    assert_eq!(out, [7; 80]);
}

#[test]
fn of_days_and_instants() {
    let spring = Datetime { season: Some(Season::Spring), ..year(2000) };
    let day = Datetime { month: Some(0), day: Some(0), ..year(2000) };
    let late = Time { hour: 24, minute: 0, second: 0, offset: None };
    refused(year(10000).days(), 17, NotACalendarDate, 0..0);
    refused(spring.days(), 24, HasSeason, 0..0);
    refused(year(10000).instant(), 17, NotACalendarDate, 0..0);
    refused(Datetime { time: Some(late), ..day }.instant(), 22, BadTime, 0..0);
    refused(spring.instant(), 24, HasSeason, 0..0);
    refused(day.instant(), 25, NoInstant, 0..0);
    // all about the first before the second
    refused(day.cmp_instants(&spring), 25, NoInstant, 0..0);
    refused(spring.cmp_instants(&day), 24, HasSeason, 0..0);
}

#[test]
#[allow(clippy::reversed_empty_ranges)]
fn of_a_chronology() {
    let mut c = Chronology::new();
    refused(c.add(1..=0, 7), 18, BadPeriod, 0..0);
    refused(c.any_dated(1..=0), 18, BadPeriod, 0..0);
    refused(c.remove(7), 21, UnknownEntry, 0..0);
    for id in 0..512 {
        c.add(0..=0, id).unwrap();
    }
    refused(c.add(0..=0, 7), 19, DuplicateEntry, 0..0);
    refused(c.add(0..=0, 512), 20, ChronologyFull, 0..0);
    refused(c.list(&mut [0; 1535]).map(|_| ()), 13, NoRoom, 0..0);
}

#[test]
fn of_page_ranges() {
    let read = |text| PageRange::parse(&at(text, 10));
    refused(read("x"), 4, InvalidNumber, 10..10);
    refused(read("5x"), 4, InvalidNumber, 10..12);
    refused(read("5-7x"), 4, InvalidNumber, 2..14);
    refused(read("4294967296"), 4, InvalidNumber, 10..20);
    refused(read("\u{20AC}"), 11, UnsupportedChar, 0..3);
    let far = [Spanned::new(Chunk::Normal("5-"), usize::MAX - 1..usize::MAX)];
    refused(PageRange::parse(&far), 9, RustPanics, 0..0);
    refused(read(&" ".repeat(4097)), 16, TooLong, 0..0);
    let piece = at("5", 10);
    let mut room = [PageRange { start: 1, end: 2 }; 70];
    refused(parse_pages(&[&piece[..]; 65], &mut room).map(<[_]>::len), 16, TooLong, 0..0);
    refused(parse_pages(&[&piece[..]; 64], &mut room[..63]).map(<[_]>::len), 13, NoRoom, 0..0);
    let two = at("5x", 20);
    refused(parse_pages(&[&piece, &two], &mut room).map(<[_]>::len), 4, InvalidNumber, 20..22);
    assert_eq!(room, [PageRange { start: 1, end: 2 }; 70]);
    let range = PageRange { start: 7, end: 12 };
    refused(range.write(&mut [0; 3]).map(str::len), 13, NoRoom, 0..0);
}

// BadUtf8 (10) and BadChunks (15) are of bytes and tables that no list of this
// crate has; BadFrame (14) is said in an answer to a frame; BadChronology (26) is
// of a store that no caller can make (a test in src/ffi.rs does).
#[test]
fn of_a_frame() {
    let mut room = [0; knobstream::LINE_ROOM];
    let number = |line: &str| u8::from_str_radix(&line[..2], 16);
    assert_eq!(number(knobstream::answer_frame(b"zz", &mut room)), Ok(14));
    // a chunk of the kind 3, and one of the byte ff
    assert_eq!(number(knobstream::answer_frame(b"040103000000000000000000", &mut room)), Ok(15));
    assert_eq!(number(knobstream::answer_frame(b"0401000100000000000000ff", &mut room)), Ok(14));
    assert_eq!(number(knobstream::answer_frame(b"040100010000000000000001ff", &mut room)), Ok(10));
}
