//! Six fields, days, instants, times, page ranges, and what the traits of the
//! standard library say of the types.

use knobstream::{
    parse_pages, Chronology, Chunk, Date, DateValue, Datetime, Instant, PageRange, Season, Spanned,
    Time, TimeOffset, TypeError, TypeErrorKind,
};
use std::cmp::Ordering;
use std::collections::{BTreeSet, HashSet};
use std::ops::RangeInclusive;

fn at(text: &str, start: usize) -> [Spanned<Chunk<'_>>; 1] {
    [Spanned::new(Chunk::Normal(text), start..start + text.len())]
}

fn point(text: &str) -> Datetime {
    match Date::parse_level_one_str(text).unwrap().value {
        DateValue::At(at) => at,
        value => panic!("{value:?}"),
    }
}

/// Six fields; "-" is a field that is absent.
fn six(fields: [&str; 6]) -> Result<Date, TypeError> {
    let lists: Vec<_> = fields.iter().enumerate().map(|(i, f)| at(f, 100 * i + 100)).collect();
    let list = |i: usize| (fields[i] != "-").then_some(&lists[i][..]);
    Date::parse_six_fields(&lists[0], list(1), list(2), list(3), list(4), list(5))
}

#[test]
fn six_fields() {
    let shown = |fields| six(fields).unwrap().to_string();
    assert_eq!(shown(["2000", "-", "-", "-", "-", "-"]), "2000");
    assert_eq!(shown(["2000", "feb", "29", "-", "\u{20AC}", "x"]), "2000-02-29");
    assert_eq!(shown(["2000", "2", "-", "2001", "mar", "4"]), "2000-02/2001-03-04");
    assert_eq!(shown(["2000", "-", "-", "1999", "-", "-"]), "2000/1999");
    assert_eq!(shown(["2000", "-", "-", "", "-", "-"]), "2000/..");
    assert_eq!(shown(["2000", "-", "-", " \n\u{2009}", "\u{20AC}", "-"]), "2000/..");
    assert_eq!(shown(["2000", "-", "-", "2001", "-", "x"]), "2000/2001");
    let refused = |fields| six(fields).map_err(|e| (e.kind.number(), e.span)).unwrap_err();
    assert_eq!(refused(["x", "-", "-", "\u{20AC}", "-", "-"]), (7, 100..100));
    assert_eq!(refused(["2000", "\u{20AC}", "-", "x", "-", "-"]), (11, 0..3));
    assert_eq!(refused(["2000", "-", "-", " \u{20AC}", "-", "-"]), (11, 1..4));
    assert_eq!(refused(["2000", "-", "-", "x", "\u{20AC}", "-"]), (11, 0..3));
    assert_eq!(refused(["2000", "-", "-", "2001?", "-", "-"]), (7, 400..404));
    assert_eq!(refused(["2000", "-", "-", "2001", "1", "32"]), (2, 600..602));
    let long = " ".repeat(4097);
    assert_eq!(refused(["2000", "-", "-", &long, "-", "-"]), (16, 0..0));
    assert_eq!(refused(["2000", "-", "-", "2001", &long, "-"]), (16, 0..0));
    assert_eq!(shown(["2000", "-", "-", "-", &long, &long]), "2000");
    // an empty Math chunk is two dollar signs
    let (year, math) = (at("2000", 0), [Spanned::new(Chunk::Math(""), 400..402)]);
    let error = Date::parse_six_fields(&year, None, None, Some(&math), None, None).unwrap_err();
    assert_eq!((error.kind, error.span), (TypeErrorKind::InvalidFormat, 400..400));
}

#[test]
fn six_lists_of_many_chunks_take_little_stack() {
    let read = || {
        let chunks = |text| {
            let mut chunks = vec![Spanned::new(Chunk::Normal(text), 0..4)];
            chunks.resize(64, Spanned::new(Chunk::Normal(""), 0..4));
            chunks
        };
        let (y, m, d) = (chunks("2000"), chunks("2"), chunks("29"));
        Date::parse_six_fields(&y, Some(&m), Some(&d), Some(&y), Some(&m), Some(&d))
    };
    let thread = std::thread::Builder::new().stack_size(64 * 1024).spawn(read).unwrap();
    assert_eq!(thread.join().unwrap().unwrap().to_string(), "2000-02-29/2000-02-29");
}

#[test]
fn days() {
    for (text, days) in [
        ("0000-01-01", 0..=0),
        ("-0001-12-31", -1..=-1),
        ("2000", 730485..=730850),
        ("1900-02", 693992..=694019),
        ("2000-02-29T23:59:59", 730544..=730544),
        ("-9999-01-01", -3652059..=-3652059),
        ("9999-12-31", 3652424..=3652424),
    ] {
        assert_eq!(point(text).days(), Ok(days), "{text}");
    }
    let mut c = Chronology::new();
    c.add(point("2000-02").days().unwrap(), 7).unwrap();
    assert!(c.any_dated(point("2000-02-29").days().unwrap()).unwrap().found);
    assert!(!c.any_dated(point("2000-03").days().unwrap()).unwrap().found);
}

#[test]
fn instants() {
    for (text, seconds) in [
        ("0000-01-01T00:00:00Z", 0),
        ("2000-01-01T23:00:00Z", 63113986800),
        ("2000-01-02T00:30:00+02:00", 63113985000),
        ("0000-01-01T00:00:00+00:01", -60),
    ] {
        assert_eq!(point(text).instant().map(Instant::seconds), Ok(seconds), "{text}");
    }
    let texts = ["2000-01-02T00:30:00+02:00", "2000-01-01T23:00:00Z", "2000-01-01T22:59:59-00:01"];
    let all = texts.map(point);
    let sorted: BTreeSet<Instant> = all.iter().map(|d| d.instant().unwrap()).collect();
    let seconds: Vec<i64> = sorted.into_iter().map(Instant::seconds).collect();
    assert_eq!(seconds, [63113985000, 63113986800, 63113986859]);
    for a in &all {
        for b in &all {
            let order = a.instant().unwrap().cmp(&b.instant().unwrap());
            assert_eq!(a.cmp_instants(b), Ok(order));
        }
    }
    // the order of biblatex looks at the stored day first
    assert_eq!(all[1].cmp_instants(&all[0]), Ok(Ordering::Greater));
    assert_eq!(all[1].partial_cmp(&all[0]), Some(Ordering::Less));
}

#[test]
fn times() {
    for text in [
        "2000-02-29T01:02:03",
        "1999/2000-02-29T20:15:00?",
        "2000-02-29T23:59:59Z",
        "2000-02-29T00:00:00+00:00~",
        "2000-02-29T12:30:00-05:30/..%",
        "2049-01?",
    ] {
        let date = Date::parse_str(text).unwrap();
        let mut out = [7; Date::TIMED_ROOM];
        assert_eq!(date.write_timed(&mut out), Ok(text));
        assert_eq!(out[text.len()..], [7; Date::TIMED_ROOM][text.len()..]);
        assert_eq!(date.timed_length(), Ok(text.len()));
        assert_eq!(date.timed().to_string(), text);
        assert_eq!(text.parse(), Ok(date));
    }
    let offset = Some(TimeOffset::Offset { positive: true, hours: 23, minutes: 59 });
    let time = Some(Time { hour: 23, minute: 59, second: 59, offset });
    let end = Datetime { year: i32::MIN, month: Some(254), day: Some(254), time, season: None };
    let date = Date { value: DateValue::Between(end, end), uncertain: true, approximate: true };
    assert_eq!(date.timed_length(), Ok(Date::TIMED_ROOM));
    let show = |d| Date { value: DateValue::At(d), uncertain: true, approximate: false }.timed();
    assert_eq!(show(point("2000-21")).to_string(), "2000-21?");
    assert_eq!(show(Datetime { day: None, ..end }).to_string(), "(no text: not a time of a day)");
    assert_eq!(
        show(Datetime { month: Some(255), ..end }).to_string(),
        "(no text: month or day 255)"
    );
}

#[test]
fn page_ranges() {
    let range = |start, end| PageRange { start, end };
    for (text, pages) in [
        (" 5 ", range(5, 5)),
        ("5 - 7", range(5, 7)),
        ("5\u{2013}7", range(5, 7)),
        ("5\u{2014}--7", range(5, 7)),
        ("9-7", range(9, 7)),
        ("4294967295-0", range(u32::MAX, 0)),
    ] {
        assert_eq!(text.parse(), Ok(pages), "{text}");
        assert_eq!(pages.to_string().parse(), Ok(pages));
    }
    let (one, two) = (at("5", 0), at("6-9", 10));
    let parted = [
        Spanned::new(Chunk::Normal("1"), 20..21),
        Spanned::new(Chunk::Verbatim("0-"), 22..24),
        Spanned::new(Chunk::Normal("12"), 25..27),
    ];
    let mut room = [range(1, 2); 4];
    let read = parse_pages(&[&one, &two, &parted], &mut room).unwrap();
    assert_eq!(read, [range(5, 5), range(6, 9), range(10, 12)]);
    assert_eq!(room[3], range(1, 2));
    assert_eq!(parse_pages(&[], &mut []), Ok(&[][..]));
    let many = vec![&one[..]; 64];
    assert_eq!(parse_pages(&many, &mut [range(0, 0); 64]).unwrap(), [range(5, 5); 64]);
    assert_eq!(RangeInclusive::from(range(6, 9)).count(), 4);
    assert_eq!(range(u32::MAX, u32::MAX).to_string().len(), PageRange::TEXT_ROOM);
}

#[test]
fn width_and_alignment() {
    let date: Date = "2000?".parse().unwrap();
    assert_eq!(
        format!("[{date:>8}] [{date:<8}] [{date:*^9}]"),
        "[   2000?] [2000?   ] [**2000?**]"
    );
    assert_eq!(format!("[{:6}]", point("2000")), "[2000  ]");
    assert_eq!(format!("[{:>7}]", date.timed()), "[  2000?]");
    assert_eq!(format!("[{:>6}]", PageRange { start: 1, end: 2 }), "[   1-2]");
    assert_eq!(format!("[{:16}]", TypeErrorKind::InvalidFormat), "[invalid format  ]");
    assert_eq!(format!("[{:>16}]", TypeErrorKind::NoRoom), "[buffer too short]");
    let error = Date::parse_str("123").unwrap_err();
    assert_eq!(format!("[{error:>20}]"), "[ invalid format: 0-3]");
    // the longest message with the longest place is shown whole
    let error = TypeError { span: usize::MAX..usize::MAX, kind: TypeErrorKind::UnsupportedChar };
    let whole = format!("{}: {}-{}", error.kind, usize::MAX, usize::MAX);
    assert_eq!(error.to_string(), whole);
}

#[test]
fn from_text() {
    assert_eq!("49".parse::<Date>(), Date::parse_str("49"));
    let error = "1999/2000-13".parse::<Date>().unwrap_err();
    assert_eq!((error.kind, error.span), (TypeErrorKind::MonthOutOfRange, 10..12));
    assert_eq!("5x".parse::<PageRange>().unwrap_err().span, 0..2);
}

#[test]
fn equal_values_have_one_hash() {
    let dates: HashSet<Date> =
        ["2000", "00", "2000?", "2000-01"].map(|t| t.parse().unwrap()).into_iter().collect();
    assert_eq!(dates.len(), 3);
    let mut points: HashSet<Datetime> = HashSet::new();
    for text in ["2000-21", "2000-22", "2000-21", "2000-01-01T10:00:00Z"] {
        points.insert(point(text));
    }
    assert_eq!(points.len(), 3);
    assert!(points.iter().any(|d| d.season == Some(Season::Summer)));
    // what stands behind the entries of a chronology does not count
    let (mut a, mut b) = (Chronology::new(), Chronology::new());
    a.add(1..=2, 3).unwrap();
    b.add(1..=2, 3).unwrap();
    b.add(5..=6, 7).unwrap();
    b.remove(7).unwrap();
    assert_eq!(HashSet::from([a, b]).len(), 1);
}

#[test]
fn the_versions_are_one() {
    assert_eq!(knobstream::library_version(), knobstream::VERSION);
    let header = include_str!("../../c/knobstream.h");
    assert!(header.contains(&format!("KNOBSTREAM_VERSION = {} ", knobstream::VERSION)));
    assert_eq!(env!("CARGO_PKG_VERSION_MINOR"), knobstream::VERSION.to_string());
}

/// The header's numbers that this crate has too.
#[test]
fn numbers_of_the_header() {
    let path = concat!(env!("CARGO_MANIFEST_DIR"), "/../c/knobstream.h");
    let header = std::fs::read_to_string(path).unwrap();
    let number = |name: &str| {
        let behind = header.split(&format!("KNOBSTREAM_{name} = ")).nth(1).unwrap();
        let digits = behind.split(|c: char| !c.is_ascii_digit()).next().unwrap();
        digits.parse::<usize>().unwrap()
    };
    assert_eq!(number("VERSION"), knobstream::VERSION as usize);
    assert_eq!(number("TEXT_ROOM"), Date::TEXT_ROOM);
    assert_eq!(number("FIELDS_ROOM"), Date::FIELDS_ROOM);
    assert_eq!(number("LEVEL_ONE_ROOM"), Date::LEVEL_ONE_ROOM);
    assert_eq!(number("TIMED_ROOM"), Date::TIMED_ROOM);
    assert_eq!(number("RANGE_ROOM"), PageRange::TEXT_ROOM);
    assert_eq!(number("LINE_ROOM"), knobstream::LINE_ROOM);
    assert_eq!(number("LIST_ROOM"), Chronology::LIST_ROOM);
}
