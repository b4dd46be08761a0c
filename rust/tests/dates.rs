//! The calls of the crate on the examples of the rules, and where a call from
//! Rust differs from one in C: lists of several chunks, limits, refusals.

use knobstream::{
    Chunk, Date, DateValue, Datetime, Season, Span, Spanned, Time, TimeOffset, TypeError,
    TypeErrorKind,
};
use std::cmp::Ordering;
use TypeErrorKind::*;

fn at(text: &str, start: usize) -> [Spanned<Chunk<'_>>; 1] {
    [Spanned::new(Chunk::Normal(text), start..start + text.len())]
}

fn parse(text: &str) -> Result<Date, TypeError> {
    Date::parse(&at(text, 100))
}

fn ymd(year: i32, month: Option<u8>, day: Option<u8>) -> Datetime {
    Datetime { year, month, day, time: None, season: None }
}

fn season(year: i32, season: Season) -> Datetime {
    Datetime { season: Some(season), ..ymd(year, None, None) }
}

fn plain(value: DateValue) -> Date {
    Date { value, uncertain: false, approximate: false }
}

fn refused(kind: TypeErrorKind, span: Span) -> Result<Date, TypeError> {
    Err(TypeError { span, kind })
}

#[test]
fn the_examples_of_the_rules() {
    let year = |y| Ok(plain(DateValue::At(ymd(y, None, None))));
    assert_eq!(parse("49"), year(2049));
    assert_eq!(parse("50"), year(1950));
    assert_eq!(parse("0049"), year(49));
    assert_eq!(parse("-12"), year(1988));
    assert_eq!(parse("2000-02-29"), Ok(plain(DateValue::At(ymd(2000, Some(1), Some(28))))));
    assert_eq!(parse("1900-02-29"), refused(DayOutOfRange, 100..110));
    assert_eq!(parse("../.."), refused(UndefinedRange, 100..105));
    let (a, b) = (ymd(1900, None, None), ymd(1999, None, None));
    assert_eq!(parse("19XX/2005"), Ok(plain(DateValue::Between(a, b))));
    let (a, b) = (ymd(2000, Some(1), Some(0)), ymd(2000, Some(1), Some(30)));
    assert_eq!(parse("2000-02-XX"), Ok(plain(DateValue::Between(a, b))));

    let fields = |y, m: Option<&str>| {
        Date::parse_three_fields(&at(y, 5), m.map(|m| at(m, 20)).as_ref().map(|m| &m[..]), None)
    };
    assert_eq!(fields("49", None), year(49));
    assert_eq!(fields("1000 BC", None), year(-999));
    assert_eq!(fields("0 AD", None), refused(YearZeroCE, 5..9));
    assert_eq!(fields("- 5", None), refused(RustPanics, 0..0));
    assert_eq!(fields("1", Some("13")), Ok(plain(DateValue::At(ymd(1, Some(12), None)))));
}

#[test]
fn marks_times_and_ranges() {
    let date = parse("2000-02-29T10:20:30-02:30%").unwrap();
    assert!(date.uncertain && date.approximate);
    let offset = Some(TimeOffset::Offset { positive: false, hours: 2, minutes: 30 });
    let time = Some(Time { hour: 10, minute: 20, second: 30, offset });
    assert_eq!(date.value, DateValue::At(Datetime { time, ..ymd(2000, Some(1), Some(28)) }));
    let DateValue::At(d) = parse("2000-02-29T10:20:30Z").unwrap().value else { panic!() };
    assert_eq!(d.time.unwrap().offset, Some(TimeOffset::Utc));
    assert_eq!(parse("2000/").unwrap().value, DateValue::After(ymd(2000, None, None)));
    assert_eq!(parse("../2000").unwrap().value, DateValue::Before(ymd(2000, None, None)));
}

#[test]
fn places() {
    assert_eq!(parse("2000-13"), refused(MonthOutOfRange, 105..107));
    assert_eq!(parse("2000/1900-02-29"), refused(DayOutOfRange, 105..115));
    assert_eq!(parse("20\u{20AC}"), refused(UnsupportedChar, 2..5));
    assert_eq!(parse("½/q"), refused(RustPanics, 0..0));
    let far = Spanned::new(Chunk::Normal("2000/q"), usize::MAX - 2..usize::MAX);
    assert_eq!(Date::parse(&[far]), refused(RustPanics, 0..0));
    let far = Spanned::new(Chunk::Normal("q"), usize::MAX..usize::MAX);
    assert_eq!(Date::parse(&[far]), refused(InvalidFormat, usize::MAX..usize::MAX));
}

#[test]
fn texts_begin_at_zero() {
    assert_eq!(Date::parse_str("49"), parse("49"));
    assert_eq!(Date::parse_str("1999/2000-13"), refused(MonthOutOfRange, 10..12));
    assert_eq!(Date::parse_str("../.."), refused(UndefinedRange, 0..5));
    assert_eq!(Date::parse_str(""), refused(InvalidFormat, 0..0));
    assert_eq!(Date::parse_str(&" ".repeat(4097)), refused(TooLong, 0..0));
    assert_eq!(Date::parse_strict_str("0049"), Date::parse_str("0049"));
    assert_eq!(Date::parse_strict_str("49"), refused(NotStrict, 0..0));
    assert_eq!(Date::parse_strict_str("20\u{20AC}"), refused(UnsupportedChar, 2..5));
    // Without a place in a file a sum of places is too large, on which biblatex panics.
    let detached = [Spanned::detached(Chunk::Normal("1999/2000-13"))];
    assert_eq!(Date::parse(&detached), refused(RustPanics, 0..0));
}

#[test]
fn strict() {
    assert_eq!(Date::parse_strict(&at("49", 0)), refused(NotStrict, 0..0));
    assert_eq!(Date::parse_strict(&at("0049", 0)), parse("0049"));
    assert_eq!(Date::parse_strict(&at("2000/..?", 0)), parse("2000/..?"));
}

#[test]
fn several_chunks() {
    let chunks = [
        Spanned::new(Chunk::Normal("20"), 10..12),
        Spanned::new(Chunk::Verbatim("00-0"), 13..17),
        Spanned::new(Chunk::Normal("9\n"), 18..20),
    ];
    assert_eq!(Date::parse(&chunks), Ok(plain(DateValue::At(ymd(2000, Some(8), None)))));
    let chunks =
        [Spanned::new(Chunk::Normal("20"), 10..12), Spanned::new(Chunk::Math("00"), 13..15)];
    assert_eq!(Date::parse(&chunks), refused(InvalidFormat, 12..12));
    assert_eq!(Date::parse(&[]), refused(InvalidFormat, 0..0));
}

#[test]
fn limits() {
    let one = |text| Spanned::new(Chunk::Normal(text), 3..9);
    let mut chunks = vec![one("2000")];
    chunks.resize(64, one(""));
    assert!(Date::parse(&chunks).is_ok());
    chunks.push(one(""));
    assert_eq!(Date::parse(&chunks), refused(TooLong, 0..0));

    let long = |n: usize| "2000".to_string() + &" ".repeat(n - 4);
    assert!(Date::parse(&at(&long(4096), 0)).is_ok());
    assert_eq!(Date::parse(&at(&long(4097), 0)), refused(TooLong, 0..0));
    let text = long(4095);
    assert!(Date::parse(&[one(&text), one(" ")]).is_ok());
    assert_eq!(Date::parse(&[one(&text), one("  ")]), refused(TooLong, 0..0));
}

#[test]
fn three_fields_are_checked_in_order() {
    let long = "1".repeat(4097);
    let (good, high) = (at("2000", 0), at("\u{20AC}", 0));
    let long = at(&long, 0);
    let read = |y: &[_], m: &[_], d: &[_]| Date::parse_three_fields(y, Some(m), Some(d));
    assert_eq!(read(&high, &long, &long), refused(UnsupportedChar, 0..3));
    assert_eq!(read(&good, &long, &high), refused(TooLong, 0..0));
    assert_eq!(read(&good, &high, &long), refused(UnsupportedChar, 0..3));
    assert_eq!(read(&good, &at("1", 0), &long), refused(TooLong, 0..0));
    assert!(Date::parse_three_fields(&good, None, Some(&long)).is_ok());
    assert_eq!(
        read(&good, &at("jul", 0), &at("4", 0)),
        Ok(plain(DateValue::At(ymd(2000, Some(6), Some(3)))))
    );
    assert_eq!(read(&good, &at("1", 0), &at("32", 7)), refused(DayOutOfRange, 7..9));
}

#[test]
fn writing() {
    for text in ["2000", "-0049-02", "0000-12-31?", "1999/2003-07~", "../2000", "2000/..%"] {
        assert_eq!(parse(text).unwrap().to_string(), text);
    }
    let least = ymd(i32::MIN, Some(254), Some(254));
    let mut date = plain(DateValue::Between(least, least));
    date.uncertain = true;
    let text = date.to_string();
    assert_eq!(text, "-2147483648-255-255/-2147483648-255-255?");
    assert_eq!(text.len(), Date::TEXT_ROOM);
    assert_eq!(least.to_string(), "-2147483648-255-255");
    assert_eq!(date.write_fields(&mut [0; Date::FIELDS_ROOM]).unwrap().len(), Date::FIELDS_ROOM);

    let mut out = [7; 39];
    assert_eq!(date.write(&mut out).unwrap_err().kind, NoRoom);
    assert_eq!(out, [7; 39]);
    assert_eq!(date.write(&mut []).unwrap_err().to_string(), "buffer too short");
    let none = plain(DateValue::At(ymd(1, Some(255), None)));
    assert_eq!(none.write(&mut out).unwrap_err().kind, RustPanics);
    assert_eq!(none.write_fields(&mut out).unwrap_err().kind, RustPanics);
    assert_eq!(none.text_length().unwrap_err().kind, RustPanics);
    assert_eq!(none.to_string(), "(no text: month or day 255)");
    let none = ymd(1, Some(0), Some(255));
    assert_eq!(none.to_string(), "(no text: month or day 255)");
    assert_eq!(ymd(1, None, Some(255)).to_string(), "0001");
}

#[test]
fn level_one() {
    let at = |d| Ok(plain(DateValue::At(d)));
    let read = Date::parse_level_one_str;
    assert_eq!(read("2000-21"), at(season(2000, Season::Spring)));
    assert_eq!(read("2000-22"), at(season(2000, Season::Summer)));
    assert_eq!(read("2000-23"), at(season(2000, Season::Autumn)));
    assert_eq!(read("-0044-24"), at(season(-44, Season::Winter)));
    assert_eq!(read("Y12345"), at(ymd(12345, None, None)));
    assert_eq!(
        read("Y-123456789~"),
        Ok(Date { approximate: true, ..plain(DateValue::At(ymd(-123456789, None, None))) })
    );
    let range = DateValue::Between(season(2000, Season::Summer), season(2001, Season::Autumn));
    assert_eq!(read("2000-22/2001-23?"), Ok(Date { uncertain: true, ..plain(range) }));
    assert_eq!(read("2000-21/.."), Ok(plain(DateValue::After(season(2000, Season::Spring)))));
    assert_eq!(read("2000-02-29T10:20:30Z"), Date::parse_strict_str("2000-02-29T10:20:30Z"));
    for text in ["2000-20", "2000-25", "49", "Y1234", "Y01234", "Y1234567890", "Y12345-21"] {
        assert_eq!(read(text), refused(NotLevelOne, 0..0), "{text}");
    }
    let long = " ".repeat(4097);
    assert_eq!(read(&long), refused(TooLong, 0..0));
    // The other readers know no season and no long year.
    assert_eq!(Date::parse_str("2000-21"), refused(MonthOutOfRange, 5..7));
    assert_eq!(Date::parse_strict_str("2000-21"), refused(NotStrict, 0..0));
    assert_eq!(Date::parse_strict_str("Y12345"), refused(NotStrict, 0..0));
    let year = [Spanned::new(Chunk::Normal("2000"), 0..4)];
    let month = [Spanned::new(Chunk::Normal("21"), 9..11)];
    let read = Date::parse_three_fields(&year, Some(&month), None);
    assert_eq!(read, at(ymd(2000, Some(20), None)));
}

#[test]
fn seasons_are_written_by_one_writer_alone() {
    for text in ["2000-21", "-0044-24", "Y12345", "Y-123456789~", "2000-22/2001-23?", "0000-12-31%"]
    {
        let date = Date::parse_level_one_str(text).unwrap();
        let mut out = [7; Date::LEVEL_ONE_ROOM];
        assert_eq!(date.write_level_one(&mut out), Ok(text));
        assert_eq!(date.level_one_length(), Ok(text.len()));
        assert_eq!(out[text.len()..], [7; Date::LEVEL_ONE_ROOM][text.len()..]);
        let kind = date.write_level_one(&mut vec![7; text.len() - 1]).unwrap_err().kind;
        assert_eq!(kind, NoRoom);
    }
    let spring = season(2000, Season::Spring);
    let value = [
        DateValue::At(spring),
        DateValue::After(spring),
        DateValue::Before(spring),
        DateValue::Between(spring, ymd(1, Some(255), None)),
        DateValue::Between(ymd(1, Some(255), None), spring),
    ];
    for date in value.map(plain) {
        let mut out = [7; Date::FIELDS_ROOM];
        assert_eq!(date.text_length().unwrap_err(), TypeError { span: 0..0, kind: HasSeason });
        assert_eq!(date.write(&mut out).unwrap_err().kind, HasSeason);
        assert_eq!(date.write(&mut []).unwrap_err().kind, HasSeason);
        assert_eq!(date.write_fields(&mut out).unwrap_err().kind, HasSeason);
        assert_eq!(out, [7; Date::FIELDS_ROOM]);
    }
    // Beside a season no month, no day and no time is looked at.
    let time = Some(Time { hour: 99, minute: 0, second: 0, offset: None });
    let full = Datetime { time, season: Some(Season::Winter), ..ymd(-5, Some(255), Some(255)) };
    let range = plain(DateValue::Between(full, ymd(12345, None, Some(255))));
    assert_eq!(range.write_level_one(&mut [0; 42]), Ok("-0005-24/Y12345"));
    let none = plain(DateValue::Between(full, ymd(12345, Some(255), None)));
    assert_eq!(none.write_level_one(&mut [0; 42]).unwrap_err().kind, RustPanics);
    assert_eq!(none.level_one_length().unwrap_err().kind, RustPanics);
    let least = ymd(i32::MIN, Some(254), Some(254));
    let longest = Date { approximate: true, ..plain(DateValue::Between(least, least)) };
    assert_eq!(longest.level_one_length(), Ok(Date::LEVEL_ONE_ROOM));
}

#[test]
fn every_date_is_shown() {
    let shown = |text| Date::parse_level_one_str(text).unwrap().to_string();
    assert_eq!(shown("2000-21"), "2000-21");
    assert_eq!(shown("2000-22/2001-23?"), "2000-22/2001-23?");
    assert_eq!(shown("2000-22/Y12345"), "2000-22/Y12345");
    // Without a season it is the text as ever, which has no Y.
    assert_eq!(shown("Y12345"), "12345");
    assert_eq!(season(-44, Season::Winter).to_string(), "-0044-24");
    assert_eq!(Datetime { month: Some(255), ..season(1, Season::Autumn) }.to_string(), "0001-23");
    let none = plain(DateValue::Between(season(1, Season::Autumn), ymd(1, Some(255), None)));
    assert_eq!(none.to_string(), "(no text: month or day 255)");
}

#[test]
fn seasons_are_not_compared() {
    let (spring, year) = (season(2000, Season::Spring), ymd(1999, None, None));
    assert_eq!(spring.partial_cmp(&year), None);
    assert_eq!(year.partial_cmp(&spring), None);
    assert_eq!(spring.partial_cmp(&spring), None);
    assert_eq!(spring.partial_cmp(&season(2001, Season::Winter)), None);
    assert_eq!(spring, season(2000, Season::Spring));
    assert_ne!(spring, season(2000, Season::Summer));
}

#[test]
fn frames_of_level_one() {
    let mut room = [0; knobstream::LINE_ROOM];
    let spring = b"050100070000000000000007323030302d3231";
    let line = "000000000007d0ffff0000000000000015323030302d3231\n";
    assert_eq!(knobstream::answer_frame(spring, &mut room), line);
    let two_digits = b"0501000200000000000000023439";
    let line = "1700000000000000000000000000000000\n";
    assert_eq!(knobstream::answer_frame(two_digits, &mut room), line);
}

#[test]
fn every_season_has_its_number() {
    let all = [Season::Spring, Season::Summer, Season::Autumn, Season::Winter];
    assert_eq!(all.map(Season::number), [21, 22, 23, 24]);
}

#[test]
fn the_end_of_an_unknown_day() {
    let range =
        |last| DateValue::Between(ymd(2000, Some(1), Some(0)), ymd(2000, Some(1), Some(last)));
    assert_eq!(parse("2000-02-XX"), Ok(plain(range(30))));
    assert_eq!(Date::parse_strict_str("2000-02-XX"), Ok(plain(range(28))));
}

#[test]
fn the_typesetters_characters() {
    let year = Ok(plain(DateValue::At(ymd(2000, None, None))));
    assert_eq!(parse("2000\u{2009}\u{205F}"), year);
    assert_eq!(parse("20\u{2013}"), refused(InvalidFormat, 102..102));
    assert_eq!(parse("20\u{2070}"), refused(UnsupportedChar, 2..5));
}

#[test]
fn every_part_survives_the_way_out_and_back() {
    let times =
        [None, Some(None), Some(Some(TimeOffset::Utc))]
            .into_iter()
            .chain([true, false].map(|positive| {
                Some(Some(TimeOffset::Offset { positive, hours: 200, minutes: 255 }))
            }))
            .map(|o| o.map(|offset| Time { hour: 25, minute: 0, second: 255, offset }));
    for time in times {
        for month in [None, Some(0), Some(254)] {
            for day in [None, Some(0), Some(30)] {
                let d = Datetime { time, ..ymd(-5, month, day) };
                // What is equal up to an absent part is equal; so is what is equal in all.
                assert_eq!(d.partial_cmp(&d), Some(Ordering::Equal));
                let later = Datetime { year: -4, ..d };
                assert!(d < later);
                assert!(later > d);
            }
        }
    }
}

#[test]
fn the_order() {
    let day = |t| Datetime { time: t, ..ymd(2000, Some(1), Some(1)) };
    let time = |hour, offset| day(Some(Time { hour, minute: 0, second: 0, offset }));
    let ahead = |hours| Some(TimeOffset::Offset { positive: true, hours, minutes: 0 });
    assert!(ymd(2000, Some(1), None) < ymd(2000, Some(2), None));
    assert_eq!(ymd(2000, None, None).partial_cmp(&ymd(2000, Some(2), None)), None);
    assert_eq!(ymd(2000, None, Some(1)).partial_cmp(&ymd(2000, None, None)), Some(Ordering::Equal));
    assert!(time(10, ahead(2)) < time(9, Some(TimeOffset::Utc)));
    assert_eq!(
        time(10, ahead(1)).partial_cmp(&time(9, Some(TimeOffset::Utc))),
        Some(Ordering::Equal)
    );
    assert_eq!(time(10, None).partial_cmp(&time(9, ahead(0))), None);
    assert_eq!(time(10, None).partial_cmp(&day(None)), None);
}

#[test]
fn every_kind_has_its_number_and_a_message() {
    let e = TypeError { span: 3..5, kind: InvalidFormat };
    assert_eq!((e.kind.number(), e.to_string().as_str()), (7, "invalid format: 3-5"));
    let e = TypeError { span: 0..0, kind: TooLong };
    assert_eq!(
        (e.kind.number(), e.to_string().as_str()),
        (16, "more than 64 chunks or pieces, or 4,096 bytes")
    );
    let e = TypeError { span: 0..0, kind: NotLevelOne };
    assert_eq!(
        (e.kind.number(), e.to_string().as_str()),
        (23, "not a date of the grammar of level one")
    );
    let e = TypeError { span: 0..0, kind: HasSeason };
    assert_eq!(
        (e.kind.number(), e.to_string().as_str()),
        (24, "a season, which this call does not know")
    );
}
