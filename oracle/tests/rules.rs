//! The worked examples, rules and places of docs/RULES.md, asked of the Rust.
//!
//! Unless said otherwise a list is one Normal chunk with span start 100.

use oracle::make::{hex, normal, one, piece, sized, spread, three, Piece, MONTH_NAMES};
use oracle::{describe_answer, describe_answer_to, Options, Oracle, LEVEL};

fn raw_with(options: Options, line: &str) -> String {
    let mut out = Vec::new();
    Oracle::new(options).answer(line.as_bytes(), &mut out);
    String::from_utf8(out).unwrap()
}

fn raw(line: &str) -> String {
    raw_with(Options::default(), line)
}

fn words(frame: &[u8]) -> String {
    describe_answer(raw(&hex(frame)).as_bytes())
}

/// The ported reader's answer to a date field.
fn date(text: &str) -> String {
    words(&one(4, &[normal(100, text)]))
}

/// The level-one reader's answer to a date field.
fn level(text: &str) -> String {
    let frame = hex(&one(LEVEL, &[normal(100, text)]));
    describe_answer_to(frame.as_bytes(), raw(&frame).as_bytes())
}

/// The answer to fields as lists of one chunk each.
fn fields(year: &str, month: Option<&str>, day: Option<&str>) -> String {
    let list = |text: &str| vec![normal(100, text)];
    let (month, day) = (month.map(list), day.map(list));
    words(&three(&list(year), month.as_deref(), day.as_deref()))
}

fn year(text: &str) -> String {
    fields(text, None, None)
}

fn month(text: &str) -> String {
    fields("2000", Some(text), None)
}

fn refused(number: u8, start: u64, end: u64) -> String {
    let answer = format!("{number:02x}{start:016x}{end:016x}");
    describe_answer(answer.as_bytes())
}

#[track_caller]
fn same(table: &[(String, String)]) {
    for (i, (got, wanted)) in table.iter().enumerate() {
        assert_eq!(got, wanted, "entry {i}");
    }
}

fn accepted(text: &str) -> String {
    text.to_string()
}

#[test]
fn frames_and_answers() {
    assert_eq!(raw("04010003000000000000000334393f"), "00000100000801ffff00000000000000323034393f");
    assert_eq!(raw("04010003000000000000000334393F"), "00000100000801ffff00000000000000323034393f");
    assert_eq!(raw("zz"), "0e00000000000000000000000000000000");
}

#[test]
fn worked_examples() {
    same(&[
        (date("49"), accepted("At marks 0, year 2049, \"2049\"")),
        (date("50"), accepted("At marks 0, year 1950, \"1950\"")),
        (date("0049"), accepted("At marks 0, year 49, \"0049\"")),
        (date("-12"), accepted("At marks 0, year 1988, \"1988\"")),
        (date("2000-02-29"), accepted("At marks 0, year 2000 month 1 day 28, \"2000-02-29\"")),
        (date("1900-02-29"), refused(2, 100, 110)),
        (date("../.."), refused(1, 100, 105)),
        (date("19XX/2005"), accepted("Between marks 0, year 1900, year 1999, \"1900/1999\"")),
        (
            date("2000-02-XX"),
            accepted(
                "Between marks 0, year 2000 month 1 day 0, year 2000 month 1 day 30, \
                 \"2000-02-01/2000-02-31\"",
            ),
        ),
        (year("49"), accepted("At marks 0, year 49, \"0049\"")),
        (year("1000 BC"), accepted("At marks 0, year -999, \"-0999\"")),
        (year("0 AD"), refused(8, 100, 104)),
        (year("- 5"), refused(9, 0, 0)),
        (month("13"), accepted("At marks 0, year 2000 month 12, \"2000-13\"")),
    ]);
}

#[test]
fn date_fields() {
    same(&[
        // Marks and halves.
        (date("2000?"), accepted("At marks 1, year 2000, \"2000?\"")),
        (date("2000~"), accepted("At marks 2, year 2000, \"2000~\"")),
        (date("2000%"), accepted("At marks 3, year 2000, \"2000%\"")),
        (date("2000? "), accepted("At marks 1, year 2000, \"2000?\"")),
        (date("2000??"), refused(7, 104, 104)),
        (date("2000/.."), accepted("After marks 0, year 2000, \"2000/..\"")),
        (date("../2000"), accepted("Before marks 0, year 2000, \"../2000\"")),
        (date("2001/2000"), accepted("Between marks 0, year 2001, year 2000, \"2001/2000\"")),
        // Points.
        (date("-99"), accepted("At marks 0, year 1901, \"1901\"")),
        (date("- 2000"), accepted("At marks 0, year -2000, \"-2000\"")),
        (date("123"), refused(7, 100, 103)),
        (
            date("2000-1-1T1:2:3z"),
            accepted("At marks 0, year 2000 month 0 day 0 time 1:2:3 UTC, \"2000-01-01\""),
        ),
        (date("2000-01-01T10+02"), refused(7, 113, 113)),
        // Numeric characters that are no digits.
        (date("½"), refused(9, 0, 0)),
        (date("1½"), refused(7, 100, 103)),
        (date("1½2"), refused(9, 0, 0)),
        (date("2000-½"), refused(9, 0, 0)),
        // X ranges.
        (date("199X"), accepted("Between marks 0, year 1990, year 1999, \"1990/1999\"")),
        (
            date("2000-XX-XX"),
            accepted("Between marks 0, year 2000 month 0, year 2000 month 11, \"2000-01/2000-12\""),
        ),
        (
            date("2000-XX-XX q"),
            accepted("Between marks 0, year 2000 month 0, year 2000 month 11, \"2000-01/2000-12\""),
        ),
        (date("12345X"), refused(9, 0, 0)),
        (date("2000-00-XX"), refused(9, 0, 0)),
    ]);
}

#[test]
fn places() {
    same(&[
        (date(" 123"), refused(7, 100, 104)),
        (date("2000.1"), refused(7, 104, 104)),
        (date("2000-  13"), refused(3, 105, 109)),
        (date("2000- -01"), refused(7, 105, 106)),
        (date("2000-02- 30"), refused(2, 100, 111)),
        (date("2000-01-01q"), refused(7, 100, 110)),
        (date("2000-01-01T10:20:30é"), refused(7, 119, 121)),
        (date("1XXX"), refused(6, 100, 101)),
        (date("2000X"), refused(6, 100, 105)),
        (date("2000-XX q"), refused(7, 108, 108)),
        (year("5 ADx"), refused(7, 102, 104)),
        (year("-5 BCx"), refused(7, 103, 105)),
        (year("5 AD,"), refused(7, 100, 104)),
        // The day field: the list's span.
        (fields("5", Some("1"), Some("0")), refused(2, 100, 101)),
        (fields("5", Some("1"), Some(" 32 ")), refused(2, 100, 104)),
        (fields("5", Some("1"), Some("q")), refused(4, 100, 101)),
    ]);
}

#[test]
fn day_fields_that_are_no_number() {
    let day = |text: &str, start, end| {
        let day = [Piece { kind: 0, start, end, text: text.into() }];
        words(&three(&[normal(100, "5")], Some(&[normal(100, "1")]), Some(&day)))
    };
    same(&[
        (day("x", 5, 5), refused(5, 5, 5)),
        (day("", 5, 9), refused(4, 5, 9)),
        (day("x", 9, 5), refused(5, 9, 5)),
    ]);
}

#[test]
fn days_in_the_month_field() {
    let july = "At marks 0, year 2000 month 6, \"2000-07\"";
    let july4 = "At marks 0, year 2000 month 6 day 3, \"2000-07-04\"";
    same(&[
        (month("jul-"), refused(5, 4, 4)),
        (month("jul\u{a0}"), refused(5, 5, 5)),
        (month("jul "), accepted(july)),
        (month("jul,4"), accepted(july)),
        (month("jul-32"), refused(2, 4, 6)),
        (month("jul-4"), accepted(july4)),
        (month("jul 4"), accepted(july4)),
        (month("jul -\u{a0}-4,"), accepted(july4)),
        (month("jul-256"), refused(9, 0, 0)),
        (month("-4"), accepted("At marks 0, year 2000 day 3, \"2000\"")),
    ]);
    // Not shifted, whatever the span.
    for start in [0, 7, u32::MAX] {
        let list = [normal(start, "jul-32")];
        assert_eq!(words(&three(&[normal(100, "5")], Some(&list), None)), refused(2, 4, 6));
    }
}

#[test]
fn month_names() {
    for (i, name) in MONTH_NAMES.iter().enumerate() {
        let wanted = format!("At marks 0, year 2000 month {i}, \"2000-{:02}\"", i + 1);
        for len in 1..=name.len() {
            let known = len == 3 || len == name.len() || &name[..len] == "sept";
            let absent = "At marks 0, year 2000, \"2000\"".to_string();
            let wanted = if known { &wanted } else { &absent };
            let lower = name[..len].to_string();
            let mixed: String = lower
                .char_indices()
                .map(|(i, c)| if i % 2 == 0 { c.to_ascii_uppercase() } else { c })
                .collect();
            for text in [&lower, &lower.to_uppercase(), &mixed] {
                assert_eq!(&month(text), wanted, "{text}");
            }
        }
    }
    assert_eq!(month("febr"), "At marks 0, year 2000, \"2000\"");
}

#[test]
fn behind_an_era() {
    same(&[
        (year("5 AD "), refused(7, 100, 104)),
        (year("5 BC "), accepted("At marks 0, year -4, \"-0004\"")),
        (year("5 "), accepted("At marks 0, year 5, \"0005\"")),
        (year("5 BC,x"), accepted("At marks 0, year -4, \"-0004\"")),
        (year("-5 AD"), refused(7, 100, 105)),
        (year("-0 AD"), refused(7, 100, 105)),
        (year("- x"), refused(7, 100, 102)),
        (year("- 12345"), refused(6, 100, 107)),
        (year("- 5 ADx"), refused(9, 0, 0)),
    ]);
}

#[test]
fn nothing_is_trimmed_again() {
    same(&[
        (date("2000/ ?"), accepted("After marks 1, year 2000, \"2000/..?\"")),
        (date("2000/.. ?"), refused(7, 105, 105)),
        (date("2000/ .."), refused(7, 105, 106)),
    ]);
}

#[test]
fn marks_slashes_and_xs_behind_what_is_not_read() {
    let noon = "year 2000 month 0 day 0 time 10:20:30 UTC";
    same(&[
        (date("2000-01-01T10:20:30Zy"), accepted(&format!("At marks 0, {noon}, \"2000-01-01\""))),
        (date("2000-01-01T10:20:30Zx"), refused(7, 108, 108)),
        (date("2000-01-01T10:20:30Zy?"), accepted(&format!("At marks 1, {noon}, \"2000-01-01?\""))),
        (
            date("2000-01-01T10:20:30Zy/.."),
            accepted(&format!("After marks 0, {noon}, \"2000-01-01/..\"")),
        ),
    ]);
}

#[test]
fn runs_are_taken_whole() {
    same(&[
        (date("19XXX"), refused(6, 100, 105)),
        (date("2000-XX-XXX"), refused(7, 111, 111)),
        (date("2000-02-XXX"), refused(7, 111, 111)),
        (date("2000-01-01T10:20:30+02:003"), refused(7, 123, 126)),
    ]);
}

#[test]
fn panics_keep_the_order() {
    same(&[
        (date("½/q"), refused(9, 0, 0)),
        (date("q/½"), refused(7, 100, 100)),
        (fields("x", Some("0"), None), refused(7, 100, 100)),
        (fields("5", Some("0"), Some("x")), refused(9, 0, 0)),
    ]);
    // The largest span that a frame can carry.
    let top = u64::from(u32::MAX);
    let at = |text: &str| words(&one(4, &[normal(u32::MAX, text)]));
    same(&[(at("q/2000"), refused(7, top, top)), (at("2000/q"), refused(7, top + 5, top + 5))]);
}

#[test]
fn checks_before_reading() {
    let one = |pieces: &[Piece]| words(&one(4, pieces));
    let empty = |n: usize| vec![normal(0, ""); n];
    let mut kind3 = empty(65);
    kind3[64].kind = 3;
    let mut ill = empty(65);
    ill[0] = normal(0, [0xff]);
    let spaces = |n: usize| spread(0, &format!("{}2000", " ".repeat(n - 4)));

    same(&[
        (one(&[]), refused(7, 0, 0)),
        (one(&kind3), refused(15, 0, 0)),
        (one(&ill), refused(16, 0, 0)),
        (one(&empty(64)), refused(7, 0, 0)),
        (one(&empty(65)), refused(16, 0, 0)),
        (one(&spaces(4096)), accepted("At marks 0, year 2000, \"2000\"")),
        (one(&spaces(4097)), refused(16, 0, 0)),
        // The first in the pass, counted in the list's bytes.
        (one(&[normal(50, "20"), normal(60, "a€\u{ff}")]), refused(11, 3, 6)),
        (one(&[normal(50, "20"), normal(60, [b'a', 0xc3])]), refused(10, 3, 4)),
        (one(&[normal(0, [0xc3]), normal(1, [0xa9])]), refused(10, 0, 1)),
        (one(&[normal(0, [0xc4, 0x80, 0xff])]), refused(11, 0, 2)),
        (one(&[normal(0, [0xff, 0xc4, 0x80])]), refused(10, 0, 1)),
        (one(&[normal(0, [0xed, 0xa0, 0x80])]), refused(10, 0, 1)),
        (one(&[normal(0, "\u{10ffff}")]), refused(11, 0, 4)),
    ]);

    // Every list is checked before any is read; a day without a month is not.
    let (x, kind3) = ([normal(0, "x")], [piece(3, 0, "1")]);
    same(&[
        (words(&three(&x, Some(&x), Some(&kind3))), refused(15, 0, 0)),
        (words(&three(&x, None, Some(&kind3))), refused(7, 0, 0)),
        (words(&three(&x, Some(&[normal(9, "€")]), Some(&kind3))), refused(11, 0, 3)),
    ]);
}

const NOON: &str = "2000-01-01T12:00:00Z";

#[test]
fn formatting() {
    let one = |pieces: &[Piece]| words(&one(4, pieces));
    let y2000 = accepted("At marks 0, year 2000, \"2000\"");
    same(&[
        // A break becomes a space, or goes behind white space.
        (one(&[normal(0, "20\n00")]), refused(7, 3, 3)),
        (one(&[normal(0, "\n2000")]), y2000.clone()),
        (one(&[normal(0, "123 \r\nq")]), refused(7, 0, 3)),
        (one(&[normal(0, "2000 \n\r\nq")]), refused(7, 5, 5)),
        (one(&[normal(0, "2000\r\nq")]), refused(7, 5, 5)),
        // Verbatim keeps its breaks, an empty one clears the flag, Math does not.
        (one(&[piece(1, 0, "2000\n\n"), normal(0, "\nq")]), refused(7, 6, 6)),
        (one(&[normal(0, "2000 "), piece(1, 0, ""), normal(0, "\nq")]), refused(7, 6, 6)),
        (one(&[piece(2, 0, "2000")]), refused(7, 0, 0)),
        // The slash, behind text that is not read, tells whether a break went.
        (one(&[normal(0, NOON), normal(0, " \n/q")]), refused(7, 22, 22)),
        (
            one(&[normal(0, NOON), normal(0, " "), piece(2, 0, ""), normal(0, "\n/q")]),
            refused(7, 24, 24),
        ),
        (one(&[normal(0, NOON), piece(2, 0, " "), normal(0, "\n/q")]), refused(7, 25, 25)),
    ]);
}

/// What the oracle's own reading of operation 05 is held to.
#[test]
fn level_one() {
    assert_eq!(
        raw(&hex(&one(LEVEL, &[normal(0, "2000-21/Y-12345~")]))),
        "000302000007d0ffff0000000000000015ffffcfc7ffff0000000000000000323030302d32312f592d31323334357e"
    );
    let table = [
        ("2000", "At marks 0, year 2000, \"2000\""),
        ("-0000", "At marks 0, year 0, \"0000\""),
        ("2000-21", "At marks 0, year 2000 season 21, \"2000-21\""),
        ("-0044-24?", "At marks 1, year -44 season 24, \"-0044-24?\""),
        ("-0000-22", "At marks 0, year 0 season 22, \"0000-22\""),
        ("Y12345", "At marks 0, year 12345, \"Y12345\""),
        ("Y-999999999%", "At marks 3, year -999999999, \"Y-999999999%\""),
        (
            "Y12345/2000-24%",
            "Between marks 3, year 12345, year 2000 season 24, \"Y12345/2000-24%\"",
        ),
        ("2000-23/..", "After marks 0, year 2000 season 23, \"2000-23/..\""),
        ("../Y-12345~", "Before marks 2, year -12345, \"../Y-12345~\""),
        ("2001/2000-12", "Between marks 0, year 2001, year 2000 month 11, \"2001/2000-12\""),
        ("19XX", "Between marks 0, year 1900, year 1999, \"1900/1999\""),
        ("199X", "Between marks 0, year 1990, year 1999, \"1990/1999\""),
        (
            "2000-XX-XX",
            "Between marks 0, year 2000 month 0, year 2000 month 11, \"2000-01/2000-12\"",
        ),
        (
            "1900-02-XX",
            "Between marks 0, year 1900 month 1 day 0, year 1900 month 1 day 27, \
             \"1900-02-01/1900-02-28\"",
        ),
        (
            "2000-02-29T23:59:59-23:59",
            "At marks 0, year 2000 month 1 day 28 time 23:59:59 -23:59, \"2000-02-29\"",
        ),
        (
            "2000-01-01T10:20:30Z",
            "At marks 0, year 2000 month 0 day 0 time 10:20:30 UTC, \"2000-01-01\"",
        ),
    ];
    for (text, wanted) in table {
        assert_eq!(level(text), wanted, "{text}");
    }
    #[rustfmt::skip]
    let none = [
        "", "49", "12345", "-12345", "Y1234", "Y01234", "Y-01234", "Y1234567890", "Y+12345",
        "y12345", "-Y12345", "Y12345-01", "Y12345-21", "Y12345T10:20:30", "2000-20", "2000-25",
        "2000-21-01", "2000-21-XX", "2000-21T10:20:30", "+2000-21", "2000-21 ", "2000-13",
        "2000-00", "1900-02-29", "../..", "2000/", "19XX/2005", "-19XX", "2000?/2001", "2000??",
        "2000-01-01T24:00:00", "2000-01-01T10:20:30+24:00",
    ];
    for text in none {
        assert_eq!(level(text), refused(23, 0, 0), "{text}");
    }
    // The list is checked before.
    assert_eq!(level("2000-21€"), refused(11, 7, 10));
    assert_eq!(words(&one(LEVEL, &[piece(3, 0, "2000")])), refused(15, 0, 0));
    // Verbatim is copied; a break is a space; Math has its signs.
    assert_eq!(level("2000-21\n"), refused(23, 0, 0));
    let cut = one(LEVEL, &[normal(0, "20"), piece(1, 9, "00-21")]);
    assert_eq!(raw(&hex(&cut)), raw(&hex(&one(LEVEL, &[normal(0, "2000-21")]))));
    assert_eq!(words(&one(LEVEL, &[piece(2, 0, "2000")])), refused(23, 0, 0));
}

#[test]
fn bad_frames() {
    let bad = "0e00000000000000000000000000000000";
    let good = hex(&one(4, &[normal(0, "2000")]));
    let lines = [
        String::new(),
        "0".into(),
        "01".into(),
        "0101".into(),
        "04".into(),
        "0401".into(),
        "00".into(),
        "0000".into(),
        "0600".into(),
        "ff00".into(),
        format!("{good}\r"),
        format!("{good}0"),
        format!("{good}00"),
        format!(" {good}"),
        good[..good.len() - 2].into(),
        good[1..].into(),
        "0300".into(),
        "030000".into(),
        "03000200".into(),
        "03000002".into(),
        "0300000000".into(),
    ];
    for line in &lines {
        assert_eq!(raw(line), bad, "{line:?}");
    }
    assert_eq!(raw("03000000"), raw(&hex(&three(&[], None, None))));
    assert_eq!(raw(&hex(&one(1, &[normal(0, "2000")]))), "--");
    assert_eq!(raw(&hex(&one(2, &[normal(0, "2000")]))), "--");

    // 8,192 bytes are a frame, 8,193 are none.
    let frame = |n: usize| {
        assert_eq!(sized(n).len(), n);
        hex(&sized(n))
    };
    assert_eq!(
        describe_answer(raw(&frame(8192)).as_bytes()),
        "At marks 0, year 5 month 6, \"0005-07\""
    );
    assert_eq!(raw(&frame(8193)), bad);
}

#[test]
fn options() {
    let base = Options::default();

    let checks = Options { strict_checks: true, ..base };
    let kind3 = hex(&one(2, &[piece(3, 0, "")]));
    assert_eq!(raw_with(base, &kind3), "--");
    assert_eq!(describe_answer(raw_with(checks, &kind3).as_bytes()), refused(15, 0, 0));

    let fields = Options { fields: true, ..base };
    let range = hex(&one(4, &[normal(0, "2000-02-03/-0005")]));
    let wanted = hex(b"\0year=2000\nmonth=02\nday=03\nendyear=-0005\n");
    assert_eq!(raw_with(fields, &range), wanted);
}
