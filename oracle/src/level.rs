//! Operation 05, whose reader the Rust lacks: a second reading and writing of
//! its texts, made from the request's words alone. The chunks are formatted by
//! the published Rust.
//!
//! A text is told by its form, in which each ASCII digit is a 9.

/// A year alone, with a month, a month and a day (both counted from one), or a
/// season; a time only beside a day.
#[derive(Debug, Clone, Copy, Default, PartialEq)]
struct Point {
    year: i32,
    month: Option<u8>,
    day: Option<u8>,
    season: Option<u8>,
    /// Hour, minute, second, and the offset: its number, hours and minutes.
    time: Option<[u8; 6]>,
}

/// An end of a range: a point, or two dots.
type End = Option<Point>;

/// The bytes that a text is answered by, if it is one of this grammar.
pub fn answer(text: &str) -> Option<Vec<u8>> {
    let marks = match text.chars().last()? {
        '?' => 1,
        '~' => 2,
        '%' => 3,
        _ => 0,
    };
    // A mark has one byte.
    let value = if marks == 0 { text } else { &text[..text.len() - 1] };
    let (start, end) = match value.split_once('/') {
        Some((start, end)) => (half(start)?, Some(half(end)?)),
        None => match unknown(value) {
            Some((first, last)) => (Some(first), Some(Some(last))),
            None => (Some(point(value)?), None),
        },
    };
    let (shape, points) = match (start, end) {
        (Some(at), None) => (0, vec![at]),
        (Some(start), Some(None)) => (1, vec![start]),
        (None, Some(Some(end))) => (2, vec![end]),
        (Some(start), Some(Some(end))) => (3, vec![start, end]),
        (None, _) => return None,
    };
    let mut bytes = vec![0, shape, marks];
    bytes.extend(points.iter().flat_map(datetime));
    let written = |end: End| end.map_or("..".to_string(), |p| write(&p));
    bytes.extend(written(start).bytes());
    if let Some(end) = end {
        bytes.extend(format!("/{}", written(end)).bytes());
    }
    bytes.extend(["", "?", "~", "%"][usize::from(marks)].bytes());
    Some(bytes)
}

fn half(text: &str) -> Option<End> {
    if text == ".." {
        Some(None)
    } else {
        point(text).map(Some)
    }
}

fn form(text: &str) -> String {
    text.chars().map(|c| if c.is_ascii_digit() { '9' } else { c }).collect()
}

/// The number that stands in these bytes, digits all.
fn number(text: &str, from: usize, to: usize) -> i32 {
    text[from..to].bytes().fold(0, |n, b| 10 * n + i32::from(b - b'0'))
}

fn days_of(year: i32, month: u8) -> u8 {
    let leap = year % 400 == 0 || year % 4 == 0 && year % 100 != 0;
    match month {
        2 => 28 + u8::from(leap),
        4 | 6 | 9 | 11 => 30,
        _ => 31,
    }
}

/// Digits that are not known: a century, a decade, the months of a year, the days of a month.
fn unknown(text: &str) -> Option<(Point, Point)> {
    let year = |year| Point { year, ..Point::default() };
    let form = form(text);
    match form.as_str() {
        "99XX" => Some((year(100 * number(text, 0, 2)), year(100 * number(text, 0, 2) + 99))),
        "999X" => Some((year(10 * number(text, 0, 3)), year(10 * number(text, 0, 3) + 9))),
        "9999-XX" | "9999-XX-XX" => {
            let month = |month| Point { month: Some(month), ..year(number(text, 0, 4)) };
            Some((month(1), month(12)))
        }
        "9999-99-XX" => {
            let first = point(&format!("{}01", &text[..8]))?;
            let last = days_of(first.year, first.month?);
            Some((first, Point { day: Some(last), ..first }))
        }
        _ => None,
    }
}

fn point(text: &str) -> Option<Point> {
    if let Some(digits) = text.strip_prefix('Y') {
        return long_year(digits);
    }
    let (sign, text) = text.strip_prefix('-').map_or((1, text), |rest| (-1, rest));
    let form = form(text);
    let depth = match form.as_str() {
        "9999" => 0,
        "9999-99" => 1,
        "9999-99-99" => 2,
        "9999-99-99T99:99:99" => 3,
        "9999-99-99T99:99:99Z" => 4,
        "9999-99-99T99:99:99+99:99" => 5,
        "9999-99-99T99:99:99-99:99" => 6,
        _ => return None,
    };
    let two = |from| number(text, from, from + 2) as u8;
    let mut point = Point { year: sign * number(text, 0, 4), ..Point::default() };
    if depth == 1 && matches!(two(5), 21..=24) {
        point.season = Some(two(5));
    } else if depth >= 1 {
        point.month = Some(two(5)).filter(|month| matches!(month, 1..=12));
        point.month?;
    }
    if depth >= 2 {
        point.day = Some(two(8)).filter(|&day| 1 <= day && day <= days_of(point.year, two(5)));
        point.day?;
    }
    if depth >= 3 {
        let [hours, minutes] = if depth >= 5 { [two(20), two(23)] } else { [0, 0] };
        let time = [two(11), two(14), two(17), depth - 3, hours, minutes];
        let fits = time[0] < 24 && time[1] < 60 && time[2] < 60 && hours < 24 && minutes < 60;
        point.time = Some(time).filter(|_| fits);
        point.time?;
    }
    Some(point)
}

/// What stands behind the Y: five to nine digits, the first no zero.
fn long_year(text: &str) -> Option<Point> {
    let digits = text.strip_prefix('-').unwrap_or(text);
    let long = matches!(digits.len(), 5..=9) && digits.bytes().all(|b| b.is_ascii_digit());
    let year = text.parse().ok().filter(|_| long && !digits.starts_with('0'))?;
    Some(Point { year, ..Point::default() })
}

fn datetime(p: &Point) -> Vec<u8> {
    let stored = |part: Option<u8>| part.map_or(0xff, |n| n - 1);
    let mut bytes = p.year.to_be_bytes().to_vec();
    bytes.extend([stored(p.month), stored(p.day), u8::from(p.time.is_some())]);
    bytes.extend(p.time.unwrap_or_default());
    bytes.push(p.season.unwrap_or(0));
    bytes
}

fn write(p: &Point) -> String {
    let sign = if p.year < 0 { "-" } else { "" };
    let long = if p.year.abs() > 9999 { "Y" } else { "" };
    let mut text = format!("{long}{sign}{:04}", p.year.abs());
    for part in [p.season, p.month, p.day].into_iter().flatten() {
        text += &format!("-{part:02}");
    }
    text
}
