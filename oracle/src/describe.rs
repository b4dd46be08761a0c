//! Frames and answers for people.

use std::fmt::Write;

use crate::{LEVEL, THREE_FIELDS};

/// The operation and texts of a frame, as far as it can be read.
pub fn describe_frame(line: &[u8]) -> String {
    let Some(frame) = bytes(line) else {
        return format!("no frame: {:?}", shorten(String::from_utf8_lossy(line).into()));
    };
    let mut text = format!("{:02x}", frame[0]);
    if read_frame(&frame, &mut text).is_none() {
        text += " (broken)";
    }
    shorten(text)
}

fn read_frame(frame: &[u8], text: &mut String) -> Option<()> {
    let mut rest = frame.get(1..)?;
    read_list(&mut rest, text)?;
    if frame[0] == THREE_FIELDS {
        for name in ["month", "day"] {
            match take(&mut rest, 1)?[0] {
                0 => *text += &format!(" {name} absent"),
                1 => {
                    *text += &format!(" {name}");
                    read_list(&mut rest, text)?;
                }
                _ => return None,
            }
        }
    }
    rest.is_empty().then_some(())
}

fn read_list(rest: &mut &[u8], text: &mut String) -> Option<()> {
    let chunks = take(rest, 1)?[0];
    *text += " [";
    for i in 0..chunks {
        let head = take(rest, 10)?;
        if i > 0 {
            *text += ", ";
        }
        match head[0] {
            0 => *text += "Normal",
            1 => *text += "Verbatim",
            2 => *text += "Math",
            k => *text += &format!("kind {k}"),
        }
        let place = |at: usize| head[at..at + 4].iter().fold(0, |n, &b| n << 8 | u64::from(b));
        let lent = take(rest, usize::from(head[1]))?;
        let content = match std::str::from_utf8(lent) {
            Ok(s) => format!("{s:?}"),
            Err(_) => format!("\"{}\"", lent.escape_ascii()),
        };
        *text += &format!(" {}..{} {content}", place(2), place(6));
    }
    *text += "]";
    Some(())
}

fn take<'a>(rest: &mut &'a [u8], n: usize) -> Option<&'a [u8]> {
    let (head, tail) = rest.split_at_checked(n)?;
    *rest = tail;
    Some(head)
}

/// An answer in words, to any operation but the level-one reader's.
pub fn describe_answer(line: &[u8]) -> String {
    describe(line, false)
}

/// The answer to this frame in words.
pub fn describe_answer_to(frame: &[u8], line: &[u8]) -> String {
    describe(line, bytes(frame).is_some_and(|frame| frame[0] == LEVEL))
}

fn describe(line: &[u8], seasons: bool) -> String {
    bytes(line)
        .and_then(|answer| read_answer(&answer, seasons))
        .unwrap_or_else(|| shorten(String::from_utf8_lossy(line).into()))
}

fn read_answer(answer: &[u8], seasons: bool) -> Option<String> {
    const NOT_LEVEL_ONE: u8 = 23;
    const NAMES: [&str; 16] = [
        "UndefinedRange",
        "DayOutOfRange",
        "MonthOutOfRange",
        "InvalidNumber",
        "MissingNumber",
        "WrongNumberOfDigits",
        "InvalidFormat",
        "YearZeroCE",
        "RustPanics",
        "BadUtf8",
        "UnsupportedChar",
        "NotStrict",
        "NoRoom",
        "BadFrame",
        "BadChunks",
        "TooLong",
    ];
    let mut rest = answer;
    let number = take(&mut rest, 1)?[0];
    if number != 0 {
        if rest.len() != 16 {
            return None;
        }
        let place = |at: usize| rest[at..at + 8].iter().fold(0, |n, &b| n << 8 | u64::from(b));
        let name = match number {
            NOT_LEVEL_ONE => "NotLevelOne",
            _ => NAMES.get(usize::from(number) - 1).copied().unwrap_or(""),
        };
        return Some(format!("{number} {name} at {}..{}", place(0), place(8)));
    }

    let head = take(&mut rest, 2)?;
    let shape = *["At", "After", "Before", "Between"].get(usize::from(head[0]))?;
    let mut text = format!("{shape} marks {}", head[1]);
    for _ in 0..if head[0] == 3 { 2 } else { 1 } {
        let d = take(&mut rest, 13)?;
        let year = i32::from_be_bytes([d[0], d[1], d[2], d[3]]);
        let _ = write!(text, ", year {year}");
        for (name, value) in [("month", d[4]), ("day", d[5])] {
            if value != 0xff {
                let _ = write!(text, " {name} {value}");
            }
        }
        if d[6] != 0 {
            let _ = write!(text, " time {}:{}:{}", d[7], d[8], d[9]);
            match d[10] {
                0 => {}
                1 => text += " UTC",
                sign => {
                    let sign = if sign == 2 { '+' } else { '-' };
                    let _ = write!(text, " {sign}{}:{}", d[11], d[12]);
                }
            }
        }
        if seasons {
            match take(&mut rest, 1)?[0] {
                0 => {}
                season => {
                    let _ = write!(text, " season {season}");
                }
            }
        }
    }
    let _ = write!(text, ", {:?}", String::from_utf8_lossy(rest));
    Some(text)
}

/// The bytes of a line of digits, none if it is no such line or empty.
fn bytes(line: &[u8]) -> Option<Vec<u8>> {
    if line.is_empty() || line.len() % 2 == 1 {
        return None;
    }
    line.chunks_exact(2)
        .map(|pair| {
            let digit = |b: u8| char::from(b).to_digit(16);
            Some((digit(pair[0])? << 4 | digit(pair[1])?) as u8)
        })
        .collect()
}

/// Cuts what is too long to be read on a screen.
fn shorten(text: String) -> String {
    const MOST: usize = 400;
    match text.char_indices().nth(MOST) {
        Some((at, _)) => format!("{}… ({} bytes)", &text[..at], text.len()),
        None => text,
    }
}
