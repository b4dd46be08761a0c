//! The examples of docs/RULES.md that frames reach, asked of the Rust; those of
//! the level-one reader, of the oracle's own reading.

use oracle::make::{hex, normal, one, piece, three, Piece};
use oracle::{Options, Oracle, LEVEL, PORTED};

const RULES: &str = include_str!("../../docs/RULES.md");

/// The sections of the strict grammar, of comparing and of writing: the oracle
/// has no strict reader, and frames do not reach the others.
const NOT_ASKED: [u32; 3] = [12, 13, 14];

#[test]
fn examples() {
    let mut section = 0;
    let mut operation = PORTED;
    let mut asked = 0;
    for line in RULES.lines() {
        if let Some(title) = line.strip_prefix("## ") {
            section = title.split(' ').next().and_then(|n| n.parse().ok()).unwrap_or(0);
            // The level-one reader's section says so in its title.
            operation = if title.to_lowercase().contains("level") { LEVEL } else { PORTED };
        }
        let cells: Vec<&str> = line.trim_matches('|').split(" | ").map(str::trim).collect();
        let (example, answer) = match (section, cells.as_slice()) {
            (16, [example, answer]) => (example, answer),
            (n, [no, _, example, answer, _])
                if *no != "no" && (matches!(n, 1..=15) || operation == LEVEL) =>
            {
                (example, answer)
            }
            _ => continue,
        };
        if NOT_ASKED.contains(&section) {
            continue;
        }
        let (examples, answers) = (example.split("<br>"), answer.split("<br>"));
        assert_eq!(examples.clone().count(), answers.clone().count(), "{line}");
        for (example, answer) in examples.zip(answers) {
            let Some(frame) = frame(section, operation, example) else { continue };
            if answer.starts_with("text ") {
                continue;
            }
            let mut got = Vec::new();
            Oracle::new(Options::default()).answer(frame.as_bytes(), &mut got);
            let got = String::from_utf8(got).unwrap();
            let wanted = answer.replace(' ', "");
            assert!(
                answer == said(&got, operation) || section == 15 && wanted == got,
                "{line}\n{}",
                said(&got, operation)
            );
            asked += 1;
        }
    }
    assert!(asked > 160, "{asked}");
}

/// The frame of an example, if it is one that a frame can say.
fn frame(section: u32, operation: u8, example: &str) -> Option<String> {
    if section == 15 {
        // The digits stand between backquotes.
        return Some(example.split('`').skip(1).step_by(2).collect());
    }
    if example == "no chunk" {
        return Some(hex(&one(operation, &[])));
    }
    if let Some(n) = example.strip_suffix(" chunks `Normal \"\"`") {
        return Some(hex(&one(operation, &vec![normal(100, ""); n.parse().ok()?])));
    }
    let (text, place) = example.strip_prefix('`')?.split_once('`')?;
    let quoted: Vec<&str> = text.split('"').collect();
    let pairs: Vec<(&str, Vec<u8>)> = quoted
        .chunks_exact(2)
        .map(|pair| (pair[0].trim_matches([',', ' ']), bytes(pair[1])))
        .collect();
    if pairs.is_empty() {
        return None;
    }
    let start = |n| if section == 16 { 0 } else { n };

    if pairs.iter().all(|(name, _)| ["year", "month", "day"].contains(name)) {
        let field = |name, at| {
            let (_, text) = pairs.iter().find(|(n, _)| *n == name)?;
            Some(vec![normal(start(at), text)])
        };
        let year = field("year", 100).unwrap_or(vec![normal(100, "2000")]);
        let mut day = field("day", 300);
        if let Some((from, to)) = place.strip_prefix(" at ").and_then(|p| p.split_once("..")) {
            let day = &mut day.as_mut()?[0];
            (day.start, day.end) = (from.parse().ok()?, to.parse().ok()?);
        }
        return Some(hex(&three(&year, field("month", 200).as_deref(), day.as_deref())));
    }
    if !place.is_empty() {
        return None;
    }
    let mut at = start(100);
    let mut pieces: Vec<Piece> = Vec::new();
    for (name, text) in pairs {
        let kind = ["", "Verbatim", "Math", "Normal"].iter().position(|k| *k == name)?;
        pieces.push(piece(kind as u8 % 3, at, text));
        at = pieces.last()?.end;
    }
    Some(hex(&one(operation, &pieces)))
}

/// A text with its escapes.
fn bytes(text: &str) -> Vec<u8> {
    let mut parts = text.split('\\');
    let mut out = parts.next().unwrap_or("").as_bytes().to_vec();
    for part in parts {
        let (escaped, rest) = match part.split_at(1) {
            ("n", rest) => (vec![b'\n'], rest),
            ("r", rest) => (vec![b'\r'], rest),
            ("x", rest) => (vec![u8::from_str_radix(&rest[..2], 16).unwrap()], &rest[2..]),
            (_, rest) => {
                let (code, rest) = rest[1..].split_once('}').unwrap();
                let c = char::from_u32(u32::from_str_radix(code, 16).unwrap()).unwrap();
                (c.to_string().into_bytes(), rest)
            }
        };
        out.extend(escaped);
        out.extend(rest.as_bytes());
    }
    out
}

/// An answer as the document writes it; a season is s21 to s24.
fn said(answer: &str, operation: u8) -> String {
    let b: Vec<u8> = (0..answer.len() / 2)
        .map(|i| u8::from_str_radix(&answer[2 * i..2 * i + 2], 16).unwrap())
        .collect();
    if b[0] != 0 {
        let place = |at: usize| b[at..at + 8].iter().fold(0, |n, &b| n << 8 | u64::from(b));
        return match b[0] {
            9 | 12..=16 | 23 => b[0].to_string(),
            number => format!("{number} at {}..{}", place(1), place(9)),
        };
    }
    let mut text = ["At", "After", "Before", "Between"][usize::from(b[1])].to_string();
    for end in 0..if b[1] == 3 { 2 } else { 1 } {
        let size = if operation == LEVEL { 14 } else { 13 };
        let d = &b[3 + size * end..3 + size * (end + 1)];
        text += if end == 0 { " " } else { " to " };
        text += &i32::from_be_bytes([d[0], d[1], d[2], d[3]]).to_string();
        for (name, part) in [("m", d[4]), ("d", d[5])] {
            if part != 0xff {
                text += &format!(" {name}{part}");
            }
        }
        if d[6] == 1 {
            text += &format!(" {:02}:{:02}:{:02}", d[7], d[8], d[9]);
            match d[10] {
                0 => {}
                1 => text += "Z",
                sign => {
                    text += if sign == 2 { "+" } else { "-" };
                    text += &format!("{:02}:{:02}", d[11], d[12]);
                }
            }
        }
        if operation == LEVEL && d[13] != 0 {
            text += &format!(" s{}", d[13]);
        }
    }
    for (bit, mark) in [(1, ", uncertain"), (2, ", approximate")] {
        if b[2] & bit != 0 {
            text += mark;
        }
    }
    text
}
