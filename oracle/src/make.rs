//! Builds frames.

use crate::THREE_FIELDS;

/// The English names of the months.
#[rustfmt::skip]
pub const MONTH_NAMES: [&str; 12] = [
    "january", "february", "march", "april", "may", "june", "july", "august", "september", "october",
    "november", "december",
];

/// One chunk of a frame: kind, place in the file, and text.
#[derive(Debug, Clone, PartialEq)]
pub struct Piece {
    pub kind: u8,
    pub start: u32,
    pub end: u32,
    pub text: Vec<u8>,
}

/// A Normal chunk at `start`, its span as long as its text.
pub fn normal(start: u32, text: impl AsRef<[u8]>) -> Piece {
    piece(0, start, text)
}

/// A chunk at `start`, its span as long as its text if that fits.
pub fn piece(kind: u8, start: u32, text: impl AsRef<[u8]>) -> Piece {
    let text = text.as_ref().to_vec();
    Piece { kind, start, end: start.saturating_add(text.len() as u32), text }
}

/// A long text as Normal chunks of at most 255 bytes, cut between characters.
pub fn spread(start: u32, text: &str) -> Vec<Piece> {
    let mut pieces = Vec::new();
    let mut at = 0;
    while at < text.len() {
        let mut end = text.len().min(at + 255);
        while !text.is_char_boundary(end) {
            end -= 1;
        }
        pieces.push(normal(start + at as u32, &text[at..end]));
        at = end;
    }
    pieces
}

/// A list as it stands in a frame.
pub fn list(pieces: &[Piece]) -> Vec<u8> {
    assert!(pieces.len() < 256 && pieces.iter().all(|p| p.text.len() < 256));
    let mut bytes = vec![pieces.len() as u8];
    for p in pieces {
        bytes.extend([p.kind, p.text.len() as u8]);
        bytes.extend(p.start.to_be_bytes());
        bytes.extend(p.end.to_be_bytes());
        bytes.extend(&p.text);
    }
    bytes
}

/// A frame of an operation that takes one list.
pub fn one(operation: u8, pieces: &[Piece]) -> Vec<u8> {
    let mut frame = vec![operation];
    frame.extend(list(pieces));
    frame
}

/// A frame of three fields.
pub fn three(year: &[Piece], month: Option<&[Piece]>, day: Option<&[Piece]>) -> Vec<u8> {
    let mut frame = one(THREE_FIELDS, year);
    for field in [month, day] {
        match field {
            None => frame.push(0),
            Some(pieces) => {
                frame.push(1);
                frame.extend(list(pieces));
            }
        }
    }
    frame
}

/// An accepted three-field frame of this many bytes.
pub fn sized(n: usize) -> Vec<u8> {
    let year = spread(0, &format!("5{}", " ".repeat(3999)));
    let rest = n - three(&year, Some(&[]), None).len();
    let bytes = rest - 10 * rest.div_ceil(265);
    let month = spread(0, &format!("{}7", " ".repeat(bytes - 1)));
    three(&year, Some(&month), None)
}

/// The line of a frame.
pub fn hex(frame: &[u8]) -> String {
    frame.iter().map(|b| format!("{b:02x}")).collect()
}
