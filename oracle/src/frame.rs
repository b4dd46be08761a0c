//! From a line to its answer: the checks that come before the Rust, the call,
//! and the answer's bytes.

use std::panic::{catch_unwind, AssertUnwindSafe};
use std::str;

use crate::chunk::{Chunk, ChunksExt, ChunksRef};
use crate::date::{Date, DateValue, Datetime, TimeOffset};
use crate::{level, Spanned, Type, TypeError};

/// The longest frame, in bytes (half the digits of its line).
pub const MAX_FRAME: usize = 8192;

/// The answer to a line that is no frame.
pub const BAD_FRAME: &[u8; 34] = b"0e00000000000000000000000000000000";

const MAX_CHUNKS: usize = 64;
const MAX_BYTES: usize = 4096;

/// Kind, length, and two spans of four bytes.
const HEAD: usize = 10;

/// The answer where the oracle has none.
const SKIP: &[u8] = b"--";

/// The operation that calls the ported reader.
pub const PORTED: u8 = 4;

/// The operation of the strict reader, which the oracle lacks.
pub const STRICT: u8 = 1;

/// Its older number, which still is one.
pub const STRICT_TOO: u8 = 2;

/// The operation that reads three fields.
pub const THREE_FIELDS: u8 = 3;

/// The operation of the level-one reader, which the Rust lacks: `level` answers it.
pub const LEVEL: u8 = 5;

/// What the oracle answers in place of its usual answers.
#[derive(Debug, Default, Clone, Copy)]
pub struct Options {
    /// Answer the strict operations' refusals 15, 16, 10 and 11, which come
    /// before their reading, in place of the skip mark.
    pub strict_checks: bool,
    /// Answer an accepted frame by 00 and its fields instead.
    pub fields: bool,
}

/// A refusal: number, start and end.
#[derive(Debug, Clone, Copy)]
struct Refusal(u8, u64, u64);

impl From<TypeError> for Refusal {
    fn from(e: TypeError) -> Self {
        Refusal(e.kind as u8, e.span.start as u64, e.span.end as u64)
    }
}

const RUST_PANICS: Refusal = Refusal(9, 0, 0);
const BAD_CHUNKS: Refusal = Refusal(15, 0, 0);
const TOO_LONG: Refusal = Refusal(16, 0, 0);
const NOT_LEVEL_ONE: Refusal = Refusal(23, 0, 0);

/// What an accepted frame is answered by.
enum Accepted {
    Date(Date, String),
    /// The answer's bytes.
    Level(Vec<u8>),
    /// The oracle has no answer.
    Skipped,
}

/// Answers frames. Its buffers are kept from one to the next.
#[derive(Default)]
pub struct Oracle {
    options: Options,
    frame: Vec<u8>,
    lists: [List; 3],
}

impl Oracle {
    pub fn new(options: Options) -> Self {
        Oracle { options, frame: Vec::with_capacity(MAX_FRAME), lists: Default::default() }
    }

    /// Appends the answer to one line, without its line feed.
    pub fn answer(&mut self, line: &[u8], out: &mut Vec<u8>) {
        if !decode(line, &mut self.frame) {
            out.extend_from_slice(BAD_FRAME);
            return;
        }
        let Some((operation, forms)) = split(&self.frame) else {
            out.extend_from_slice(BAD_FRAME);
            return;
        };

        match self.read(operation, forms) {
            Ok(Accepted::Date(date, _)) if self.options.fields => write_fields(date, out),
            Ok(Accepted::Date(date, text)) => write_date(&date, &text, out),
            Ok(Accepted::Level(bytes)) if !self.options.fields => put(out, &bytes),
            Ok(_) => out.extend_from_slice(SKIP),
            Err(refusal) => write_refusal(refusal, out),
        }
    }

    /// Checks the lists that the operation looks at, then calls the Rust.
    fn read(
        &mut self,
        operation: Operation,
        forms: [Option<Form>; 3],
    ) -> Result<Accepted, Refusal> {
        let frame = self.frame.as_slice();
        let [first, month, day] = &mut self.lists;
        let form = forms[0].unwrap_or_default();

        match operation {
            Operation::Strict => {
                if self.options.strict_checks {
                    first.load(frame, form)?;
                }
                Ok(Accepted::Skipped)
            }
            Operation::Level => {
                let text = first.load(frame, form)?.format_verbatim();
                level::answer(&text).map(Accepted::Level).ok_or(NOT_LEVEL_ONE)
            }
            Operation::Ported => {
                let list = first.load(frame, form)?;
                call(|| Date::parse(list))
            }
            Operation::ThreeFields => {
                let year = first.load(frame, form)?;
                let Some(form) = forms[1] else {
                    // A day without a month is never looked at.
                    return call(|| Date::parse_three_fields(year, None, None));
                };
                let month = month.load(frame, form)?;
                let day = match forms[2] {
                    Some(form) => Some(day.load(frame, form)?),
                    None => None,
                };
                call(|| Date::parse_three_fields(year, Some(month), day))
            }
        }
    }
}

/// Calls the Rust and has the date written; a panic in either is refusal 9.
fn call(read: impl FnOnce() -> Result<Date, TypeError>) -> Result<Accepted, Refusal> {
    let result = catch_unwind(AssertUnwindSafe(|| {
        let date = read()?;
        let text = date.to_chunks().pop().map(|mut c| std::mem::take(c.v.get_mut()));
        Ok(Accepted::Date(date, text.unwrap_or_default()))
    }));
    match result {
        Ok(answer) => answer.map_err(|e: TypeError| e.into()),
        Err(_) => Err(RUST_PANICS),
    }
}

enum Operation {
    Ported,
    Strict,
    Level,
    ThreeFields,
}

/// Where a list stands in its frame.
#[derive(Debug, Default, Clone, Copy)]
struct Form {
    start: usize,
    chunks: usize,
    bytes: usize,
}

/// Splits a frame into its operation and lists, or finds that it is none.
fn split(frame: &[u8]) -> Option<(Operation, [Option<Form>; 3])> {
    let code = *frame.first()?;
    let mut at = 1;
    let mut forms = [None; 3];
    forms[0] = Some(form(frame, &mut at)?);

    let operation = match code {
        PORTED => Operation::Ported,
        STRICT | STRICT_TOO => Operation::Strict,
        LEVEL => Operation::Level,
        THREE_FIELDS => {
            for slot in &mut forms[1..] {
                let flag = *frame.get(at)?;
                at += 1;
                *slot = match flag {
                    0 => None,
                    1 => Some(form(frame, &mut at)?),
                    _ => return None,
                };
            }
            Operation::ThreeFields
        }
        _ => return None,
    };

    (at == frame.len()).then_some((operation, forms))
}

/// Steps over one list.
fn form(frame: &[u8], at: &mut usize) -> Option<Form> {
    let chunks = usize::from(*frame.get(*at)?);
    let start = *at + 1;
    let mut pos = start;
    for _ in 0..chunks {
        pos += HEAD + usize::from(*frame.get(pos + 1)?);
    }
    if pos > frame.len() {
        return None;
    }
    *at = pos;
    Some(Form { start, chunks, bytes: pos - start - HEAD * chunks })
}

/// The chunks of one list; those behind the current ones keep their room.
#[derive(Default)]
struct List {
    chunks: Vec<Spanned<Chunk>>,
}

impl List {
    /// Checks a list in full and turns it into chunks.
    fn load(&mut self, frame: &[u8], form: Form) -> Result<ChunksRef<'_>, Refusal> {
        let mut pos = form.start;
        for _ in 0..form.chunks {
            if frame[pos] > 2 {
                return Err(BAD_CHUNKS);
            }
            pos += HEAD + usize::from(frame[pos + 1]);
        }
        if form.chunks > MAX_CHUNKS || form.bytes > MAX_BYTES {
            return Err(TOO_LONG);
        }

        while self.chunks.len() < form.chunks {
            self.chunks.push(Spanned::new(Chunk::Normal(String::new()), 0..0));
        }

        let mut pos = form.start;
        let mut lent = 0;
        for slot in &mut self.chunks[..form.chunks] {
            let (head, rest) = frame[pos..].split_at(HEAD);
            let bytes = &rest[..usize::from(head[1])];
            let text = check(bytes).map_err(|fault| fault.refusal(lent))?;

            let mut string = std::mem::take(slot.v.get_mut());
            string.clear();
            string.push_str(text);
            slot.v = match head[0] {
                0 => Chunk::Normal(string),
                1 => Chunk::Verbatim(string),
                _ => Chunk::Math(string),
            };
            slot.span = number(&head[2..6])..number(&head[6..10]);

            pos += HEAD + bytes.len();
            lent += bytes.len();
        }
        Ok(&self.chunks[..form.chunks])
    }
}

fn number(bytes: &[u8]) -> usize {
    bytes.iter().fold(0, |n, &b| n << 8 | usize::from(b))
}

/// The first bad character of a chunk.
enum Fault {
    /// An ill-formed sequence starts here.
    Utf8(usize),
    /// A character that is not admitted: where and how long.
    Char(usize, usize),
}

impl Fault {
    /// The refusal, `lent` being the bytes of the chunks before.
    fn refusal(self, lent: usize) -> Refusal {
        match self {
            Fault::Utf8(at) => Refusal(10, (lent + at) as u64, (lent + at + 1) as u64),
            Fault::Char(at, len) => Refusal(11, (lent + at) as u64, (lent + at + len) as u64),
        }
    }
}

/// The characters that are read: up to U+00FF, and the typesetter's.
fn admitted(c: char) -> bool {
    matches!(c, '\0'..='\u{ff}' | '\u{2000}'..='\u{206f}')
}

/// Takes the bytes of a chunk as text.
fn check(bytes: &[u8]) -> Result<&str, Fault> {
    let (good, fault) = match str::from_utf8(bytes) {
        Ok(text) => (text, None),
        Err(e) => {
            let end = e.valid_up_to();
            // What stands before the fault is well-formed.
            (str::from_utf8(&bytes[..end]).unwrap_or(""), Some(Fault::Utf8(end)))
        }
    };

    // In well-formed text a byte from C4 on leads a character above U+00FF.
    if good.as_bytes().iter().any(|&b| b >= 0xc4) {
        for (at, c) in good.char_indices() {
            if !admitted(c) {
                return Err(Fault::Char(at, c.len_utf8()));
            }
        }
    }

    match fault {
        None => Ok(good),
        Some(fault) => Err(fault),
    }
}

const FOREIGN: u8 = 0xff;

/// The value of each hexadecimal digit.
static DIGITS: [u8; 256] = {
    let mut table = [FOREIGN; 256];
    let mut i = 0;
    while i < 10 {
        table[b'0' as usize + i] = i as u8;
        i += 1;
    }
    let mut i = 0;
    while i < 6 {
        table[b'a' as usize + i] = 10 + i as u8;
        table[b'A' as usize + i] = 10 + i as u8;
        i += 1;
    }
    table
};

/// The two digits of each byte.
static PAIRS: [[u8; 2]; 256] = {
    let digits = b"0123456789abcdef";
    let mut table = [[0; 2]; 256];
    let mut i = 0;
    while i < 256 {
        table[i] = [digits[i >> 4], digits[i & 15]];
        i += 1;
    }
    table
};

/// Decodes a line; false if it has no, odd, foreign or too many digits.
fn decode(line: &[u8], frame: &mut Vec<u8>) -> bool {
    frame.clear();
    if line.is_empty() || line.len() % 2 == 1 || line.len() > 2 * MAX_FRAME {
        return false;
    }
    let mut seen = 0;
    frame.extend(line.chunks_exact(2).map(|pair| {
        let high = DIGITS[usize::from(pair[0])];
        let low = DIGITS[usize::from(pair[1])];
        seen |= high | low;
        high << 4 | low & 15
    }));
    seen < 16
}

fn put(out: &mut Vec<u8>, bytes: &[u8]) {
    let start = out.len();
    out.resize(start + 2 * bytes.len(), 0);
    for (digits, &b) in out[start..].chunks_exact_mut(2).zip(bytes) {
        digits.copy_from_slice(&PAIRS[usize::from(b)]);
    }
}

fn write_refusal(refusal: Refusal, out: &mut Vec<u8>) {
    let Refusal(kind, start, end) = refusal;
    let mut bytes = [0; 17];
    bytes[0] = kind;
    bytes[1..9].copy_from_slice(&start.to_be_bytes());
    bytes[9..].copy_from_slice(&end.to_be_bytes());
    put(out, &bytes);
}

fn write_date(date: &Date, text: &str, out: &mut Vec<u8>) {
    let (shape, start, end) = match date.value {
        DateValue::At(at) => (0, at, None),
        DateValue::After(start) => (1, start, None),
        DateValue::Before(end) => (2, end, None),
        DateValue::Between(start, end) => (3, start, Some(end)),
    };
    let marks = u8::from(date.uncertain) | u8::from(date.approximate) << 1;
    put(out, &[0, shape, marks]);
    put(out, &datetime(&start));
    if let Some(end) = end {
        put(out, &datetime(&end));
    }
    put(out, text.as_bytes());
}

fn datetime(d: &Datetime) -> [u8; 13] {
    let mut bytes = [0; 13];
    bytes[..4].copy_from_slice(&d.year.to_be_bytes());
    bytes[4] = d.month.unwrap_or(0xff);
    bytes[5] = d.day.unwrap_or(0xff);
    if let Some(time) = d.time {
        bytes[6..10].copy_from_slice(&[1, time.hour, time.minute, time.second]);
        let offset = match time.offset {
            None => [0; 3],
            Some(TimeOffset::Utc) => [1, 0, 0],
            Some(TimeOffset::Offset { positive, hours, minutes }) => {
                [if positive { 2 } else { 3 }, hours, minutes]
            }
        };
        bytes[10..].copy_from_slice(&offset);
    }
    bytes
}

/// The lines `name=value` of a date; they panic where the text does, which
/// was written before.
fn write_fields(date: Date, out: &mut Vec<u8>) {
    put(out, &[0]);
    for (name, value) in date.to_fieldset() {
        put(out, name.as_bytes());
        put(out, b"=");
        put(out, value.as_bytes());
        put(out, b"\n");
    }
}

#[cfg(test)]
mod tests {
    use super::*;

    /// What frames cannot say: their spans have four bytes.
    #[test]
    fn places_near_the_end_of_64_bits() {
        let read = |start: usize, text: &str| {
            let chunk = Spanned::new(Chunk::Normal(text.to_string()), start..start);
            match call(|| Date::parse(&[chunk])) {
                Ok(_) => (0, 0, 0),
                Err(Refusal(number, start, end)) => (number, start, end),
            }
        };
        let max = usize::MAX;
        let top = u64::MAX;
        // A first half, a point and an X range saturate.
        assert_eq!(read(max, "q/2000"), (7, top, top));
        assert_eq!(read(max, "123"), (7, top, top));
        assert_eq!(read(max - 1, "123"), (7, top - 1, top));
        assert_eq!(read(max - 1, "2000-XX q"), (7, top, top));
        // The second half's sum does not, and is made only for a refusal.
        assert_eq!(read(max, "2000/2001"), (0, 0, 0));
        assert_eq!(read(max, "2000/q"), (9, 0, 0));
        assert_eq!(read(max - 4, "2000/q"), (9, 0, 0));
        assert_eq!(read(max - 5, "2000/q"), (7, top, top));
        assert_eq!(read(max - 5, "2000/123"), (7, top, top));
        assert_eq!(read(max, "/q"), (9, 0, 0));
        assert_eq!(read(max - 1, "/q"), (7, top, top));
        assert_eq!(read(max, "q/½"), (7, top, top));
        assert_eq!(read(max, "../.."), (1, top, top));
    }

    /// The classes of characters, as docs/RULES.md lists them.
    #[test]
    fn characters() {
        for c in ('\0'..='\u{ff}').chain('\u{2000}'..='\u{206f}') {
            let n = c as u32;
            let space = matches!(n, 9..=13 | 0x20 | 0x85 | 0xa0)
                || matches!(n, 0x2000..=0x200a | 0x2028 | 0x2029 | 0x202f | 0x205f);
            let numeric = c.is_ascii_digit() || matches!(n, 0xb2 | 0xb3 | 0xb9 | 0xbc..=0xbe);
            let alphabetic = c.is_ascii_alphabetic()
                || matches!(n, 0xaa | 0xb5 | 0xba | 0xc0..=0xd6 | 0xd8..=0xf6 | 0xf8..=0xff);
            let upper = match n {
                0x61..=0x7a | 0xe0..=0xf6 | 0xf8..=0xfe => char::from(n as u8 - 32).to_string(),
                0xff => "\u{178}".to_string(),
                0xb5 => "\u{39c}".to_string(),
                0xdf => "SS".to_string(),
                _ => c.to_string(),
            };
            assert_eq!(c.is_whitespace(), space, "{n:x}");
            assert_eq!(c.is_numeric(), numeric, "{n:x}");
            assert_eq!(c.is_alphabetic(), alphabetic, "{n:x}");
            assert_eq!(c.to_string().to_uppercase(), upper, "{n:x}");
            assert_eq!(upper.len(), c.len_utf8(), "{n:x}");
        }
    }
}
