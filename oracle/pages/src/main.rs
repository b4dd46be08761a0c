//! Asks `pages::parse_pages` and the published Rust for the same page ranges:
//! all short texts of two alphabets, and pieces by a seed. Prints each
//! difference, at most 50, then the counts; exits with 1 if there is one.

use std::env;
use std::ops::Range;
use std::panic;
use std::process::ExitCode;

use oracle::published::{Chunk, Spanned, Type};

extern "C" {
    fn knobstream_parse_pages(
        bytes: *const u8,
        bytes_len: usize,
        table: *const u64,
        table_len: usize,
        counts: *const usize,
        counts_len: usize,
        out: *mut u32,
        out_len: usize,
        answer: *mut [u64; 4],
    );
}

/// A chunk: kind (0 Normal, 1 Verbatim, 2 Math), text and span.
type Part = (u8, String, usize, usize);

/// What is answered, and the lent table afterwards.
#[derive(Debug, Clone, PartialEq)]
struct Answer {
    /// 0 and how many ranges, or the refusal's number and place.
    says: [u64; 3],
    table: Vec<u32>,
}

/// What the lent table holds before.
fn before(room: usize) -> Vec<u32> {
    (0..room as u32).map(|i| 0xA5A5_0000 + i).collect()
}

/// The proved reader.
fn ours(pieces: &[Vec<Part>], room: usize) -> Answer {
    let mut bytes = Vec::new();
    let mut rows = Vec::new();
    for (kind, text, start, end) in pieces.iter().flatten() {
        bytes.extend(text.as_bytes());
        rows.extend([u64::from(*kind), text.len() as u64, *start as u64, *end as u64]);
    }
    let counts: Vec<usize> = pieces.iter().map(Vec::len).collect();
    let mut table = before(room);
    let mut answer = [u64::MAX; 4];
    // SAFETY: each pointer is that of a slice, beside its length.
    unsafe {
        knobstream_parse_pages(
            bytes.as_ptr(),
            bytes.len(),
            rows.as_ptr(),
            rows.len(),
            counts.as_ptr(),
            counts.len(),
            table.as_mut_ptr(),
            table.len(),
            &mut answer,
        );
    }
    let [ranges, start, end, refusal] = answer;
    let says = if refusal == 0 { [0, ranges, start + end] } else { [refusal, start, end + ranges] };
    Answer { says, table }
}

/// The published reader, piece by piece: no text has a comma in a Normal
/// chunk, so it splits nothing. The limits that are not the Rust's are here.
fn rust(pieces: &[Vec<Part>], room: usize) -> Answer {
    let mut table = before(room);
    let refused = |says| Answer { says, table: before(room) };
    if pieces.len() > 64 {
        return refused([16, 0, 0]);
    }
    if room < 2 * pieces.len() {
        return refused([13, 0, 0]);
    }
    for (i, piece) in pieces.iter().enumerate() {
        let chunks: Vec<Spanned<Chunk>> = piece
            .iter()
            .map(|(kind, text, start, end)| {
                let make = [Chunk::Normal, Chunk::Verbatim, Chunk::Math][usize::from(*kind)];
                Spanned::new(make(text.clone()), *start..*end)
            })
            .collect();
        match panic::catch_unwind(|| Vec::<Range<u32>>::from_chunks(&chunks)) {
            Err(_) => return refused([9, 0, 0]),
            Ok(Err(e)) => return refused([e.kind as u64, e.span.start as u64, e.span.end as u64]),
            Ok(Ok(ranges)) => {
                assert_eq!(ranges.len(), 1, "a piece is one range");
                table[2 * i] = ranges[0].start;
                table[2 * i + 1] = ranges[0].end;
            }
        }
    }
    Answer { says: [0, pieces.len() as u64, 0], table }
}

#[derive(Default)]
struct Counts {
    compared: u64,
    accepted: u64,
    panics: u64,
    differ: u64,
}

impl Counts {
    fn compare(&mut self, pieces: &[Vec<Part>], room: usize) {
        let (a, b) = (rust(pieces, room), ours(pieces, room));
        self.compared += 1;
        self.accepted += u64::from(a.says[0] == 0);
        self.panics += u64::from(a.says[0] == 9);
        if a != b {
            self.differ += 1;
            if self.differ <= 50 {
                println!("{pieces:?}, room {room}\n  the Rust: {a:?}\n  ours:     {b:?}");
            }
        }
    }

    fn report(self, what: &str) -> bool {
        println!(
            "{what}: {} compared, {} accepted, {} panics, {} differ",
            self.compared, self.accepted, self.panics, self.differ
        );
        self.differ == 0
    }
}

/// Where a text stands: at the start, further on, and where sums overflow.
const STARTS: [usize; 6] = [0, 100, usize::MAX - 12, usize::MAX - 4, usize::MAX - 1, usize::MAX];

/// All texts of up to so many symbols, as one Normal chunk at each start.
fn all_texts(symbols: &[&str], most: usize) -> Counts {
    let mut counts = Counts::default();
    for n in 0..=most {
        let mut digits = vec![0; n];
        loop {
            let text: String = digits.iter().map(|&d| symbols[d]).collect();
            for start in STARTS {
                let end = start.wrapping_add(text.len());
                counts.compare(&[vec![(0, text.clone(), start, end)]], 2);
            }
            let Some(i) = digits.iter().rposition(|&d| d + 1 < symbols.len()) else { break };
            digits[i] += 1;
            digits[i + 1..].fill(0);
        }
    }
    counts
}

/// A small generator, so that a seed gives the same pieces everywhere.
struct Seed(u64);

impl Seed {
    fn below(&mut self, n: usize) -> usize {
        self.0 ^= self.0 << 13;
        self.0 ^= self.0 >> 7;
        self.0 ^= self.0 << 17;
        (self.0 >> 11) as usize % n
    }

    fn pick<'a>(&mut self, from: &[&'a str]) -> &'a str {
        from[self.below(from.len())]
    }

    /// A range as it should be, or damaged.
    fn text(&mut self, damage: bool) -> String {
        let numbers = ["0", "7", "007", "42", "4294967295", "4294967294", "1000"];
        let dashes = ["-", "–", "—", "--", "---", "–-", "—--", " - ", " –", "— "];
        let mut text = self.pick(&["", "", " ", "\t", "\u{a0}", "\u{2009}", "\n"]).to_string();
        text += self.pick(&numbers);
        text += self.pick(&["", " ", "\r\n"]);
        if self.below(3) > 0 {
            text += self.pick(&dashes);
            text += self.pick(&numbers);
        }
        if damage {
            let odd = [
                "x",
                "½",
                "²",
                "+",
                "-",
                "–",
                "—",
                "\u{2012}",
                "\u{2015}",
                "4294967296",
                " ",
                "é",
                "$",
                "\u{85}",
            ];
            let cuts: Vec<usize> =
                text.char_indices().map(|(i, _)| i).chain([text.len()]).collect();
            let at = cuts[self.below(cuts.len())];
            if self.below(3) == 0 {
                text.truncate(at);
            } else {
                text.insert_str(at, self.pick(&odd));
            }
        }
        text
    }

    /// A text cut into chunks.
    fn piece(&mut self, odd: bool) -> Vec<Part> {
        let damage = odd && self.below(2) == 0;
        let text = self.text(damage);
        let start = if odd {
            STARTS[self.below(6)].saturating_sub(self.below(20))
        } else {
            self.below(100_000)
        };
        let mut parts = Vec::new();
        let mut rest = text.as_str();
        while odd && self.below(3) == 0 {
            let cuts: Vec<usize> =
                rest.char_indices().map(|(i, _)| i).chain([rest.len()]).collect();
            let at = cuts[self.below(cuts.len())];
            let kind = [0, 0, 1, 1, 2][self.below(5)];
            parts.push((kind, rest[..at].to_string(), start, self.below(1 << 20)));
            rest = &rest[at..];
        }
        if parts.is_empty() || self.below(8) > 0 {
            parts.push((
                self.below(if odd { 2 } else { 1 }) as u8,
                rest.to_string(),
                start,
                start.wrapping_add(text.len()),
            ));
        }
        if odd && self.below(40) == 0 {
            parts.clear();
        }
        parts
    }
}

/// Pieces by a seed.
fn drawn(n: u64, seed: u64) -> Counts {
    let mut counts = Counts::default();
    let mut s = Seed(seed.wrapping_mul(0x9E37_79B9_7F4A_7C15) | 1);
    for _ in 0..n {
        let many = match s.below(8) {
            0 => 60 + s.below(7),
            1 => 0,
            _ => 1 + s.below(6),
        };
        let odd = s.below(many + 2);
        let pieces: Vec<_> = (0..many).map(|i| s.piece(i == odd)).collect();
        let room = match s.below(12) {
            0 => s.below(2 * many + 1),
            1 => 2 * many + s.below(4),
            _ => 2 * many,
        };
        counts.compare(&pieces, room);
    }
    counts
}

fn main() -> ExitCode {
    let args: Vec<u64> = env::args().skip(1).filter_map(|a| a.parse().ok()).collect();
    let (n, seed) = match args[..] {
        [n, seed] => (n, seed),
        _ => (1_000_000, 1),
    };
    panic::set_hook(Box::new(|_| {}));
    println!("{}; {}", oracle::SOURCES, oracle::SCANNER);
    let characters = ["1", "-", "–", "—", " ", "\u{a0}", "x"];
    let words =
        ["0", "4294967295", "4294967296", "-", "–", "—", "\n", "\u{2009}", "\u{2015}", "½", "+"];
    let good = [
        all_texts(&characters, 6).report("texts of 7 characters"),
        all_texts(&words, 5).report("texts of 11 words"),
        drawn(n, seed).report("pieces by a seed"),
    ];
    if good.contains(&false) {
        return ExitCode::FAILURE;
    }
    ExitCode::SUCCESS
}
