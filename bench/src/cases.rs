//! What is measured.

use crate::ffi::{self, List};
use crate::rounds::{times, Run};
use knobstream as ours;
use oracle::published as theirs;
use std::fmt::Write;
use std::hint::black_box;
use std::rc::Rc;
use theirs::Type;

/// By whom a case is answered: by a C call, by the crate over it, by the Rust.
pub const SIDES: [&str; 3] = ["c", "crate", "rust"];

type Say = Option<Box<dyn Fn() -> String>>;

pub struct Case {
    pub group: &'static str,
    pub name: String,
    /// Calls that callgrind is to count.
    pub counted: u64,
    /// Inputs of one call: a mixed case has many.
    pub inputs: u64,
    pub sides: [Run; 3],
    pub says: [Say; 3],
}

/// A chunk: its kind, its text, and where it starts.
type Piece = (u8, String, usize);

/// A chunk list, in the form that each side takes.
pub struct Input {
    pieces: Vec<Piece>,
    bytes: Vec<u8>,
    table: Vec<u64>,
    pub chunks: Vec<theirs::Spanned<theirs::Chunk>>,
}

impl Input {
    fn new(pieces: Vec<Piece>) -> Self {
        let row =
            |(k, s, at): &Piece| [u64::from(*k), s.len() as u64, *at as u64, (at + s.len()) as u64];
        let bytes = pieces.iter().flat_map(|p| p.1.bytes()).collect();
        let table = pieces.iter().flat_map(row).collect();
        let chunks = pieces
            .iter()
            .map(|(k, s, at)| {
                let chunk = match k {
                    0 => theirs::Chunk::Normal(s.clone()),
                    1 => theirs::Chunk::Verbatim(s.clone()),
                    _ => theirs::Chunk::Math(s.clone()),
                };
                theirs::Spanned::new(chunk, *at..at + s.len())
            })
            .collect();
        Self { pieces, bytes, table, chunks }
    }

    pub fn text(text: &str) -> Self {
        Self::new(vec![(0, text.to_string(), 100)])
    }

    /// For the C calls.
    pub fn list(&self) -> List<'_> {
        List { bytes: &self.bytes, table: &self.table }
    }

    /// For the crate: chunks that borrow their text. They are made once, outside what is measured.
    fn lent(&self) -> Vec<ours::Spanned<ours::Chunk<'_>>> {
        self.pieces
            .iter()
            .map(|(k, s, at)| {
                let chunk = match k {
                    0 => ours::Chunk::Normal(s),
                    1 => ours::Chunk::Verbatim(s),
                    _ => ours::Chunk::Math(s),
                };
                ours::Spanned::new(chunk, *at..at + s.len())
            })
            .collect()
    }
}

/// What a case keeps for as long as the program runs.
fn keep<T>(x: T) -> &'static T {
    Box::leak(Box::new(x))
}

/// What was read, in words that both crates have: theirs knows no season.
fn said_ours(r: Result<ours::Date, ours::TypeError>) -> String {
    match r {
        Ok(d) => format!("{d:?}").replace(", season: None", ""),
        Err(e) => format!("{} {:?}", e.kind.number(), e.span),
    }
}

fn said_theirs(r: Result<theirs::Date, theirs::TypeError>) -> String {
    match r {
        Ok(d) => format!("{d:?}"),
        Err(e) => format!("{} {:?}", e.kind as u8, e.span),
    }
}

/// A date field.
fn reading(group: &'static str, name: &str, input: Input) -> Case {
    let input: &'static Input = keep(input);
    let lent = keep(input.lent());
    let counted = if input.bytes.len() > 1000 { 100 } else { 1000 };
    Case {
        group,
        name: name.to_string(),
        counted,
        inputs: 1,
        sides: [
            Some(Box::new(move |n| times(n, || ffi::parse(black_box(input).list())))),
            Some(Box::new(move |n| times(n, || ours::Date::parse(black_box(lent))))),
            Some(Box::new(move |n| times(n, || theirs::Date::parse(black_box(&input.chunks))))),
        ],
        says: [
            None,
            Some(Box::new(move || said_ours(ours::Date::parse(lent)))),
            Some(Box::new(move || said_theirs(theirs::Date::parse(&input.chunks)))),
        ],
    }
}

/// A date field by the strict reader, which the Rust does not have.
fn strict(name: &str) -> Case {
    let input: &'static Input = keep(Input::text(name));
    let lent = keep(input.lent());
    Case {
        group: "strict",
        name: name.to_string(),
        counted: 1000,
        inputs: 1,
        sides: [
            Some(Box::new(move |n| times(n, || ffi::parse_strict(black_box(input).list())))),
            Some(Box::new(move |n| times(n, || ours::Date::parse_strict(black_box(lent))))),
            None,
        ],
        says: [None, None, None],
    }
}

/// The fields year, month and day.
fn fields(texts: &[&str]) -> Case {
    let inputs: &'static Vec<Input> = keep(texts.iter().map(|t| Input::text(t)).collect());
    let raw = |i: &[Input]| {
        ffi::parse_three_fields(i[0].list(), i.get(1).map(Input::list), i.get(2).map(Input::list))
    };
    let lent = keep(inputs.iter().map(|i| i.lent()).collect::<Vec<_>>());
    fn of<T>(v: &[Vec<T>], i: usize) -> Option<&[T]> {
        v.get(i).map(|x| &x[..])
    }
    let our = |l: &'static Vec<Vec<ours::Spanned<ours::Chunk<'static>>>>| {
        ours::Date::parse_three_fields(&l[0], of(l, 1), of(l, 2))
    };
    let chunks = keep(inputs.iter().map(|i| i.chunks.clone()).collect::<Vec<_>>());
    let their = |l: &'static Vec<Vec<theirs::Spanned<theirs::Chunk>>>| {
        theirs::Date::parse_three_fields(&l[0], of(l, 1), of(l, 2))
    };
    Case {
        group: "three fields",
        name: texts.join(", "),
        counted: 1000,
        inputs: 1,
        sides: [
            Some(Box::new(move |n| times(n, || raw(black_box(inputs))))),
            Some(Box::new(move |n| times(n, || our(black_box(lent))))),
            Some(Box::new(move |n| times(n, || their(black_box(chunks))))),
        ],
        says: [
            None,
            Some(Box::new(move || said_ours(our(lent)))),
            Some(Box::new(move || said_theirs(their(chunks)))),
        ],
    }
}

/// Many date fields, each another than the one before: no branch predictor learns them by heart.
fn mixed() -> Case {
    let mut seed = 7_u64;
    let mut next = |n: u64| {
        seed = seed.wrapping_mul(6364136223846793005).wrapping_add(1442695040888963407);
        (seed >> 33) % n
    };
    let inputs: Vec<Input> = (0..1000)
        .map(|_| {
            let (y, m, d) = (1400 + next(650), 1 + next(12), 1 + next(28));
            Input::text(&match next(20) {
                0..=8 => format!("{y}"),
                9..=11 => format!("{y}-{m:02}"),
                12..=15 => format!("{y}-{m:02}-{d:02}"),
                16 => format!("{y}/{}", y + next(20)),
                17 => format!("{y}-{m:02}/{y}-12-{d:02}"),
                18 => format!("{y}~"),
                _ => format!("{}X", y / 10),
            })
        })
        .collect();
    let inputs: &'static Vec<Input> = keep(inputs);
    let lent = keep(inputs.iter().map(|i| i.lent()).collect::<Vec<_>>());
    Case {
        group: "date",
        name: "1,000 different fields of a bibliography, a field".to_string(),
        counted: 2,
        inputs: 1000,
        sides: [
            Some(Box::new(move |n| {
                times(n, || {
                    for i in inputs {
                        let r = ffi::parse(black_box(i).list());
                        black_box(&r);
                    }
                })
            })),
            Some(Box::new(move |n| {
                times(n, || {
                    for l in lent {
                        let r = ours::Date::parse(black_box(l));
                        let _ = black_box(&r);
                    }
                })
            })),
            Some(Box::new(move |n| {
                times(n, || {
                    for i in inputs {
                        let r = theirs::Date::parse(black_box(&i.chunks));
                        let _ = black_box(&r);
                    }
                })
            })),
        ],
        says: [
            None,
            Some(Box::new(move || lent.iter().map(|l| said_ours(ours::Date::parse(l))).collect())),
            Some(Box::new(move || {
                inputs.iter().map(|i| said_theirs(theirs::Date::parse(&i.chunks))).collect()
            })),
        ],
    }
}

/// A date that was read, in the form of each side.
struct Dates {
    raw: ffi::Date,
    ours: ours::Date,
    theirs: theirs::Date,
}

fn dates(text: &str) -> &'static Dates {
    let i = Input::text(text);
    keep(Dates {
        raw: ffi::parse(i.list()).date(),
        ours: ours::Date::parse(&i.lent()).unwrap(),
        theirs: theirs::Date::parse(&i.chunks).unwrap(),
    })
}

/// A place in an array to write to, as both sides' `Display` is used without the heap.
struct Sink {
    bytes: [u8; 64],
    length: usize,
}

impl Write for Sink {
    #[inline]
    fn write_str(&mut self, s: &str) -> std::fmt::Result {
        self.bytes[self.length..self.length + s.len()].copy_from_slice(s.as_bytes());
        self.length += s.len();
        Ok(())
    }
}

/// The text of a date: the Rust gives it as chunks, on the heap.
fn text(of: &str) -> Case {
    let d = dates(of);
    Case {
        group: "write",
        name: format!("{of}, as text"),
        counted: 1000,
        inputs: 1,
        sides: [
            Some(Box::new(move |n| {
                let mut out = [0; 64];
                for _ in 0..n {
                    let r = ffi::write_date(*black_box(&d.raw), black_box(&mut out));
                    let _ = black_box(&r);
                }
            })),
            Some(Box::new(move |n| {
                let mut out = [0; 64];
                for _ in 0..n {
                    let r = black_box(&d.ours).write(black_box(&mut out));
                    let _ = black_box(&r);
                }
            })),
            Some(Box::new(move |n| times(n, || black_box(&d.theirs).to_chunks()))),
        ],
        says: [
            Some(Box::new(move || ffi::write_date(d.raw, &mut [0; 64]).unwrap().to_string())),
            Some(Box::new(move || d.ours.to_string())),
            Some(Box::new(move || d.theirs.to_chunks()[0].v.get().to_string())),
        ],
    }
}

/// The text of a Datetime by `Display`, into an array on both sides.
fn display(of: &str) -> Case {
    let d = dates(of);
    let (ours::DateValue::At(a), theirs::DateValue::At(b)) = (d.ours.value, d.theirs.value) else {
        panic!("a point is needed")
    };
    Case {
        group: "write",
        name: format!("{of}, Display of a Datetime into an array"),
        counted: 1000,
        inputs: 1,
        sides: [
            None,
            Some(Box::new(move |n| {
                times(n, || {
                    let mut sink = Sink { bytes: [0; 64], length: 0 };
                    let _ = write!(sink, "{}", black_box(a));
                    black_box(&sink);
                })
            })),
            Some(Box::new(move |n| {
                times(n, || {
                    let mut sink = Sink { bytes: [0; 64], length: 0 };
                    let _ = write!(sink, "{}", black_box(b));
                    black_box(&sink);
                })
            })),
        ],
        says: [None, Some(Box::new(move || a.to_string())), Some(Box::new(move || b.to_string()))],
    }
}

/// The fields of a date: the Rust gives them as a vector of strings.
fn fieldset(of: &str) -> Case {
    let d = dates(of);
    Case {
        group: "write",
        name: format!("{of}, as fields"),
        counted: 1000,
        inputs: 1,
        sides: [
            Some(Box::new(move |n| {
                let mut out = [0; 128];
                for _ in 0..n {
                    let r = ffi::write_fields(*black_box(&d.raw), black_box(&mut out));
                    let _ = black_box(&r);
                }
            })),
            Some(Box::new(move |n| {
                let mut out = [0; 128];
                for _ in 0..n {
                    let r = black_box(&d.ours).write_fields(black_box(&mut out));
                    let _ = black_box(&r);
                }
            })),
            Some(Box::new(move |n| times(n, || theirs::to_fieldset(black_box(d.theirs))))),
        ],
        says: [
            None,
            Some(Box::new(move || d.ours.write_fields(&mut [0; 128]).unwrap().to_string())),
            Some(Box::new(move || {
                let lines = theirs::to_fieldset(d.theirs);
                lines.iter().map(|(k, v)| format!("{k}={v}\n")).collect()
            })),
        ],
    }
}

/// Two points.
fn compare(a: &str, b: &str) -> Case {
    let (x, y) = (dates(a), dates(b));
    let first = |d: &Dates| match (d.ours.value, d.theirs.value) {
        (ours::DateValue::At(a), theirs::DateValue::At(b)) => (a, b),
        _ => panic!("a point is needed"),
    };
    let points = Rc::new((first(x), first(y)));
    let (p, q, r, s) = (points.clone(), points.clone(), points.clone(), points);
    Case {
        group: "compare",
        name: format!("{a} and {b}"),
        counted: 1000,
        inputs: 1,
        sides: [
            Some(Box::new(move |n| {
                times(n, || ffi::compare(black_box(x.raw.first), black_box(y.raw.first)))
            })),
            Some(Box::new(move |n| {
                times(n, || black_box(&p.0 .0).partial_cmp(black_box(&p.1 .0)))
            })),
            Some(Box::new(move |n| {
                times(n, || black_box(&q.0 .1).partial_cmp(black_box(&q.1 .1)))
            })),
        ],
        says: [
            Some(Box::new(move || {
                let o = ffi::compare(x.raw.first, y.raw.first);
                let order = [Some(-1), Some(0), Some(1), None][(o + 1) as usize];
                format!("{:?}", order.map(|o: i32| o.cmp(&0)))
            })),
            Some(Box::new(move || format!("{:?}", r.0 .0.partial_cmp(&r.1 .0)))),
            Some(Box::new(move || format!("{:?}", s.0 .1.partial_cmp(&s.1 .1)))),
        ],
    }
}

/// Chronologies of so many entries, for C and for the crate: ten days from one to the next, and identifiers by their place.
fn entries(n: usize, id: impl Fn(u32) -> u32) -> (ffi::Store, ours::Chronology) {
    let (mut store, mut chronology) = (ffi::Store::EMPTY, ours::Chronology::new());
    for i in 0..n as u32 {
        let first = 700_000 + 10 * i as i32;
        store.add(first, first + 5, id(i)).unwrap();
        chronology.add(first..=first + 5, id(i)).unwrap();
    }
    (store, chronology)
}

/// The same identifiers at each run, without an order. An odd factor keeps them apart.
fn random(i: u32) -> u32 {
    let x = i.wrapping_mul(2654435769).wrapping_add(7);
    let x = (x ^ (x >> 15)).wrapping_mul(2246822519);
    (x ^ (x >> 13)).wrapping_mul(3266489917)
}

/// Whether anything is dated behind all entries: each is read. The Rust has no chronology.
fn any_dated(name: &str, n: usize, id: impl Fn(u32) -> u32) -> Case {
    let (store, chronology) = keep(entries(n, id));
    let day = 800_000;
    Case {
        group: "chronology",
        name: format!("any_dated, {name}"),
        counted: 100,
        inputs: 1,
        sides: [
            Some(Box::new(move |n| times(n, || black_box(store).any_dated(day, day)))),
            Some(Box::new(move |n| times(n, || black_box(chronology).any_dated(day..=day)))),
            None,
        ],
        says: [
            Some(Box::new(move || format!("{:?}", store.any_dated(day, day).unwrap()))),
            Some(Box::new(move || {
                let a = chronology.any_dated(day..=day).unwrap();
                format!("{:?}", (a.found, a.read))
            })),
            None,
        ],
    }
}

/// An entry in the middle of 511, added and removed.
fn add_and_remove() -> Case {
    let (store, chronology) = keep(entries(511, |i| i));
    let (day, id) = (702_557, 1000);
    Case {
        group: "chronology",
        name: "add and remove among 511 entries".to_string(),
        counted: 100,
        inputs: 1,
        sides: [
            Some(Box::new(move |n| {
                let mut c = store.clone();
                for _ in 0..n {
                    let r = (black_box(&mut c).add(day, day, id), c.remove(id));
                    black_box(&r);
                }
            })),
            Some(Box::new(move |n| {
                let mut c = chronology.clone();
                for _ in 0..n {
                    let r = (black_box(&mut c).add(day..=day, id), c.remove(id));
                    let _ = black_box(&r);
                }
            })),
            None,
        ],
        says: [
            Some(Box::new(move || {
                let mut c = store.clone();
                format!("{:?}", (c.add(day, day, id).unwrap(), c.remove(id).unwrap()))
            })),
            Some(Box::new(move || {
                let mut c = chronology.clone();
                format!("{:?}", (c.add(day..=day, id).unwrap(), c.remove(id).unwrap()))
            })),
            None,
        ],
    }
}

/// The lengths of a series: what grows with the text, and how.
const LENGTHS: [usize; 4] = [64, 256, 1024, 4096];

/// A text of words and spaces, of which none is an X and none a slash: a reader looks for both up to the end.
fn words(n: usize) -> Input {
    let words = "to be printed with the second volume of the collected letters ";
    Input::text(&words.repeat(n / words.len() + 1)[..n])
}

/// The group of texts that no reader answers at once.
const GENERAL: &str = "way for all";

pub fn all() -> Vec<Case> {
    let mut all = Vec::new();
    for t in ["2000", "2000-02", "2000-02-29", "49", "2000-02-29~", "2000-02-29T10:20:30Z"] {
        all.push(reading("date", t, Input::text(t)));
    }
    all.push(mixed());
    for t in ["1999/2003", "1999-07-01/2003-08-31", "2000/..", "../2000"] {
        all.push(reading("range", t, Input::text(t)));
    }
    for t in ["19XX", "2000-XX", "2000-02-XX"] {
        all.push(reading("X range", t, Input::text(t)));
    }
    for t in [
        &["1999"][..],
        &["1000 BC"],
        &["1999", "jul"],
        &["1999", "July", "4"],
        &["1999", "07", "04"],
    ] {
        all.push(fields(t));
    }
    for t in ["", "forthcoming", "2000-13-01", "1900-02-29", "2000/1900-02-29"] {
        let name = if t.is_empty() { "empty" } else { t };
        all.push(reading("refused", name, Input::text(t)));
    }
    for t in [" 2000", "2000-2-9", "2000-02-29t10:20", "- 12", "19xx", "1999-7/2003-8"] {
        all.push(reading(GENERAL, t, Input::text(t)));
    }
    for t in ["123", "2000-13", "2000-1-32", "1850 ca.", "1999/2003-13"] {
        all.push(reading(GENERAL, &format!("{t}, refused"), Input::text(t)));
    }
    let two = vec![(0, "20".into(), 100), (1, "00".into(), 103)];
    all.push(reading("chunks", "2000 in two chunks", Input::new(two)));
    let many = |k: u8| {
        let piece = |i| if i == 0 { format!("{:64}", "2000") } else { " ".repeat(64) };
        (0..64).map(|i| (k, piece(i), i * 66)).collect::<Vec<Piece>>()
    };
    all.push(reading("long", "2000 and 4,092 spaces in 64 Normal chunks", Input::new(many(0))));
    all.push(reading("long", "the same in 64 Verbatim chunks", Input::new(many(1))));
    let latin = vec![(0, "é".repeat(2048), 0)];
    all.push(reading("long", "2,048 times é, refused", Input::new(latin)));
    for n in LENGTHS {
        all.push(reading("length", &format!("{n} bytes of words, refused"), words(n)));
    }
    for n in LENGTHS {
        let text = format!("{:n$}", "2000");
        all.push(reading("length", &format!("{n} bytes: 2000 and spaces"), Input::text(&text)));
    }
    for t in ["2000", "2000-02-29", "49", "1999/2003", "19XX"] {
        all.push(strict(t));
    }
    for t in ["2000", "2000-02-29", "1999-07-01/2003-08-31~"] {
        all.push(text(t));
    }
    all.push(display("2000-02-29"));
    for t in ["2000-02-29", "1999-07-01/2003-08-31~"] {
        all.push(fieldset(t));
    }
    all.push(compare("1999", "2000"));
    all.push(compare("2000-02-28", "2000-02-29"));
    all.push(compare("2000-02-29T10:20:30Z", "2000-02-29T12:20:30+02:00"));
    all.push(any_dated("512 entries, serial identifiers", 512, |i| i));
    all.push(any_dated("512 entries, random identifiers", 512, random));
    all.push(any_dated("16 entries", 16, |i| i));
    all.push(add_and_remove());
    all
}
