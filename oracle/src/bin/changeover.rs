//! Puts the date fields of a bibliography to the published Rust and to the crate
//! of rust/, and says of each whether both say the same: the date, its text and
//! its fields, or the refusal and its place. A difference that
//! docs/CHANGEOVER.md names is told by its name; the exit is 1 if there is
//! another.
//!
//! The file has a line for each field, as `date = {2000-$01$},`.

use std::collections::BTreeMap;
use std::panic::{self, catch_unwind};
use std::process::ExitCode;

use knobstream as ours;
use oracle::published as theirs;
use theirs::Type;

/// What one of them says: its text or its refusal, and all that is compared.
#[derive(PartialEq)]
struct Said {
    text: String,
    all: String,
}

/// A chunk: what is around it, its text, and where that starts in the file.
type Piece = (char, String, usize);

fn main() -> ExitCode {
    let Some(path) = std::env::args().nth(1) else {
        eprintln!("usage: changeover FILE.bib");
        return ExitCode::from(2);
    };
    let file = match std::fs::read_to_string(&path) {
        Ok(file) => file,
        Err(e) => {
            eprintln!("{path}: {e}");
            return ExitCode::from(2);
        }
    };
    // A panic of the Rust is an answer, not a message.
    panic::set_hook(Box::new(|_| {}));

    let mut faults = 0;
    let mut counts = BTreeMap::new();
    for (key, fields) in entries(&file) {
        for (name, said) in asked(&fields) {
            let (told, fault) = judged(&said, name == "year..endday");
            let (rust, own) = (&said.0, &said.1);
            println!("{told:<10} {key} {name}: {}", rust.text);
            if rust != own {
                println!("{:<10} {key} {name}: {}", "  here", own.text);
            }
            if fault {
                println!("{}\n{}", rust.all, own.all);
            }
            faults += usize::from(fault);
            *counts.entry(told).or_insert(0) += 1;
        }
    }
    let counts: Vec<String> = counts.iter().map(|(told, n)| format!("{n} {told}")).collect();
    println!("{}", counts.join(", "));
    ExitCode::from(u8::from(faults > 0))
}

/// What the fields of an entry are for the Rust and for the crate.
fn asked(fields: &BTreeMap<String, Vec<Piece>>) -> Vec<(&'static str, (Said, Said))> {
    let mut all = vec![];
    for name in ["date", "eventdate", "origdate", "urldate"] {
        if let Some(pieces) = fields.get(name) {
            let (a, b) = (chunks(pieces), own_chunks(pieces));
            let said = (by_rust(|| theirs::Date::parse(&a)), by_crate(ours::Date::parse(&b)));
            all.push((name, said));
        }
    }
    if let Some(year) = fields.get("year") {
        let of = |name: &str| fields.get(name);
        let list = |name: &str| of(name).map(|p| chunks(p));
        let own = |name: &str| of(name).map(|p| own_chunks(p));
        let (y, m, d) = (chunks(year), list("month"), list("day"));
        let rust = by_rust(|| theirs::Date::parse_three_fields(&y, m.as_deref(), d.as_deref()));
        let (y, m, d) = (own_chunks(year), own("month"), own("day"));
        let (ey, em, ed) = (own("endyear"), own("endmonth"), own("endday"));
        let (m, d) = (m.as_deref(), d.as_deref());
        let (name, read) = match ey {
            None => ("year..day", ours::Date::parse_three_fields(&y, m, d)),
            Some(ey) => {
                let (em, ed) = (em.as_deref(), ed.as_deref());
                ("year..endday", ours::Date::parse_six_fields(&y, m, d, Some(&ey), em, ed))
            }
        };
        all.push((name, (rust, by_crate(read))));
    }
    all
}

/// How the two stand to each other, and whether that is a fault.
fn judged((rust, own): &(Said, Said), six: bool) -> (&'static str, bool) {
    match own.text.as_str() {
        _ if rust == own => ("same", false),
        "RustPanics 0..0" if rust.text == "panics" => ("panics", false),
        _ if own.text.starts_with("UnsupportedChar ") => ("character", false),
        "TooLong 0..0" => ("long", false),
        _ if six => ("six fields", false),
        _ => ("DIFFERENT", true),
    }
}

/// The date as its parts, its text and its fields; or the refusal with its place.
fn by_rust(
    read: impl Fn() -> Result<theirs::Date, theirs::TypeError> + panic::RefUnwindSafe,
) -> Said {
    match catch_unwind(&read) {
        Err(_) => refused("panics".to_string()),
        Ok(Err(e)) => refused(format!("{:?} {:?}", e.kind, e.span)),
        Ok(Ok(date)) => {
            let text = date.to_chunks()[0].v.get().to_string();
            let fields = theirs::to_fieldset(date);
            let fields: String = fields.iter().map(|(k, v)| format!(" {k}={v}")).collect();
            Said { all: format!("{text}{fields} {date:?}"), text }
        }
    }
}

fn refused(text: String) -> Said {
    Said { all: text.clone(), text }
}

fn by_crate(read: Result<ours::Date, ours::TypeError>) -> Said {
    match read {
        Err(e) => refused(format!("{:?} {:?}", e.kind, e.span)),
        Ok(date) => {
            let mut out = [0; ours::Date::FIELDS_ROOM];
            let fields = date.write_fields(&mut out).unwrap_or("no fields");
            let fields: String = fields.lines().map(|line| format!(" {line}")).collect();
            // the one part that the Rust has not
            let parts = format!("{date:?}").replace(", season: None", "");
            Said { text: date.to_string(), all: format!("{date}{fields} {parts}") }
        }
    }
}

fn chunks(pieces: &[Piece]) -> Vec<theirs::Spanned<theirs::Chunk>> {
    let chunk = |(around, text, start): &Piece| {
        let v = match around {
            '{' => theirs::Chunk::Verbatim(text.clone()),
            '$' => theirs::Chunk::Math(text.clone()),
            _ => theirs::Chunk::Normal(text.clone()),
        };
        theirs::Spanned::new(v, *start..start + text.len())
    };
    pieces.iter().map(chunk).collect()
}

fn own_chunks(pieces: &[Piece]) -> Vec<ours::Spanned<ours::Chunk<'_>>> {
    fn chunk((around, text, start): &Piece) -> ours::Spanned<ours::Chunk<'_>> {
        let v = match around {
            '{' => ours::Chunk::Verbatim(text),
            '$' => ours::Chunk::Math(text),
            _ => ours::Chunk::Normal(text),
        };
        ours::Spanned::new(v, *start..start + text.len())
    }
    pieces.iter().map(chunk).collect()
}

/// The entries by their keys, each with its fields by their names.
fn entries(file: &str) -> Vec<(String, BTreeMap<String, Vec<Piece>>)> {
    let mut all: Vec<(String, BTreeMap<_, _>)> = vec![];
    let mut at = 0;
    for line in file.split_inclusive('\n') {
        let text = line.trim_end();
        if let Some((_, key)) = text.strip_prefix('@').and_then(|t| t.split_once('{')) {
            all.push((key.trim_end_matches(',').to_string(), BTreeMap::new()));
        } else if let (Some((name, rest)), Some(entry)) = (text.split_once(" = {"), all.last_mut())
        {
            let value = rest.trim_end_matches(',').strip_suffix('}').unwrap_or(rest);
            let start = at + name.len() + " = {".len();
            entry.1.insert(name.trim().to_string(), pieces(value, start));
        }
        at += line.len();
    }
    all
}

/// A value cut at its braces and dollar signs.
fn pieces(value: &str, start: usize) -> Vec<Piece> {
    let (mut all, mut around, mut text, mut from) = (vec![], ' ', String::new(), start);
    for (i, c) in value.char_indices() {
        if matches!(c, '{' | '}' | '$') {
            if !text.is_empty() {
                all.push((around, std::mem::take(&mut text), from));
            }
            around = if c == '}' || around == '$' { ' ' } else { c };
            from = start + i + 1;
        } else {
            text.push(c);
        }
    }
    if !text.is_empty() || all.is_empty() {
        all.push((around, text, from));
    }
    all
}
