//! Compares two files of answers to one file of frames.

use std::collections::BTreeMap;
use std::env;
use std::fs;
use std::io::{self, Write};
use std::process::ExitCode;

use oracle::{describe_answer_to, describe_frame};

const SHOWN: usize = 50;

fn main() -> ExitCode {
    let args: Vec<String> = env::args().skip(1).collect();
    let [a, b, input] = args.as_slice() else {
        eprintln!("usage: compare A B INPUT");
        return ExitCode::from(2);
    };
    let read = |path: &String| {
        fs::read(path).map_err(|e| {
            eprintln!("compare: {path}: {e}");
            ExitCode::from(2)
        })
    };
    let (left, right, frames) = match (read(a), read(b), read(input)) {
        (Ok(left), Ok(right), Ok(frames)) => (left, right, frames),
        (Err(code), ..) | (_, Err(code), _) | (.., Err(code)) => return code,
    };

    match compare([a, b], [&left, &right], &frames, &mut io::stdout().lock()) {
        Ok(true) => ExitCode::SUCCESS,
        Ok(false) => ExitCode::FAILURE,
        Err(_) => ExitCode::from(2),
    }
}

/// Writes the differences and says whether there were none.
fn compare(
    names: [&String; 2],
    answers: [&[u8]; 2],
    frames: &[u8],
    out: &mut impl Write,
) -> io::Result<bool> {
    let frames = lines(frames);
    let [left, right] = answers.map(lines);
    let mut compared = 0;
    let mut skipped = 0;
    let mut differing = 0;
    // Keyed so that the smallest frame comes first: how often, which line
    // first, and both answers.
    type Found<'a> = (usize, usize, [Option<&'a [u8]>; 2]);
    let mut found: BTreeMap<(usize, &[u8]), Found> = BTreeMap::new();

    for (i, &frame) in frames.iter().enumerate() {
        let pair = [left.get(i).copied(), right.get(i).copied()];
        if pair.contains(&Some(b"--")) && !pair.contains(&None) {
            skipped += 1;
            continue;
        }
        compared += 1;
        if pair[0].is_none() || pair[0] != pair[1] {
            differing += 1;
            found.entry((frame.len(), frame)).or_insert((0, i + 1, pair)).0 += 1;
        }
    }

    for (&(_, frame), &(times, line, pair)) in found.iter().take(SHOWN) {
        let digits = String::from_utf8_lossy(frame);
        let cut = digits.chars().take(200).collect::<String>();
        let more = if cut.len() < digits.len() { "…" } else { "" };
        writeln!(out, "{cut}{more}")?;
        writeln!(out, "  line {line}, {times} times: {}", describe_frame(frame))?;
        for (name, answer) in names.iter().zip(pair) {
            match answer {
                Some(answer) => writeln!(out, "  {name}: {}", describe_answer_to(frame, answer))?,
                None => writeln!(out, "  {name}: no answer")?,
            }
        }
    }
    if found.len() > SHOWN {
        writeln!(out, "({} more frames)", found.len() - SHOWN)?;
    }

    let mut counts_fit = true;
    for (name, answers) in names.iter().zip([&left, &right]) {
        if answers.len() != frames.len() {
            counts_fit = false;
            writeln!(out, "{name}: {} answers to {} lines", answers.len(), frames.len())?;
        }
    }
    writeln!(
        out,
        "{} lines: {compared} compared, {skipped} skipped, {differing} differ ({} frames)",
        frames.len(),
        found.len()
    )?;
    Ok(found.is_empty() && counts_fit)
}

/// The lines of a file; the last needs no line feed.
fn lines(bytes: &[u8]) -> Vec<&[u8]> {
    let mut lines: Vec<&[u8]> = bytes.split(|&b| b == b'\n').collect();
    if lines.last().is_some_and(|line| line.is_empty()) {
        lines.pop();
    }
    lines
}
