//! The programs as they are called.

use std::collections::BTreeSet;
use std::fs;
use std::io::Write;
use std::path::PathBuf;
use std::process::{Command, Output, Stdio};
use std::thread;

const BAD: &str = "0e00000000000000000000000000000000\n";

fn run(program: &str, args: &[&str], input: &[u8]) -> Output {
    let mut child = Command::new(program)
        .args(args)
        .stdin(Stdio::piped())
        .stdout(Stdio::piped())
        .stderr(Stdio::piped())
        .spawn()
        .unwrap();
    let mut stdin = child.stdin.take().unwrap();
    let input = input.to_vec();
    let writer = thread::spawn(move || {
        let _ = stdin.write_all(&input);
    });
    let output = child.wait_with_output().unwrap();
    writer.join().unwrap();
    output
}

fn oracle(input: &[u8]) -> String {
    let output = run(env!("CARGO_BIN_EXE_oracle"), &[], input);
    assert!(output.status.success() && output.stderr.is_empty());
    String::from_utf8(output.stdout).unwrap()
}

fn generated(args: &[&str]) -> Vec<u8> {
    let output = run(env!("CARGO_BIN_EXE_gen"), args, b"");
    assert!(output.status.success());
    output.stdout
}

#[test]
fn lines() {
    let good = "04010003000000000000000334393f";
    let answer = "00000100000801ffff00000000000000323034393f\n";
    assert_eq!(oracle(b""), "");
    assert_eq!(oracle(b"\n"), BAD);
    assert_eq!(oracle(b"\n\n"), BAD.repeat(2));
    assert_eq!(oracle(format!("{good}\nzz\n").as_bytes()), format!("{answer}{BAD}"));
    assert_eq!(oracle(format!("zz\n{good}").as_bytes()), format!("{BAD}{answer}"));
    assert_eq!(oracle(format!("{good}\r\n{good}").as_bytes()), format!("{BAD}{answer}"));

    // Lines longer than a block, in the middle and at the end.
    let long = "0".repeat(3_000_000);
    assert_eq!(
        oracle(format!("{good}\n{long}\n{good}").as_bytes()),
        format!("{answer}{BAD}{answer}")
    );
    assert_eq!(oracle(format!("{good}\n{long}").as_bytes()), format!("{answer}{BAD}"));
    // Lines across the ends of blocks.
    assert_eq!(oracle(format!("{good}\n").repeat(100_000).as_bytes()), answer.repeat(100_000));
}

#[test]
fn the_list() {
    let list = generated(&["list"]);
    assert_eq!(list, generated(&["list"]));
    assert_ne!(list.last(), Some(&b'\n'));
    let count = list.split(|&b| b == b'\n').count();
    assert!((4500..6000).contains(&count), "{count}");

    let answers = oracle(&list);
    assert_eq!(answers.lines().count(), count);
    let kinds: BTreeSet<&str> = answers.lines().map(|line| &line[..2]).collect();
    // All that the Rust and the checks before it give, and NotLevelOne: not NotStrict and NoRoom, nor the others from 17 on.
    let wanted = [
        "--", "00", "01", "02", "03", "04", "05", "06", "07", "08", "09", "0a", "0b", "0e", "0f",
        "10", "17",
    ];
    assert_eq!(kinds, BTreeSet::from(wanted));
    let shapes: BTreeSet<&str> =
        answers.lines().filter(|line| line.starts_with("00")).map(|line| &line[2..6]).collect();
    assert_eq!(shapes.len(), 16, "every shape with every mark");
    // The last byte of the first Datetime: no season and each of the four.
    let level = list.split(|&b| b == b'\n').zip(answers.lines());
    let seasons: BTreeSet<&str> = level
        .filter(|(frame, answer)| frame.starts_with(b"05") && answer.starts_with("00"))
        .map(|(_, answer)| &answer[32..34])
        .collect();
    assert_eq!(seasons, BTreeSet::from(["00", "15", "16", "17", "18"]));
}

#[test]
fn many() {
    for sort in ["many", "level"] {
        let frames = generated(&[sort, "5000", "7"]);
        assert_eq!(frames, generated(&[sort, "5000", "7"]));
        assert_ne!(frames, generated(&[sort, "5000", "8"]));
        assert_eq!(frames.iter().filter(|&&b| b == b'\n').count(), 5000);
        assert_eq!(oracle(&frames).lines().count(), 5000);
    }
}

#[test]
fn comparing() {
    let dir = PathBuf::from(env!("CARGO_TARGET_TMPDIR"));
    let path = |name: &str| dir.join(name).to_str().unwrap().to_string();
    let write = |name: &str, text: &str| fs::write(path(name), text).unwrap();
    let compare = |a: &str, b: &str| {
        let output = run(env!("CARGO_BIN_EXE_compare"), &[&path(a), &path(b), &path("input")], b"");
        (output.status.code(), String::from_utf8(output.stdout).unwrap())
    };
    write("input", "0100\n0200\nzz\n0100\ng\n0200");
    write("a", &format!("aa\n--\n{BAD}aa\n{BAD}--\n"));
    write("b", &format!("bb\nxx\n{BAD}bb\ncc\nyy\n"));
    write("c", &format!("bb\nxx\n{BAD}bb\n"));

    let (code, text) = compare("a", "a");
    assert_eq!(code, Some(0));
    assert_eq!(text, "6 lines: 4 compared, 2 skipped, 0 differ (0 frames)\n");

    let (code, text) = compare("a", "b");
    assert_eq!(code, Some(1));
    assert!(text.starts_with("g\n"), "{text}");
    assert!(text.contains("\n0100\n  line 1, 2 times"), "{text}");
    assert!(text.ends_with("6 lines: 4 compared, 2 skipped, 3 differ (2 frames)\n"), "{text}");

    // Answers that are missing are a difference.
    let (code, text) = compare("b", "c");
    assert_eq!(code, Some(1));
    assert!(text.contains("4 answers to 6 lines"), "{text}");
}

#[test]
fn version() {
    let output = run(env!("CARGO_BIN_EXE_oracle"), &["--version"], b"");
    let text = String::from_utf8(output.stdout).unwrap();
    assert!(text.contains("scanner: ") && text.contains("unscanny"), "{text}");
}
