//! Frames on standard input, answers on standard output.

use std::env;
use std::io::{self, Read, Write};
use std::panic;
use std::process::ExitCode;

use oracle::{Options, Oracle, BAD_FRAME, MAX_FRAME};

const BLOCK: usize = 1 << 20;

const USAGE: &str = "usage: oracle [--strict-checks] [--fields]
       oracle --version

Reads one frame a line, writes one answer a line.
--strict-checks   refusals 15, 16, 10 and 11 of the strict operations, not --
--fields          answer an accepted frame by 00 and its fields";

fn main() -> ExitCode {
    let mut options = Options::default();
    for arg in env::args().skip(1) {
        match arg.as_str() {
            "--version" => {
                println!(
                    "oracle {}\nscanner: {}\nsources: {}",
                    env!("CARGO_PKG_VERSION"),
                    oracle::SCANNER,
                    oracle::SOURCES
                );
                return ExitCode::SUCCESS;
            }
            "--strict-checks" => options.strict_checks = true,
            "--fields" => options.fields = true,
            _ => return fail(USAGE),
        }
    }

    // A panic of the Rust is an answer, not a message.
    panic::set_hook(Box::new(|_| {}));

    match run(&mut io::stdin().lock(), &mut io::stdout().lock(), options) {
        Ok(()) => ExitCode::SUCCESS,
        Err(e) if e.kind() == io::ErrorKind::BrokenPipe => ExitCode::SUCCESS,
        Err(e) => fail(&format!("oracle: {e}")),
    }
}

fn fail(message: &str) -> ExitCode {
    eprintln!("{message}");
    ExitCode::from(2)
}

/// Answers line by line. A line that is too long for a frame is not kept.
fn run(input: &mut impl Read, output: &mut impl Write, options: Options) -> io::Result<()> {
    let mut oracle = Oracle::new(options);
    let mut buf = vec![0; BLOCK];
    let mut out = Vec::with_capacity(BLOCK + 256);
    // The bytes at the front of `buf` that belong to an unfinished line.
    let mut kept = 0;
    // Whether the unfinished line is too long already.
    let mut overlong = false;

    loop {
        let read = match input.read(&mut buf[kept..]) {
            Ok(0) => break,
            Ok(n) => n,
            Err(e) if e.kind() == io::ErrorKind::Interrupted => continue,
            Err(e) => return Err(e),
        };
        let filled = kept + read;
        let mut start = 0;
        let mut from = kept;
        while let Some(i) = line_feed(&buf[from..filled]) {
            let end = from + i;
            if overlong {
                out.extend_from_slice(BAD_FRAME);
                overlong = false;
            } else {
                oracle.answer(&buf[start..end], &mut out);
            }
            out.push(b'\n');
            start = end + 1;
            from = start;
            if out.len() >= BLOCK {
                output.write_all(&out)?;
                out.clear();
            }
        }

        kept = filled - start;
        if overlong || kept > 2 * MAX_FRAME {
            overlong = true;
            kept = 0;
        } else {
            buf.copy_within(start..filled, 0);
        }
        output.write_all(&out)?;
        out.clear();
    }

    if overlong {
        out.extend_from_slice(BAD_FRAME);
        out.push(b'\n');
    } else if kept > 0 {
        oracle.answer(&buf[..kept], &mut out);
        out.push(b'\n');
    }
    output.write_all(&out)?;
    output.flush()
}

/// The place of the first line feed, searched eight bytes at a time.
fn line_feed(bytes: &[u8]) -> Option<usize> {
    const ONES: u64 = u64::MAX / 255;
    const TOPS: u64 = ONES << 7;
    const FEEDS: u64 = ONES * b'\n' as u64;

    let mut words = bytes.chunks_exact(8);
    for (i, word) in words.by_ref().enumerate() {
        let mut eight = [0; 8];
        eight.copy_from_slice(word);
        let x = u64::from_le_bytes(eight) ^ FEEDS;
        let zero = x.wrapping_sub(ONES) & !x & TOPS;
        if zero != 0 {
            return Some(i * 8 + zero.trailing_zeros() as usize / 8);
        }
    }
    let rest = words.remainder();
    rest.iter().position(|&b| b == b'\n').map(|i| bytes.len() - rest.len() + i)
}
