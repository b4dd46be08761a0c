//! Finds the published sources and the scanner crate, and writes the few
//! lines that name them as modules. Nothing is copied.

use std::env;
use std::fs;
use std::path::{Path, PathBuf};

/// Where Debian puts the source of its Rust packages.
const DEBIAN: &str = "/usr/share/cargo/registry";

fn main() {
    println!("cargo:rerun-if-changed=build.rs");
    println!("cargo:rerun-if-env-changed=BIBLATEX_SRC");
    println!("cargo:rerun-if-env-changed=UNSCANNY_SRC");
    // The published chunk.rs mentions this feature; it stays off.
    println!("cargo:rustc-check-cfg=cfg(feature, values(\"serde\"))");

    let src = match env::var_os("BIBLATEX_SRC") {
        Some(dir) => PathBuf::from(dir),
        None => fail("set BIBLATEX_SRC to a folder with the published src/ of biblatex"),
    };
    let chunk = published(&src, "chunk.rs");
    let date = published(&src, "types/date.rs");
    let types = published(&src, "types.rs");
    let (scanner, name) = scanner();

    let text = format!(
        "#[allow(dead_code, clippy::all)]\n#[path = {chunk:?}]\nmod chunk;\n\
         #[allow(dead_code, clippy::all)]\n#[path = {date:?}]\nmod date;\n\
         #[allow(dead_code, unused_attributes, clippy::all)]\n#[path = {scanner:?}]\nmod scanner;\n"
    );
    let out = PathBuf::from(env::var_os("OUT_DIR").unwrap()).join("published.rs");
    fs::write(out, text).unwrap();
    let out = PathBuf::from(env::var_os("OUT_DIR").unwrap()).join("ranges.rs");
    fs::write(out, block(&types, "impl Type for Vec<Range<u32>> {")).unwrap();

    println!("cargo:rustc-env=ORACLE_SCANNER={name}");
    println!(
        "cargo:rustc-env=ORACLE_SOURCES=date.rs {}, chunk.rs {}, types.rs {}",
        fingerprint(&date),
        fingerprint(&chunk),
        fingerprint(&types)
    );
}

/// The full path of a published file.
fn published(src: &Path, name: &str) -> PathBuf {
    match src.join(name).canonicalize() {
        Ok(path) => {
            println!("cargo:rerun-if-changed={}", path.display());
            path
        }
        Err(e) => fail(&format!("BIBLATEX_SRC has no {name}: {e}")),
    }
}

/// The block of a file that starts with a line, unchanged: the file as a whole
/// needs crates that are not here.
fn block(path: &Path, head: &str) -> String {
    let text = fs::read_to_string(path).unwrap();
    let mut lines = text.lines().skip_while(|line| *line != head).peekable();
    if lines.peek().is_none() {
        fail(&format!("{} has no line {head:?}", path.display()));
    }
    let body = lines.by_ref().take_while(|line| *line != "}");
    body.map(|line| format!("{line}\n")).collect::<String>() + "}\n"
}

/// The scanner to build with: the real crate if its source is there (named by
/// UNSCANNY_SRC, or installed by Debian), else the stand-in.
fn scanner() -> (PathBuf, String) {
    if let Some(dir) = env::var_os("UNSCANNY_SRC") {
        match Path::new(&dir).join("lib.rs").canonicalize() {
            Ok(path) => return (path, "unscanny, from UNSCANNY_SRC".to_string()),
            Err(e) => fail(&format!("UNSCANNY_SRC has no lib.rs: {e}")),
        }
    }

    let mut found: Vec<(String, PathBuf)> = fs::read_dir(DEBIAN)
        .into_iter()
        .flatten()
        .flatten()
        .filter_map(|entry| {
            let name = entry.file_name().into_string().ok()?;
            let path = entry.path().join("src/lib.rs");
            (name.starts_with("unscanny-") && path.is_file()).then_some((name, path))
        })
        .collect();
    found.sort();
    if let Some((name, path)) = found.pop() {
        return (path, format!("{name}, from Debian"));
    }

    let here = PathBuf::from(env::var_os("CARGO_MANIFEST_DIR").unwrap());
    println!("cargo:rerun-if-changed=src/standin.rs");
    (here.join("src/standin.rs"), "stand-in for unscanny".to_string())
}

/// Length and FNV-1a of a file, to tell which sources were built.
fn fingerprint(path: &Path) -> String {
    let bytes = fs::read(path).unwrap();
    let hash = bytes.iter().fold(0xcbf2_9ce4_8422_2325_u64, |h, &b| {
        (h ^ u64::from(b)).wrapping_mul(0x0000_0100_0000_01b3)
    });
    format!("{} bytes {hash:016x}", bytes.len())
}

fn fail(message: &str) -> ! {
    eprintln!("{message}");
    std::process::exit(1)
}
