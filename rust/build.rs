//! Links libknobstream.a: from the folder that KNOBSTREAM_LIB_DIR names, or
//! else made here, by native/make with the Rattle toolchain. The build fails
//! where the header beside the library is of another version than this crate,
//! or the library of an earlier one.

use std::env;
use std::fs;
use std::path::{Path, PathBuf};
use std::process::Command;

fn main() {
    println!("cargo:rerun-if-changed=build.rs");
    println!("cargo:rerun-if-env-changed=KNOBSTREAM_LIB_DIR");

    let target = env::var("TARGET").unwrap();
    let processor = target.split('-').next().unwrap_or("");
    if !(matches!(processor, "x86_64" | "aarch64") && target.contains("-linux-")) {
        fail(&format!(
            "libknobstream.a is for x86-64 and Arm Linux, and this is a build for {target}"
        ));
    }

    let folder = match env::var_os("KNOBSTREAM_LIB_DIR") {
        Some(folder) => fs::canonicalize(&folder).unwrap_or_else(|e| {
            fail(&format!("KNOBSTREAM_LIB_DIR names {}: {e}", Path::new(&folder).display()))
        }),
        None => make(processor),
    };
    let library = folder.join("libknobstream.a");
    if !library.is_file() {
        fail(&format!("there is no {}", library.display()));
    }
    println!("cargo:rerun-if-changed={}", library.display());
    check_version(&folder, &library);
    println!("cargo:rustc-link-search=native={}", folder.display());
    println!("cargo:rustc-link-lib=static=knobstream");
}

/// The calls that came with this version: an earlier library has not all of them.
const NEWEST: [&str; 8] = [
    "knobstream_parse_six_fields",
    "knobstream_measure_timed",
    "knobstream_write_timed",
    "knobstream_days",
    "knobstream_instant",
    "knobstream_compare_instants",
    "knobstream_parse_pages",
    "knobstream_write_range",
];

/// The header says the version: the one beside the library, or else the one of
/// this repository, if either is there. The library has the calls of that version.
fn check_version(folder: &Path, library: &Path) {
    let own = env::var("CARGO_PKG_VERSION_MINOR").unwrap();
    let here = PathBuf::from(env::var_os("CARGO_MANIFEST_DIR").unwrap());
    let headers = [folder.join("knobstream.h"), here.join("../c/knobstream.h")];
    if let Some(header) = headers.iter().find(|h| h.is_file()) {
        println!("cargo:rerun-if-changed={}", header.display());
        let text = fs::read_to_string(header).unwrap_or_default();
        let said = text.split("KNOBSTREAM_VERSION = ").nth(1).unwrap_or("");
        let version = said.split(|c: char| !c.is_ascii_digit()).next().unwrap_or("");
        if version != own {
            fail(&format!(
                "this crate is made for version {own} of the library, and {} is of version {version}",
                header.display()
            ));
        }
    }
    let archive = fs::read(library).unwrap_or_default();
    for call in NEWEST {
        let symbol = format!("{call}\0");
        if !archive.windows(symbol.len()).any(|w| w == symbol.as_bytes()) {
            fail(&format!(
                "this crate is made for version {own} of the library, and {} has no {call}",
                library.display()
            ));
        }
    }
}

/// Proves the library and makes its archive for a processor; gives the folder,
/// which the last line says.
fn make(processor: &str) -> PathBuf {
    let here = PathBuf::from(env::var_os("CARGO_MANIFEST_DIR").unwrap());
    let top = here.parent().map(Path::to_path_buf).unwrap_or(here);
    println!("cargo:rerun-if-changed={}", top.join("crates").display());
    println!("cargo:rerun-if-changed={}", top.join("crates.txt").display());
    println!("cargo:rerun-if-changed={}", top.join("native").display());

    match Command::new(top.join("native/make")).args(["library", processor]).output() {
        Ok(done) if done.status.success() => {
            let said = String::from_utf8_lossy(&done.stdout);
            let made = said.lines().last().and_then(|line| line.split(' ').next()).unwrap_or("");
            top.join(made).parent().map(Path::to_path_buf).unwrap_or(top)
        }
        Ok(done) => fail(&format!(
            "native/make library failed:\n{}{}",
            String::from_utf8_lossy(&done.stdout),
            String::from_utf8_lossy(&done.stderr)
        )),
        Err(e) => fail(&format!(
            "native/make can not be run ({e}): \
             set KNOBSTREAM_LIB_DIR to a folder with libknobstream.a"
        )),
    }
}

fn fail(message: &str) -> ! {
    eprintln!("{message}");
    std::process::exit(1)
}
