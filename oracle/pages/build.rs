//! Links libknobstream.a from the folder that KNOBSTREAM_LIB_DIR names.

use std::env;

fn main() {
    println!("cargo:rerun-if-changed=build.rs");
    println!("cargo:rerun-if-env-changed=KNOBSTREAM_LIB_DIR");
    let Ok(folder) = env::var("KNOBSTREAM_LIB_DIR") else {
        eprintln!("KNOBSTREAM_LIB_DIR names the folder with libknobstream.a: call oracle/run pages");
        std::process::exit(1)
    };
    println!("cargo:rerun-if-changed={folder}/libknobstream.a");
    println!("cargo:rustc-link-search=native={folder}");
    println!("cargo:rustc-link-lib=static=knobstream");
}
