//! Finds the folder of the original and the archives of crates `bench`, `bench_pack`, `bench_render`, `bench_score` and
//! `bench_tail` (archive.sh), and hands them to the compiler.

#[path = "../find.rs"]
mod find;

use std::path::Path;

const ARCHIVE_FOLDER: &str = "../../target/bench";

const ARCHIVES: [&str; 5] = ["bench", "bench_pack", "bench_render", "bench_score", "bench_tail"];

/// The original's files that `src/original.rs` includes.
const FILES: [&str; 5] = [
    "constants.rs",
    "bus.rs",
    "envelope.rs",
    "oscillator.rs",
    "waveforms.rs",
];

fn main() {
    find::original(&FILES);
    let files = ARCHIVES.map(|name| format!("lib{name}.a"));
    match find::folder(Path::new(ARCHIVE_FOLDER), &files.each_ref().map(String::as_str)) {
        Ok(folder) => {
            println!("cargo:rustc-link-search=native={}", folder.display());
            for (name, file) in ARCHIVES.iter().zip(&files) {
                println!("cargo:rerun-if-changed={}", folder.join(file).display());
                println!("cargo:rustc-link-lib=static={name}");
            }
        }
        Err(sentence) => println!("cargo::error=Run tools/bench/archive.sh first: {sentence}"),
    }
}
