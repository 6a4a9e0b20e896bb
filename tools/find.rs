//! For the build scripts of oracle and bench: a folder that has to hold certain files.

use std::env;
use std::path::{Path, PathBuf};

const DEFAULT_FOLDER: &str = "../../../shared/docs/src/sid";

/// Hands the folder of the original to the compiler as SID_SOURCE, if it holds `files`.
pub fn original(files: &[&str]) {
    println!("cargo:rerun-if-env-changed=SID_SOURCE");
    // Cargo runs a build script in the manifest's folder, so a relative path counts from there.
    let named = env::var_os("SID_SOURCE").unwrap_or_else(|| DEFAULT_FOLDER.into());
    match folder(Path::new(&named), files) {
        Ok(folder) => {
            for file in files {
                println!("cargo:rerun-if-changed={}", folder.join(file).display());
            }
            println!("cargo:rustc-env=SID_SOURCE={}", folder.display());
        }
        Err(sentence) => println!("cargo::error=Set SID_SOURCE to the folder of the original's src/sid: {sentence}"),
    }
}

/// The folder's full path, if all files are there.
pub fn folder(folder: &Path, files: &[&str]) -> Result<PathBuf, String> {
    for file in files {
        if !folder.join(file).is_file() {
            return Err(format!("{} has no {file}.", folder.display()));
        }
    }
    folder
        .canonicalize()
        .map_err(|error| format!("{}: {error}.", folder.display()))
}
