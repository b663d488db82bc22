//! Finds the original's sources, holds them to their checksums and writes,
//! under OUT_DIR, the lines that name them.

mod checksums;

use std::{
    env, fs,
    path::{Path, PathBuf},
};

/// The place of the sources when FONTIQUE_SRC is not set, from this package's folder.
const DEFAULT: &str = "../../../shared/docs/src/src";

fn main() {
    for file in ["build.rs", "checksums.rs", "original.sha256"] {
        println!("cargo::rerun-if-changed={file}");
    }
    println!("cargo::rerun-if-env-changed=FONTIQUE_SRC");
    let package = PathBuf::from(env::var_os("CARGO_MANIFEST_DIR").expect("set by cargo"));
    let given = env::var_os("FONTIQUE_SRC").unwrap_or_else(|| DEFAULT.into());
    let src = package.join(given);
    let src = src.canonicalize().unwrap_or(src);
    for file in checksums::files() {
        println!("cargo::rerun-if-changed={}", src.join(file).display());
    }
    if let Err(message) = checksums::check(&src) {
        // Ends the build, with the message.
        println!("cargo::error={message}");
        return;
    }
    let out = PathBuf::from(env::var_os("OUT_DIR").expect("set by cargo"));
    fs::write(out.join("folder"), src.to_string_lossy().as_bytes())
        .expect("OUT_DIR can be written");
    let (inner, root): (Vec<&str>, Vec<&str>) =
        checksums::files().partition(|file| file.contains('/'));
    for (name, files) in [("original.rs", root), ("original_collection.rs", inner)] {
        let lines: String = files.iter().map(|file| line(&src.join(file))).collect();
        fs::write(out.join(name), lines).expect("OUT_DIR can be written");
    }
}

/// The `mod` line of a file. Its code is not ours to lint.
fn line(file: &Path) -> String {
    let module = file.file_stem().unwrap_or_default().to_string_lossy();
    format!("#[allow(dead_code, unused, clippy::all)]\n#[path = {file:?}]\npub mod {module};\n")
}
