//! Links the static library of the proved picker. It makes none: that is for
//! the repository's script `tools/static-library`.
//!
//! The library is the file that STEMHOOK_LIB names (a relative path counts
//! from this folder); or `build/libstemhook.a` at the repository's root; or,
//! where that is missing, the one that is installed, as pkg-config has it.

use std::{
    env,
    path::{Path, PathBuf},
    process::Command,
};

const DEFAULT: &str = "build/libstemhook.a";

fn main() {
    println!("cargo::rerun-if-changed=build.rs");
    // A library that is made later takes the place of an installed one.
    println!("cargo::rerun-if-changed=../../{DEFAULT}");
    for name in ["STEMHOOK_LIB", "PKG_CONFIG_PATH"] {
        println!("cargo::rerun-if-env-changed={name}");
    }
    let linked = known_target()
        .and_then(|()| library())
        .and_then(|library| link(&library));
    if let Err(message) = linked {
        // Ends the build, with the message.
        println!("cargo::error={message}");
    }
}

/// The library is for one kind of machine.
fn known_target() -> Result<(), String> {
    let target = |name: &str| env::var(format!("CARGO_CFG_TARGET_{name}")).unwrap_or_default();
    match (target("ARCH").as_str(), target("OS").as_str()) {
        ("x86_64", "linux") => Ok(()),
        (arch, os) => Err(format!(
            "the static library is for x86-64 Linux alone, and the target is {arch} {os}"
        )),
    }
}

/// The library's file.
fn library() -> Result<PathBuf, String> {
    let package = env::var_os("CARGO_MANIFEST_DIR").ok_or("CARGO_MANIFEST_DIR is not set")?;
    let package = PathBuf::from(package);
    if let Some(given) = env::var_os("STEMHOOK_LIB") {
        let file = package.join(given);
        let known = file.is_file().then(|| file.clone());
        return known.ok_or_else(|| {
            format!(
                "STEMHOOK_LIB names {}, which is no file: run tools/static-library in \
                 Stemhook's repository and name the {DEFAULT} that it writes",
                file.display()
            )
        });
    }
    let default = package.join("../..").join(DEFAULT);
    let found = default.is_file().then_some(default).or_else(installed);
    found.ok_or_else(|| {
        format!(
            "{DEFAULT} is missing: run tools/static-library in the repository's root, which \
             proves the picker and writes it (needs the Rattle toolchain, takes minutes); or \
             name a library by STEMHOOK_LIB"
        )
    })
}

/// The library that tools/install has put where pkg-config finds it.
fn installed() -> Option<PathBuf> {
    let asked = Command::new("pkg-config")
        .args(["--variable=libdir", "stemhook"])
        .output()
        .ok()?;
    let folder = String::from_utf8(asked.stdout).ok()?;
    let file = Path::new(folder.trim_end()).join("libstemhook.a");
    (asked.status.success() && file.is_file()).then_some(file)
}

/// Tells cargo to link the library, and the build scripts of dependents where
/// it is: they have DEP_STEMHOOK_LIBRARY.
fn link(library: &Path) -> Result<(), String> {
    let library = library
        .canonicalize()
        .map_err(|error| format!("{}: {error}", library.display()))?;
    let name = library.file_name().and_then(|name| name.to_str());
    let name = name.and_then(|name| name.strip_prefix("lib")?.strip_suffix(".a"));
    let (Some(name), Some(folder)) = (name, library.parent()) else {
        return Err(format!("{} is not named libNAME.a", library.display()));
    };
    println!("cargo::rerun-if-changed={}", library.display());
    println!("cargo::rustc-link-search=native={}", folder.display());
    println!("cargo::rustc-link-lib=static={name}");
    println!("cargo::metadata=library={}", library.display());
    Ok(())
}
