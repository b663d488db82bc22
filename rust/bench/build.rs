//! Hands on where the static library lies that `stemhook` links.

use std::env;

fn main() {
    println!("cargo::rerun-if-changed=build.rs");
    match env::var("DEP_STEMHOOK_LIBRARY") {
        Ok(library) => println!("cargo::rustc-env=STEMHOOK_LIBRARY={library}"),
        Err(_) => println!(
            "cargo::error=the build script of stemhook does not say which library it links"
        ),
    }
}
