//! Links the archive libzamiathen.a from the directory that the environment variable ZAMIATHEN_LIB_DIR names, otherwise
//! from pkg-config's.

use std::env;
use std::path::Path;
use std::process::{exit, Command};

fn main() {
    println!("cargo:rerun-if-changed=build.rs");
    println!("cargo:rerun-if-env-changed=ZAMIATHEN_LIB_DIR");
    println!("cargo:rerun-if-env-changed=PKG_CONFIG_PATH");
    let directory = env::var("ZAMIATHEN_LIB_DIR").ok().or_else(configured).unwrap_or_else(|| {
        eprintln!("No libzamiathen.a: let ZAMIATHEN_LIB_DIR name its directory, or let pkg-config find zamiathen");
        exit(1)
    });
    let archive = Path::new(&directory).join("libzamiathen.a");
    println!("cargo:rerun-if-changed={}", archive.display());
    println!("cargo:rustc-link-search=native={directory}");
    println!("cargo:rustc-link-lib=static=zamiathen");
}

/// The directory that pkg-config names, if it knows one; it puts a backslash before a blank.
fn configured() -> Option<String> {
    let said = Command::new("pkg-config").args(["--variable=libdir", "zamiathen"]).output().ok()?;
    let directory = String::from_utf8(said.stdout).ok()?.trim().replace("\\ ", " ");
    (said.status.success() && !directory.is_empty()).then_some(directory)
}
