//! Finds libauraski.a, and libmeter.a for the comparison: in target/staticlib of
//! the repository's root, or where AURASKI_LIB_DIR says. For the benchmark it
//! finds librival.a too, which tools/bench has put into target/rival.

use std::env;
use std::path::PathBuf;
use std::process::exit;

/// A folder of the repository's target.
fn target(folder: &str) -> PathBuf {
    let here = env::var_os("CARGO_MANIFEST_DIR").expect("cargo sets CARGO_MANIFEST_DIR");
    PathBuf::from(here).join("../../target").join(folder)
}

/// The archive goes to the linker as it is, once per program: not bundled.
fn link(name: &str, directory: PathBuf, advice: &str) {
    let archive = directory.join(format!("lib{name}.a"));
    println!("cargo:rerun-if-changed={}", archive.display());
    if !archive.is_file() {
        eprintln!("{} is not there.\n{advice}", archive.display());
        exit(1);
    }
    println!("cargo:rustc-link-search=native={}", directory.display());
    println!("cargo:rustc-link-lib=static:-bundle={name}");
}

/// Where the proved archives are.
fn proved() -> PathBuf {
    let named = env::var_os("AURASKI_LIB_DIR").map(PathBuf::from);
    named.unwrap_or_else(|| target("staticlib"))
}

fn main() {
    println!("cargo:rerun-if-env-changed=AURASKI_LIB_DIR");
    println!("cargo:rerun-if-changed=build.rs");
    let advice = "Build it, or set AURASKI_LIB_DIR, or leave it out with --no-default-features.";
    if env::var_os("CARGO_FEATURE_METER").is_some() {
        link("meter", proved(), advice);
    }
    if env::var_os("CARGO_FEATURE_LIBRARY").is_some() {
        link("auraski", proved(), advice);
    }
    if env::var_os("CARGO_FEATURE_RIVAL").is_some() {
        link("rival", target("rival"), "tools/bench builds it.");
    }
}
