//! Links the archive of the chosen service level, which `./archives` makes.

use std::env;
use std::path::PathBuf;

fn main() {
    let has = |feature: &str| env::var_os(format!("CARGO_FEATURE_{feature}")).is_some();
    let name = if has("SEARCH") {
        "peeriewick_search"
    } else if has("SURVEY") {
        "peeriewick_survey"
    } else {
        "peeriewick_state"
    };
    // a relative folder is one from here, the package's; the linker runs elsewhere
    let package = PathBuf::from(env::var_os("CARGO_MANIFEST_DIR").expect("cargo sets it"));
    let folder = match env::var_os("PEERIEWICK_ARCHIVES") {
        Some(folder) if !folder.is_empty() => package.join(folder),
        _ => package.join("../target/staticlib"),
    };
    let archive = folder.join(format!("lib{name}.a"));
    println!("cargo:rerun-if-env-changed=PEERIEWICK_ARCHIVES");
    println!("cargo:rerun-if-changed={}", archive.display());
    if !archive.exists() {
        panic!("{} is missing: run ./archives first, or name its folder in PEERIEWICK_ARCHIVES", archive.display());
    }
    println!("cargo:rustc-link-search=native={}", folder.display());
    println!("cargo:rustc-link-lib=static={name}");
}
