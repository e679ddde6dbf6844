//! Finds the proved archive and links it.
use std::env;
use std::path::PathBuf;
use std::process::exit;

fn main() {
    println!("cargo:rerun-if-changed=build.rs");
    println!("cargo:rerun-if-env-changed=WESALONDO_LIB");
    // On another target there is nothing to link, and lib.rs says so.
    if !is_target("CARGO_CFG_TARGET_ARCH", "x86_64") || !is_target("CARGO_CFG_TARGET_OS", "linux") {
        return;
    }
    // An absolute path: rustc may run in another folder than this script.
    let folder = folder();
    let folder = folder.canonicalize().unwrap_or(folder);
    let archive = folder.join("libwesalondo.a");
    println!("cargo:rerun-if-changed={}", archive.display());
    if !archive.is_file() {
        eprintln!(
            "{} is not there: run `tools/build wesalondo` in the repository, or set WESALONDO_LIB to the folder that has libwesalondo.a.",
            archive.display()
        );
        exit(1);
    }
    println!("cargo:rustc-link-search=native={}", folder.display());
    println!("cargo:rustc-link-lib=static=wesalondo");
}

fn is_target(name: &str, value: &str) -> bool {
    env::var(name).is_ok_and(|found| found == value)
}

/// The folder that the caller names, or the one in which the repository makes the archive.
fn folder() -> PathBuf {
    let crate_folder = PathBuf::from(env::var_os("CARGO_MANIFEST_DIR").unwrap_or_default());
    match env::var_os("WESALONDO_LIB") {
        Some(named) => PathBuf::from(named),
        None => crate_folder.join("../../target/staticlib"),
    }
}
