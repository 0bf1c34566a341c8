//! Links the static library that Bench is built to: the one in the folder BENCH_LIB_DIR, or that of
//! the repository around this crate.

use std::path::PathBuf;

fn main() {
    println!("cargo:rerun-if-env-changed=BENCH_LIB_DIR");
    let named = folder("BENCH_LIB_DIR");
    // A build script runs in the folder of its crate, where nobody looks for the library.
    if named.as_ref().is_some_and(|folder| folder.is_relative()) {
        stop("BENCH_LIB_DIR is a relative path; it takes a whole one.");
    }
    let folder = named.clone().unwrap_or_else(around);
    let archive = folder.join("libbench.a");
    println!("cargo:rerun-if-changed={}", archive.display());
    if !archive.exists() && named.is_some() {
        stop("BENCH_LIB_DIR names a folder without libbench.a.");
    }
    if !archive.exists() {
        stop(
            "target/staticlib/libbench.a is missing: `tools/library`, run at the root of the repository, makes it.\n\
             Elsewhere, BENCH_LIB_DIR names the folder that has it.",
        );
    }
    println!("cargo:rustc-link-search=native={}", folder.display());
    println!("cargo:rustc-link-lib=static=bench");
}

/// The folder of the library in the repository around this crate: where the crate lies as the script
/// runs. Where it lay as the script was compiled is another place once the target folder is copied.
fn around() -> PathBuf {
    let Some(crate_folder) = folder("CARGO_MANIFEST_DIR") else {
        stop("CARGO_MANIFEST_DIR isn't set, which cargo sets: run the build script by cargo, or set BENCH_LIB_DIR.");
    };
    crate_folder.join("../../target/staticlib")
}

/// The folder that a variable of the environment names.
fn folder(variable: &str) -> Option<PathBuf> {
    std::env::var_os(variable).map(PathBuf::from)
}

fn stop(says: &str) -> ! {
    eprintln!("{says}");
    std::process::exit(1);
}
