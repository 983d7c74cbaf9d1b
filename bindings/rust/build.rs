//! Finds the static library: in `POLZAINTU_LIB_DIR`, otherwise where `rt lib` in
//! crates/polzaintu writes it.

use std::path::PathBuf;
use std::{env, process};

fn main() {
    println!("cargo:rerun-if-env-changed=POLZAINTU_LIB_DIR");
    let folder = env::var_os("POLZAINTU_LIB_DIR").map_or_else(written_by_rt, PathBuf::from);
    let archive = folder.join("libpolzaintu.a");
    println!("cargo:rerun-if-changed={}", archive.display());
    if !archive.is_file() {
        eprintln!("there is no {}", archive.display());
        eprintln!("`rt lib`, in crates/polzaintu of the repository, writes it;");
        eprintln!("POLZAINTU_LIB_DIR names another folder that has it");
        process::exit(1);
    }
    println!("cargo:rustc-link-search=native={}", folder.display());
    println!("cargo:rustc-link-lib=static=polzaintu");
}

fn written_by_rt() -> PathBuf {
    let package = env::var_os("CARGO_MANIFEST_DIR").expect("cargo sets the package's folder");
    PathBuf::from(package).join("../../crates/polzaintu/out")
}
