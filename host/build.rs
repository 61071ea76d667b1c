//! Links out/MACHINE/libpageledger.a of the project, which its ./build writes.
use std::{env, path::Path};

fn main() {
    let wanted = |name: &str| env::var(name).unwrap_or_default();
    let folder = match (wanted("CARGO_CFG_TARGET_ARCH").as_str(), wanted("CARGO_CFG_TARGET_OS").as_str()) {
        ("x86_64", "linux") => "x86_64-linux",
        ("aarch64", "linux") => "aarch64-linux",
        ("aarch64", "none") => "aarch64-none-elf",
        (machine, system) => panic!("pageledger: there is no library for {machine} {system}"),
    };
    let place = Path::new(&wanted("CARGO_MANIFEST_DIR")).join("../out").join(folder);
    let library = place.join("libpageledger.a");
    println!("cargo:rerun-if-changed={}", library.display());
    if !library.is_file() {
        panic!("pageledger: there is no {}: run ./build at the top of the project first", library.display());
    }
    println!("cargo:rustc-link-search=native={}", place.display());
    println!("cargo:rustc-link-lib=static=pageledger");
}
