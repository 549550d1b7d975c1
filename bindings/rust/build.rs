//! Links the static library that `rt lib` wrote in `crates/kozamyure`. KOZAMYURE_LIB names its folder, by a whole path, where it is another.
use std::path::Path;

fn main() {
    let folder = std::env::var("KOZAMYURE_LIB")
        .unwrap_or_else(|_| format!("{}/../../crates/kozamyure/out", env!("CARGO_MANIFEST_DIR")));
    let archive = format!("{folder}/libkozamyure.a");
    if !Path::new(&archive).is_file() {
        println!("cargo:warning={archive} is missing: `rt lib` in crates/kozamyure writes it, and KOZAMYURE_LIB names its folder where it is another");
    }
    println!("cargo:rustc-link-search=native={folder}");
    println!("cargo:rustc-link-lib=static=kozamyure");
    println!("cargo:rerun-if-changed={archive}");
    println!("cargo:rerun-if-env-changed=KOZAMYURE_LIB");
}
