//! Links the library's archives. They stand in the folder that SULANDIRO_ARCHIVES names, else in
//! `target/staticlib` of the project around this crate, where `tools/archives` puts them.

use std::env;
use std::path::PathBuf;
use std::process::exit;

const FOLDER: &str = "SULANDIRO_ARCHIVES";
const PARTS: [&str; 6] = [
    "rebuild", "unroll", "property", "edge", "build", "read",
];

fn main() {
    demand_x86_64();
    println!("cargo:rerun-if-env-changed={FOLDER}");
    let folder = folder();
    println!("cargo:rustc-link-search=native={}", folder.display());
    for part in PARTS {
        let archive = folder.join(format!("libsulandiro_{part}.a"));
        println!("cargo:rerun-if-changed={}", archive.display());
        println!("cargo:rustc-link-lib=static=sulandiro_{part}");
    }
}

/// For another target the link would fail without a clear word, if at all.
fn demand_x86_64() {
    let target = ["ARCH", "POINTER_WIDTH", "OS"]
        .map(|part| env::var(format!("CARGO_CFG_TARGET_{part}")).unwrap_or_default());
    if target != ["x86_64", "64", "linux"] {
        let triple = env::var("TARGET").unwrap_or_default();
        eprintln!("the archives are for 64-bit x86-64 Linux, and this is compiled for {triple}");
        exit(1);
    }
}

fn folder() -> PathBuf {
    let given = env::var_os(FOLDER).map(PathBuf::from);
    given.unwrap_or_else(|| {
        let here = env::var_os("CARGO_MANIFEST_DIR").expect("cargo names the crate's folder");
        PathBuf::from(here).join("../target/staticlib")
    })
}
