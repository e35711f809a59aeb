//! Copies the original's files, and links libnetkat.a from NETKAT_LIB_DIR, or from target/staticlib of the project, where it is built if it is
//! missing or stale.
#[path = "../bindings/rust/build/archive.rs"]
mod archive;
mod seeds;

use std::{env, path::Path};

fn main() {
    seeds::copy(&["expr", "desugar"]);
    for file in ["build.rs", "seeds.rs", "../bindings/rust/build/archive.rs"] {
        println!("cargo::rerun-if-changed={file}");
    }
    let project = format!("{}/..", env::var("CARGO_MANIFEST_DIR").unwrap());
    let library = archive::folder(Path::new(&project)).unwrap_or_else(|message| seeds::fail(message));
    println!("cargo::rustc-link-search=native={}", library.display());
    println!("cargo::rustc-link-lib=static=netkat");
}
