//! Finds libnetkat.a, builds it if need be, and links it.

mod archive;

use std::env;
use std::path::Path;
use std::process::exit;

fn main() {
    println!("cargo:rerun-if-changed=build");
    let target = |name: &str| env::var(format!("CARGO_CFG_TARGET_{name}")).unwrap_or_default();
    if (target("ARCH").as_str(), target("OS").as_str()) != ("x86_64", "linux") {
        println!("cargo:warning=libnetkat.a is built for Linux on x86-64, and not for this target");
    }
    let manifest = env::var_os("CARGO_MANIFEST_DIR").expect("cargo sets CARGO_MANIFEST_DIR");
    match archive::folder(&Path::new(&manifest).join("../..")) {
        Ok(folder) => {
            println!("cargo:rustc-link-search=native={}", folder.display());
            println!("cargo:rustc-link-lib=static=netkat");
        }
        Err(message) => {
            eprintln!("netkat: {message}");
            exit(1);
        }
    }
}
