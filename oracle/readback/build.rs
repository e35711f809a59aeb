//! Copies the original's files, its parser among them.
#[path = "../seeds.rs"]
mod seeds;

fn main() {
    seeds::copy(&["expr", "desugar", "parser"]);
    for file in ["build.rs", "../seeds.rs"] {
        println!("cargo::rerun-if-changed={file}");
    }
}
