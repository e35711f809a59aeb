//! The original's files, for build scripts: copied, unchanged, from the folder ORACLE_SEEDS to OUT_DIR, where modules.rs declares them for
//! main.rs to include.
use std::{env, fs, path::Path, process::exit};

pub fn fail(message: String) -> ! {
    println!("cargo::error={message}");
    exit(1)
}

/// Copies the files of these names.
pub fn copy(names: &[&str]) {
    println!("cargo::rerun-if-env-changed=ORACLE_SEEDS");
    let Ok(seeds) = env::var("ORACLE_SEEDS") else {
        fail(format!("ORACLE_SEEDS is not set: it names the folder with the original's {}.rs", names.join(".rs, ")))
    };
    let out = env::var("OUT_DIR").unwrap();
    let mut modules = String::new();
    for name in names {
        let files = [format!("{seeds}/{name}.rs"), format!("{seeds}/src--src--{name}.rs.txt")];
        let Some(from) = files.iter().find(|f| Path::new(f).exists()) else {
            fail(format!("the original is not in ORACLE_SEEDS: neither {} nor {}", files[0], files[1]))
        };
        println!("cargo::rerun-if-changed={from}");
        let to = format!("{out}/{name}.rs");
        if let Err(e) = fs::copy(from, &to) {
            fail(format!("{from}: {e}"))
        }
        modules.push_str(&format!("#[allow(warnings)] #[path = {to:?}] pub mod {name};\n"));
    }
    fs::write(format!("{out}/modules.rs"), modules).unwrap();
}
