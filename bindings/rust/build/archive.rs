//! The folder that holds libnetkat.a.
//!
//! It is NETKAT_LIB_DIR if that is set, and the archive in it is taken as it is. Else it is target/staticlib of the project; there, an archive
//! that is missing, or older than a source of the project, is built: `rt lib`, in the folder of the crate `netkat_c`, makes it there.
//!
//! The project's oracle uses this file too.

use std::env;
use std::fs::{self, File};
use std::io::{self, ErrorKind, Write};
use std::path::{Path, PathBuf};
use std::process::Command;
use std::time::SystemTime;

const ARCHIVE: &str = "libnetkat.a";

/// The crate of the C functions, whose archive it is, and what `rt lib` makes in that crate's folder.
const CRATE: &str = "crates/netkat_c";
const MADE: &str = "out/libnetkat_c.a";

/// The folder, for a project at `root`; or a message that says what to do.
pub fn folder(root: &Path) -> Result<PathBuf, String> {
    println!("cargo:rerun-if-env-changed=NETKAT_LIB_DIR");
    let folder = match env::var_os("NETKAT_LIB_DIR").filter(|given| !given.is_empty()) {
        Some(given) => given_folder(given.into())?,
        None => project_folder(&root.canonicalize().unwrap_or(root.into()))?,
    };
    println!("cargo:rerun-if-changed={}", folder.join(ARCHIVE).display());
    Ok(folder)
}

fn given_folder(folder: PathBuf) -> Result<PathBuf, String> {
    if !folder.join(ARCHIVE).is_file() {
        let looked_at = std::path::absolute(&folder).unwrap_or(folder);
        return Err(format!("NETKAT_LIB_DIR leads to {}, but there is no {ARCHIVE} in it", looked_at.display()));
    }
    // The linker runs in another folder, so a relative path must be made absolute here.
    Ok(folder.canonicalize().unwrap_or(folder))
}

fn project_folder(root: &Path) -> Result<PathBuf, String> {
    if !["crates", "crates.txt"].iter().all(|source| root.join(source).exists()) {
        return Err(format!(
            "the package is not in its project, which builds {ARCHIVE}: set NETKAT_LIB_DIR to the folder that holds it"
        ));
    }
    let sources = sources(root).map_err(|error| format!("the project's sources could not be looked at: {error}"))?;
    for source in &sources {
        println!("cargo:rerun-if-changed={}", source.display());
    }
    let folder = root.join("target/staticlib");
    if let Some(reason) = reason_to_build(sources, &folder.join(ARCHIVE))? {
        build(root, &folder.join(ARCHIVE), &reason)?;
    }
    Ok(folder)
}

/// What the archive is built from, in the project: the list of crates, and what stands in their folders beside `out`, where rt keeps what it
/// makes.
fn sources(root: &Path) -> io::Result<Vec<PathBuf>> {
    let mut sources = vec![root.join("crates.txt")];
    for folder in fs::read_dir(root.join("crates"))? {
        for entry in fs::read_dir(folder?.path())? {
            let entry = entry?;
            if entry.file_name() != "out" {
                sources.push(entry.path());
            }
        }
    }
    Ok(sources)
}

/// Why the archive must be built, if it must.
fn reason_to_build(sources: Vec<PathBuf>, archive: &Path) -> Result<Option<String>, String> {
    let Ok(built) = modified(archive) else {
        return Ok(Some(format!("{} is not there", archive.display())));
    };
    let newer = newer_than(built, sources).map_err(|error| format!("the project's sources could not be looked at: {error}"))?;
    Ok(newer.map(|source| format!("{} is older than {}", archive.display(), source.display())))
}

/// A file among or below the paths that was modified later.
fn newer_than(time: SystemTime, mut paths: Vec<PathBuf>) -> io::Result<Option<PathBuf>> {
    while let Some(path) = paths.pop() {
        if path.is_dir() {
            for entry in fs::read_dir(path)? {
                paths.push(entry?.path());
            }
        } else if modified(&path)? > time {
            return Ok(Some(path));
        }
    }
    Ok(None)
}

fn modified(path: &Path) -> io::Result<SystemTime> {
    fs::metadata(path)?.modified()
}

fn build(root: &Path, archive: &Path, reason: &str) -> Result<(), String> {
    let started = SystemTime::now();
    let child = Command::new("rt").arg("lib").current_dir(root.join(CRATE)).spawn();
    let mut child = child.map_err(|error| match error.kind() {
        ErrorKind::NotFound => format!(
            "{reason}, and `rt`, which builds it, is not on the path. \
             Install the Rattle kit, or set NETKAT_LIB_DIR to the folder that holds {ARCHIVE}"
        ),
        _ => format!("{reason}, and `rt`, which builds it, could not be started: {error}"),
    })?;
    announce(&format!("{reason}: `rt lib` builds it, which takes some minutes if its proofs are not at hand"));
    let status = child.wait().map_err(|error| format!("`rt lib` could not be waited for: {error}"))?;
    if !status.success() {
        return Err(format!("`rt lib` failed in {}: {status}", root.join(CRATE).display()));
    }
    // The archive is as new as its sources were when the command began.
    let copied =
        archive.parent().map_or(Ok(()), fs::create_dir_all).and_then(|()| fs::copy(root.join(CRATE).join(MADE), archive));
    let touched = copied.and_then(|_| File::options().write(true).open(archive)).and_then(|file| file.set_modified(started));
    touched.map_err(|error| format!("`rt lib` ended well, but its archive could not be put at {}: {error}", archive.display()))
}

/// A warning of a build script is shown when the script has ended, so a terminal is told as well.
fn announce(message: &str) {
    println!("cargo:warning={message}");
    if let Ok(mut terminal) = File::options().write(true).open("/dev/tty") {
        let _ = writeln!(terminal, "\nnetkat: {message}");
    }
}
