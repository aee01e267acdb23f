//! Links the static library `libcapi.a`: from the directory that the variable RASCLANYA_LIB_DIR names, as it is there, or else from the
//! repository's `target/staticlib`, to which `tools/archive` writes it where it is missing or older than what it is made from.

use std::env;
use std::fmt::Display;
use std::fs;
use std::io;
use std::path::{Path, PathBuf};
use std::process::{exit, Command};
use std::time::SystemTime;

const DIR_VARIABLE: &str = "RASCLANYA_LIB_DIR";
const ARCHIVE: &str = "libcapi.a";

/// Ends the build with a message.
fn stop(message: impl Display) -> ! {
    eprintln!("rasclanya: {message}");
    eprintln!("rasclanya: {DIR_VARIABLE} can name a directory whose {ARCHIVE} is linked as it is");
    exit(1)
}

/// The repository's root, two directories above this crate's.
fn repository() -> PathBuf {
    let Some(manifest_dir) = env::var_os("CARGO_MANIFEST_DIR") else {
        stop("cargo does not say where the crate is");
    };
    match Path::new(&manifest_dir).ancestors().nth(2) {
        Some(root) => root.to_path_buf(),
        None => stop("the crate does not stand in its repository"),
    }
}

/// The Rattle crates that the archive is made from, by the lines `crate: what it uses` of crates.txt, where a word may stand behind the crate:
/// those with the calls, which are named `c_..`, and all that they use.
fn archive_crates(table: &str) -> Vec<&str> {
    let lines = || {
        let lines = table.lines().filter_map(|line| line.split_once(':'));
        lines.filter_map(|(name, used)| Some((name.split_whitespace().next()?, used)))
    };
    let mut names: Vec<&str> = lines()
        .map(|(name, _)| name)
        .filter(|name| name.starts_with("c_"))
        .collect();
    let mut done = 0;
    while done < names.len() {
        let uses = lines().find(|(name, _)| *name == names[done]);
        for used in uses.map_or("", |(_, used)| used).split_whitespace() {
            if !names.contains(&used) {
                names.push(used);
            }
        }
        done += 1;
    }
    names
}

/// When a file, or a directory or anything in it, was last changed.
fn changed(path: &Path) -> io::Result<SystemTime> {
    let about = fs::metadata(path)?;
    let mut last = about.modified()?;
    if about.is_dir() {
        for entry in fs::read_dir(path)? {
            last = last.max(changed(&entry?.path())?);
        }
    }
    Ok(last)
}

/// What the archive is made from: what a proof leaves beside it in a crate's folder is no part of that.
fn sources(root: &Path) -> io::Result<Vec<PathBuf>> {
    let table = root.join("crates.txt");
    let text = fs::read_to_string(&table)?;
    let parts = archive_crates(&text).into_iter().flat_map(|name| {
        let home = root.join("crates").join(name);
        ["src", "specs", "proofs"].map(|part| home.join(part))
    });
    let mut sources = vec![table, root.join("tools/archive")];
    sources.extend(parts.filter(|part| part.exists()));
    Ok(sources)
}

/// When the last of these was changed.
fn last_changed(sources: &[PathBuf]) -> io::Result<SystemTime> {
    let mut last = SystemTime::UNIX_EPOCH;
    for source in sources {
        last = last.max(changed(source)?);
    }
    Ok(last)
}

/// Proves the crates with the calls and writes the archive, which then has the date of what it is made from: a source that changes during the
/// run is newer than it, and cargo does not take it for a file that changed after this script began.
fn make_archive(root: &Path, archive: &Path, date: SystemTime) -> io::Result<()> {
    let status = Command::new(root.join("tools/archive")).status()?;
    if !status.success() {
        return Err(io::Error::other(status.to_string()));
    }
    fs::File::options()
        .write(true)
        .open(archive)?
        .set_modified(date)
}

/// The repository's directory of archives, with an archive that is made from what the repository has.
fn made_dir() -> PathBuf {
    let root = repository();
    let (sources, date) = sources(&root)
        .and_then(|sources| last_changed(&sources).map(|date| (sources, date)))
        .unwrap_or_else(|error| stop(format_args!("the archive's sources: {error}")));
    for source in &sources {
        println!("cargo:rerun-if-changed={}", source.display());
    }
    let dir = root.join("target/staticlib");
    let archive = dir.join(ARCHIVE);
    if !changed(&archive).is_ok_and(|made| made >= date) {
        make_archive(&root, &archive, date).unwrap_or_else(|error| {
            stop(format_args!(
                "`tools/archive`, which needs `rt`, failed: {error}"
            ))
        });
    }
    dir
}

fn main() {
    println!("cargo:rerun-if-env-changed={DIR_VARIABLE}");
    let dir = env::var_os(DIR_VARIABLE).map_or_else(made_dir, PathBuf::from);
    let archive = dir.join(ARCHIVE);
    if !archive.is_file() {
        stop(format_args!("there is no {}", archive.display()));
    }
    println!("cargo:rerun-if-changed={}", archive.display());
    println!("cargo:rustc-link-search=native={}", dir.display());
    println!("cargo:rustc-link-lib=static=capi");
}
