//! Links the proved archive `libscreen.a`. It is never proved from here: that takes minutes, in which cargo shows nothing of what a
//! build script says. Where the archive is missing, is none, or is older than a file that it is proved from, the build ends and
//! names the command.
//!
//! Older goes by times of modification, as cargo's own rule does. `tools/build` writes the archive anew each time that it proves,
//! and leaves the one before where it doesn't. The folders `out` of the crates are not looked at: `rt` makes them. Without `crates/`
//! beside it, nothing is newer than the archive. All places are relative to the crate, and the archive is linked from a copy in
//! cargo's own folder, so that a copied tree doesn't link the archive of the tree it was copied from.

use std::fs;
use std::path::{Path, PathBuf};
use std::time::SystemTime;

const COMMAND: &str = "run `tools/build` in the repository first";

fn main() {
    let archive = Path::new("../target/staticlib/libscreen.a");
    let sources = sources();
    if let Err(fault) = held_to(&sources, archive) {
        println!("cargo::error={} {fault}: {COMMAND}", archive.display());
        return;
    }
    let folder = std::env::var("OUT_DIR").expect("cargo names a folder");
    fs::copy(archive, Path::new(&folder).join("libscreen.a")).expect("the folder can be written");
    println!("cargo::rustc-link-search=native={folder}");
    println!("cargo::rustc-link-lib=static=screen");
    for looked_at in sources.iter().map(PathBuf::as_path).chain([archive]) {
        println!("cargo::rerun-if-changed={}", looked_at.display());
    }
}

/// The list of the crates, and all of each crate but what `rt` makes of it.
fn sources() -> Vec<PathBuf> {
    let parts = inside(Path::new("../crates")).into_iter().flat_map(|folder| inside(&folder));
    [PathBuf::from("../crates.txt")].into_iter().chain(parts.filter(|path| !path.ends_with("out"))).collect()
}

/// What is in a folder; nothing where there is none.
fn inside(folder: &Path) -> Vec<PathBuf> {
    fs::read_dir(folder).into_iter().flatten().flatten().map(|entry| entry.path()).collect()
}

/// In words, what is wrong with the archive of these sources.
fn held_to(sources: &[PathBuf], archive: &Path) -> Result<(), String> {
    let (Ok(bytes), Some(proved)) = (fs::read(archive), modified(archive)) else { return Err("is missing".into()) };
    let name = b"sctr_call\0";
    if !bytes.starts_with(b"!<arch>\n") || !bytes.windows(name.len()).any(|part| part == name) {
        return Err("is no archive with `sctr_call`".into());
    }
    match sources.iter().find_map(|path| changed_after(proved, path)) {
        None => Ok(()),
        Some(newer) => Err(format!("is older than {}", newer.display())),
    }
}

/// A file here that the archive is proved from, and that was changed after this time.
fn changed_after(time: SystemTime, path: &Path) -> Option<PathBuf> {
    if path.is_dir() {
        return inside(path).iter().find_map(|path| changed_after(time, path));
    }
    let proved_from = path.extension().is_some_and(|ending| ["rt", "antt", "txt"].iter().any(|due| ending == *due));
    (proved_from && modified(path)? > time).then(|| path.to_owned())
}

fn modified(path: &Path) -> Option<SystemTime> {
    fs::metadata(path).ok()?.modified().ok()
}
