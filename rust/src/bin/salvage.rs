//! Salvages a sheet whose colouring is damaged: says which regions lost their sectors, with what each was given and why, and writes
//! a sound sheet to a new file.
//!
//! `cargo run --bin salvage spoiled.sheet sound.sheet`
//!
//! It ends with 0 exactly when the new file is there, and else with 2. No file is written over. The sheet goes to another new file
//! beside it, `salvage-N-N.tmp`, is read back and read by the library once more, and is given its name only then, so that what has
//! the name is whole. Nothing else is left behind, unless the program is stopped or the stick is pulled out.
//!
//! All that is lost is said before the file is given its name. Where it can't be said, as to a pipe that is closed, nothing is
//! written: no sheet goes round whose sectors were given and nobody was told. Where only the last line can't be said, the file stays,
//! and standard error says so.

mod telling;

use qirfadhun::{lists, Lost, Refusal, Salvage};
use std::ffi::OsString;
use std::fs::{self, File};
use std::io::{self, ErrorKind, Write};
use std::path::{Path, PathBuf};
use std::process::ExitCode;
use telling::{about, complain, ended, name, read, say};

const USAGE: &str = "usage: salvage IN OUT

IN is a sheet whose colouring is damaged. OUT is a new file: a sound sheet is written to
it, and each region that lost its sector is named, with the sector that it was given and
why. What is given is a guess, not what was drawn. The status is 0 when OUT is written.
Else it is 2, and OUT is not there: IN can't be read or is refused, or OUT is there already
or can't be written. Where it is stopped in the middle, a file salvage-NUMBER-NUMBER.tmp
may be left beside OUT, which can be deleted.
";

const THERE: &str = "there is such a file or folder already, and it stays as it is. Name one that is not there.";

fn main() -> ExitCode {
    let arguments: Vec<OsString> = std::env::args_os().skip(1).collect();
    ended(match &arguments[..] {
        [one] if one == "--help" || one == "-h" => say(USAGE),
        [from, to] => salvage(Path::new(from), Path::new(to)).map_err(|why| format!("{why}\nNothing was written.")),
        _ => Err(USAGE.trim_end().to_string()),
    })
}

/// Salvages one file to another, or tells why not.
fn salvage(from: &Path, to: &Path) -> Result<(), String> {
    let sheet = read(from).map_err(|error| about(from, error))?;
    let salvage = qirfadhun::salvage(&sheet).map_err(|refusal| about(from, refused(refusal)))?;
    let lost = salvage.lost().map_err(|untraced| about(from, untraced))?;
    let written = Unnamed::write(to, salvage.bytes()).map_err(|error| about(to, error))?;
    say(&about(from, report(&salvage, &lost)))?;
    written.name(to).map_err(|error| about(to, error))?;
    if let Err(why) = say(&about_written(from, to, &salvage)) {
        complain(&format!("{why}\n{} is written.", name(to)));
    }
    Ok(())
}

/// How many regions lost their sectors, and which; a line for each that was given a neighbour's, and one for all others.
fn report(salvage: &Salvage, lost: &[Lost]) -> String {
    let regions = salvage.plan().regions().len();
    let all = runs(lost.iter());
    let mut text =
        match lost.len() {
            0 => return format!(
                "each of {regions} regions has a sector, and none had to be given. A sheet that was salvaged before looks the same.\n"
            ),
            1 => format!("1 of {regions} regions has lost its sector: {all}.\n"),
            count => format!("{count} of {regions} regions have lost their sectors: {all}.\n"),
        };
    let (beside, alone): (Vec<&Lost>, Vec<&Lost>) = lost.iter().partition(|one| one.neighbour().is_some());
    for one in beside {
        text += &format!("{one}\n");
    }
    match alone[..] {
        [] => {}
        [one] => text += &format!("{one}\n"),
        _ => {
            let all = runs(alone.into_iter());
            text += &format!("Regions {all} are in sector 1 now, since none of them has a neighbour whose sector survived.\n");
        }
    }
    text
}

/// The regions of a list in increasing order, as in 1-3, 7.
fn runs<'a>(lost: impl Iterator<Item = &'a Lost>) -> String {
    let mut runs: Vec<(u64, u64)> = Vec::new();
    for number in lost.map(|one| one.region().get()) {
        match runs.last_mut() {
            Some((_, last)) if *last + 1 == number => *last = number,
            _ => runs.push((number, number)),
        }
    }
    let texts = runs.into_iter().map(|(first, last)| if first == last { format!("{first}") } else { format!("{first}-{last}") });
    texts.collect::<Vec<_>>().join(", ")
}

/// That the file is there, and what to think of it.
fn about_written(from: &Path, to: &Path, salvage: &Salvage) -> String {
    let (to, bytes) = (name(to), salvage.bytes().len());
    match salvage.is_whole() {
        true => format!("{to} is written, {bytes} bytes, the same as in {}.\n", name(from)),
        false => {
            format!("{to} is written, {bytes} bytes, and can be read. What is given above is a guess, not what was drawn.\n")
        }
    }
}

/// A refusal with all that the list of codes says of it. One of a block is never of the colouring's.
fn refused(refusal: Refusal) -> String {
    let more = match refusal.code {
        32..=36 => " Only the colouring can be salvaged, and this block is none of it.",
        _ => " Only a damaged colouring can be salvaged.",
    };
    format!("{refusal}.\nWhat it means: {}.{more}\nWhat to do: {}.", refusal.meaning(), refusal.remedy())
}

/// A new file that has another name than it is to be given. That name goes, and the file with it where it has no other.
struct Unnamed {
    path: PathBuf,
    renamed: bool,
}

impl Unnamed {
    /// The file of a sound sheet, in the folder that it stays in. It is stored, and what it has was read back.
    fn write(to: &Path, sheet: &[u8]) -> Result<Self, String> {
        if to.symlink_metadata().is_ok() {
            return Err(THERE.to_string());
        }
        if to.as_os_str().as_encoded_bytes().last().is_none_or(|&end| end == b'/') {
            return Err("no file can have this name.".to_string());
        }
        let (unnamed, file) = Unnamed::new(folder(to)).map_err(|error| error.to_string())?;
        let back = unnamed.fill(file, sheet).map_err(|error| error.to_string())?;
        if back != sheet {
            return Err("what is read back is not what was written.".to_string());
        }
        lists::Sheet::new(&back).map_err(refused)?;
        Ok(unnamed)
    }

    /// A file with a name that no file in the folder has.
    fn new(folder: &Path) -> io::Result<(Self, File)> {
        let mut number = 0;
        loop {
            let path = folder.join(format!("salvage-{}-{number}.tmp", std::process::id()));
            match File::create_new(&path) {
                Err(error) if error.kind() == ErrorKind::AlreadyExists && number < 100 => number += 1,
                created => return created.map(|file| (Unnamed { path, renamed: false }, file)),
            }
        }
    }

    /// Writes these bytes to the file, has them stored, and reads them back.
    fn fill(&self, mut file: File, bytes: &[u8]) -> io::Result<Vec<u8>> {
        file.write_all(bytes)?;
        file.sync_all()?;
        drop(file);
        read(&self.path)
    }

    /// Gives the file its name, unless a file has that. The name is one more of the whole file, so that nothing half done has it; a
    /// memory stick that doesn't know of two names for one file has it renamed instead, after one more look that none is there.
    fn name(mut self, to: &Path) -> io::Result<()> {
        if let Err(error) = fs::hard_link(&self.path, to) {
            if error.kind() == ErrorKind::AlreadyExists || to.symlink_metadata().is_ok() {
                return Err(io::Error::new(ErrorKind::AlreadyExists, THERE));
            }
            fs::rename(&self.path, to)?;
            self.renamed = true;
        }
        let stored = store_names(folder(to));
        if stored.is_err() {
            remove(to);
        }
        stored
    }
}

impl Drop for Unnamed {
    fn drop(&mut self) {
        if !self.renamed {
            remove(&self.path);
        }
    }
}

/// Removes a file that was made here.
fn remove(path: &Path) {
    if let Err(error) = fs::remove_file(path) {
        complain(&about(path, format!("it could not be removed: {error}")));
    }
}

/// The folder that a file is in.
fn folder(path: &Path) -> &Path {
    match path.parent() {
        Some(folder) if folder != Path::new("") => folder,
        _ => Path::new("."),
    }
}

/// Has the names in a folder stored, where the system can do that of a folder.
fn store_names(folder: &Path) -> io::Result<()> {
    let Ok(folder) = File::open(folder) else { return Ok(()) };
    match folder.sync_all() {
        Err(error) if !matches!(error.kind(), ErrorKind::InvalidInput | ErrorKind::Unsupported) => Err(error),
        _ => Ok(()),
    }
}
