//! What the programs for files share: how a file is read, and how something is told.

use qirfadhun::limits::MOST_SECOND_BYTES;
use std::fmt::Display;
use std::fs::File;
use std::io::{self, Read, Write};
use std::path::Path;
use std::process::ExitCode;

/// The bytes of a file, as far as a sheet can go and one more.
pub fn read(path: &Path) -> io::Result<Vec<u8>> {
    let mut bytes = Vec::new();
    File::open(path)?.take(MOST_SECOND_BYTES as u64 + 1).read_to_end(&mut bytes)?;
    Ok(bytes)
}

/// The name of a file, in one line: what is no letter on a screen is spelled out.
pub fn name(path: &Path) -> String {
    let shown = |letter: char| if letter.is_control() { letter.escape_default().to_string() } else { letter.to_string() };
    path.display().to_string().chars().map(shown).collect()
}

pub fn about(path: &Path, what: impl Display) -> String {
    format!("{}: {what}", name(path))
}

/// Prints to standard output, and tells where that takes it no more.
pub fn say(text: &str) -> Result<(), String> {
    let mut output = io::stdout().lock();
    let said = output.write_all(text.as_bytes()).and_then(|()| output.flush());
    said.map_err(|error| format!("{}: not all of the text could be written: {error}", env!("CARGO_BIN_NAME")))
}

/// Prints to standard error, as far as it takes it.
pub fn complain(text: &str) {
    let _ = writeln!(io::stderr(), "{text}");
}

/// How a program ends: with 0, or with 2 once it was told why.
pub fn ended(done: Result<(), String>) -> ExitCode {
    match done {
        Ok(()) => ExitCode::SUCCESS,
        Err(why) => {
            complain(&why);
            ExitCode::from(2)
        }
    }
}
