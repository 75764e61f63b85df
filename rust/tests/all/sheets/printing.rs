//! The proved programs `verdicts` and `figures`, run on an input that comes in one piece or in several.

use crate::reference::{Form, BLOCK};
use std::io::{Read, Write};
use std::path::Path;
use std::process::{Child, Command, Output, Stdio};
use std::time::Duration;

/// Where a proved program is.
pub fn proved(name: &str) -> String {
    let path = format!("{}/../target/bin/{name}", env!("CARGO_MANIFEST_DIR"));
    assert!(Path::new(&path).exists(), "target/bin/{name} is missing: run `tools/build`");
    path
}

/// A proved program. Where the machine can't run it by itself, `QIRFADHUN_RUNNER` names the emulator that does.
pub fn program(name: &str) -> Command {
    match std::env::var_os("QIRFADHUN_RUNNER") {
        None => Command::new(proved(name)),
        Some(runner) => {
            let mut command = Command::new(runner);
            command.arg(proved(name));
            command
        }
    }
}

/// What a program printed to standard output and to standard error, and what it left of its input.
pub struct Ended {
    pub out: String,
    pub err: String,
    pub left: Vec<u8>,
}

impl Ended {
    /// What it printed and left, where nothing went wrong.
    pub fn well(self) -> (String, Vec<u8>) {
        assert_eq!(self.err, "", "the text is written");
        (self.out, self.left)
    }
}

/// What a program does with this standard output on an input in these pieces, each so long after the one before. The pipe stays open
/// here: what the program doesn't take is read from it afterwards.
pub fn run(name: &str, pieces: &[&[u8]], pause: Duration, out: impl Into<Stdio>) -> Ended {
    let (mut rest, mut input) = std::io::pipe().expect("a pipe");
    let own = rest.try_clone().expect("the pipe's other end");
    let running = program(name).stdin(own).stdout(out).stderr(Stdio::piped()).spawn().expect("the program starts");
    std::thread::scope(|scope| {
        scope.spawn(move || {
            for (number, piece) in pieces.iter().enumerate() {
                if number > 0 {
                    std::thread::sleep(pause);
                }
                input.write_all(piece).expect("the pipe takes the input");
            }
        });
        let (out, err) = ended(running);
        let mut left = Vec::new();
        rest.read_to_end(&mut left).expect("the rest of the input");
        Ended { out, err, left }
    })
}

/// What a program prints to standard output and to standard error until it ends, which it does by itself.
pub fn ended(running: Child) -> (String, String) {
    let Output { status, stdout, stderr } = running.wait_with_output().expect("the program ends");
    assert!(status.code().is_some(), "the program ends by itself: {status}");
    let [out, err] = [stdout, stderr].map(|text| String::from_utf8_lossy(&text).into_owned());
    (out, err)
}

/// What a program prints for these bytes, and what it leaves of them.
pub fn printed_by(name: &str, input: &[u8]) -> (String, Vec<u8>) {
    run(name, &[input], Duration::ZERO, Stdio::piped()).well()
}

/// What `verdicts` prints for the bytes of a sheet.
pub fn printed(sheet: &[u8]) -> String {
    let (text, left) = printed_by("verdicts", sheet);
    // It needn't take all of a sheet that is too long.
    assert!(left.is_empty() || sheet.len() > Form::of(sheet).blocks * BLOCK, "the program takes the sheet");
    text
}
