//! A person's program run on files, in a folder of its own.

use std::ffi::{OsStr, OsString};
use std::fs;
use std::path::{Path, PathBuf};
use std::process::{Child, Command, Output, Stdio};

/// A folder of a test's own, which goes with it.
pub struct Folder {
    pub path: PathBuf,
    program: &'static str,
}

impl Folder {
    /// The folder for a program, with these files in it.
    pub fn new(program: &'static str, name: &str, files: &[(&str, &[u8])]) -> Self {
        let own = Path::new(program).file_name().expect("a program").to_string_lossy();
        let path = Path::new(env!("CARGO_TARGET_TMPDIR")).join(format!("{own}-{name}-{}", std::process::id()));
        fs::create_dir_all(&path).expect("a folder");
        for (name, bytes) in files {
            fs::write(path.join(name), bytes).expect("a file");
        }
        Folder { path, program }
    }

    pub fn read(&self, name: impl AsRef<OsStr>) -> Vec<u8> {
        fs::read(self.path.join(name.as_ref())).expect("a file")
    }

    pub fn names(&self) -> Vec<OsString> {
        let mut names: Vec<_> =
            self.path.read_dir().expect("the folder").map(|entry| entry.expect("a file").file_name()).collect();
        names.sort();
        names
    }

    /// The program, run in this folder. Where the machine can't run it by itself, `QIRFADHUN_RUNNER` names the emulator that does.
    pub fn program(&self) -> Command {
        self.command([])
    }

    /// The program, run in this folder by a shell that does this first.
    pub fn program_after(&self, first: &str) -> Command {
        self.command(["sh", "-c", &format!("{first}; exec \"$@\""), "sh"])
    }

    fn command<const N: usize>(&self, before: [&str; N]) -> Command {
        let runner = std::env::var_os("QIRFADHUN_RUNNER");
        let mut words = before.map(OsString::from).into_iter().chain(runner).chain([self.program.into()]);
        let mut command = Command::new(words.next().expect("a program"));
        command.args(words).current_dir(&self.path);
        command
    }

    pub fn run(&self, arguments: &[&str]) -> Ended {
        Ended::of(self.program().args(arguments))
    }
}

impl Drop for Folder {
    fn drop(&mut self) {
        let _ = fs::remove_dir_all(&self.path);
    }
}

/// The status, and what was printed to standard output and to standard error.
#[derive(Debug, PartialEq)]
pub struct Ended(pub i32, pub String, pub String);

impl Ended {
    pub fn of(command: &mut Command) -> Self {
        Ended::with_output(command, Stdio::piped())
    }

    /// With another standard output, of which nothing is seen here.
    pub fn with_output(command: &mut Command, out: impl Into<Stdio>) -> Self {
        let started = command.stdin(Stdio::null()).stdout(out).stderr(Stdio::piped()).spawn();
        let Output { status, stdout, stderr } = started.and_then(Child::wait_with_output).expect("the program ends");
        let [out, err] = [stdout, stderr].map(|text| String::from_utf8(text).expect("a text"));
        Ended(status.code().expect("the program ends by itself"), out, err)
    }

    pub fn with(status: i32, out: &str, err: &str) -> Self {
        Ended(status, out.to_string(), err.to_string())
    }
}
