//! Shows the figures over many sheets in words, with the names of the files, and which of them are refused and why.
//!
//! `cargo run --bin review ../sheets/*.sheet`
//!
//! The figures are those of the proved program `figures`, to which the files go as one input. The library judges each file besides, and
//! the figures are held to that. It ends with 0 exactly when all was written, and else with 2.

mod telling;

use qirfadhun::limits::{MOST_SECOND_BYTES, MOST_SHEETS};
use qirfadhun::{Board, Extreme, Kind, Refusal, Review, Unfit};
use std::ffi::OsString;
use std::io::Write;
use std::path::{Path, PathBuf};
use std::process::{Command, ExitCode, Output, Stdio};
use telling::{about, ended, read, say};

const USAGE: &str = "usage: review [--figures PROGRAM] FILE...

Each FILE is a sheet, sound or not, of 1 to 74 blocks of 512 bytes. There are at most 1000.
What the proved program `figures` counts over all of them is shown in words, and each FILE
that is refused is named with the reason. PROGRAM is where `figures` is; without it, it is
looked for beside this program, and then where `tools/build` puts it. The status is 0 when
all was shown. Else it is 2, and nothing is shown: a FILE can't be read or is no such sheet,
or `figures` is not there, or it doesn't count what the library does.
";

fn main() -> ExitCode {
    let arguments: Vec<OsString> = std::env::args_os().skip(1).collect();
    let option = |word: &OsString| word.as_encoded_bytes().starts_with(b"-");
    ended(match &arguments[..] {
        [one] if one == "--help" || one == "-h" => say(USAGE),
        [one, program, files @ ..] if one == "--figures" && !files.is_empty() => review(Some(Path::new(program)), files),
        [one, ..] if !option(one) => review(None, &arguments),
        _ => Err(USAGE.trim_end().to_string()),
    })
}

/// Shows the figures over these files, or tells why not.
fn review(program: Option<&Path>, files: &[OsString]) -> Result<(), String> {
    let files: Vec<&Path> = files.iter().map(Path::new).collect();
    let text = shown(program, &files).map_err(|why| format!("{why}\nNothing is shown."))?;
    say(&text)
}

/// The sentences of the figures, and one for each file that is refused.
fn shown(program: Option<&Path>, files: &[&Path]) -> Result<String, String> {
    let sheets = sheets(files)?;
    let input = Review::input_of(&sheets).map_err(|unfit| unfit.to_string())?;
    let program = found(program)?;
    let printed = printed(&program, &input).map_err(|why| about(&program, why))?;
    let review: Review = printed.parse().map_err(|unread| about(&program, unread))?;
    let judged = Judged::of(&sheets);
    judged.hold(&review).map_err(|why| about(&program, why))?;
    let name = |sheet: u64| telling::name(files[sheet as usize - 1]);
    let mut text = review.with_names(name) + "\n";
    for (sheet, refusal) in judged.refusals {
        text += &format!("Sheet {sheet}, {}: {refusal}.\n", name(sheet));
    }
    Ok(text)
}

/// The bytes of the files; or of each that can't be handed over why.
fn sheets(files: &[&Path]) -> Result<Vec<Vec<u8>>, String> {
    if files.len() > MOST_SHEETS {
        return Err(Unfit::Sheets(files.len()).to_string());
    }
    let (sheets, faults): (Vec<_>, Vec<_>) = files.iter().map(|path| sheet(path)).partition(Result::is_ok);
    match faults.is_empty() {
        true => Ok(sheets.into_iter().flatten().collect()),
        false => Err(faults.into_iter().filter_map(Result::err).collect::<Vec<_>>().join("\n")),
    }
}

fn sheet(path: &Path) -> Result<Vec<u8>, String> {
    let bytes = read(path).map_err(|error| about(path, error))?;
    match Review::input_of(&[&bytes]) {
        Ok(_) => Ok(bytes),
        Err(_) if bytes.is_empty() => Err(about(path, "this is no sheet: it is empty.")),
        Err(_) if bytes.len() > MOST_SECOND_BYTES => {
            Err(about(path, "this is no sheet: it has more than 74 blocks of 512 bytes."))
        }
        Err(_) => {
            Err(about(path, format!("this is no sheet: its length, {}, is not in whole blocks of 512 bytes.", bytes.len())))
        }
    }
}

/// The program `figures`: the one that is named, or the first that is there: beside this program, in the `target/bin` of a folder that
/// this program is in, or where this program was compiled.
fn found(named: Option<&Path>) -> Result<PathBuf, String> {
    if let Some(path) = named {
        return Ok(Path::new(".").join(path)); // not one with this name that is somewhere else
    }
    let own = std::env::current_exe().unwrap_or_default();
    let compiled = Path::new(env!("CARGO_MANIFEST_DIR")).join("..");
    let built = own.ancestors().skip(1).chain([compiled.as_path()]).map(|folder| folder.join("target/bin/figures"));
    let there = [own.with_file_name("figures")].into_iter().chain(built).find(|path| path.is_file());
    there.ok_or_else(|| {
        "the proved program `figures` is neither beside this program nor in target/bin of the repository. `tools/build` builds it \
         there; `--figures PROGRAM` names another."
            .to_string()
    })
}

/// What the program prints of an input. Where it doesn't take all of that, its figures are held to the files all the same.
fn printed(program: &Path, input: &[u8]) -> Result<String, String> {
    let piped = Stdio::piped;
    let started = Command::new(program).stdin(piped()).stdout(piped()).stderr(piped()).spawn();
    let mut running = started.map_err(|error| error.to_string())?;
    let taking = running.stdin.take();
    let over = std::thread::scope(|scope| {
        scope.spawn(move || taking.map(|mut taking| taking.write_all(input)));
        running.wait_with_output()
    });
    let Output { status, stdout, stderr } = over.map_err(|error| error.to_string())?;
    let said = String::from_utf8_lossy(&stderr);
    match (status.success(), said.trim_end()) {
        (true, "") => {}
        (true, said) => return Err(format!("it says: {said}")),
        (false, said) => return Err(format!("it failed, {status}. {said}").trim_end().to_string()),
    }
    String::from_utf8(stdout).map_err(|error| error.to_string())
}

/// What the library makes of the sheets, each by itself; sheets have their numbers, from 1.
struct Judged {
    refusals: Vec<(u64, Refusal)>,
    totals: Vec<(u64, u64)>,
    failed: Vec<Kind>,
}

impl Judged {
    fn of(sheets: &[Vec<u8>]) -> Self {
        let mut judged = Judged { refusals: vec![], totals: vec![], failed: vec![] };
        for (number, sheet) in (1..).zip(sheets) {
            match Board::read(sheet) {
                Err(refusal) => judged.refusals.push((number, refusal)),
                Ok(board) => {
                    judged.totals.push((number, board.total()));
                    let failed = board.verdicts().filter(|verdict| !verdict.holds());
                    judged.failed.extend(failed.map(|verdict| verdict.constraint().kind));
                }
            }
        }
        judged
    }

    /// In words, where figures differ from this.
    fn hold(&self, review: &Review) -> Result<(), String> {
        let mut differ = Vec::new();
        let mut held = |what: &str, counted: String, due: String| {
            if counted != due {
                differ.push(format!("{what}: {counted}, and by the library {due}."));
            }
        };
        let mut number = |what: &str, counted: u64, due: usize| held(what, counted.to_string(), due.to_string());
        number("sheets read soundly", review.sound(), self.totals.len());
        number("sheets refused", review.refused(), self.refusals.len());
        number("sheets with total 0", review.with_total_zero(), self.totals.iter().filter(|(_, total)| *total == 0).count());
        for (kind, failed) in review.failures() {
            let due = self.failed.iter().filter(|own| own.number() == kind.number()).count();
            number(&format!("constraints that failed, {kind}"), failed, due);
        }
        // Of equal ones, the first is the smallest, and the last of all from the end on is the largest.
        let smallest = self.totals.iter().min_by_key(|(_, total)| *total);
        let largest = self.totals.iter().rev().max_by_key(|(_, total)| *total);
        let due = |of: Option<&(u64, u64)>| of.map(|(sheet, total)| format!("{total}, in sheet {sheet}"));
        let counted = |of: Option<Extreme>| of.map(|extreme| extreme.to_string());
        let or_none = |words: Option<String>| words.unwrap_or("none".to_string());
        held("smallest total", or_none(counted(review.smallest())), or_none(due(smallest)));
        held("largest total", or_none(counted(review.largest())), or_none(due(largest)));
        held("refusal of the input", or_none(review.stopped().map(|refusal| refusal.to_string())), or_none(None));
        match differ.is_empty() {
            true => Ok(()),
            false => Err(format!("it doesn't count what the library does.\n{}", differ.join("\n"))),
        }
    }
}
