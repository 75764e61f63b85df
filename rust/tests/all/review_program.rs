//! The program `review` run on files: what it shows, how it ends, and that it shows nothing that the library doesn't count too.

use crate::programs::{Ended, Folder};
use crate::reference::{BLOCK, FIRST, SECOND};
use crate::sheets::printing::proved;
use crate::sheets::Sheet;
use std::ffi::OsStr;
use std::fs::{self, OpenOptions};
use std::os::unix::ffi::OsStrExt;
use std::path::Path;
use std::process::Command;

const A: &[u8] = include_bytes!("../../../sheets/a.sheet");
const FLIGHTS: &[u8] = include_bytes!("../../../sheets/flights.sheet");
const SPOILED: &[u8] = include_bytes!("../../../sheets/refused/spoiled.sheet");

/// A folder with some sheets.
fn folder(name: &str) -> Folder {
    let files = [("a", A), ("flights", FLIGHTS), ("spoiled", SPOILED), ("zero", &Sheet::worth(0).bytes())];
    Folder::new(env!("CARGO_BIN_EXE_review"), name, &files)
}

impl Folder {
    /// The program, with the proved `figures` where it finds that by itself. An emulator that has to run it is called by a script.
    fn review(&self) -> Command {
        let figures = proved("figures");
        match std::env::var("QIRFADHUN_RUNNER") {
            Err(_) => self.program(),
            Ok(runner) => self.review_by(&format!("exec {runner} {figures}")),
        }
    }

    /// The program, with a script that stands for `figures`.
    fn review_by(&self, script: &str) -> Command {
        fs::write(self.path.join("script"), format!("#!/bin/sh\n{script}\n")).expect("a file");
        let mut command = self.program_after("cp script figures; chmod +x figures");
        command.args(["--figures", "figures"]);
        command
    }

    fn shown(&self, files: &[&str]) -> Ended {
        Ended::of(self.review().args(files))
    }

    fn shown_by(&self, script: &str, files: &[&str]) -> Ended {
        Ended::of(self.review_by(script).args(files))
    }
}

/// It shows nothing, and says why.
fn without(why: &str) -> Ended {
    Ended::with(2, "", &format!("{why}\nNothing is shown.\n"))
}

/// What the program shows for sheet A, the one with flights, and the spoiled one.
const SHOWN: &str = "3 sheets: 2 read soundly, 1 refused.
No sheet has total 0.
Constraints that failed: connected 0, border 1, balanced 0, bounded 2, dwell time 1.
Smallest total: 15, in sheet 1, a, the first that has it.
Largest total: 53, in sheet 2, flights, the first that has it.
Sheet 3, spoiled: refused 33 4: a block's two check bytes are not those of its other bytes (block 4).
";
const THREE: [&str; 3] = ["a", "flights", "spoiled"];

/// The lines of `figures` for these.
const LINES: [u64; 12] = [2, 1, 0, 0, 1, 0, 2, 1, 15, 1, 53, 2];

/// A script that takes the input and prints these lines.
fn script(lines: &[u64], more: &str) -> String {
    let lines: String = lines.iter().map(|line| format!("{line}\\n")).collect();
    format!("cat > input; printf '{lines}{more}'")
}

#[test]
fn three_files() {
    assert_eq!(folder("three").shown(&THREE), Ended::with(0, SHOWN, ""));
}

#[test]
fn other_files() {
    let folder = folder("other");
    let one = "1 sheet: 1 read soundly, 0 refused.
No sheet has total 0.
Constraints that failed: connected 0, border 0, balanced 0, bounded 1, dwell time 0.
Smallest total: 15, in sheet 1, ./a, the first that has it.
Largest total: 15, in sheet 1, ./a, the first that has it.
";
    assert_eq!(folder.shown(&["./a"]), Ended::with(0, one, ""));
    let refused = "2 sheets: 0 read soundly, 2 refused.
There is no smallest and no largest total, since no sheet was read soundly.
Sheet 1, spoiled: refused 33 4: a block's two check bytes are not those of its other bytes (block 4).
Sheet 2, spoiled: refused 33 4: a block's two check bytes are not those of its other bytes (block 4).
";
    assert_eq!(folder.shown(&["spoiled", "spoiled"]), Ended::with(0, refused, ""));
    let Ended(status, out, err) = folder.shown(&["spoiled", "flights", "a", "zero", "flights", "zero", "a"]);
    assert_eq!((status, &err[..]), (0, ""));
    let lines: Vec<&str> = out.lines().collect();
    assert_eq!(lines[..2], ["7 sheets: 6 read soundly, 1 refused.", "2 sheets have total 0."]);
    assert_eq!(
        lines[3..5],
        [
            "Smallest total: 0, in sheet 4, zero, the first that has it.",
            "Largest total: 53, in sheet 2, flights, the first that has it."
        ]
    );
    assert!(lines.len() == 6 && lines[5].starts_with("Sheet 1, spoiled: refused 33 4: "));
}

/// First sheets of 44 and of 74 blocks go with the others, and are refused.
#[test]
fn long_files() {
    let folder = folder("long");
    for blocks in [44, 74] {
        fs::write(folder.path.join("long"), &A.repeat(15)[..blocks * BLOCK]).expect("a file");
        let Ended(status, out, err) = folder.shown(&["long", "a"]);
        assert_eq!((status, &err[..]), (0, ""));
        assert!(
            out.starts_with("2 sheets: 1 read soundly, 1 refused.\n") && out.contains("\nSheet 1, long: refused 31 0: "),
            "{out}"
        );
    }
}

/// The stored sheets, in either form: the largest and one of 512 regions among them.
#[test]
fn stored_files() {
    let stored: Vec<_> = crate::sheets::stored("sheets");
    let folder = folder("stored");
    let Ended(status, out, err) = Ended::of(folder.review().args(stored.iter().map(|(path, _)| path)));
    assert_eq!((status, &err[..]), (0, ""));
    let count = stored.len();
    assert!(out.starts_with(&format!("{count} sheets: {count} read soundly, 0 refused.\n")), "{out}");
}

/// Every file that can't be handed over is named, and nothing is started.
#[test]
fn files_that_are_no_sheets() {
    let folder = folder("none");
    let long = Sheet::a(&SECOND).bytes().repeat(10)[..75 * BLOCK].to_vec();
    for (name, bytes) in
        [("empty", &[][..]), ("byte", &[1]), ("cut", &A[..A.len() - 1]), ("more", &[A, &[0]].concat()), ("long", &long)]
    {
        fs::write(folder.path.join(name), bytes).expect("a file");
    }
    let faults = [
        ("empty", "this is no sheet: it is empty."),
        ("byte", "this is no sheet: its length, 1, is not in whole blocks of 512 bytes."),
        ("cut", "this is no sheet: its length, 2559, is not in whole blocks of 512 bytes."),
        ("more", "this is no sheet: its length, 2561, is not in whole blocks of 512 bytes."),
        ("long", "this is no sheet: it has more than 74 blocks of 512 bytes."),
        ("/dev/zero", "this is no sheet: it has more than 74 blocks of 512 bytes."),
        ("nowhere", "No such file or directory (os error 2)"),
        (".", "Is a directory (os error 21)"),
    ];
    let said = |faults: &[(&str, &str)]| faults.iter().map(|(name, why)| format!("{name}: {why}")).collect::<Vec<_>>().join("\n");
    let script = "touch started";
    for fault in faults {
        assert_eq!(folder.shown_by(script, &[fault.0]), without(&said(&[fault])));
        assert_eq!(folder.shown_by(script, &["a", fault.0, "spoiled"]), without(&said(&[fault])));
    }
    let all: Vec<&str> = faults.iter().map(|fault| fault.0).collect();
    assert_eq!(folder.shown_by(script, &[&["a"], &all[..]].concat()), without(&said(&faults)));
    let too_many = "there are 1001 sheets, and figures are over at most 1000";
    assert_eq!(folder.shown_by(script, &["a"; 1_001]), without(too_many));
    assert_eq!(folder.shown_by(script, &["nowhere"; 1_001]), without(too_many));
    assert!(!folder.names().contains(&"started".into()));
}

#[test]
fn a_thousand_files() {
    let folder = folder("thousand");
    let mut files = ["zero"; 1_000];
    files[998] = "flights";
    files[999] = "spoiled";
    let Ended(status, out, err) = folder.shown(&files);
    assert_eq!((status, &err[..]), (0, ""));
    assert!(out.starts_with("1000 sheets: 999 read soundly, 1 refused.\n998 sheets have total 0.\n"), "{out}");
    assert!(
        out.contains("\nLargest total: 53, in sheet 999, flights, the first that has it.\nSheet 1000, spoiled: refused 33 4: "),
        "{out}"
    );
}

/// What `figures` is handed is one input: each file after its count.
#[test]
fn what_is_handed_over() {
    let folder = folder("handed");
    assert_eq!(folder.shown_by(&script(&LINES, ""), &THREE), Ended::with(0, SHOWN, ""));
    assert!(folder.read("input") == [&[5, 0], A, &[8, 0], FLIGHTS, &[5, 0], SPOILED].concat());
    // One that takes nothing is held to the files like any other.
    let lines = script(&LINES, "").replace("cat > input; ", "");
    assert_eq!(folder.shown_by(&lines, &THREE), Ended::with(0, SHOWN, ""));
}

/// A program that counts otherwise: what differs is said, and nothing is shown.
#[test]
fn figures_that_differ() {
    let folder = folder("differ");
    let with = |changes: &[(usize, u64)], more: &str| {
        let mut lines = LINES;
        changes.iter().for_each(|&(line, number)| lines[line - 1] = number);
        folder.shown_by(&script(&lines, more), &THREE)
    };
    let differing = |what: &str| without(&format!("./figures: it doesn't count what the library does.\n{what}"));
    assert_eq!(with(&[], ""), Ended::with(0, SHOWN, ""));
    let both = "sheets read soundly: 3, and by the library 2.\nsheets refused: 0, and by the library 1.";
    assert_eq!(with(&[(1, 3), (2, 0)], ""), differing(both));
    assert_eq!(with(&[(2, 2)], ""), differing("sheets refused: 2, and by the library 1."));
    let zero = "sheets with total 0: 1, and by the library 0.\nsmallest total: 0, in sheet 1, and by the library 15, in sheet 1.";
    assert_eq!(with(&[(3, 1), (9, 0)], ""), differing(zero));
    for (line, kind, due) in [(4, "connected", 0), (5, "border", 1), (6, "balanced", 0), (7, "bounded", 2), (8, "dwell time", 1)]
    {
        let what = format!("constraints that failed, {kind}: 7, and by the library {due}.");
        assert_eq!(with(&[(line, 7)], ""), differing(&what));
    }
    let first = "in sheet";
    let smallest = |said: &str| differing(&format!("smallest total: {said}, and by the library 15, {first} 1."));
    let largest = |said: &str| differing(&format!("largest total: {said}, and by the library 53, {first} 2."));
    assert_eq!(with(&[(9, 14)], ""), smallest(&format!("14, {first} 1")));
    assert_eq!(with(&[(10, 3)], ""), smallest(&format!("15, {first} 3")));
    assert_eq!(with(&[(11, 54)], ""), largest(&format!("54, {first} 2")));
    assert_eq!(with(&[(12, 3)], ""), largest(&format!("53, {first} 3")));
    let Ended(status, out, err) = with(&[], "refused 18 4\\n");
    assert_eq!((status, &out[..]), (2, ""));
    assert!(
        err.contains("\nrefusal of the input: refused 18 4: ")
            && err.ends_with(", and by the library none.\nNothing is shown.\n")
    );
}

/// Programs that print no figures, or fail.
#[test]
fn programs_that_fail() {
    let folder = folder("fail");
    let unread = |line: usize| without(&format!("./figures: line {line} is missing, or is not what `figures` prints there"));
    assert_eq!(folder.shown_by("cat > input", &THREE), unread(1));
    assert_eq!(folder.shown_by(&script(&LINES[..11], ""), &THREE), unread(12));
    assert_eq!(folder.shown_by(&script(&LINES, "1\\n"), &THREE), unread(13));
    assert_eq!(folder.shown_by(&(script(&LINES, "") + "; echo no room >&2"), &THREE), without("./figures: it says: no room"));
    assert_eq!(folder.shown_by(&(script(&LINES, "") + "; exit 3"), &THREE), without("./figures: it failed, exit status: 3."));
    let Ended(status, out, err) = folder.shown_by("printf '\\377\\n'", &THREE);
    assert_eq!((status, &out[..]), (2, ""));
    assert!(err.starts_with("./figures: invalid utf-8"), "{err}");
    // An emulator tells only that it could not be started.
    for name in ["nowhere", "a", "."] {
        let Ended(status, out, err) = Ended::of(folder.program().args(["--figures", name, "a"]));
        assert_eq!((status, &out[..]), (2, ""));
        let path = Path::new(".").join(name);
        assert!(err.starts_with(&format!("{}: ", path.display())) && err.ends_with("\nNothing is shown.\n"), "{err}");
    }
}

/// Where no place is named, the `figures` beside the program goes before the one that is built.
#[test]
fn figures_beside_the_program() {
    let folder = folder("beside");
    fs::write(folder.path.join("script"), format!("#!/bin/sh\n{}\n", script(&LINES, ""))).expect("a file");
    let copied = "cp \"$0\" review; cp script figures; chmod +x figures; exec $QIRFADHUN_RUNNER ./review \"$@\"";
    let mut command = Command::new("sh");
    command.args(["-c", copied, env!("CARGO_BIN_EXE_review")]).args(THREE).current_dir(&folder.path);
    assert_eq!(Ended::of(&mut command), Ended::with(0, SHOWN, ""));
    assert!(folder.names().contains(&"input".into()));
}

#[test]
fn names_that_are_no_text() {
    let folder = folder("no-text");
    let name = OsStr::from_bytes(b"in-\xff");
    fs::write(folder.path.join(name), Sheet::a(&FIRST).bytes()).expect("a file");
    let Ended(status, out, err) = Ended::of(folder.review().arg(name));
    assert_eq!((status, &err[..]), (0, ""));
    assert!(out.ends_with("\nLargest total: 15, in sheet 1, in-\u{fffd}, the first that has it.\n"), "{out}");
}

/// A name with a line feed or an escape in it makes no line of its own, and changes no screen.
#[test]
fn names_with_control_characters() {
    let folder = folder("control");
    fs::write(folder.path.join("a\nLargest\u{1b}[2J"), Sheet::a(&FIRST).bytes()).expect("a file");
    let Ended(status, out, err) = folder.shown(&["a\nLargest\u{1b}[2J"]);
    assert_eq!((status, &err[..]), (0, ""));
    assert!(out.ends_with("\nLargest total: 15, in sheet 1, a\\nLargest\\u{1b}[2J, the first that has it.\n"), "{out}");
}

#[test]
fn other_arguments() {
    let folder = folder("arguments");
    let Ended(status, usage, err) = folder.run(&["--help"]);
    assert_eq!((status, &err[..]), (0, ""));
    assert!(usage.starts_with("usage: review [--figures PROGRAM] FILE...\n"));
    assert_eq!(folder.run(&["-h"]), Ended::with(0, &usage, ""));
    for arguments in [&[][..], &["--figures"], &["--figures", "a"], &["--help", "a"], &["--other", "a"], &["-"], &["-a", "a"]] {
        assert_eq!(folder.run(arguments), Ended::with(2, "", &usage));
    }
}

#[test]
fn an_output_that_takes_nothing() {
    let folder = folder("closed");
    let said = |why: &str| Ended::with(2, "", &format!("review: not all of the text could be written: {why}\n"));
    let (reader, writer) = std::io::pipe().expect("a pipe");
    drop(reader);
    assert_eq!(Ended::with_output(folder.review().args(THREE), writer), said("Broken pipe (os error 32)"));
    let full = OpenOptions::new().write(true).open("/dev/full").expect("a device that takes nothing");
    assert_eq!(Ended::with_output(folder.review().args(THREE), full), said("No space left on device (os error 28)"));
}
