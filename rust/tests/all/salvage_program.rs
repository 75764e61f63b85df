//! The program `salvage` run on files: what it prints, how it ends, and what is left in the folder.

use crate::library;
use crate::plans::{sheet_a, Numbers};
use crate::programs::{Ended, Folder};
use crate::reference::{BLOCK, FIRST, PREFIX, SECOND};
use crate::sheets::salvaging::{by_reference, salvaged};
use crate::sheets::{files, Change, Sheet};
use std::ffi::OsStr;
use std::fs::{self, OpenOptions};
use std::os::unix::ffi::OsStrExt;
use std::os::unix::fs::symlink;
use std::path::Path;
use std::process::Command;

/// A folder of a test's own for this program.
fn folder(name: &str, files: &[(&str, &[u8])]) -> Folder {
    Folder::new(env!("CARGO_BIN_EXE_salvage"), name, files)
}

impl Ended {
    /// It wrote nothing, and said why.
    fn without(why: &str) -> Self {
        Ended(2, String::new(), format!("{why}\nNothing was written.\n"))
    }
}

/// Sheet A with its colouring's only block spoiled.
fn spoiled() -> Vec<u8> {
    Sheet::a(&FIRST).spoiled(&[0]).bytes()
}

/// What is said before the file is given its name.
const LOST: &str = "in: 5 of 5 regions have lost their sectors: 1-5.
Regions 1-5 are in sector 1 now, since none of them has a neighbour whose sector survived.
";
const WRITTEN: &str = "out is written, 2560 bytes, and can be read. What is given above is a guess, not what was drawn.\n";

/// The regions that are named as in 1-3, 7.
fn expanded(runs: &str) -> Vec<u64> {
    let number = |text: &str| text.parse::<u64>().expect("a region");
    let ends = |run: &'_ str| {
        run.split_once('-').map(|(first, last)| (number(first), number(last))).unwrap_or_else(|| (number(run), number(run)))
    };
    runs.split(", ").map(ends).flat_map(|(first, last)| first..=last).collect()
}

/// The regions that a line says of what they were given.
fn given(line: &str) -> Vec<u64> {
    let one = line.strip_prefix("Region ").and_then(|line| line.split_once(" is in sector "));
    let some = line.strip_prefix("Regions ").and_then(|line| line.split_once(" are in sector "));
    one.or(some).map_or(vec![], |(regions, _)| expanded(regions))
}

#[test]
fn a_spoiled_sheet_a() {
    let folder = folder("spoiled", &[("in", &spoiled())]);
    assert_eq!(folder.run(&["in", "out"]), Ended::with(0, &format!("{LOST}{WRITTEN}"), ""));
    assert_eq!(folder.names(), ["in", "out"]);
    assert_eq!(folder.read("in"), spoiled());
    assert_eq!(folder.read("out"), Sheet::of(&FIRST, Numbers { colouring: vec![1; 5], ..sheet_a() }).bytes());
}

/// Sectors that are none, in a sheet that is sound otherwise.
#[test]
fn some_regions_of_sheet_a() {
    let with = |colouring: [u64; 5]| Sheet::of(&FIRST, Numbers { colouring: colouring.to_vec(), ..sheet_a() }).bytes();
    let folder =
        folder("some", &[("one", &with([1, 0, 1, 2, 2])), ("two", &with([1, 1, 2, 3, 3])), ("a", &with([1, 1, 1, 2, 2]))]);
    let written = |name: &str| WRITTEN.replacen("out", name, 1);
    let one = "one: 1 of 5 regions has lost its sector: 2.
Region 2 is in sector 1 now, as region 1 is, its lowest-numbered neighbour whose sector survived.
";
    assert_eq!(folder.run(&["one", "one again"]), Ended::with(0, &(one.to_string() + &written("one again")), ""));
    assert_eq!(folder.read("one again"), with([1, 1, 1, 2, 2]));
    let two = "two: 2 of 5 regions have lost their sectors: 4-5.
Region 4 is in sector 2 now, as region 3 is, its lowest-numbered neighbour whose sector survived.
Region 5 is in sector 1 now, since it has no neighbour whose sector survived.
";
    assert_eq!(folder.run(&["two", "./two again"]), Ended::with(0, &(two.to_string() + &written("./two again")), ""));
    assert_eq!(folder.read("two again"), with([1, 1, 2, 2, 1]));
    let none = "a: each of 5 regions has a sector, and none had to be given. A sheet that was salvaged before looks the same.
a again is written, 2560 bytes, the same as in a.
";
    assert_eq!(folder.run(&["a", "a again"]), Ended::with(0, none, ""));
    assert_eq!(folder.read("a again"), folder.read("a"));
    assert_eq!(folder.names(), ["a", "a again", "one", "one again", "two", "two again"]);
}

/// Two files of sheet A that are refused: a byte of the colouring is spoiled, and two sectors are none.
#[test]
fn refused_files() {
    let stored = |name: &str| Path::new(env!("CARGO_MANIFEST_DIR")).join("../sheets/refused").join(name);
    assert!(fs::read(stored("spoiled.sheet")).is_ok_and(|bytes| bytes == spoiled()));
    let stray = Sheet::of(&FIRST, Numbers { colouring: vec![1, 0, 1, 3, 2], ..sheet_a() });
    assert!(fs::read(stored("stray.sheet")).is_ok_and(|bytes| bytes == stray.bytes()));
    let folder = folder("stored", &[]);
    for (name, lost, total) in [("spoiled.sheet", vec![1, 2, 3, 4, 5], 555), ("stray.sheet", vec![2, 4], 290)] {
        let Ended(status, out, err) = Ended::of(folder.program().arg(stored(name)).arg(name));
        assert_eq!((status, out.lines().flat_map(given).collect::<Vec<_>>(), &err[..]), (0, lost, ""));
        assert!(library::Sheet::new(&folder.read(name)).is_ok_and(|sheet| sheet.total() == total));
    }
}

/// The files of sheets with each block of their colourings spoiled: the reference's bytes, and each of its regions twice, among all
/// and with what it was given.
#[test]
fn sheet_files() {
    for (number, (sheet, _)) in files().into_iter().enumerate() {
        for block in 0..sheet.colouring_blocks().len() {
            let bytes = sheet.spoiled(&[block]).bytes();
            let folder = folder(&format!("file-{number}-{block}"), &[("in", &bytes)]);
            let Ended(status, out, err) = folder.run(&["in", "out"]);
            assert_eq!((status, &err[..]), (0, ""));
            let (saved, lost) = salvaged(&bytes, by_reference).expect("a salvage");
            assert!(folder.read("out") == saved);
            let all = out.lines().next().and_then(|line| line.rsplit_once(": ")?.1.strip_suffix('.')).expect("a first line");
            assert_eq!(expanded(all), lost);
            let mut named: Vec<u64> = out.lines().flat_map(given).collect();
            named.sort_unstable();
            assert_eq!(named, lost);
        }
    }
}

/// One sheet for each code from 31 to 38, the colouring of each spoiled besides.
#[test]
fn refused_sheets() {
    let sheet = Sheet::a(&SECOND).spoiled(&[0]);
    let edges = 3 * BLOCK;
    let mut wrong = sheet.clone();
    wrong.plan.workloads[0] = 1_000_001;
    let sheets = [
        (31, 0, sheet.changed(&[Change::Length(edges + 1)])),
        (32, 3, sheet.changed(&[Change::Put(edges, 0)])),
        (33, 3, sheet.changed(&[Change::Flip(edges + PREFIX, 1)])),
        (34, 3, sheet.changed(&[Change::Put(edges + 4, 9), Change::Check(3)])),
        (35, 3, sheet.changed(&[Change::Put(edges + 8, 9), Change::Check(3)])),
        (36, 7, sheet.changed(&[Change::Put(7 * BLOCK + 5, 9), Change::Check(7)])),
        (37, 3, wrong),
        (38, 0, sheet.changed(&[Change::Length(edges)])),
    ];
    for (code, place, sheet) in sheets {
        let bytes = sheet.bytes();
        let folder = folder(&format!("refused-{code}"), &[("in", &bytes)]);
        let refusal = qirfadhun::salvage(&bytes).expect_err("a refusal");
        assert_eq!((refusal.code, refusal.place), (code, place));
        let (means, remedy) = (refusal.meaning(), refusal.remedy());
        let of_block = " Only the colouring can be salvaged, and this block is none of it.";
        let more = if (32..=36).contains(&code) { of_block } else { " Only a damaged colouring can be salvaged." };
        let said = format!("in: {refusal}.\nWhat it means: {means}.{more}\nWhat to do: {remedy}.");
        assert_eq!(folder.run(&["in", "out"]), Ended::without(&said));
        assert_eq!((folder.names(), folder.read("in")), (vec!["in".into()], bytes));
    }
    let folder = folder("refused", &[("in", &Sheet::a(&FIRST).changed(&[Change::Put(2 * BLOCK + 6, 9)]).bytes())]);
    let said = "in: refused 33 2: a block's two check bytes are not those of its other bytes (block 2).
What it means: the sheet was damaged on its way. Only the colouring can be salvaged, and this block is none of it.
What to do: send it again.";
    assert_eq!(folder.run(&["in", "out"]), Ended::without(said));
}

/// A file that can't be read; and one without end, of which no more is read than a sheet can have.
#[test]
fn no_such_sheet() {
    let folder = folder("none", &[]);
    assert_eq!(folder.run(&["in", "out"]), Ended::without("in: No such file or directory (os error 2)"));
    assert_eq!(folder.run(&[".", "out"]), Ended::without(".: Is a directory (os error 21)"));
    let Ended(status, out, err) = folder.run(&["/dev/zero", "out"]);
    assert_eq!((status, &out[..]), (2, ""));
    assert!(err.starts_with("/dev/zero: refused 31 0: ") && err.ends_with("\nNothing was written.\n"), "{err}");
    assert_eq!(folder.names(), [""; 0]);
}

/// What is there already stays as it is: a file, a folder, the sheet itself, a link to it, and a link to nothing.
#[test]
fn a_name_that_is_taken() {
    let folder = folder("taken", &[("in", &spoiled()), ("file", b"kept")]);
    fs::create_dir(folder.path.join("folder")).expect("a folder");
    symlink("in", folder.path.join("link")).expect("a link");
    symlink("nowhere", folder.path.join("broken")).expect("a link");
    fs::hard_link(folder.path.join("in"), folder.path.join("same")).expect("another name");
    let before = folder.names();
    for name in ["file", "folder", "folder/", "folder/..", "in", "./in", "link", "broken", "same", ".", "/", "/dev/null"] {
        let said = "there is such a file or folder already, and it stays as it is. Name one that is not there.";
        assert_eq!(folder.run(&["in", name]), Ended::without(&format!("{name}: {said}")));
    }
    assert_eq!(folder.names(), before);
    assert_eq!((folder.read("in"), folder.read("file")), (spoiled(), b"kept".to_vec()));
    assert!(fs::read_link(folder.path.join("broken")).is_ok_and(|to| to == Path::new("nowhere")));
}

/// Folders that are not there, or that take no file, and names that no file can have.
#[test]
fn no_such_place() {
    let folder = folder("place", &[("in", &spoiled())]);
    assert_eq!(folder.run(&["in", "no/out"]), Ended::without("no/out: No such file or directory (os error 2)"));
    assert_eq!(folder.run(&["in", "in/out"]), Ended::without("in/out: Not a directory (os error 20)"));
    assert_eq!(folder.run(&["in", "/proc/out"]), Ended::without("/proc/out: No such file or directory (os error 2)"));
    for name in ["", "new/"] {
        assert_eq!(folder.run(&["in", name]), Ended::without(&format!("{name}: no file can have this name.")));
    }
    // That this name is too long is known only when it is given.
    let long = "long".repeat(64);
    let said = format!("{long}: File name too long (os error 36)\nNothing was written.\n");
    assert_eq!(folder.run(&["in", &long]), Ended::with(2, LOST, &said));
    assert_eq!(folder.names(), ["in"]);
}

#[test]
fn names_that_are_no_text() {
    let (from, to) = (OsStr::from_bytes(b"in-\xff"), OsStr::from_bytes(b"out-\xfe"));
    let folder = folder("no-text", &[]);
    fs::write(folder.path.join(from), spoiled()).expect("a file");
    let Ended(status, out, err) = Ended::of(folder.program().args([from, to]));
    assert_eq!((status, &err[..]), (0, ""));
    assert!(out.starts_with("in-\u{fffd}: 5 of 5") && out.contains("\nout-\u{fffd} is written"), "{out}");
    assert_eq!(folder.names(), [from, to]);
}

#[test]
fn other_arguments() {
    let folder = folder("arguments", &[("in", &spoiled())]);
    let Ended(status, usage, err) = folder.run(&["--help"]);
    assert_eq!((status, &err[..]), (0, ""));
    assert!(usage.starts_with("usage: salvage IN OUT\n"));
    assert_eq!(folder.run(&["-h"]), Ended::with(0, &usage, ""));
    for arguments in [&[][..], &["in"], &["in", "out", "more"], &["--help", "in", "out"]] {
        assert_eq!(folder.run(arguments), Ended::with(2, "", &usage));
    }
    assert_eq!(folder.names(), ["in"]);
}

/// Where what is lost can't be said, nothing is written.
#[test]
fn an_output_that_takes_nothing() {
    let folder = folder("closed", &[("in", &spoiled())]);
    let said = |why: &str| Ended::without(&format!("salvage: not all of the text could be written: {why}"));
    let (reader, writer) = std::io::pipe().expect("a pipe");
    drop(reader);
    let ended = Ended::with_output(folder.program().args(["in", "out"]), writer);
    assert_eq!(ended, said("Broken pipe (os error 32)"));
    let full = OpenOptions::new().write(true).open("/dev/full").expect("a device that takes nothing");
    let ended = Ended::with_output(folder.program().args(["in", "out"]), full);
    assert_eq!(ended, said("No space left on device (os error 28)"));
    assert_eq!(folder.names(), ["in"]);
}

impl Folder {
    /// The program, for which no file can have more than so many blocks: as on a disk that is full, a part is written and then no more.
    fn program_with_room(&self, blocks: usize) -> Command {
        self.program_after(&format!("trap '' XFSZ; ulimit -f {blocks}"))
    }
}

#[test]
fn a_full_disk() {
    let folder = folder("full", &[("in", &spoiled())]);
    for blocks in 0..5 {
        let ended = Ended::of(folder.program_with_room(blocks).args(["in", "out"]));
        assert_eq!(ended, Ended::without("out: File too large (os error 27)"));
        assert_eq!(folder.names(), ["in"]);
    }
    let ended = Ended::of(folder.program_with_room(5).args(["in", "out"]));
    assert_eq!(ended, Ended::with(0, &format!("{LOST}{WRITTEN}"), ""));
}

/// Standard output is a file that takes all but the last line. The sheet is there, and standard error says so.
#[test]
fn a_last_line_that_is_not_taken() {
    let log = vec![b'\n'; 8 * BLOCK - LOST.len()];
    let folder = folder("last", &[("in", &spoiled()), ("log", &log)]);
    let file = OpenOptions::new().append(true).open(folder.path.join("log")).expect("a file");
    let ended = Ended::with_output(folder.program_with_room(8).args(["in", "out"]), file);
    let said = "salvage: not all of the text could be written: File too large (os error 27)\nout is written.\n";
    assert_eq!(ended, Ended::with(0, "", said));
    assert_eq!(folder.read("log"), [&log, LOST.as_bytes()].concat());
    assert_eq!(folder.names(), ["in", "log", "out"]);
}

/// The name that the program first writes to is taken: it takes the next, and leaves what is there.
#[test]
fn another_file_of_its_kind() {
    let folder = folder("other", &[("in", &spoiled())]);
    let ended = Ended::of(folder.program_after("echo kept > salvage-$$-0.tmp").args(["in", "out"]));
    assert_eq!(ended, Ended::with(0, &format!("{LOST}{WRITTEN}"), ""));
    let names = folder.names();
    assert_eq!((names.len(), folder.read(&names[2])), (3, b"kept\n".to_vec()));
}
