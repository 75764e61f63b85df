//! Microseconds a sheet and megabytes a second of the proved program `figures` on 1,000 of the largest sheets, beside the program
//! `verdicts` run anew for each, and beside the archive that reads and judges the same bytes with no process at all. That all come to
//! the same total is looked at.

use crate::sheets::LARGEST_SECOND;
use qirfadhun::limits::MOST_SHEETS;
use qirfadhun::lists::Numbers;
use qirfadhun::Review;
use std::fs::{File, OpenOptions};
use std::hint::black_box;
use std::io::{Seek, Write};
use std::path::{Path, PathBuf};
use std::process::{Command, Stdio};
use std::time::Instant;

const RUNS: usize = 5;

/// How many of the sheets `verdicts` is run for.
const ALONE: usize = 200;

/// A proved program, or `None` where it isn't built.
fn program(name: &str) -> Option<PathBuf> {
    Some(Path::new(env!("CARGO_MANIFEST_DIR")).join("../target/bin").join(name)).filter(|path| path.is_file())
}

/// What a program prints of a file, from its start on.
fn printed(program: &Path, mut file: &File) -> String {
    file.rewind().expect("the file's start");
    let input = file.try_clone().expect("the same file");
    let output = Command::new(program).stdin(input).stderr(Stdio::inherit()).output().expect("the program ends");
    String::from_utf8(output.stdout).expect("a text")
}

/// A file with these bytes that has no name any more.
fn file_with(bytes: &[u8]) -> File {
    let path = std::env::temp_dir().join(format!("bench-figures-{}", std::process::id()));
    let mut file = OpenOptions::new().read(true).write(true).create_new(true).open(&path).expect("a file");
    std::fs::remove_file(&path).expect("its name goes");
    file.write_all(bytes).expect("room for the sheets");
    file
}

/// The total of a sheet, by the archive, in memory that is lent anew for each.
fn total(sheet: &[u8]) -> u64 {
    let mut plan = Numbers::read(sheet).expect("a good sheet");
    let mut colouring = std::mem::take(&mut plan.colouring);
    let (mut verdicts, mut work) = ([0; 32], [0; 641]);
    plan.call_on(&mut colouring, &[], &mut [], &mut verdicts, &mut work).expect("a good sheet").first
}

/// The shortest time of a sheet, in nanoseconds, where each run goes over so many.
fn measure(sheets: usize, mut run: impl FnMut()) -> f64 {
    let times = (0..RUNS).map(|_| {
        let start = Instant::now();
        run();
        start.elapsed().as_nanos() as f64 / sheets as f64
    });
    times.fold(f64::MAX, f64::min)
}

fn print(name: &str, time: f64) {
    println!("| {name} | {:.0} | {:.0} |", time / 1_000.0, 1_000.0 * LARGEST_SECOND.len() as f64 / time);
}

pub fn print_all() {
    println!();
    let (Some(figures), Some(verdicts)) = (program("figures"), program("verdicts")) else {
        println!("`figures` and `verdicts` are measured once `tools/build` has built them.");
        return;
    };
    println!("| the largest second sheet, {} bytes, read and judged | microseconds a sheet | MB/s |", LARGEST_SECOND.len());
    println!("|---|---|---|");
    let due = total(LARGEST_SECOND);
    let all = file_with(&Review::input_of(&[LARGEST_SECOND; MOST_SHEETS]).expect("sheets that can be handed over"));
    let in_one = measure(MOST_SHEETS, || {
        let review: Review = printed(&figures, &all).parse().expect("figures");
        let totals = [review.smallest(), review.largest()].map(|extreme| extreme.map(|extreme| extreme.total()));
        assert_eq!((review.sound(), totals), (MOST_SHEETS as u64, [Some(due); 2]));
    });
    print("by `figures`, 1,000 of them in one input", in_one);
    let one = file_with(LARGEST_SECOND);
    let alone = measure(ALONE, || {
        for _ in 0..ALONE {
            assert!(printed(&verdicts, &one).ends_with(&format!("\ntotal {due}\n")));
        }
    });
    print("by `verdicts`, a run for each, its start included", alone);
    let no_process = measure(MOST_SHEETS, || {
        for _ in 0..MOST_SHEETS {
            assert_eq!(total(black_box(LARGEST_SECOND)), due);
        }
    });
    print("by the archive, into lent lists, with no process", no_process);
}
