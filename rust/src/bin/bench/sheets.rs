//! Megabytes a second of the largest sheets, read, written and converted by the proved library and by plain Rust in turn, with all
//! that they answer and leave compared.

use crate::plain_sheet::{self, FIRST, SECOND};
use qirfadhun::limits::{
    MOST_BYTES, MOST_CONSTRAINTS, MOST_EDGES, MOST_FLIGHTS, MOST_REGIONS, MOST_SECOND_BYTES, MOST_VISITS_IN_ALL,
};
use qirfadhun::lists::{self, Numbers};
use std::hint::black_box;
use std::time::Instant;

const RUNS: usize = 400;
const LARGEST: &[u8] = include_bytes!("../../../../sheets/largest.sheet");
pub const LARGEST_SECOND: &[u8] = include_bytes!("../../../../sheets/largest-second.sheet");

/// What reading leaves: the numbers of the head, and the lists.
#[derive(PartialEq)]
struct Read {
    head: plain_sheet::Head,
    plan: Numbers,
}

/// Lists with room for every sheet.
fn empty() -> Read {
    let plan = Numbers {
        regions: 0,
        sectors: 0,
        workloads: vec![0; MOST_REGIONS],
        outside: vec![9; MOST_REGIONS],
        edges: vec![0; 3 * MOST_EDGES],
        counts: vec![0; MOST_FLIGHTS],
        visits: vec![0; 2 * MOST_VISITS_IN_ALL],
        constraints: vec![0; 4 * MOST_CONSTRAINTS],
        colouring: vec![0; MOST_REGIONS],
    };
    Read { head: [0; 6], plan }
}

fn plain_read(sheet: &[u8], read: &mut Read) {
    read.head = plain_sheet::read(sheet, &mut read.plan).expect("a good sheet");
}

fn proved_read(sheet: &[u8], read: &mut Read) {
    let Numbers { workloads, outside, edges, counts, visits, constraints, colouring, .. } = &mut read.plan;
    let head = lists::read(sheet, workloads, outside, edges, counts, visits, constraints, colouring).expect("a good sheet");
    read.head = [head.regions, head.sectors, head.edges, head.constraints, head.flights, head.visits];
    (read.plan.regions, read.plan.sectors) = (head.regions, head.sectors);
}

fn plain_write(plan: &Numbers, sheet: &mut [u8; MOST_BYTES]) {
    assert_eq!(plain_sheet::write(&FIRST, plan, sheet), Ok(LARGEST.len()));
}

fn proved_write(plan: &Numbers, sheet: &mut [u8; MOST_BYTES]) {
    let Numbers { regions, sectors, workloads, edges, constraints, colouring, .. } = plan;
    let bytes = lists::write(*regions, *sectors, workloads, edges, constraints, colouring, sheet);
    assert_eq!(bytes, Ok(LARGEST.len()));
}

fn plain_write_second(plan: &Numbers, sheet: &mut [u8; MOST_SECOND_BYTES]) {
    assert_eq!(plain_sheet::write(&SECOND, plan, sheet), Ok(LARGEST_SECOND.len()));
}

fn proved_write_second(plan: &Numbers, sheet: &mut [u8; MOST_SECOND_BYTES]) {
    let Numbers { regions, sectors, workloads, outside, edges, counts, visits, constraints, colouring } = plan;
    let bytes = lists::write_second(*regions, *sectors, workloads, outside, edges, counts, visits, constraints, colouring, sheet);
    assert_eq!(bytes, Ok(LARGEST_SECOND.len()));
}

fn plain_to_second(sheet: &[u8], converted: &mut [u8; MOST_SECOND_BYTES]) {
    assert!(plain_sheet::to_second(sheet, converted).is_ok());
}

fn proved_to_second(sheet: &[u8], converted: &mut [u8; MOST_SECOND_BYTES]) {
    assert!(lists::to_second(sheet, converted).is_ok());
}

fn plain_to_first(sheet: &[u8], converted: &mut [u8; MOST_BYTES]) {
    assert!(plain_sheet::to_first(sheet, converted).is_ok());
}

fn proved_to_first(sheet: &[u8], converted: &mut [u8; MOST_BYTES]) {
    assert!(lists::to_first(sheet, converted).is_ok());
}

/// The shortest time, in nanoseconds, of each of the two, which must leave the same in what is lent to them.
fn measure<G: ?Sized, L: PartialEq>(given: &G, lent: impl Fn() -> L, two: [fn(&G, &mut L); 2]) -> [f64; 2] {
    let mut best = [f64::MAX; 2];
    for _ in 0..RUNS {
        let lefts = [0, 1].map(|which| {
            let mut left = lent();
            let start = Instant::now();
            two[which](given, &mut left);
            best[which] = best[which].min(start.elapsed().as_nanos() as f64);
            left
        });
        assert!(lefts[0] == lefts[1], "the two differ");
    }
    best
}

/// A line of the table; the megabytes are those of the sheet that is read, written or converted.
fn print(name: &str, sheet: &[u8], times: [f64; 2]) {
    let [plain, proved] = times.map(|time| 1_000.0 * sheet.len() as f64 / time);
    println!("| {name}, {} bytes | {plain:.0} | {proved:.0} MB/s | {:.2} |", sheet.len(), times[1] / times[0]);
}

pub fn print_all() {
    println!();
    println!("| the largest sheets | plain Rust | proved | to plain Rust |");
    println!("|---|---|---|---|");
    let (first, second) = (black_box(LARGEST), black_box(LARGEST_SECOND));
    let (no_bytes, no_second_bytes) = (|| [0; MOST_BYTES], || [0; MOST_SECOND_BYTES]);
    print("the first read", first, measure(first, empty, [plain_read, proved_read]));
    print(
        "the first written",
        first,
        measure(&Numbers::read(first).expect("a good sheet"), no_bytes, [plain_write, proved_write]),
    );
    print("the second read", second, measure(second, empty, [plain_read, proved_read]));
    print(
        "the second written",
        second,
        measure(&Numbers::read(second).expect("a good sheet"), no_second_bytes, [plain_write_second, proved_write_second]),
    );
    print("the first to a second", first, measure(first, no_second_bytes, [plain_to_second, proved_to_second]));
    let mut lent = no_second_bytes();
    let bytes = lists::to_second(first, &mut lent).expect("a good sheet");
    let back = black_box(&lent[..bytes]);
    print("and back", back, measure(back, no_bytes, [plain_to_first, proved_to_first]));
}
