//! Nanoseconds a move of the proved library and of the whole call in plain Rust, on the same plans and lists, by turns in one run,
//! without flights and then with them; all that both leave is compared. Then the typed board beside the flat call, the reading, the
//! writing and the conversion of sheets, and figures over many of them.
//!
//! `bench calls` prints the tables on calls alone, `bench typed` the board's, `bench figures` that on figures.

mod baseline;
mod figures;
mod flights;
mod plain_sheet;
mod plans;
mod refusals;
mod sheets;
mod typed;

use plans::{Random, LISTS};
use qirfadhun::lists::Numbers;
use refusals::Call;
use std::time::{Duration, Instant};

const SEED: u64 = 88172645463325252;
const LIST: usize = 4096;
const FEW: usize = 16;
const RUNS: usize = 40;

/// How long one list is measured, and the least and the most runs.
const LONG: Duration = Duration::from_millis(400);
const LEAST_RUNS: usize = 15;
const MOST_RUNS: usize = 400;

/// What a call answers and leaves.
#[derive(PartialEq)]
struct Left {
    totals: (u64, u64),
    colouring: Vec<u64>,
    rows: Vec<i64>,
    verdicts: [u64; 32],
    work: Vec<u64>,
}

impl Left {
    fn new(plan: &Numbers, moves: &[u64]) -> Self {
        Left {
            totals: (0, 0),
            colouring: plan.colouring.clone(),
            rows: vec![0; moves.len() / 3 * 4],
            verdicts: [0; 32],
            work: vec![0; (plan.regions + 2 * plan.sectors + 1) as usize],
        }
    }
}

type Judge = fn(&Numbers, &[u64], &mut Left);

fn plain(plan: &Numbers, moves: &[u64], left: &mut Left) {
    let Left { totals, colouring, rows, verdicts, work } = left;
    *totals = baseline::call(Call { plan, colouring, moves, rows, verdicts, work }).expect("a good call");
}

fn proved(plan: &Numbers, moves: &[u64], left: &mut Left) {
    let Left { totals, colouring, rows, verdicts, work } = left;
    let answer = plan.call_on(colouring, moves, rows, verdicts, work).expect("a good call");
    *totals = (answer.first, answer.last);
}

/// What `times` calls leave, each on the plan's own colouring; `best` is the shortest time of a call so far, in nanoseconds. A short
/// call is measured many at a time, so that the clock doesn't count.
fn run(call: Judge, plan: &Numbers, moves: &[u64], times: u32, best: &mut f64) -> Left {
    let mut left = Left::new(plan, moves);
    let start = Instant::now();
    for _ in 0..times {
        left.colouring.copy_from_slice(&plan.colouring);
        call(plan, moves, &mut left);
    }
    *best = best.min(start.elapsed().as_nanos() as f64 / times as f64);
    left
}

/// The shortest time of a call, in nanoseconds, of each of some calls on one list, by turns.
fn measure<const N: usize>(calls: [(Judge, &Numbers); N], moves: &[u64]) -> [f64; N] {
    let times = if moves.len() <= 3 * FEW { 20 } else { 1 };
    let mut best = [f64::MAX; N];
    let begun = Instant::now();
    for turn in 0..MOST_RUNS {
        if turn >= LEAST_RUNS && begun.elapsed() > LONG {
            break;
        }
        let lefts: Vec<Left> =
            calls.iter().zip(&mut best).map(|(&(call, plan), best)| run(call, plan, moves, times, best)).collect();
        assert!(lefts.iter().all(|l| *l == lefts[0]), "what is left differs");
    }
    best
}

/// Nanoseconds of plain Rust and of the proved library on one list: a move's, or, where there are none, a call's.
fn print(name: &str, plan: &Numbers, moves: &[u64]) {
    let [plain, proved] = measure([(plain, plan), (proved, plan)], moves).map(|t| t / (moves.len() / 3).max(1) as f64);
    println!("| {name} | {plain:.0} | {proved:.0} | {:.2} |", proved / plain);
}

fn print_head(plans: &str) {
    println!("| {plans} | plain Rust | proved | ratio |");
    println!("|---|---|---|---|");
}

/// All lists of `n` moves on a plan, and the empty list.
fn print_lists(name: &str, random: &mut Random, plan: &Numbers, n: usize) {
    for list in &LISTS {
        let moves = list.moves(random, plan, n);
        print(&format!("{name}, {}", list.name), plan, &moves);
    }
    print(&format!("{name}, empty list"), plan, &[]);
}

fn print_calls() {
    let mut random = Random(SEED);
    print_head("512 regions, 16 constraints, lists of 4,096 moves");
    for sectors in [64, 8, 2] {
        let plan = plans::grid(&mut random, 16, 32, sectors);
        print_lists(&format!("{sectors} sectors"), &mut random, &plan, LIST);
    }
    println!();
    print_head("40 regions, 6 sectors, 16 constraints, lists of 16 moves");
    let plan = plans::grid(&mut random, 5, 8, 6);
    print_lists("40 regions", &mut random, &plan, FEW);
    println!();
    print_head("probes without the call's start");
    for (height, width, sectors) in [(8, 16, 16), (16, 32, 64)] {
        let plan = plans::grid(&mut random, height, width, sectors);
        let moves = LISTS[0].moves(&mut random, &plan, LIST);
        let calls: [(Judge, &Numbers); 2] = [(plain, &plan), (proved, &plan)];
        let (whole, start) = (measure(calls, &moves), measure(calls, &[]));
        let [plain, proved] = [0, 1].map(|which| (whole[which] - start[which]) / LIST as f64);
        println!("| {} regions in {sectors} sectors | {plain:.0} | {proved:.0} | {:.2} |", height * width, proved / plain);
    }
    flights::print_all();
}

fn main() {
    match std::env::args().nth(1).as_deref() {
        Some("typed") => typed::print_all(),
        Some("calls") => print_calls(),
        Some("figures") => figures::print_all(),
        _ => {
            print_calls();
            typed::print_all();
            sheets::print_all();
            figures::print_all();
        }
    }
}
