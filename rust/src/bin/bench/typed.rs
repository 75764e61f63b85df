//! The typed board beside the flat call on the same lists, by turns and in memory that both use again: nanoseconds a move until the
//! rows are there, and until they are read. Then a probe in a list beside a probe in a call of its own.

use crate::plans::{self, Random, LISTS};
use crate::{LIST, RUNS, SEED};
use qirfadhun::lists::Numbers;
use qirfadhun::{Board, Change, Colouring, Move, Plan, Region, Sector};
use std::hint::black_box;
use std::time::Instant;

/// A flat call in its own memory.
struct Flat {
    plan: Numbers,
    colouring: Vec<u64>,
    rows: Vec<i64>,
    verdicts: [u64; 32],
    work: [u64; 641],
}

impl Flat {
    fn new(plan: Numbers) -> Self {
        let colouring = plan.colouring.clone();
        Flat { plan, colouring, rows: vec![0; 4 * LIST], verdicts: [0; 32], work: [0; 641] }
    }

    fn run(&mut self, moves: &[u64]) {
        let Flat { plan, colouring, rows, verdicts, work } = self;
        assert!(plan.call_on(colouring, moves, rows, verdicts, work).is_ok());
    }

    /// The sum of the rows' second numbers.
    fn sum(&self) -> i64 {
        self.rows.chunks_exact(4).map(|row| row[1]).sum()
    }
}

/// The same of a board.
fn sum(board: &Board) -> i64 {
    board.rows().map(|row| row.delta().or(row.violation().map(|own| own as i64)).unwrap_or(0)).sum()
}

fn typed(moves: &[u64]) -> Vec<Move> {
    let region = |number| Region::new(number).expect("a region");
    let typed = |three: &[u64]| match three[0] {
        1 => Move::Probe(Change::Give(region(three[1]), Sector::new(three[2]).expect("a sector"))),
        2 => Move::Make(Change::Give(region(three[1]), Sector::new(three[2]).expect("a sector"))),
        3 => Move::Probe(Change::Exchange(region(three[1]), region(three[2]))),
        4 => Move::Make(Change::Exchange(region(three[1]), region(three[2]))),
        _ => Move::Ask(region(three[1])),
    };
    moves.chunks(3).map(typed).collect()
}

/// The shortest times, in nanoseconds, of the flat call and of the board: until the rows are there, and until they are read.
fn measure(plan: &Numbers, moves: &[u64]) -> [[f64; 2]; 2] {
    let (checked, start): (Plan, Colouring) = Plan::from_numbers(plan.clone()).expect("a good plan");
    let mut flat = Flat::new(plan.clone());
    let mut board = checked.judge(&start).expect("a good colouring");
    let typed = typed(moves);
    let mut best = [[f64::MAX; 2]; 2];
    let mut keep = |which: usize, there: f64, read: f64| {
        best[which] = [best[which][0].min(there), best[which][1].min(read)];
    };
    for run in 0..4 * RUNS {
        flat.colouring.clone_from(&plan.colouring);
        board.restart(&start).expect("a good colouring");
        let mut sums = [0; 2];
        for which in [run % 2, 1 - run % 2] {
            let clock = Instant::now();
            if which == 0 {
                flat.run(black_box(moves));
            } else {
                black_box(board.run(black_box(&typed)));
            }
            let there = clock.elapsed().as_nanos() as f64;
            sums[which] = if which == 0 { flat.sum() } else { sum(&board) };
            keep(which, there, clock.elapsed().as_nanos() as f64);
        }
        assert!(sums[0] == sums[1] && board.colouring().iter().map(|(_, own)| own.get()).eq(flat.colouring.iter().copied()));
    }
    best
}

/// The shortest time, in nanoseconds a probe, in one list and in a call each.
fn measure_alone(plan: &Numbers, moves: &[u64]) -> [f64; 2] {
    let (checked, start) = Plan::from_numbers(plan.clone()).expect("a good plan");
    let mut board = checked.judge(&start).expect("a good colouring");
    let typed = typed(moves);
    let few = &typed[..64];
    let mut best = [f64::MAX; 2];
    for _ in 0..RUNS {
        let clock = Instant::now();
        black_box(board.run(black_box(&typed)));
        best[0] = best[0].min(clock.elapsed().as_nanos() as f64 / typed.len() as f64);
        let clock = Instant::now();
        for one in few {
            black_box(board.run(black_box([one])));
        }
        best[1] = best[1].min(clock.elapsed().as_nanos() as f64 / few.len() as f64);
    }
    best
}

pub fn print_all() {
    let mut random = Random(SEED);
    let all = [64, 8, 2].map(|sectors| plans::grid(&mut random, 16, 32, sectors));
    println!();
    println!("| 512 regions, lists of {LIST} moves | flat call | board | to flat | read: flat call | board | to flat |");
    println!("|---|---|---|---|---|---|---|");
    let mut worst: [f64; 2] = [0.0; 2];
    for plan in &all {
        for list in &LISTS {
            let moves = list.moves(&mut random, plan, LIST);
            let [flat, board] = measure(plan, &moves).map(|times| times.map(|time| time / LIST as f64));
            let ratios = [board[0] / flat[0], board[1] / flat[1]];
            worst = [worst[0].max(ratios[0]), worst[1].max(ratios[1])];
            println!(
                "| {} sectors, {} | {:.1} | {:.1} ns a move | {:.3} | {:.1} | {:.1} ns a move | {:.3} |",
                plan.sectors, list.name, flat[0], board[0], ratios[0], flat[1], board[1], ratios[1]
            );
        }
    }
    println!("| the most | | | {:.3} | | | {:.3} |", worst[0], worst[1]);
    println!();
    println!("| a probe on a board, 512 regions | in a list of {LIST} | in a call of its own | to the list |");
    println!("|---|---|---|---|");
    for plan in &all {
        let moves = LISTS[0].moves(&mut random, plan, LIST);
        let [list, alone] = measure_alone(plan, &moves);
        println!("| {} sectors | {list:.0} | {alone:.0} ns | {:.0} |", plan.sectors, alone / list);
    }
}
