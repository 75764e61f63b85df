//! One step of a search: probes every recolouring across a border in one list, makes the best, and prints the verdicts before and
//! after. Which step to take next is for the search to say.
//!
//! `cargo run --example search_step ../sheets/grid-64.sheet`

use qirfadhun::{Board, Change};
use std::collections::BTreeSet;
use std::error::Error;

fn main() -> Result<(), Box<dyn Error>> {
    let path = std::env::args().nth(1).ok_or("usage: search_step SHEET")?;
    let mut board = Board::read(&std::fs::read(path)?)?;
    print_verdicts(&board);

    let changes = across_borders(&board);
    println!("{} recolourings across a border.", changes.len());
    match board.probe_all(&changes).min_by_key(|&(_, delta)| delta) {
        Some((best, delta)) if delta < 0 => {
            let row = board.make(best)?;
            println!("Made, {best}: the total falls by {} to {}.", -delta, row.total());
            print_verdicts(&board);
        }
        _ => println!("None of them lowers the total."),
    }
    Ok(())
}

/// Each region beside another sector given to that sector, once.
fn across_borders(board: &Board) -> BTreeSet<Change> {
    let mut changes = BTreeSet::new();
    for edge in board.plan().edges() {
        let [a, b] = edge.between;
        if let (Some(own), Some(other)) = (board.colouring().sector_of(a), board.colouring().sector_of(b)) {
            if own != other {
                changes.extend([Change::Give(a, other), Change::Give(b, own)]);
            }
        }
    }
    changes
}

fn print_verdicts(board: &Board) {
    board.verdicts().for_each(|verdict| println!("{verdict}"));
    println!("The total is {}.", board.total());
}
