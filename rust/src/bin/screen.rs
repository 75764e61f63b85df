//! A small planning screen: prints the verdicts of either sheet, with a sentence for each and the reasons where it is broken, sends
//! a flight over a border, and tries a short list of moves.
//!
//! `cargo run ../sheets/a.sheet`

use qirfadhun::{Board, Change, Constraint, Kind, Move, Plan, Region, Relation, Row, Seconds, Sector};
use std::error::Error;
use std::process::ExitCode;

fn main() -> ExitCode {
    let Some(path) = std::env::args().nth(1) else {
        eprintln!("usage: screen SHEET");
        return ExitCode::FAILURE;
    };
    match show(&path) {
        Ok(()) => ExitCode::SUCCESS,
        Err(error) => {
            eprintln!("{path}: {error}");
            ExitCode::FAILURE
        }
    }
}

fn show(path: &str) -> Result<(), Box<dyn Error>> {
    let mut board = Board::read(&std::fs::read(path)?)?;
    print_verdicts(&board)?;
    println!("Border: {}. Flights: {}.", board.border(), board.plan().flights().count());
    if let Some(border) = border(&board) {
        send_flight(&board, border)?;
        try_moves(&mut board, border);
    }
    Ok(())
}

fn print_verdicts(board: &Board) -> Result<(), Box<dyn Error>> {
    for verdict in board.verdicts() {
        println!("{verdict}");
        for reason in verdict.reasons()? {
            println!("    {reason}");
        }
    }
    println!("The total is {}.", board.total());
    Ok(())
}

/// Two neighbours of different sectors, each with its own.
type Border = [(Region, Sector); 2];

/// The first border of the colouring, if it has one.
fn border(board: &Board) -> Option<Border> {
    let own = |region| Some((region, board.colouring().sector_of(region)?));
    let mut all = board.plan().edges().filter_map(|edge| Some([own(edge.between[0])?, own(edge.between[1])?]));
    all.find(|[(_, one), (_, other)]| one != other)
}

/// Judges the colouring by one flight that is 45 seconds beyond a border, and tries to move the border.
fn send_flight(board: &Board, [(a, sector), (b, _)]: Border) -> Result<(), Box<dyn Error>> {
    let dwell = Constraint { kind: Kind::Dwell(Relation::AtLeast), limit: 120, weight: 1 };
    let mut builder = board.plan().to_builder();
    builder.clear_flights().flight([(a, Seconds(300)), (b, Seconds(45))]);
    let plan: Plan = builder.clear_constraints().constraint(dwell).build()?;
    let mut flown = plan.judge(board.colouring())?;
    println!("By a flight alone, 300 seconds in region {a} and 45 in region {b}:");
    print_verdicts(&flown)?;
    flown.run([Move::Probe(Change::Give(b, sector))]).for_each(print_row);
    println!("Without this flight, by the sheet alone:");
    Ok(())
}

/// Takes a short list of moves across a border, the last one to a region that the plan need not have, and prints their rows.
fn try_moves(board: &mut Board, [(a, _), (b, sector)]: Border) {
    let mut moves = vec![
        Move::Probe(Change::Give(a, sector)),
        Move::Probe(Change::Exchange(a, b)),
        Move::Ask(a),
        Move::Make(Change::Exchange(a, b)),
        Move::Make(Change::Give(b, sector)),
    ];
    moves.extend(Region::new(512).map(|last| Move::Probe(Change::Give(last, sector))));
    board.run(moves).for_each(print_row);
}

fn print_row(row: Row) {
    let asked = match row.asked() {
        Move::Probe(change) | Move::Make(change) => change.to_string(),
        Move::Ask(region) => format!("region {region}"),
        _ => "another move".to_string(),
    };
    match (row.refusal(), row.delta(), row.violation()) {
        (Some(refusal), ..) => println!("Not taken, {asked}: {refusal}."),
        (_, Some(delta), _) if matches!(row.asked(), Move::Make(_)) => {
            println!("Made, {asked}: the total {} and is {}; new labels: {}.", change(delta), row.total(), row.relabelled());
        }
        (_, Some(delta), _) => println!("Tried, {asked}: the total {}.", change(delta)),
        (_, _, Some(violation)) => println!("Asked, {asked}: its violation is {violation}."),
        _ => {}
    }
}

fn change(delta: i64) -> String {
    match delta {
        0 => "stays as it is".to_string(),
        1.. => format!("rises by {delta}"),
        _ => format!("falls by {}", -delta),
    }
}
