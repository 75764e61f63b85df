//! The tests' numbers as the typed face takes them, and what a board shows as numbers again.

use crate::plans::Numbers;
use qirfadhun::{
    lists, Area, Board, Change, Colouring, Constraint, Kind, Move, Plan, Refusal, Region, Relation, Row, Seconds, Sector,
    Workload,
};

pub fn region(number: u64) -> Region {
    Region::new(number).expect("a region")
}

pub fn sector(number: u64) -> Sector {
    Sector::new(number).expect("a sector")
}

/// The numbers as the library names them.
pub fn numbers(plan: &Numbers) -> lists::Numbers {
    let Numbers { regions, sectors, workloads, outside, edges, counts, visits, constraints, colouring } = plan.clone();
    lists::Numbers { regions, sectors, workloads, outside, edges, counts, visits, constraints, colouring }
}

/// The plan put together by a builder, and its colouring; its numbers are such that the types can hold them.
pub fn built(plan: &Numbers) -> Result<(Plan, Colouring), Refusal> {
    let mut builder = Plan::builder(plan.sectors);
    for (&workload, &outside) in plan.workloads.iter().zip(&plan.outside) {
        builder.region(Workload(workload), Area(outside));
    }
    for edge in plan.edges.chunks(3) {
        builder.edge(region(edge[0]), region(edge[1]), Area(edge[2]));
    }
    let mut visits = plan.visits.chunks(2).map(|visit| (region(visit[0]), Seconds(visit[1])));
    for &count in &plan.counts {
        builder.flight(visits.by_ref().take(count as usize));
    }
    for four in plan.constraints.chunks(4) {
        builder.constraint(constraint(four));
    }
    let built = builder.build()?;
    let colouring = built.colouring(plan.colouring.iter().copied())?;
    Ok((built, colouring))
}

pub fn constraint(four: &[u64]) -> Constraint {
    let relation = Relation::new(four[1]).expect("a relation");
    let kind = match four[0] {
        1 => Kind::Connected(relation),
        2 => Kind::Border,
        3 => Kind::Balanced,
        4 => Kind::Bounded(relation),
        5 => Kind::Dwell(relation),
        kind => panic!("kind {kind}"),
    };
    Constraint { kind, limit: four[2], weight: four[3] }
}

/// The board of a plan with its colouring.
pub fn board(plan: &Numbers) -> Board {
    let (plan, colouring) = built(plan).expect("a good plan");
    plan.judge(&colouring).expect("a good colouring")
}

/// The move of three numbers, where the types can hold it.
pub fn typed_move(three: &[u64]) -> Option<Move> {
    let first = Region::new(three[1])?;
    let give = || Some(Change::Give(first, Sector::new(three[2])?));
    let exchange = || Some(Change::Exchange(first, Region::new(three[2])?));
    match three[0] {
        1 => Some(Move::Probe(give()?)),
        2 => Some(Move::Make(give()?)),
        3 => Some(Move::Probe(exchange()?)),
        4 => Some(Move::Make(exchange()?)),
        5 => (three[2] == 0).then_some(Move::Ask(first)),
        _ => None,
    }
}

/// The four numbers of a row. It has a delta or a violation by what was asked, and neither where it is refused.
pub fn row_numbers(row: Row) -> [i64; 4] {
    let status = row.refusal().map_or(0, |refusal| refusal.code as i64);
    let asked = match row.asked() {
        Move::Ask(_) => {
            assert_eq!(row.delta(), None);
            row.violation().map(|violation| violation as i64)
        }
        _ => {
            assert_eq!(row.violation(), None);
            row.delta()
        }
    };
    assert_eq!(asked.is_none(), row.refusal().is_some(), "a refused move has no number, and only a refused one");
    [status, asked.unwrap_or(0), row.total() as i64, row.relabelled() as i64]
}

/// What a board shows of its colouring: total, colouring, verdicts and work memory, as the flat call leaves them.
#[derive(Debug, PartialEq)]
pub struct Shown {
    pub total: u64,
    pub colouring: Vec<u64>,
    pub verdicts: Vec<u64>,
    pub work: Vec<u64>,
}

impl Shown {
    pub fn by(board: &Board) -> Self {
        let plan = board.plan();
        let labels = plan.regions().map(|region| board.label(region).expect("a region of the plan").get());
        let counts = board.sectors().map(|sector| sector.component_count());
        let sums = board.sectors().map(|sector| sector.workload());
        Shown {
            total: board.total(),
            colouring: board.colouring().iter().map(|(_, sector)| sector.get()).collect(),
            verdicts: board.verdicts().flat_map(|verdict| [u64::from(verdict.holds()), verdict.violation()]).collect(),
            work: labels.chain(counts).chain(sums).chain([board.border()]).collect(),
        }
    }
}
