//! A plan, and codes 1 to 8 with 14 and 13 among them: what a list of numbers must be to make one.

use super::limits::*;

/// Why something is refused: the code, and the place that goes with it, or 0.
#[derive(Clone, Copy, Debug, PartialEq, Eq)]
pub struct Refusal {
    pub code: u64,
    pub place: u64,
}

pub struct Edge {
    pub a: u64,
    pub b: u64,
    pub area: u64,
}

pub struct Visit {
    pub region: u64,
    pub dwell: u64,
}

pub struct Constraint {
    pub kind: u64,
    pub relation: u64,
    pub limit: u64,
    pub weight: u64,
}

/// A plan with its colouring, all within the documents' limits. Region 1 comes first in the lists; `outside` has the areas of the
/// regions' faces to the outside; a flight is a list of visits.
pub struct Plan {
    pub regions: u64,
    pub sectors: u64,
    pub workloads: Vec<u64>,
    pub outside: Vec<u64>,
    pub edges: Vec<Edge>,
    pub flights: Vec<Vec<Visit>>,
    pub constraints: Vec<Constraint>,
    pub colouring: Vec<u64>,
}

/// The lists of a plan in the order of the call: workloads, outside areas, edges, visit counts, visits, constraints, colouring.
pub type Lists<'a> = [&'a [u64]; 7];

impl Plan {
    /// The plan of these numbers with constraints of the kinds 1 to `kinds`, or the first of codes 1 to 3, 14, 4, 5, 13 and 6 to 8
    /// that refuses them.
    pub fn new(kinds: u64, regions: u64, sectors: u64, lists: Lists) -> Result<Plan, Refusal> {
        let [workloads, outside, edges, counts, visits, constraints, colouring] = lists;
        check_regions(regions)?;
        check_sectors(sectors)?;
        check_list(3, regions, workloads, |workload| workload <= WORKLOAD)?;
        check_list(14, regions, outside, |area| area <= AREA)?;
        whole_items(4, edges, 3)?;
        check_edge_count(edges.len() as u64 / 3)?;
        check_edges(regions, edges)?;
        let flights = flights(regions, counts, visits)?;
        whole_items(6, constraints, 4)?;
        check_constraint_count(constraints.len() as u64 / 4)?;
        check_constraints(kinds, constraints)?;
        check_list(8, regions, colouring, |sector| (1..=sectors).contains(&sector))?;
        Ok(Plan {
            regions,
            sectors,
            workloads: workloads.to_vec(),
            outside: outside.to_vec(),
            edges: edges.chunks(3).map(|edge| Edge { a: edge[0], b: edge[1], area: edge[2] }).collect(),
            flights,
            constraints: constraints
                .chunks(4)
                .map(|four| Constraint { kind: four[0], relation: four[1], limit: four[2], weight: four[3] })
                .collect(),
            colouring: colouring.to_vec(),
        })
    }

    /// The lists that the plan was made of.
    pub fn lists(&self) -> [Vec<u64>; 7] {
        let edges = self.edges.iter().flat_map(|edge| [edge.a, edge.b, edge.area]);
        let counts = self.flights.iter().map(|flight| flight.len() as u64);
        let visits = self.flights.iter().flatten().flat_map(|visit| [visit.region, visit.dwell]);
        let four = |constraint: &Constraint| [constraint.kind, constraint.relation, constraint.limit, constraint.weight];
        [
            self.workloads.clone(),
            self.outside.clone(),
            edges.collect(),
            counts.collect(),
            visits.collect(),
            self.constraints.iter().flat_map(four).collect(),
            self.colouring.clone(),
        ]
    }
}

pub fn check_regions(regions: u64) -> Result<(), Refusal> {
    demand((1..=REGIONS).contains(&regions), 1, 0)
}

pub fn check_sectors(sectors: u64) -> Result<(), Refusal> {
    demand((1..=SECTORS).contains(&sectors), 2, 0)
}

pub fn check_edge_count(count: u64) -> Result<(), Refusal> {
    demand(count <= EDGES, 4, 0)
}

pub fn check_constraint_count(count: u64) -> Result<(), Refusal> {
    demand((1..=CONSTRAINTS).contains(&count), 6, 0)
}

/// The refusal with this code and place, unless the condition is met.
pub fn demand(met: bool, code: u64, place: u64) -> Result<(), Refusal> {
    if met {
        Ok(())
    } else {
        Err(Refusal { code, place })
    }
}

/// The list has as many numbers as needed for whole items of this width.
pub fn whole_items(code: u64, numbers: &[u64], width: usize) -> Result<(), Refusal> {
    demand(numbers.len().is_multiple_of(width), code, 0)
}

/// The list has one number a region, and each is good.
fn check_list(code: u64, regions: u64, numbers: &[u64], good: impl Fn(u64) -> bool) -> Result<(), Refusal> {
    demand(numbers.len() as u64 == regions, code, 0)?;
    for (place, &number) in (1..).zip(numbers) {
        demand(good(number), code, place)?;
    }
    Ok(())
}

fn check_edges(regions: u64, edges: &[u64]) -> Result<(), Refusal> {
    let mut before = (0, 0);
    for (place, edge) in (1..).zip(edges.chunks(3)) {
        let (a, b, area) = (edge[0], edge[1], edge[2]);
        demand(1 <= a && a < b && b <= regions && (1..=AREA).contains(&area) && (a, b) > before, 5, place)?;
        before = (a, b);
    }
    Ok(())
}

/// The flights of these two lists, or code 13.
fn flights(regions: u64, counts: &[u64], visits: &[u64]) -> Result<Vec<Vec<Visit>>, Refusal> {
    demand(counts.len() as u64 <= FLIGHTS, 13, 0)?;
    for (place, count) in (1..).zip(counts) {
        demand((1..=VISITS).contains(count), 13, place)?;
    }
    demand(visits.len() as u64 == 2 * counts.iter().sum::<u64>(), 13, 0)?;
    let mut visits = visits.chunks(2).map(|visit| Visit { region: visit[0], dwell: visit[1] });
    let flights: Vec<Vec<Visit>> = counts.iter().map(|&count| visits.by_ref().take(count as usize).collect()).collect();
    for (place, flight) in (1..).zip(&flights) {
        let good = |visit: &Visit| (1..=regions).contains(&visit.region) && (1..=DWELL).contains(&visit.dwell);
        demand(flight.iter().all(good), 13, place)?;
    }
    Ok(flights)
}

fn check_constraints(kinds: u64, constraints: &[u64]) -> Result<(), Refusal> {
    for (place, four) in (1..).zip(constraints.chunks(4)) {
        demand((1..=kinds).contains(&four[0]), 7, place)?;
        let relations = if four[0] == 2 || four[0] == 3 { 1..=1 } else { 1..=6 };
        demand(relations.contains(&four[1]) && four[2] <= LIMIT && (1..=WEIGHT).contains(&four[3]), 7, place)?;
    }
    Ok(())
}
