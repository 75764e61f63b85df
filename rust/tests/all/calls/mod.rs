//! A call as it is handed over, those that answer it, and the comparison of what they answer and leave.

use crate::canary::Lent;
use crate::cases::{self, compare_all, Case, Code, Memory as _};
use crate::library::{raw, Constraint};
use crate::plans::{break_list, lower, lower_number, moves, one_less, records, whole_plan, without, Numbers, Random};
use crate::reference::MOVES;
use crate::{library, reference};

/// What is handed over: the numbers, and how long the lent rows, verdicts and work memory are.
#[derive(Clone, Debug)]
pub struct Call {
    pub plan: Numbers,
    pub moves: Vec<u64>,
    pub rows: u64,
    pub verdicts: u64,
    pub work: u64,
}

impl Call {
    /// A call with exactly the room it needs.
    pub fn new(plan: Numbers, moves: Vec<u64>) -> Self {
        let rows = moves.len() as u64 / 3 * 4;
        let verdicts = plan.constraints.len() as u64 / 4 * 2;
        let work = plan.regions + 2 * plan.sectors + 1;
        Call { plan, moves, rows, verdicts, work }
    }

    pub fn random(random: &mut Random) -> Self {
        let plan = whole_plan(random);
        let count = if random.once_in(400) { MOVES as usize } else { random.pick(&[0, 1, 4, 12, 40]) };
        let moves = moves(random, &plan, count);
        Call::new(plan, moves)
    }

    /// Changes one thing for a wild one: of the plan, the moves, or a lent room. By chance the call may still be good after it.
    pub fn break_one(&mut self, random: &mut Random) {
        let Call { plan, moves, rows, verdicts, work } = self;
        match random.between(0, 10) {
            0 => break_list(random, moves, &[plan.regions, plan.sectors]),
            1 | 2 => {
                let room = &mut [rows, verdicts, work][random.place(3)];
                **room = random.pick(&[0, room.saturating_sub(1), **room + 1, **room + 7]);
            }
            3 | 4 => plan.break_flights(random),
            5 => plan.break_outside(random),
            _ => plan.break_one(random),
        }
    }

    /// The call without a region; moves name those above it by their new numbers.
    fn without_region(&self, region: u64) -> Self {
        let mut call = Call { plan: self.plan.without_region(region), ..self.clone() };
        for three in call.moves.chunks_exact_mut(3) {
            three[1] = one_less(three[1], region);
            if three[0] == 3 || three[0] == 4 {
                three[2] = one_less(three[2], region);
            }
        }
        call
    }
}

/// All memory that is lent, each slice guarded; what is only read is guarded as well.
#[derive(Clone)]
pub struct Memory {
    regions: u64,
    sectors: u64,
    workloads: Lent<u64>,
    pub outside: Lent<u64>,
    edges: Lent<u64>,
    counts: Lent<u64>,
    pub visits: Lent<u64>,
    constraints: Lent<u64>,
    records: Lent<Constraint>,
    pub colouring: Lent<u64>,
    pub moves: Lent<u64>,
    pub rows: Lent<i64>,
    pub verdicts: Lent<u64>,
    pub work: Lent<u64>,
}

impl Memory {
    pub fn of(call: &Call) -> Self {
        let Numbers { regions, sectors, workloads, outside, edges, counts, visits, constraints, colouring } = &call.plan;
        Memory {
            regions: *regions,
            sectors: *sectors,
            workloads: Lent::list(workloads),
            outside: Lent::list(outside),
            edges: Lent::list(edges),
            counts: Lent::list(counts),
            visits: Lent::list(visits),
            constraints: Lent::list(constraints),
            records: Lent::list(&records(constraints)),
            colouring: Lent::list(colouring),
            moves: Lent::list(&call.moves),
            rows: Lent::room(call.rows),
            verdicts: Lent::room(call.verdicts),
            work: Lent::room(call.work),
        }
    }
}

impl cases::Memory for Memory {
    fn same_as(&self, due: &Self) -> Result<(), String> {
        self.rows.same_as(&due.rows, "rows")?;
        self.colouring.same_as(&due.colouring, "colouring")?;
        self.verdicts.same_as(&due.verdicts, "verdicts")?;
        self.work.same_as(&due.work, "work")?;
        self.workloads.same_as(&due.workloads, "workloads")?;
        self.outside.same_as(&due.outside, "outside")?;
        self.edges.same_as(&due.edges, "edges")?;
        self.counts.same_as(&due.counts, "counts")?;
        self.visits.same_as(&due.visits, "visits")?;
        self.constraints.same_as(&due.constraints, "constraints")?;
        self.records.same_as(&due.records, "records")?;
        self.moves.same_as(&due.moves, "moves")
    }
}

/// Code, place, first total, last total.
pub type Answer = [u64; 4];

macro_rules! answer {
    ($call:path, $memory:ident, $constraints:ident) => {{
        let answer = $call(
            $memory.regions,
            $memory.sectors,
            $memory.workloads.slice(),
            $memory.outside.slice(),
            $memory.edges.slice(),
            $memory.counts.slice(),
            $memory.visits.slice(),
            $memory.$constraints.slice(),
            $memory.colouring.slice(),
            $memory.moves.slice(),
            $memory.rows.slice(),
            $memory.verdicts.slice(),
            $memory.work.slice(),
        );
        match answer {
            Ok(totals) => [0, 0, totals.first, totals.last],
            Err(refusal) => [refusal.code, refusal.place, 0, 0],
        }
    }};
}

pub fn by_reference(memory: &mut Memory) -> Answer {
    answer!(reference::call, memory, constraints)
}

pub fn by_library(memory: &mut Memory) -> Answer {
    answer!(library::call, memory, constraints)
}

pub fn by_library_records(memory: &mut Memory) -> Answer {
    answer!(library::call_records, memory, records)
}

macro_rules! archive_answer {
    ($call:path, $memory:ident, $constraints:ident) => {{
        let constraints = $memory.$constraints.parts();
        let rows = $memory.rows.parts();
        let [workloads, outside, edges, counts, visits, colouring, moves, verdicts, work] = [
            &mut $memory.workloads,
            &mut $memory.outside,
            &mut $memory.edges,
            &mut $memory.counts,
            &mut $memory.visits,
            &mut $memory.colouring,
            &mut $memory.moves,
            &mut $memory.verdicts,
            &mut $memory.work,
        ]
        .map(Lent::parts);
        // SAFETY: each pointer and length is that of one slice, and the slices lie in buffers of their own.
        let answer = unsafe {
            $call(
                $memory.regions,
                $memory.sectors,
                workloads.0,
                workloads.1,
                outside.0,
                outside.1,
                edges.0,
                edges.1,
                counts.0,
                counts.1,
                visits.0,
                visits.1,
                constraints.0,
                constraints.1,
                colouring.0,
                colouring.1,
                moves.0,
                moves.1,
                rows.0,
                rows.1,
                verdicts.0,
                verdicts.1,
                work.0,
                work.1,
            )
        };
        [answer.code, answer.place, answer.first, answer.last]
    }};
}

/// The archive's own answer, which shows that a place or totals that don't apply are 0.
pub fn by_archive(memory: &mut Memory) -> Answer {
    archive_answer!(raw::sctr_call, memory, constraints)
}

pub fn by_archive_records(memory: &mut Memory) -> Answer {
    archive_answer!(raw::sctr_call_records, memory, records)
}

/// The code of the call, or in words where one of those under test first differs from the reference.
pub fn compare(call: &Call, under_test: &[fn(&mut Memory) -> Answer]) -> Result<Code, String> {
    let answer = compare_all(&Memory::of(call), by_reference, under_test)?;
    Ok((answer[0], None))
}

/// The answer to these moves on a plan and what they leave, the same from all, by numbers and by records.
pub fn asked(plan: &Numbers, moves: &[u64]) -> (Answer, Memory) {
    let call = Call::new(plan.clone(), moves.to_vec());
    let mut memory = Memory::of(&call);
    let answer = by_reference(&mut memory);
    for other in [by_library, by_archive, by_library_records, by_archive_records] {
        let mut others = Memory::of(&call);
        assert_eq!(other(&mut others), answer);
        assert_eq!(others.same_as(&memory), Ok(()));
    }
    (answer, memory)
}

/// The rows of these moves on a plan.
pub fn rows(plan: &Numbers, moves: &[u64]) -> Vec<i64> {
    asked(plan, moves).1.rows.content().to_vec()
}

/// The violation of a plan's one constraint after these moves.
pub fn violation(plan: &Numbers, moves: &[u64]) -> u64 {
    let (answer, memory) = asked(plan, moves);
    let &[holds, violation] = memory.verdicts.content() else { panic!("one constraint") };
    assert_eq!((&answer[..2], holds), (&[0, 0][..], u64::from(violation == 0)));
    assert_eq!(answer[3], plan.constraints[3] * violation);
    violation
}

/// The deltas of these moves, all of which are accepted.
pub fn deltas(plan: &Numbers, moves: &[[u64; 3]]) -> Vec<i64> {
    let rows = rows(plan, moves.as_flattened());
    assert!(rows.chunks(4).all(|row| row[0] == 0), "all are accepted");
    rows.chunks(4).map(|row| row[1]).collect()
}

/// What each region has.
pub fn parts(plan: &Numbers) -> Vec<i64> {
    let questions: Vec<_> = (1..=plan.regions).map(|region| [5, region, 0]).collect();
    deltas(plan, &questions)
}

impl Case for Call {
    fn compare(&self) -> Result<Code, String> {
        compare(self, &[by_library, by_archive])
    }

    fn smaller(&self) -> Box<dyn Iterator<Item = Self> + '_> {
        let fewer_moves = without(&self.moves, 3).map(|moves| Call { moves, ..self.clone() });
        let fewer_regions = (1..=self.plan.workloads.len() as u64).map(|region| self.without_region(region));
        let smaller_plans = self.plan.smaller().map(|plan| Call { plan, ..self.clone() });
        let lower_moves = lower(&self.moves).map(|moves| Call { moves, ..self.clone() });
        let less_rows = lower_number(self.rows).map(|rows| Call { rows, ..self.clone() });
        let less_verdicts = lower_number(self.verdicts).map(|verdicts| Call { verdicts, ..self.clone() });
        let less_work = lower_number(self.work).map(|work| Call { work, ..self.clone() });
        let less_room = less_rows.chain(less_verdicts).chain(less_work);
        Box::new(fewer_moves.chain(fewer_regions).chain(smaller_plans).chain(lower_moves).chain(less_room))
    }
}
