//! A sheet written into lent bytes: those that write it, and the comparison of what they answer and leave.

use super::Sheet;
use crate::canary::Lent;
use crate::cases::{self, compare_all, Case, Code};
use crate::library::{raw, Constraint};
use crate::plans::{lower_number, records, Numbers, Random};
use crate::reference::{Form, FIRST};
use crate::{library, reference};

/// What is handed over: the numbers, for the first form all but outside areas and flights, and how many bytes are lent.
#[derive(Clone, Debug)]
pub struct Writing {
    pub form: &'static Form,
    pub plan: Numbers,
    pub room: u64,
}

impl Writing {
    /// A writing with exactly the room that its sheet needs.
    pub fn new(form: &'static Form, plan: Numbers) -> Self {
        let room = Sheet::of(form, plan.clone()).bytes().len() as u64;
        Writing { form, plan, room }
    }

    pub fn first(plan: Numbers) -> Self {
        Writing::new(&FIRST, plan)
    }

    pub fn random(random: &mut Random) -> Self {
        let Sheet { form, plan, .. } = Sheet::random(random);
        Writing::new(form, plan)
    }
}

/// All memory that is lent, each slice guarded; what is only read is guarded as well.
#[derive(Clone)]
pub struct Memory {
    form: &'static Form,
    regions: u64,
    sectors: u64,
    workloads: Lent<u64>,
    outside: Lent<u64>,
    edges: Lent<u64>,
    counts: Lent<u64>,
    visits: Lent<u64>,
    constraints: Lent<u64>,
    records: Lent<Constraint>,
    colouring: Lent<u64>,
    pub sheet: Lent<u8>,
}

impl Memory {
    pub fn of(writing: &Writing) -> Self {
        let Numbers { regions, sectors, workloads, outside, edges, counts, visits, constraints, colouring } = &writing.plan;
        Memory {
            form: writing.form,
            regions: *regions,
            sectors: *sectors,
            workloads: Lent::list(workloads),
            outside: Lent::list(outside),
            edges: Lent::list(edges),
            counts: Lent::list(counts),
            visits: Lent::list(visits),
            constraints: Lent::list(constraints),
            records: Lent::list(&records(constraints)),
            colouring: Lent::list(colouring),
            sheet: Lent::room(writing.room),
        }
    }
}

impl cases::Memory for Memory {
    fn same_as(&self, due: &Self) -> Result<(), String> {
        self.sheet.same_as(&due.sheet, "sheet")?;
        self.workloads.same_as(&due.workloads, "workloads")?;
        self.outside.same_as(&due.outside, "outside")?;
        self.edges.same_as(&due.edges, "edges")?;
        self.counts.same_as(&due.counts, "counts")?;
        self.visits.same_as(&due.visits, "visits")?;
        self.constraints.same_as(&due.constraints, "constraints")?;
        self.records.same_as(&due.records, "records")?;
        self.colouring.same_as(&due.colouring, "colouring")
    }
}

/// Code, place, bytes written.
pub type Answer = [u64; 3];

macro_rules! answer {
    ($write:path, $memory:ident: $($list:ident)*) => {
        match $write($memory.regions, $memory.sectors, $($memory.$list.slice(),)* $memory.sheet.slice()) {
            Ok(bytes) => [0, 0, bytes as u64],
            Err(refusal) => [refusal.code, refusal.place, 0],
        }
    };
}

pub fn by_reference(memory: &mut Memory) -> Answer {
    if *memory.form == FIRST {
        return answer!(reference::write, memory: workloads edges constraints colouring);
    }
    answer!(reference::write_second, memory: workloads outside edges counts visits constraints colouring)
}

pub fn by_library(memory: &mut Memory) -> Answer {
    if *memory.form == FIRST {
        return answer!(library::write, memory: workloads edges constraints colouring);
    }
    answer!(library::write_second, memory: workloads outside edges counts visits constraints colouring)
}

/// Only of the first form.
pub fn by_library_records(memory: &mut Memory) -> Answer {
    answer!(library::write_records, memory: workloads edges records colouring)
}

macro_rules! archive_answer {
    ($write:path, $memory:ident: $($list:ident)*) => {{
        $(let $list = $memory.$list.parts();)*
        let sheet = $memory.sheet.parts();
        // SAFETY: each pointer and length is that of one slice, and the slices lie in buffers of their own.
        let answer = unsafe { $write($memory.regions, $memory.sectors, $($list.0, $list.1,)* sheet.0, sheet.1) };
        [answer.code, answer.place, answer.bytes]
    }};
}

/// The archive's own answer, which shows that a place or a number of bytes that doesn't apply is 0.
pub fn by_archive(memory: &mut Memory) -> Answer {
    if *memory.form == FIRST {
        return archive_answer!(raw::sctr_write, memory: workloads edges constraints colouring);
    }
    archive_answer!(raw::sctr_write_second, memory: workloads outside edges counts visits constraints colouring)
}

/// Only of the first form.
pub fn by_archive_records(memory: &mut Memory) -> Answer {
    archive_answer!(raw::sctr_write_records, memory: workloads edges records colouring)
}

/// The code of the writing, or in words where one of those under test first differs from the reference.
pub fn compare(writing: &Writing, under_test: &[fn(&mut Memory) -> Answer]) -> Result<Code, String> {
    let answer = compare_all(&Memory::of(writing), by_reference, under_test)?;
    Ok((answer[0], None))
}

impl Case for Writing {
    fn compare(&self) -> Result<Code, String> {
        compare(self, &[by_library, by_archive])
    }

    fn smaller(&self) -> Box<dyn Iterator<Item = Self> + '_> {
        let smaller_plans = self.plan.smaller().map(|plan| Writing { plan, ..self.clone() });
        let less_room = lower_number(self.room).map(|room| Writing { room, ..self.clone() });
        Box::new(smaller_plans.chain(less_room))
    }
}
