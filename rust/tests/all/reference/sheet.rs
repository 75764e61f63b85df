//! The sheet in either form: laid out from lists, written where there is room for it, and read.

use super::blocks::{block, number_of, payload};
use super::form::{kind, Form, FIRST, KINDS, SECOND};
use super::limits::*;
use super::plan::{check_constraint_count, check_edge_count, check_regions, check_sectors, demand, Lists, Plan, Refusal};

/// How many regions, sectors, edges, constraints, flights and visits a sheet has.
#[derive(Clone, Copy, Debug, PartialEq, Eq)]
pub struct Head {
    pub regions: u64,
    pub sectors: u64,
    pub edges: u64,
    pub constraints: u64,
    pub flights: u64,
    pub visits: u64,
}

/// The sheet of these numbers in a form, good or not; each is cut to the bytes that it has there, and what the form has no blocks
/// for is left out.
pub fn lay_out(form: &Form, regions: u64, sectors: u64, lists: Lists) -> Vec<u8> {
    let [workloads, outside, edges, counts, visits, constraints, colouring] = lists;
    let items = |list: &[u64], width: usize| (list.len() / width) as u64;
    let head = [regions, sectors, items(edges, 3), items(constraints, 4), items(counts, 1), items(visits, 2)];
    let constraints = limit_and_weight_exchanged(constraints);
    let by_code = [&head[..form.head], workloads, edges, &constraints, colouring, outside, counts, visits];
    let mut blocks: Vec<Vec<u8>> = Vec::new();
    for &code in form.kinds {
        let bytes = pack(by_code[code - 1], kind(code).widths);
        for payload in bytes.chunks(kind(code).in_full_block * kind(code).record_bytes()) {
            blocks.push(block(form, code, blocks.len(), payload));
        }
    }
    blocks.concat()
}

/// From the order of a list to that of the sheet, which has the weight before the limit, or back.
fn limit_and_weight_exchanged(constraints: &[u64]) -> Vec<u64> {
    constraints.chunks_exact(4).flat_map(|four| [four[0], four[1], four[3], four[2]]).collect()
}

/// The lowest bytes of each number, as many as its turn among the widths says.
fn pack(numbers: &[u64], widths: &[usize]) -> Vec<u8> {
    let turns = numbers.iter().zip(widths.iter().cycle());
    turns.flat_map(|(number, &width)| number.to_le_bytes().into_iter().take(width)).collect()
}

/// The numbers in these bytes, as wide as their turn among the widths says.
fn unpack(mut bytes: &[u8], widths: &[usize]) -> Vec<u64> {
    let mut numbers = Vec::new();
    for &width in widths.iter().cycle() {
        let Some((number, rest)) = bytes.split_at_checked(width) else { break };
        numbers.push(number_of(number));
        bytes = rest;
    }
    numbers
}

/// Writing a first sheet: codes 1 to 8, then 40; answers the bytes written.
pub fn write(
    regions: u64,
    sectors: u64,
    workloads: &[u64],
    edges: &[u64],
    constraints: &[u64],
    colouring: &[u64],
    sheet: &mut [u8],
) -> Result<usize, Refusal> {
    let outside = vec![0; workloads.len()];
    write_in(&FIRST, regions, sectors, [workloads, &outside, edges, &[], &[], constraints, colouring], sheet)
}

/// Writing a second sheet: codes 1 to 3, 14, 4, 5, 13 and 6 to 8, then 40; answers the bytes written.
#[allow(clippy::too_many_arguments)]
pub fn write_second(
    regions: u64,
    sectors: u64,
    workloads: &[u64],
    outside: &[u64],
    edges: &[u64],
    counts: &[u64],
    visits: &[u64],
    constraints: &[u64],
    colouring: &[u64],
    sheet: &mut [u8],
) -> Result<usize, Refusal> {
    write_in(&SECOND, regions, sectors, [workloads, outside, edges, counts, visits, constraints, colouring], sheet)
}

fn write_in(form: &Form, regions: u64, sectors: u64, lists: Lists, sheet: &mut [u8]) -> Result<usize, Refusal> {
    Plan::new(form.constraint_kinds, regions, sectors, lists)?;
    let bytes = lay_out(form, regions, sectors, lists);
    demand(sheet.len() >= bytes.len(), 40, 0)?;
    sheet[..bytes.len()].copy_from_slice(&bytes);
    Ok(bytes.len())
}

/// Reading either sheet: the plan in it, then 39; the lists hold its numbers from their starts.
#[allow(clippy::too_many_arguments)]
pub fn read(
    sheet: &[u8],
    workloads: &mut [u64],
    outside: &mut [u64],
    edges: &mut [u64],
    counts: &mut [u64],
    visits: &mut [u64],
    constraints: &mut [u64],
    colouring: &mut [u64],
) -> Result<Head, Refusal> {
    let plan = plan_in(Form::of(sheet), sheet)?;
    let read = plan.lists();
    let lent = [workloads, outside, edges, counts, visits, constraints, colouring];
    demand(read.iter().zip(&lent).all(|(read, lent)| read.len() <= lent.len()), 39, 0)?;
    for (read, lent) in read.iter().zip(lent) {
        lent[..read.len()].copy_from_slice(read);
    }
    Ok(Head {
        regions: plan.regions,
        sectors: plan.sectors,
        edges: plan.edges.len() as u64,
        constraints: plan.constraints.len() as u64,
        flights: plan.flights.len() as u64,
        visits: plan.flights.iter().flatten().count() as u64,
    })
}

/// The plan and colouring that a sheet of this form stores, or the first of codes 31 to 38 that refuses it.
pub fn plan_in(form: &Form, sheet: &[u8]) -> Result<Plan, Refusal> {
    let (head, blocks) = open(form, sheet)?;
    let mut by_code = Payloads::default();
    for (number, (block, (code, used))) in blocks.into_iter().enumerate() {
        by_code[code - 1].extend(payload(form, block, code, number, used)?);
    }
    plan_of(form, &head, &by_code)
}

/// The used payload of all blocks of each kind, in the order of the kinds' codes.
pub type Payloads = [Vec<u8>; KINDS];

/// The kind and the used payload bytes that a block is due to have.
type Due = (usize, usize);

/// The blocks of a sheet, each with what is due there.
type Blocks<'a> = Vec<(&'a [u8], Due)>;

/// The head of a sheet and its blocks, or what refuses it before the later blocks are looked into: 31, 32 to 37 of the head, 38. How
/// long a sheet may be goes by its own letters.
pub fn open<'a>(form: &Form, sheet: &'a [u8]) -> Result<(Head, Blocks<'a>), Refusal> {
    let blocks: Vec<&[u8]> = sheet.chunks(BLOCK).collect();
    let most = Form::of(sheet).blocks;
    demand((1..=most).contains(&blocks.len()) && blocks.iter().all(|block| block.len() == BLOCK), 31, 0)?;
    let head = head_in(form, blocks[0])?;
    let due = due_blocks(form, &head);
    demand(blocks.len() == due.len(), 38, 0)?;
    Ok((head, blocks.into_iter().zip(due).collect()))
}

/// The plan and colouring that a form's payloads hold, or 37.
pub fn plan_of(form: &Form, head: &Head, by_code: &Payloads) -> Result<Plan, Refusal> {
    let numbers: [Vec<u64>; KINDS] = std::array::from_fn(|place| unpack(&by_code[place], kind(place + 1).widths));
    let [_, workloads, edges, constraints, colouring, mut outside, counts, visits] = numbers;
    // Where the form has no outside areas, they are 0.
    outside.resize(head.regions as usize, 0);
    let constraints = limit_and_weight_exchanged(&constraints);
    let lists = [&workloads[..], &outside, &edges, &counts, &visits, &constraints, &colouring];
    against_rules(Plan::new(form.constraint_kinds, head.regions, head.sectors, lists))
}

/// The numbers of the head, or why it is refused; where the form has no flights, they are none.
fn head_in(form: &Form, block: &[u8]) -> Result<Head, Refusal> {
    let mut numbers = unpack(payload(form, block, 1, 0, form.head * kind(1).record_bytes())?, kind(1).widths);
    numbers.resize(6, 0);
    let &[regions, sectors, edges, constraints, flights, visits] = &numbers[..] else { unreachable!("six numbers") };
    against_rules(check_regions(regions))?;
    against_rules(check_sectors(sectors))?;
    against_rules(check_edge_count(edges))?;
    against_rules(check_constraint_count(constraints))?;
    against_rules(demand(flights <= FLIGHTS && (flights..=VISITS * flights).contains(&visits), 13, 0))?;
    Ok(Head { regions, sectors, edges, constraints, flights, visits })
}

/// 37, at the code of the rule that refuses.
fn against_rules<T>(result: Result<T, Refusal>) -> Result<T, Refusal> {
    result.map_err(|refusal| Refusal { code: 37, place: refusal.code })
}

/// What is due in each block that the head asks for, in order.
fn due_blocks(form: &Form, head: &Head) -> Vec<Due> {
    let &Head { regions, edges, constraints, flights, visits, .. } = head;
    let by_code = [form.head as u64, regions, edges, constraints, regions, regions, flights, visits];
    let mut due = Vec::new();
    for &code in form.kinds {
        let mut left = by_code[code - 1] as usize;
        while left > 0 {
            let records = left.min(kind(code).in_full_block);
            due.push((code, records * kind(code).record_bytes()));
            left -= records;
        }
    }
    due
}
