//! A sheet of one form converted to the other.

use super::form::{Form, COUNTS_KIND, FIRST, OUTSIDE_KIND, SECOND};
use super::plan::{demand, Plan, Refusal};
use super::sheet::{lay_out, plan_in};

/// Old to new: codes 31 to 38, then 40; answers the bytes written.
pub fn to_second(sheet: &[u8], converted: &mut [u8]) -> Result<usize, Refusal> {
    convert(&FIRST, &SECOND, sheet, converted)
}

/// Back: codes 31 to 38, then 40, then 41; answers the bytes written.
pub fn to_first(sheet: &[u8], converted: &mut [u8]) -> Result<usize, Refusal> {
    convert(&SECOND, &FIRST, sheet, converted)
}

fn convert(from: &Form, to: &Form, sheet: &[u8], converted: &mut [u8]) -> Result<usize, Refusal> {
    let plan = plan_in(from, sheet)?;
    let lists = plan.lists();
    let bytes = lay_out(to, plan.regions, plan.sectors, lists.each_ref().map(Vec::as_slice));
    demand(converted.len() >= bytes.len(), 40, 0)?;
    demand(can_hold(to, &plan), 41, 0)?;
    converted[..bytes.len()].copy_from_slice(&bytes);
    Ok(bytes.len())
}

/// Whether a sheet of this form has a place for all that is in the plan.
fn can_hold(form: &Form, plan: &Plan) -> bool {
    let has_blocks = |code: usize| form.kinds.contains(&code);
    (has_blocks(OUTSIDE_KIND) || plan.outside.iter().all(|&area| area == 0))
        && (has_blocks(COUNTS_KIND) || plan.flights.is_empty())
        && plan.constraints.iter().all(|constraint| constraint.kind <= form.constraint_kinds)
}
