//! A sound sheet from one whose colouring is damaged.

use super::blocks::payload;
use super::form::{Form, COLOURING_KIND};
use super::meaning::at;
use super::plan::{demand, Plan, Refusal};
use super::sheet::{lay_out, open, plan_of, Payloads};

/// Salvaging either sheet: codes 31 to 38 for whatever is wrong besides the colouring, then 40, then 17; answers how many regions
/// are lost.
pub fn salvage(sheet: &[u8], salvaged: &mut [u8], list: &mut [u64]) -> Result<usize, Refusal> {
    let form = Form::of(sheet);
    let (head, blocks) = open(form, sheet)?;
    let mut by_code = Payloads::default();
    let mut stored: Vec<Option<u64>> = Vec::new();
    for (number, (block, (code, used))) in blocks.into_iter().enumerate() {
        let payload = payload(form, block, code, number, used);
        if code != COLOURING_KIND {
            by_code[code - 1].extend(payload?);
        } else if let Ok(sectors) = payload {
            stored.extend(sectors.iter().map(|&sector| Some(u64::from(sector))));
        } else {
            stored.extend(vec![None; used]);
        }
    }
    // Some colouring that is not refused, until what survived is known to be part of a plan.
    by_code[COLOURING_KIND - 1] = vec![1; head.regions as usize];
    let mut plan = plan_of(form, &head, &by_code)?;
    demand(salvaged.len() >= sheet.len(), 40, 0)?;
    let survived = |region: u64| stored[at(region)].filter(|sector| (1..=head.sectors).contains(sector));
    let lost: Vec<u64> = (1..=head.regions).filter(|&region| survived(region).is_none()).collect();
    demand(list.len() >= lost.len(), 17, 0)?;

    let from_beside = |region: u64| neighbours(&plan, region).into_iter().find_map(survived).unwrap_or(1);
    plan.colouring = (1..=head.regions).map(|region| survived(region).unwrap_or_else(|| from_beside(region))).collect();
    let bytes = lay_out(form, plan.regions, plan.sectors, plan.lists().each_ref().map(Vec::as_slice));
    salvaged[..bytes.len()].copy_from_slice(&bytes);
    list[..lost.len()].copy_from_slice(&lost);
    Ok(lost.len())
}

/// The regions that share an edge with this one, the lowest first.
fn neighbours(plan: &Plan, region: u64) -> Vec<u64> {
    let own = plan.edges.iter().filter(|edge| edge.a == region || edge.b == region);
    let mut beside: Vec<u64> = own.map(|edge| if edge.a == region { edge.b } else { edge.a }).collect();
    beside.sort();
    beside
}
