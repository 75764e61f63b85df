//! Random faces of a plan's regions to the outside.

use super::{Numbers, Random};
use crate::reference::*;

/// The plan with a face to the outside, as often as not, and then with faces of any other regions; some of its limits on the border
/// rise by what these come to.
pub fn with_outside(random: &mut Random, mut plan: Numbers) -> Numbers {
    if random.once_in(2) {
        return plan;
    }
    let largest = random.pick(&[1, 9, AREA, AREA]);
    let ends = random.once_in(4);
    for area in &mut plan.outside {
        *area = if ends { random.pick(&[0, largest]) } else { random.between(0, largest) };
    }
    let one = random.place(plan.outside.len());
    plan.outside[one] = random.between(1, largest);
    let whole: u64 = plan.outside.iter().sum();
    for four in plan.constraints.chunks_mut(4).filter(|four| four[0] == 2) {
        if random.once_in(2) {
            four[2] = (four[2] + whole).min(LIMIT);
        }
    }
    plan
}
