//! What the calls on a sheet's bytes answer, and what the program `verdicts` prints.

use super::form::Form;
use super::sheet::plan_in;

/// A constraint's kind, whether it holds (1 or 0), and its violation.
#[derive(Clone, Copy)]
pub struct Verdict {
    pub kind: u64,
    pub holds: u64,
    pub violation: u64,
}

/// What a sheet's bytes come to: with a code other than 0 the total is 0 and the list empty.
pub struct Verdicts {
    pub code: u64,
    pub place: u64,
    pub total: u64,
    pub list: Vec<Verdict>,
}

impl Verdicts {
    pub fn of(sheet: &[u8]) -> Self {
        let plan = match plan_in(Form::of(sheet), sheet) {
            Ok(plan) => plan,
            Err(refusal) => return Verdicts { code: refusal.code, place: refusal.place, total: 0, list: vec![] },
        };
        let meaning = plan.meaning();
        let violations = plan.constraints.iter().map(|constraint| (constraint.kind, meaning.violation(constraint)));
        let list = violations.map(|(kind, violation)| Verdict { kind, holds: u64::from(violation == 0), violation });
        Verdicts { code: 0, place: 0, total: meaning.total(), list: list.collect() }
    }

    /// The verdict at a place, from 1; outside the list it has 0 everywhere.
    pub fn at(&self, place: u64) -> Verdict {
        let listed = (1..).zip(&self.list).find(|&(own, _)| own == place);
        listed.map_or(Verdict { kind: 0, holds: 0, violation: 0 }, |(_, &verdict)| verdict)
    }

    pub fn text(&self) -> String {
        if self.code != 0 {
            return format!("refused {} {}\n", self.code, self.place);
        }
        let mut text = String::new();
        for (place, Verdict { kind, holds, violation }) in (1..).zip(&self.list) {
            text += &format!("{place} {kind} {holds} {violation}\n");
        }
        text + &format!("total {}\n", self.total)
    }
}
