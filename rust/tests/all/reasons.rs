//! The reasons of a verdict: those that the reference gives, each with its part, and in all the violation.

use crate::cases::{random_cases, Case, Code};
use crate::plans::{sheet_a, sheet_a_with_both, sheet_a_with_flights, sheet_a_with_outside, whole_plan, Numbers};
use crate::reference::{distance, Meaning, Plan, Visit, CALL_KINDS};
use crate::typed::{board, built, region, sector};
use qirfadhun::{Board, Cause, Change, Flight, Reason, Sector, Side, Stretch};

/// What is off and its part, worked out by the reference from documents 01 and 02.
fn due(plan: &Plan, meaning: &Meaning, place: usize) -> Vec<(Cause, u64)> {
    let constraint = &plan.constraints[place - 1];
    let (relation, limit) = (constraint.relation, constraint.limit);
    let sectors = || (1..=plan.sectors).map(sector);
    let of = |list: &[u64], sector: Sector| list[sector.get() as usize - 1];
    let outside: u64 = plan.outside.iter().sum();
    let mut all: Vec<(Cause, u64)> = match constraint.kind {
        1 => {
            let found = meaning.components.iter().sum();
            let in_all = u64::from(distance(relation, found, limit) > 0);
            let split = sectors().map(|sector| (sector, of(&meaning.components, sector)));
            let split = split.map(|(sector, components)| (Cause::Split { sector, components }, components.max(1) - 1));
            [(Cause::Components { found }, in_all)].into_iter().chain(split).collect()
        }
        2 => vec![(Cause::Border { between: meaning.border - outside, outside }, meaning.border.saturating_sub(limit))],
        3 => vec![(Cause::Deviation { found: meaning.deviation() }, meaning.deviation().saturating_sub(limit))],
        4 => {
            let off = |sector| {
                let found = of(&meaning.sums, sector);
                (Cause::Workload { sector, found, side: side(relation, found, limit) }, distance(relation, found, limit))
            };
            sectors().map(off).collect()
        }
        _ => {
            let off = |stretch: Stretch| {
                let seconds = stretch.seconds;
                (Cause::Stretch { stretch, side: side(relation, seconds, limit) }, distance(relation, seconds, limit))
            };
            stretches(plan, meaning).into_iter().map(off).collect()
        }
    };
    all.retain(|&(_, part)| part > 0);
    all
}

/// Over where the number must fall, under where it must rise; "anything but" is neither.
fn side(relation: u64, found: u64, limit: u64) -> Side {
    match relation {
        _ if distance(relation, found, limit) == 0 => Side::Neither,
        1 | 2 => Side::Over,
        3 if found > limit => Side::Over,
        4 => Side::Neither,
        _ => Side::Under,
    }
}

/// The reference's stretches, with the numbers of their flights and visits.
fn stretches(plan: &Plan, meaning: &Meaning) -> Vec<Stretch> {
    let (mut flight, mut before) = (1, 0);
    let mut all = Vec::new();
    for visits in &meaning.stretches {
        let last = before + visits.len() as u64;
        all.push(Stretch {
            flight: Flight::new(flight).expect("a flight"),
            sector: sector(plan.sector(visits[0].region)),
            first_visit: before + 1,
            last_visit: last,
            seconds: visits.iter().map(|visit: &Visit| visit.dwell).sum(),
        });
        before = last;
        if last == plan.flights[flight as usize - 1].len() as u64 {
            (flight, before) = (flight + 1, 0);
        }
    }
    all
}

#[derive(Clone, Debug)]
struct Explained(Numbers);

impl Case for Explained {
    fn compare(&self) -> Result<Code, String> {
        let Numbers { regions, sectors, .. } = self.0;
        let plan = match Plan::new(CALL_KINDS, regions, sectors, self.0.lists()) {
            Ok(plan) => plan,
            Err(refusal) => return Ok((refusal.code, None)), // a smaller plan need not be a good one
        };
        let meaning = plan.meaning();
        let (typed, colouring) = built(&self.0).map_err(|refusal| refusal.to_string())?;
        let board = typed.judge(&colouring).map_err(|refusal| refusal.to_string())?;
        if board.stretches() != stretches(&plan, &meaning) {
            return Err(format!("the stretches are {:?}", board.stretches()));
        }
        for (place, verdict) in (1..).zip(board.verdicts()) {
            let reasons = verdict.reasons().map_err(|unexplained| unexplained.to_string())?;
            let given: Vec<_> = reasons.iter().map(|reason| (reason.cause(), reason.part())).collect();
            let due = due(&plan, &meaning, place);
            if given != due {
                return Err(format!("the reasons of constraint {place} are {given:?}, the documents ask for {due:?}"));
            }
            let own = |reason: &Reason| (reason.place(), reason.constraint()) == (verdict.place(), verdict.constraint());
            let sum: u64 = reasons.iter().map(Reason::part).sum();
            if sum != verdict.violation() || !reasons.iter().all(own) || reasons.is_empty() != verdict.holds() {
                return Err(format!("{verdict:?} has the reasons {reasons:?}"));
            }
        }
        Ok((0, None))
    }

    fn smaller(&self) -> Box<dyn Iterator<Item = Self> + '_> {
        Box::new(self.0.smaller().map(Explained))
    }
}

#[test]
fn random_plans() {
    random_cases("reasons", 8_000, |random| Explained(whole_plan(random)));
}

/// What a board says of all that is broken.
fn said(board: &Board) -> Vec<String> {
    let reasons = board.verdicts().flat_map(|verdict| verdict.reasons().expect("reasons that add up"));
    reasons.map(|reason| reason.to_string()).collect()
}

#[test]
fn sheet_a_in_words() {
    let mut board = board(&sheet_a());
    let verdicts: Vec<_> = board.verdicts().map(|verdict| verdict.to_string()).collect();
    assert_eq!(
        verdicts,
        [
            "Constraint 1, connected: no sector has more than one component, and the components are exactly 2 in all. Holds.",
            "Constraint 2, border: the area of the faces between different sectors and to the outside is at most 5 in all. Holds.",
            "Constraint 3, balanced: how far the workload of each sector is from the average, times the number of sectors, \
             is at most 40 in all. Holds.",
            "Constraint 4, bounded: the workload of every sector is at most 55. Broken: 5, times weight 3.",
        ]
    );
    assert_eq!(said(&board), ["Constraint 4: sector 1 has workload 60, 5 too much."]);

    board.make(Change::Give(region(2), sector(2))).expect("an accepted change");
    assert_eq!(
        said(&board),
        [
            "Constraint 1: there are 4 components in all, and exactly 2 is asked for.",
            "Constraint 1: sector 1 has 2 components, 1 too many.",
            "Constraint 1: sector 2 has 2 components, 1 too many.",
            "Constraint 2: the border is 12 between sectors and 0 to the outside, in all 7 above 5.",
            "Constraint 4: sector 2 has workload 60, 5 too much.",
        ]
    );
}

#[test]
fn outside_areas_and_flights_in_words() {
    let coastal = said(&board(&sheet_a_with_outside()));
    assert_eq!(coastal[0], "Constraint 2: the border is 2 between sectors and 11 to the outside, in all 8 above 5.");
    let flown = board(&sheet_a_with_flights());
    assert_eq!(said(&flown)[1], "Constraint 5: flight 2, visits 1 to 3, is 45 seconds in sector 2, 15 too few.");
    let stretches: Vec<_> = flown.stretches().iter().map(|stretch| stretch.to_string()).collect();
    assert_eq!(
        stretches,
        [
            "flight 1, visits 1 to 3, is 190 seconds in sector 1",
            "flight 1, visit 4, is 90 seconds in sector 2",
            "flight 2, visits 1 to 3, is 45 seconds in sector 2",
            "flight 2, visit 4, is 80 seconds in sector 1",
        ]
    );
}

/// Every relation, by the workloads 60 and 40 and by stretches of 190, 90, 45 and 80 seconds.
#[test]
fn every_relation_in_words() {
    let said = |four: [u64; 4]| said(&board(&Numbers { constraints: four.to_vec(), ..sheet_a_with_both() }));
    let workload = |sector: u64, found: u64, off: &str| format!("Constraint 1: sector {sector} has workload {found}, {off}.");
    assert_eq!(said([4, 1, 39, 1]), [workload(1, 60, "21 too much"), workload(2, 40, "1 too much")]);
    assert_eq!(said([4, 2, 40, 1]), [workload(1, 60, "21 too much"), workload(2, 40, "1 too much")]);
    assert_eq!(said([4, 3, 50, 1]), [workload(1, 60, "10 too much"), workload(2, 40, "10 too little")]);
    assert_eq!(said([4, 4, 60, 1]), [workload(1, 60, "just what it may not have")]);
    assert_eq!(said([4, 5, 60, 1]), [workload(1, 60, "1 too little"), workload(2, 40, "21 too little")]);
    assert_eq!(said([4, 6, 41, 1]), [workload(2, 40, "1 too little")]);
    assert_eq!(said([3, 1, 39, 1]), ["Constraint 1: the deviation is 40, 1 above 39."]);
    assert_eq!(said([1, 4, 2, 1]), ["Constraint 1: there are 2 components in all, and anything but 2 is asked for."]);

    let stretch = |stretch: &str, off: &str| format!("Constraint 1: flight {stretch}, {off}.");
    assert_eq!(said([5, 1, 100, 1]), [stretch("1, visits 1 to 3, is 190 seconds in sector 1", "90 too many")]);
    assert_eq!(said([5, 4, 80, 1]), [stretch("2, visit 4, is 80 seconds in sector 1", "just as many as it may not be")]);
    assert_eq!(said([5, 6, 46, 1]), [stretch("2, visits 1 to 3, is 45 seconds in sector 2", "1 too few")]);
}
