//! Two offices that number the same sectors differently: calls and boards that differ in the names of sectors alone come to the
//! same. Component counts and workload sums move with the names, the colouring left is the renamed one, and what is refused keeps
//! its refusal. Sheets are in `names_in_sheets`.

use crate::calls::{asked, by_library, by_library_records, Answer, Call, Memory};
use crate::cases::{all_cases, random_cases, same, Case, Code, Memory as _};
use crate::plans::{
    judged_damages, largest_whole_plan, moves, sheet_a, sheet_a_with_both, sheet_a_with_flights, Numbers, Random,
};
use crate::reference::{SECTORS, WORKLOAD};
use crate::renaming::{Renamed, Renaming};
use crate::typed::{board, row_numbers, typed_move, Shown};
use qirfadhun::{Board, Cause, Move, Region, Sector, Verdict};
use std::collections::HashSet;

/// Sheet A with a third sector, which is empty. The other office calls sectors 1, 2 and 3 by the names 3, 1 and 2.
#[test]
fn sheet_a_under_two_numberings() {
    let ours = Numbers { sectors: 3, ..sheet_a() };
    let theirs = Numbers { colouring: vec![3, 3, 3, 1, 1], ..ours.clone() };
    assert_eq!(ours.colouring, [1, 1, 1, 2, 2]);

    // Total, verdicts, the five labels and T are the same. Components 1, 1, 0 and workloads 60, 40, 0 move.
    let our_work = [1, 1, 1, 4, 4, 1, 1, 0, 60, 40, 0, 2];
    let their_work = [1, 1, 1, 4, 4, 1, 0, 1, 40, 0, 60, 2];
    for (plan, work) in [(&ours, our_work), (&theirs, their_work)] {
        let (answer, memory) = asked(plan, &[]);
        assert_eq!(answer, [0, 0, 335, 335]);
        assert_eq!(memory.verdicts.content(), [1, 0, 1, 0, 0, 160, 0, 5]);
        assert_eq!(memory.work.content(), work);
    }

    // The third number of a recolouring is a sector, that of an exchange isn't. Neither 0 nor 4 is one.
    let our_moves = [[1, 2, 2], [2, 3, 3], [4, 4, 3], [5, 3, 0], [1, 5, 0], [2, 5, 4], [1, 6, 1], [9, 1, 1]];
    let their_moves = [[1, 2, 1], [2, 3, 2], [4, 4, 3], [5, 3, 0], [1, 5, 0], [2, 5, 4], [1, 6, 3], [9, 1, 1]];
    let accepted = [[0, 307, 335, 0], [0, -232, 103, 1], [0, 163, 266, 1], [0, 178, 266, 0]];
    let refused = [[23, 0, 266, 0], [23, 0, 266, 0], [22, 0, 266, 0], [21, 0, 266, 0]];
    let (our_colouring, their_colouring) = ([1, 1, 2, 3, 2], [3, 3, 1, 2, 1]);
    let our_work = [1, 1, 3, 4, 5, 1, 2, 1, 30, 45, 25, 11];
    let their_work = [1, 1, 3, 4, 5, 2, 1, 1, 45, 25, 30, 11];
    for (plan, moves, colouring, work) in
        [(&ours, our_moves, our_colouring, our_work), (&theirs, their_moves, their_colouring, their_work)]
    {
        let (answer, memory) = asked(plan, moves.as_flattened());
        assert_eq!(answer, [0, 0, 335, 266]);
        assert_eq!(memory.rows.content(), [accepted, refused].as_flattened().as_flattened());
        assert_eq!(memory.verdicts.content(), [0, 2, 0, 6, 0, 30, 1, 0]);
        assert_eq!(memory.colouring.content(), colouring);
        assert_eq!(memory.work.content(), work);
    }
}

/// The second office of docs/DESK.md, which calls sector 1 "2" and sector 2 "1".
#[test]
fn the_desks_second_office() {
    let theirs = Numbers { colouring: vec![2, 2, 2, 1, 1], ..sheet_a() };
    let (answer, memory) = asked(&theirs, [[1, 2, 1], [1, 2, 2], [1, 5, 3]].as_flattened());
    assert_eq!(answer, [0, 0, 15, 15]);
    assert_eq!(memory.rows.content(), [[0, 307, 15, 0], [0, 0, 15, 0], [23, 0, 15, 0]].as_flattened());
    assert_eq!(memory.work.content(), [1, 1, 1, 4, 4, 1, 1, 40, 60, 2]);
}

/// What the other office lends: in its rooms stands something else.
fn lent(theirs: &Call) -> Memory {
    let mut memory = Memory::of(theirs);
    memory.rows.slice().iter_mut().for_each(|number| *number = !*number);
    memory.verdicts.slice().iter_mut().for_each(|number| *number = !*number);
    memory.work.slice().iter_mut().for_each(|number| *number = !*number);
    memory
}

impl Renamed<Call> {
    /// What the other office is left, where ours is left this; beyond what is written, its own.
    fn due(&self, left: &Memory) -> Memory {
        let Renamed { ours: Call { plan, moves, .. }, renaming } = self;
        let written = Call::new(plan.clone(), moves.clone());
        let [rows, verdicts, work] = [written.rows, written.verdicts, written.work].map(|count| count as usize);
        let mut due = lent(&self.theirs());
        due.rows.slice()[..rows].copy_from_slice(&left.rows.content()[..rows]);
        due.verdicts.slice()[..verdicts].copy_from_slice(&left.verdicts.content()[..verdicts]);
        due.work.slice()[..work].copy_from_slice(&renaming.work(plan.workloads.len(), &left.work.content()[..work]));
        due.colouring.slice().copy_from_slice(&renaming.colouring(left.colouring.content()));
        due
    }

    /// The code that both are given, or in words where this callee doesn't treat them alike.
    fn compare_by(&self, callee: fn(&mut Memory) -> Answer) -> Result<Code, String> {
        let (mut ours, mut theirs) = (Memory::of(&self.ours), lent(&self.theirs()));
        let answer = callee(&mut ours);
        same("the answers", &answer, &callee(&mut theirs))?;
        if answer[0] == 0 {
            theirs.same_as(&self.due(&ours))?;
        } else {
            ours.same_as(&Memory::of(&self.ours))?;
            theirs.same_as(&lent(&self.theirs()))?;
        }
        Ok((answer[0], None))
    }
}

impl Case for Renamed<Call> {
    fn compare(&self) -> Result<Code, String> {
        self.compare_by(by_library_records)?;
        self.compare_by(by_library)
    }

    fn smaller(&self) -> Box<dyn Iterator<Item = Self> + '_> {
        Box::new(self.ours.smaller().map(|ours| Renamed::new(ours, &self.renaming)))
    }
}

/// A call with moves of all kinds; some of its recolourings are into sector 0 or S + 1.
fn some_call(random: &mut Random) -> Call {
    let mut call = Call::random(random);
    for room in [&mut call.rows, &mut call.verdicts, &mut call.work] {
        *room += random.pick(&[0, 0, 1, 7]);
    }
    for three in call.moves.chunks_mut(3).filter(|three| three[0] == 1 || three[0] == 2) {
        if random.once_in(8) {
            three[2] = random.pick(&[0, call.plan.sectors + 1]);
        }
    }
    call
}

#[test]
fn random_calls() {
    random_cases("renamed calls", 20_000, |random| {
        let call = some_call(random);
        Renamed::random(random, call)
    });
}

#[test]
fn random_damaged_calls() {
    random_cases("renamed damaged calls", 20_000, |random| {
        let mut call = some_call(random);
        for _ in 0..random.between(1, 3) {
            call.break_one(random);
        }
        Renamed::random(random, call)
    });
}

/// Sheet A has two sectors, which exchange their names.
#[test]
fn every_refused_call() {
    for (code, _, damage) in judged_damages() {
        let mut call = Call::new(sheet_a_with_flights(), vec![2, 3, 2, 4, 1, 5, 1, 6, 1]);
        damage(&mut call.plan);
        assert_eq!(Renamed::new(call, &Renaming(vec![2, 1])).compare(), Ok((code, None)));
    }
}

/// Sheet A with a third sector. Numbers up to 6 make moves of every kind, and moves that are refused by 21, 22 and 23.
#[test]
fn every_move_under_every_renaming() {
    let plan = Numbers { sectors: 3, ..sheet_a_with_both() };
    let moves: Vec<[u64; 3]> = (0..7 * 7 * 7).map(|number| [number / 49, number / 7 % 7, number % 7]).collect();
    let statuses: HashSet<i64> = asked(&plan, moves.as_flattened()).1.rows.content().chunks(4).map(|row| row[0]).collect();
    assert_eq!(statuses, HashSet::from([0, 21, 22, 23]));
    for names in [[1, 2, 3], [1, 3, 2], [2, 1, 3], [2, 3, 1], [3, 1, 2], [3, 2, 1]] {
        let renamed = |moves: &[[u64; 3]]| Renamed::new(Call::new(plan.clone(), moves.concat()), &Renaming(names.to_vec()));
        all_cases("renamed moves, in turn and alone", moves.chunks(moves.len()).chain(moves.chunks(1)).map(renamed));
    }
}

#[test]
fn the_largest_plan() {
    let mut random = Random::new(1);
    let mut plan = largest_whole_plan(&mut random);
    plan.workloads.fill_with(|| random.between(0, WORKLOAD));
    let moves = moves(&mut random, &plan, 200);
    let reversal = Renaming((1..=SECTORS).rev().collect());
    all_cases("the largest plan, renamed", [Renamed::new(Call::new(plan, moves), &reversal)]);
}

/// A callee whose probes into sector 1 have delta 0.
fn partial(memory: &mut Memory) -> Answer {
    let answer = by_library(memory);
    if answer[0] == 0 {
        let rows = memory.moves.content().chunks(3).zip(memory.rows.slice().chunks_mut(4));
        rows.filter(|(three, _)| three[0] == 1 && three[2] == 1).for_each(|(_, row)| row[1] = 0);
    }
    answer
}

#[test]
fn a_callee_that_goes_by_a_name_is_found() {
    let mut random = Random::new(1);
    let calls: Vec<Call> = (0..100).map(|_| Call::random(&mut random)).collect();
    assert!(calls.into_iter().any(|call| Renamed::random(&mut random, call).compare_by(partial).is_err()));
}

/// Calls whose moves are run on boards, as far as the types can hold them.
#[derive(Clone, Debug)]
struct Boards(Renamed<Call>);

/// The board of a call after its moves, and their rows.
fn run(call: Call) -> (Board, Vec<[i64; 4]>) {
    let mut board = board(&call.plan);
    let moves: Vec<Move> = call.moves.chunks(3).filter_map(typed_move).collect();
    let rows = board.run(moves).map(row_numbers).collect();
    (board, rows)
}

/// What a sector has: its workload, its regions, and those of each of its components.
fn figures(board: &Board, sector: Sector) -> (u64, Vec<Region>, Vec<Vec<Region>>) {
    let figures = board.sector(sector).expect("a sector of the plan");
    let components = figures.components().map(|component| component.regions().collect());
    (figures.workload(), figures.regions().collect(), components.collect())
}

/// Why a constraint is broken, with the names that this makes of a cause; kinds 1 and 4 have their reasons in the order of names.
fn reasons(verdict: Verdict, named: impl Fn(Cause) -> Cause) -> HashSet<(Cause, u64)> {
    let reasons = verdict.reasons().expect("reasons that add up");
    reasons.iter().map(|reason| (named(reason.cause()), reason.part())).collect()
}

impl Case for Boards {
    fn compare(&self) -> Result<Code, String> {
        let code = self.0.compare()?;
        if code != (0, None) {
            return Ok(code); // a smaller plan need not be a good one
        }
        let renaming = &self.0.renaming;
        let [(ours, our_rows), (theirs, their_rows)] = self.0.both().map(run);
        same("the rows", &our_rows, &their_rows)?;
        same("total, colouring, verdicts and figures", &renaming.shown(Shown::by(&ours)), &Shown::by(&theirs))?;
        for sector in ours.plan().sectors() {
            same("the figures", &figures(&ours, sector), &figures(&theirs, renaming.sector(sector)))?;
        }
        let stretches = ours.stretches().into_iter().map(|stretch| renaming.stretch(stretch)).collect();
        same("the stretches", &stretches, &theirs.stretches())?;
        for (ours, theirs) in ours.verdicts().zip(theirs.verdicts()) {
            same("the sentences", &ours.to_string(), &theirs.to_string())?;
            same("the reasons", &reasons(ours, |cause| renaming.cause(cause)), &reasons(theirs, |cause| cause))?;
        }
        Ok(code)
    }

    fn smaller(&self) -> Box<dyn Iterator<Item = Self> + '_> {
        Box::new(self.0.smaller().map(Boards))
    }
}

#[test]
fn random_boards() {
    random_cases("renamed boards", 4_000, |random| {
        let call = some_call(random);
        Boards(Renamed::random(random, call))
    });
}

/// A reason names the sector as the office does.
#[test]
fn sheet_a_in_words() {
    let said = |colouring: [u64; 5]| {
        let board = board(&Numbers { colouring: colouring.to_vec(), ..sheet_a() });
        let workloads: Vec<u64> = board.sectors().map(|sector| sector.workload()).collect();
        let reasons = board.verdicts().flat_map(|verdict| verdict.reasons().expect("reasons that add up"));
        (board.total(), workloads, reasons.map(|reason| reason.to_string()).collect::<Vec<_>>())
    };
    let reason = |sector: u64| vec![format!("Constraint 4: sector {sector} has workload 60, 5 too much.")];
    assert_eq!(said([1, 1, 1, 2, 2]), (15, vec![60, 40], reason(1)));
    assert_eq!(said([2, 2, 2, 1, 1]), (15, vec![40, 60], reason(2)));
}
