//! The typed face compared with the flat calls: plans, boards, and lists of moves of any length.

use crate::calls::{by_library, Call, Memory};
use crate::cases::{all_cases, random_cases, Case, Code};
use crate::library;
use crate::plans::{largest_whole_plan, moves, records, sheet_a, sheet_a_with_both, whole_plan, Numbers, Random};
use crate::reference::{CONSTRAINTS, MOVES, REGIONS, SECTORS};
use crate::sheets::files;
use crate::typed::{self, board, built, numbers, region, row_numbers, sector, typed_move, Shown};
use qirfadhun::{Board, Change, Colouring, Form, Move, Place, Plan, Refusal, Region, Relation, Salvage};

/// A call whose moves the types can hold.
#[derive(Clone, Debug)]
struct OnBoard(Call);

impl OnBoard {
    fn new(plan: Numbers, moves: Vec<u64>) -> Self {
        let kept = moves.chunks_exact(3).filter(|three| typed_move(three).is_some());
        OnBoard(Call::new(plan, kept.flatten().copied().collect()))
    }

    fn moves(&self) -> Vec<Move> {
        self.0.moves.chunks(3).map(|three| typed_move(three).expect("a move")).collect()
    }
}

/// What the flat call leaves, with its rows.
fn flat(call: &Call) -> Result<(Shown, Vec<i64>), u64> {
    let mut memory = Memory::of(call);
    let [code, _, _, total] = by_library(&mut memory);
    if code != 0 {
        return Err(code);
    }
    let shown = Shown {
        total,
        colouring: memory.colouring.content().to_vec(),
        verdicts: memory.verdicts.content().to_vec(),
        work: memory.work.content().to_vec(),
    };
    Ok((shown, memory.rows.content().to_vec()))
}

/// What a board shows after these moves, with their rows as numbers.
fn run(board: &mut Board, moves: &[Move]) -> (Shown, Vec<i64>) {
    let rows: Vec<_> = board.run(moves).collect();
    assert_eq!(rows.iter().map(|row| row.asked()).collect::<Vec<_>>(), moves, "each row has its move");
    assert!(board.rows().eq(rows.iter().copied()), "the rows are kept");
    (Shown::by(board), rows.into_iter().flat_map(row_numbers).collect())
}

impl Case for OnBoard {
    fn compare(&self) -> Result<Code, String> {
        let OnBoard(call) = self;
        let due = match flat(call) {
            Ok(due) => due,
            Err(code) => return Ok((code, None)), // a smaller plan need not be a good one
        };
        let (plan, colouring) = built(&call.plan).map_err(|refusal| refusal.to_string())?;
        let mut board = plan.judge(&colouring).map_err(|refusal| refusal.to_string())?;
        let shown = run(&mut board, &self.moves());
        if shown != due {
            return Err(format!("the board shows {shown:?}, the flat call leaves {due:?}"));
        }
        // Move by move and in the same memory, after a start from where the colouring was.
        board.restart(&colouring).map_err(|refusal| refusal.to_string())?;
        let one_by_one: Vec<i64> = self.moves().iter().flat_map(|one| run(&mut board, &[*one]).1).collect();
        if (Shown::by(&board), one_by_one) != due {
            return Err("the moves one by one lead elsewhere".to_string());
        }
        Ok((0, None))
    }

    fn smaller(&self) -> Box<dyn Iterator<Item = Self> + '_> {
        Box::new(self.0.smaller().map(|call| OnBoard::new(call.plan, call.moves)))
    }
}

#[test]
fn random_boards() {
    random_cases("boards", 4_000, |random| {
        let plan = whole_plan(random);
        let count = random.pick(&[0, 1, 4, 12]);
        let moves = moves(random, &plan, count);
        OnBoard::new(plan, moves)
    });
}

/// A plan is the same, whichever way it is made, and comes back as the numbers that it was made of.
#[test]
fn plans_there_and_back() {
    let mut random = Random::new(1);
    let some = (0..400).map(|_| whole_plan(&mut random)).collect::<Vec<_>>();
    for plan in some.iter().chain([&sheet_a(), &sheet_a_with_both()]) {
        let (built, colouring) = built(plan).expect("a good plan");
        let listed = Plan::from_numbers(numbers(plan)).expect("a good plan");
        assert_eq!((&built, &colouring), (&listed.0, &listed.1));
        assert_eq!(built.numbers(&colouring), numbers(plan));
        let again = built.to_builder().build().expect("a good plan");
        assert_eq!(again, built);

        let second = built.write(&colouring, Form::Second).expect("a second sheet");
        let read = Plan::read(&second).expect("a good sheet");
        assert_eq!((&read.0, &read.1, Form::of(&second)), (&built, &colouring, Form::Second));
        assert_eq!(read.0.judge(&read.1).expect("a board").write(Form::Second).expect("a second sheet"), second);
    }
}

/// A damaged plan is refused as the call refuses it; what is not refused is judged.
#[test]
fn random_damaged_plans() {
    let mut random = Random::new(1);
    let mut built_too = 0;
    for _ in 0..20_000 {
        let mut plan = whole_plan(&mut random);
        match random.between(0, 3) {
            0 => plan.break_flights(&mut random),
            1 => plan.break_outside(&mut random),
            _ => plan.break_one(&mut random),
        }
        let call =
            Call { plan: plan.clone(), moves: vec![], rows: 0, verdicts: 2 * CONSTRAINTS, work: REGIONS + 2 * SECTORS + 1 };
        let [code, place, _, total] = by_library(&mut Memory::of(&call));
        let due = if code == 0 { Ok(total) } else { Err((code, place)) };
        let judged = |made: Result<(Plan, Colouring), Refusal>| {
            let board = made.and_then(|(plan, colouring)| plan.judge(&colouring));
            board.map(|board| board.total()).map_err(|refusal| (refusal.code, refusal.place))
        };
        assert_eq!(judged(Plan::from_numbers(numbers(&plan))), due);
        if held_by_types(&plan) {
            assert_eq!(judged(built(&plan)), due);
            built_too += 1;
        }
    }
    assert!(built_too > 5_000, "{built_too}");
}

/// Whether a builder can be handed these numbers.
fn held_by_types(plan: &Numbers) -> bool {
    let Numbers { regions, workloads, outside, edges, counts, visits, constraints, .. } = plan;
    let regions_long = [workloads, outside].iter().all(|list| list.len() as u64 == *regions);
    let named = |numbers: &[u64]| numbers.iter().all(|&number| Region::new(number).is_some());
    let kind = |four: &[u64]| (1..=5).contains(&four[0]) && Relation::new(four[1]).is_some();
    let relation = |four: &[u64]| four[1] == 1 || ![2, 3].contains(&four[0]);
    let count = counts.iter().try_fold(0u64, |sum, &count| sum.checked_add(count));
    let whole = edges.len() % 3 == 0
        && constraints.len() % 4 == 0
        && count.and_then(|count| count.checked_mul(2)) == Some(visits.len() as u64);
    regions_long
        && whole
        && edges.chunks(3).all(|edge| named(&edge[..2]))
        && visits.chunks(2).all(|visit| named(&visit[..1]))
        && constraints.chunks(4).all(|four| kind(four) && relation(four))
}

/// What a plan shows is what it was made of.
#[test]
fn what_a_plan_shows() {
    let numbers = sheet_a_with_both();
    let (plan, colouring) = built(&numbers).expect("a good plan");
    assert_eq!(plan.regions().map(Region::get).collect::<Vec<_>>(), [1, 2, 3, 4, 5]);
    assert_eq!((plan.region(5), plan.region(6), plan.region(0)), (Region::new(5), None, None));
    assert_eq!((plan.sectors().len(), plan.sector(2).is_some(), plan.sector(3)), (2, true, None));
    assert_eq!(plan.regions().filter_map(|own| plan.workload(own)).map(|own| own.0).collect::<Vec<_>>(), numbers.workloads);
    assert_eq!(plan.regions().filter_map(|own| plan.outside(own)).map(|own| own.0).collect::<Vec<_>>(), numbers.outside);
    assert_eq!((plan.workload(region(6)), plan.outside(region(6))), (None, None));
    let edges = plan.edges().flat_map(|edge| [edge.between[0].get(), edge.between[1].get(), edge.area.0]);
    assert_eq!(edges.collect::<Vec<_>>(), numbers.edges);
    let flights: Vec<_> = plan.flights().collect();
    assert_eq!(flights.iter().map(|(flight, _)| flight.get()).collect::<Vec<_>>(), [1, 2]);
    let visits = flights.iter().flat_map(|(_, visits)| visits).flat_map(|(region, seconds)| [region.get(), seconds.0]);
    assert_eq!(visits.collect::<Vec<_>>(), numbers.visits);
    for ((place, constraint), four) in plan.constraints().zip(numbers.constraints.chunks(4)) {
        assert_eq!((constraint, plan.constraint(place)), (typed::constraint(four), Some(constraint)));
    }
    assert_eq!((plan.constraints().len(), Place::new(6).and_then(|place| plan.constraint(place))), (5, None));
    assert_eq!(colouring.iter().map(|(_, sector)| sector.get()).collect::<Vec<_>>(), numbers.colouring);
    assert_eq!((colouring.sector_of(region(5)), colouring.sector_of(region(6))), (plan.sector(2), None));
}

/// A sheet's verdicts as values are those that its bytes are asked for.
#[test]
fn sheet_files() {
    for (sheet, bytes) in files() {
        let asked = library::Sheet::new(&bytes).expect("a good sheet");
        let board = Board::read(&bytes).expect("a good sheet");
        assert_eq!((board.total(), board.verdicts().len() as u64), (asked.total(), asked.constraints()));
        for verdict in board.verdicts() {
            let place = verdict.place();
            assert_eq!(
                (Some(verdict.holds()), Some(verdict.violation())),
                (asked.holds(place.get()), asked.violation(place.get()))
            );
            assert_eq!(board.verdict(place).map(|same| same.to_string()), Some(verdict.to_string()));
        }
        for place in (asked.constraints() + 1..=16).filter_map(Place::new) {
            assert!(board.verdict(place).is_none());
        }
        assert_eq!(board.write(Form::of(&bytes)).as_deref(), Ok(&bytes[..]), "{} bytes", bytes.len());
        let mut converted = vec![0; qirfadhun::limits::MOST_SECOND_BYTES];
        let (other, count) = match Form::of(&bytes) {
            Form::First => (Form::Second, library::to_second(&bytes, &mut converted)),
            Form::Second => (Form::First, library::to_first(&bytes, &mut converted)),
        };
        assert_eq!(board.write(other).as_deref(), count.as_ref().map(|&count| &converted[..count]));
        assert_eq!(board.plan().numbers(board.colouring()), numbers(&sheet.plan));
    }
}

/// The list cut at every 4,096 moves and called by hand.
fn cut_by_hand(plan: &Numbers, moves: &[u64]) -> (Shown, Vec<i64>) {
    let (mut plan, mut rows) = (plan.clone(), Vec::new());
    let mut shown = flat(&Call::new(plan.clone(), vec![])).expect("a good call").0;
    for part in moves.chunks(3 * MOVES as usize) {
        let (left, own) = flat(&Call::new(plan.clone(), part.to_vec())).expect("a good call");
        plan.colouring.clone_from(&left.colouring);
        rows.extend(own);
        shown = left;
    }
    (shown, rows)
}

#[test]
fn lists_of_any_length() {
    let mut random = Random::new(1);
    for plan in [sheet_a_with_both(), largest_whole_plan(&mut random)] {
        let list = OnBoard::new(plan.clone(), moves(&mut random, &plan, 13_000));
        let moves = list.moves();
        let mut board = board(&plan);
        let start = board.colouring().clone();
        // A short list after a long one shows nothing of it.
        for count in [0, 1, MOVES as usize, MOVES as usize + 1, 10_000, 3, 0] {
            board.restart(&start).expect("a good colouring");
            assert_eq!(board.rows().len(), 0);
            let due = cut_by_hand(&plan, &list.0.moves[..3 * count]);
            assert!(run(&mut board, &moves[..count]) == due, "{count} moves");
        }
    }
}

#[test]
fn moves_by_value_and_by_reference() {
    let mut board = board(&sheet_a());
    let changes = [Change::Give(region(2), sector(2)), Change::Exchange(region(3), region(4))];
    let due = [(changes[0], 307), (changes[1], 291)];
    assert!(board.probe_all(changes).eq(due));
    assert!(board.probe_all(changes.iter()).eq(due));
    assert!(board.run(changes.map(Move::Probe)).deltas().eq(due));
    assert_eq!(board.rows().rev().map(|row| row.total()).collect::<Vec<_>>(), [15, 15]);
    let row = board.make(changes[1]).expect("an accepted change");
    assert_eq!((row.asked(), row.delta(), row.total(), row.relabelled()), (Move::Make(changes[1]), Some(291), 306, 2));
    assert_eq!((board.rows().len(), board.rows().next()), (1, Some(row)));
}

/// The regions and the components of a sector are those of the colouring and the labels.
#[test]
fn sectors_and_their_components() {
    let mut random = Random::new(1);
    for _ in 0..300 {
        let board = board(&whole_plan(&mut random));
        let mut all = Vec::new();
        for figures in board.sectors() {
            let regions: Vec<_> = figures.regions().collect();
            assert!(regions.iter().all(|&own| board.colouring().sector_of(own) == Some(figures.sector())));
            let components: Vec<_> = figures.components().collect();
            assert_eq!(components.len() as u64, figures.component_count());
            let mut joined: Vec<_> = components.iter().flat_map(|component| component.regions()).collect();
            joined.sort();
            assert_eq!(joined, regions);
            for component in components {
                assert_eq!(component.regions().next(), Some(component.label()));
            }
            assert_eq!(board.sector(figures.sector()).map(|same| same.workload()), Some(figures.workload()));
            all.extend(regions);
        }
        all.sort();
        assert!(all.into_iter().eq(board.plan().regions()), "each region is in one sector");
    }
    let mut split = board(&sheet_a());
    split.make(Change::Give(region(2), sector(2))).expect("an accepted change");
    let first = split.sectors().next().expect("a sector");
    let pieces: Vec<Vec<u64>> = first.components().map(|one| one.regions().map(Region::get).collect()).collect();
    assert_eq!(pieces, [[1], [3]]);
    assert!(split.sector(sector(3)).is_none() && split.label(region(6)).is_none());
}

/// A panic in the caller's own list leaves the board as it was, without rows.
#[test]
fn a_list_that_panics() {
    let mut board = board(&sheet_a());
    board.make(Change::Give(region(3), sector(2))).expect("an accepted change");
    let before = Shown::by(&board);
    let broken = (1..600).map(|number| Move::Make(Change::Give(Region::new(number).expect("the list ends here"), sector(1))));
    let run = std::panic::catch_unwind(std::panic::AssertUnwindSafe(|| board.run(broken).len()));
    assert!(run.is_err());
    assert_eq!((Shown::by(&board), board.rows().len()), (before, 0));
}

/// A thread of 512 KiB has room for every call, on the largest plan too.
#[test]
fn on_a_small_stack() {
    let mut random = Random::new(1);
    let plan = largest_whole_plan(&mut random);
    let moves = OnBoard::new(plan.clone(), moves(&mut random, &plan, 100)).moves();
    let (numbers, flat) = (numbers(&plan), plan);
    let all = move || {
        let (plan, colouring) = Plan::from_numbers(numbers).expect("a good plan");
        let mut board = plan.judge(&colouring).expect("a good colouring");
        board.run(&moves);
        assert!(board.verdicts().all(|verdict| verdict.reasons().is_ok()));
        let second = board.write(Form::Second).expect("a second sheet");
        assert_eq!(board.write(Form::First).map_err(|refusal| refusal.code), Err(41));
        assert_eq!(Board::read(&second).map(|read| read.total()), Ok(board.total()));
        assert_eq!(library::Sheet::new(&second).map(|sheet| sheet.total()), Ok(board.total()));
        assert_eq!(qirfadhun::salvage(&second).map(|salvage| salvage.lost().map(|lost| lost.len())), Ok(Ok(0)));

        // By records, and a sheet of the first form there and back.
        let Numbers { regions, sectors, workloads, outside, edges, counts, visits, constraints, mut colouring } = flat;
        let (records, mut verdicts, mut work) = (records(&constraints), [0; 2 * 16], [0; 641]);
        let totals = library::call_records(
            regions,
            sectors,
            &workloads,
            &outside,
            &edges,
            &counts,
            &visits,
            &records,
            &mut colouring,
            &[],
            &mut [],
            &mut verdicts,
            &mut work,
        );
        assert!(totals.is_ok());
        let border = library::Constraint { kind: 2, relation: 1, limit: 0, weight: 1 };
        let mut first = vec![0; qirfadhun::limits::MOST_BYTES];
        let bytes = library::write_records(regions, sectors, &workloads, &edges, &[border; 16], &colouring, &mut first);
        let mut second = vec![0; qirfadhun::limits::MOST_SECOND_BYTES];
        let converted = bytes.and_then(|bytes| library::to_second(&first[..bytes], &mut second));
        assert_eq!(converted.and_then(|converted| library::to_first(&second[..converted], &mut first)), bytes);
    };
    let small = std::thread::Builder::new().stack_size(512 * 1024).spawn(all).expect("a thread");
    small.join().expect("the stack is enough");
}

#[test]
fn boards_are_shared_and_sent() {
    fn both<T: Send + Sync + Clone>() {}
    both::<Plan>();
    both::<Board>();
    both::<Colouring>();
    both::<Salvage>();
}

/// The largest plan, and lists at the limit.
#[test]
fn the_largest_plan() {
    let mut random = Random::new(1);
    let plan = largest_whole_plan(&mut random);
    let list = moves(&mut random, &plan, 20);
    all_cases("the largest plan", [OnBoard::new(plan, list)]);
}
