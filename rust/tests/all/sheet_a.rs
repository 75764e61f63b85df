//! Sheet A and its numbers: every line of document 01, asked of the reference and of the library, and its bytes in both forms. The
//! text of `verdicts` is in `verdicts`.

use crate::calls::{self, asked};
use crate::library;
use crate::plans::{sheet_a, sheet_a_with_both, Numbers};
use crate::reference::{fletcher, Form, FIRST, SECOND};
use crate::sheets::{numbers_in, reading, writing, Sheet, Writing};

/// The rows of these moves on sheet A.
fn rows(moves: &[u64]) -> Vec<i64> {
    calls::rows(&sheet_a(), moves)
}

#[test]
fn total_labels_border_and_deviation() {
    let (answer, memory) = asked(&sheet_a(), &[]);
    assert_eq!(answer, [0, 0, 15, 15]);
    // Five labels, two component counts, two workload sums, T.
    assert_eq!(memory.work.content(), [1, 1, 1, 4, 4, 1, 1, 60, 40, 2]);
    assert_eq!(memory.verdicts.content(), [1, 0, 1, 0, 1, 0, 0, 5]);

    // D is 40: with limit 0 it is the violation of kind 3.
    let plan = Numbers { constraints: vec![3, 1, 0, 1], ..sheet_a() };
    assert_eq!(asked(&plan, &[]).1.verdicts.content(), [0, 40]);
}

#[test]
fn moves() {
    assert_eq!(rows(&[1, 2, 2]), [0, 307, 15, 0]);
    assert_eq!(rows(&[2, 2, 2]), [0, 307, 322, 2]);
    assert_eq!(rows(&[2, 3, 2]), [0, 111, 126, 3]);
    assert_eq!(rows(&[4, 3, 4]), [0, 291, 306, 2]);
}

#[test]
fn region_violations() {
    assert_eq!(rows(&[5, 3, 0, 5, 4, 0, 5, 5, 0]), [0, 57, 15, 0, 0, 42, 15, 0, 0, 40, 15, 0]);
}

#[test]
fn refused_moves() {
    assert_eq!(rows(&[1, 6, 1, 1, 5, 3, 9, 0, 0]), [22, 0, 15, 0, 23, 0, 15, 0, 21, 0, 15, 0]);
}

#[test]
fn empty_sectors_count() {
    let mut plan = Numbers {
        regions: 1,
        sectors: 64,
        workloads: vec![0],
        outside: vec![0],
        edges: vec![],
        counts: vec![],
        visits: vec![],
        constraints: vec![4, 6, 1, 1],
        colouring: vec![1],
    };
    assert_eq!(asked(&plan, &[]).1.verdicts.content(), [0, 64]);
    plan.workloads = vec![1];
    assert_eq!(asked(&plan, &[]).1.verdicts.content(), [0, 63]);
}

#[test]
fn refused_numbers() {
    let mut plan = sheet_a();
    plan.workloads[3] = 1_000_000;
    assert_eq!(asked(&plan, &[]).0[..2], [0, 0]);
    plan.workloads[3] = 1_000_001;
    assert_eq!(asked(&plan, &[]).0, [3, 4, 0, 0]);

    let mut plan = sheet_a();
    plan.edges[3..5].copy_from_slice(&[2, 2]);
    assert_eq!(asked(&plan, &[]).0, [5, 2, 0, 0]);
}

/// Document 01's line and two more of Fletcher's sums that are widely published.
#[test]
fn fletchers_sums() {
    assert_eq!(fletcher(b"abcde"), [240, 200]);
    assert_eq!(fletcher(b"abcdef"), [87, 32]);
    assert_eq!(fletcher(b"abcdefgh"), [39, 6]);
}

/// The sheet of this plan is this file, read, written and asked by all.
fn stored(form: &'static Form, plan: Numbers, file: &[u8]) {
    assert_eq!(Sheet::of(form, plan.clone()).bytes(), file);
    for read in [reading::by_reference, reading::by_library, reading::by_archive] {
        assert_eq!(numbers_in(file, read), Ok(plan.clone()));
    }
    for write in [writing::by_reference, writing::by_library, writing::by_archive] {
        let mut memory = writing::Memory::of(&Writing::new(form, plan.clone()));
        assert_eq!(write(&mut memory), [0, 0, file.len() as u64]);
        assert_eq!(memory.sheet.content(), file);
    }
    let sheet = library::Sheet::new(file).expect("a good sheet");
    let (answer, memory) = asked(&plan, &[]);
    assert_eq!((sheet.total(), sheet.constraints()), (answer[3], plan.constraints.len() as u64 / 4));
    let verdicts = (1..=sheet.constraints()).flat_map(|place| [sheet.holds(place).map(u64::from), sheet.violation(place)]);
    assert_eq!(verdicts.collect::<Option<Vec<_>>>().as_deref(), Some(memory.verdicts.content()));
}

#[test]
fn the_sheet_itself() {
    let file = include_bytes!("../../../sheets/a.sheet");
    stored(&FIRST, sheet_a(), file);
    assert_eq!((file.len(), library::Sheet::new(file).map(|sheet| sheet.total())), (2_560, Ok(15)));
}

/// The second sheet of sheet A with outside areas, and with one flight that is 45 seconds in sector 2 and 80 in sector 1: eight
/// blocks of the kinds 1, 2, 6, 3, 4, 5, 7 and 8.
#[test]
fn the_second_sheet() {
    let file = include_bytes!("../../../sheets/flights.sheet");
    let flight = vec![4, 20, 5, 10, 4, 15, 3, 80];
    stored(&SECOND, Numbers { counts: vec![4], visits: flight, ..sheet_a_with_both() }, file);
    assert_eq!((file.len(), library::Sheet::new(file).map(|sheet| sheet.total())), (4_096, Ok(15 + 8 + 30)));

    let used: [&[u8]; 8] = [
        &[5, 0, 2, 0, 4, 0, 5, 0, 1, 0, 4, 0],
        &[10, 0, 0, 0, 20, 0, 0, 0, 30, 0, 0, 0, 25, 0, 0, 0, 15, 0, 0, 0],
        &[7, 0, 0, 0, 0, 0, 0, 0, 1, 0, 0, 0, 0, 0, 0, 0, 3, 0, 0, 0],
        &[1, 0, 2, 0, 4, 0, 0, 0, 2, 0, 3, 0, 6, 0, 0, 0, 3, 0, 4, 0, 2, 0, 0, 0, 4, 0, 5, 0, 3, 0, 0, 0],
        &[
            [1, 3, 100, 0, 2, 0, 0, 0, 0, 0, 0, 0],
            [2, 1, 1, 0, 5, 0, 0, 0, 0, 0, 0, 0],
            [3, 1, 2, 0, 40, 0, 0, 0, 0, 0, 0, 0],
            [4, 1, 3, 0, 55, 0, 0, 0, 0, 0, 0, 0],
            [5, 6, 2, 0, 60, 0, 0, 0, 0, 0, 0, 0],
        ]
        .concat(),
        &[1, 1, 1, 2, 2],
        &[4],
        &[4, 0, 20, 0, 0, 0, 5, 0, 10, 0, 0, 0, 4, 0, 15, 0, 0, 0, 3, 0, 80, 0, 0, 0],
    ];
    for (number, (kind, used)) in [1, 2, 6, 3, 4, 5, 7, 8].into_iter().zip(used).enumerate() {
        let mut block = [&b"SCT2"[..], &[kind, 0, number as u8, 0, used.len() as u8, 0], used].concat();
        block.resize(510, 0);
        block.extend(fletcher(&block));
        assert_eq!(file[512 * number..][..512], block, "block {number}");
    }
}
