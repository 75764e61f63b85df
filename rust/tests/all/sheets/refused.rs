//! Damage to sheet A, in either form, for every refusal by 31 to 38.

use super::{Change, Sheet};
use crate::plans::{in_order, Damage, PlanDamage};
use crate::reference::*;

/// Damage to the sheet A of a form, in the order of checking.
pub fn sheet_damages(form: &'static Form) -> Vec<Damage<Sheet>> {
    let bytes = Sheet::a(form).bytes();
    let blocks = bytes.len() / BLOCK;
    let most = form.blocks * BLOCK;
    let mut damages: Vec<Damage<Sheet>> = Vec::new();
    damages.extend([0, 1, BLOCK - 1, BLOCK + 1, bytes.len() - 1, most + 1, most + BLOCK].map(|bytes| length(31, bytes)));
    damages.extend(block_damages(&bytes, 0));
    damages.extend(head_damages(form));
    // As long as a first sheet may be: without its letters the second is held to that.
    damages.extend([1, blocks - 1, blocks + 1, FIRST.blocks].map(|blocks| length(38, blocks * BLOCK)));
    damages.extend((1..blocks).flat_map(|number| block_damages(&bytes, number)));
    let of_form = if *form == FIRST { FIRST_RULE_DAMAGES } else { SECOND_RULE_DAMAGES };
    for (rule, _, damage) in in_order([RULE_DAMAGES, of_form].concat()) {
        damages.push((37, rule, Box::new(move |sheet| damage(&mut sheet.plan))));
    }
    damages
}

fn changes(code: u64, place: u64, changes: &[Change]) -> Damage<Sheet> {
    let changes = changes.to_vec();
    (code, place, Box::new(move |sheet| sheet.changes.extend(changes.clone())))
}

fn length(code: u64, length: usize) -> Damage<Sheet> {
    changes(code, 0, &[Change::Length(length)])
}

/// Damage to a block of these bytes for each of 32 to 36; after 33 the check is right.
pub fn block_damages(bytes: &[u8], number: usize) -> Vec<Damage<Sheet>> {
    let place = |of_block: usize| number * BLOCK + of_block;
    let (kind, used) = (bytes[place(4)], u16::from_le_bytes([bytes[place(8)], bytes[place(9)]]));
    let after = PREFIX + usize::from(used);
    let mut damages = Vec::new();
    let mut damage = |code: u64, change: Change| {
        let check = (code > 33).then_some(Change::Check(number));
        damages.push(changes(code, number as u64, &[vec![change], Vec::from_iter(check)].concat()));
    };
    for letter in 0..4 {
        damage(32, Change::Flip(place(letter), 32));
    }
    // The letters of the other form; they make the head that of another sheet.
    if number > 0 {
        damage(32, Change::Put(place(3), if bytes[3] == b'R' { b'2' } else { b'R' }));
    }
    for byte in [4, 9, 10, after, 509, 510, 511] {
        damage(33, Change::Flip(place(byte), 1));
    }
    for other in [0, kind + 1, kind + 5] {
        damage(34, Change::Put(place(4), other));
    }
    damage(34, Change::PutNumber(place(6), number as u16 + 1));
    damage(34, Change::PutNumber(place(6), number as u16 + 256));
    for count in [0, used - 1, used + 1, 500, 501, used + 256, 65_535] {
        damage(35, Change::PutNumber(place(8), count));
    }
    for byte in [5, after, 509] {
        damage(36, Change::Put(place(byte), 1));
        damage(36, Change::Put(place(byte), 255));
    }
    damages
}

/// Damage to the numbers of the head, its check right again; for 37 and 38.
fn head_damages(form: &Form) -> Vec<Damage<Sheet>> {
    let head = |code, place, at, number| changes(code, place, &[Change::PutNumber(PREFIX + at, number), Change::Check(0)]);
    let mut damages = vec![
        head(37, 1, 0, 0),
        head(37, 1, 0, 513),
        head(37, 1, 0, 65_535),
        head(37, 2, 2, 0),
        head(37, 2, 2, 65),
        head(37, 2, 2, 258),
        head(37, 4, 4, 2_049),
        head(37, 4, 4, 65_535),
        head(37, 6, 6, 0),
        head(37, 6, 6, 17),
        head(37, 6, 6, 260),
    ];
    if *form == SECOND {
        // There are two flights and eight visits.
        damages.extend([0, 9, 65, 65_535].map(|flights| head(37, 13, 8, flights)));
        damages.extend([0, 1, 65, 65_535].map(|visits| head(37, 13, 10, visits)));
    }
    damages.extend([head(38, 0, 0, 126), head(38, 0, 4, 0), head(38, 0, 4, 63)]);
    damages
}

/// Damage to the numbers of sheet A in either form, with the rule that they are against; 37 is given at it.
#[rustfmt::skip]
const RULE_DAMAGES: &[PlanDamage] = &[
    (3, 0, |plan| plan.workloads[0] = 1_000_001),
    (3, 0, |plan| plan.workloads[4] = 0xFFFF_FFFF),
    (5, 0, |plan| plan.edges[0] = 0),
    (5, 0, |plan| plan.edges[3..5].copy_from_slice(&[2, 2])),
    (5, 0, |plan| plan.edges[3..5].copy_from_slice(&[1, 2])),
    (5, 0, |plan| plan.edges[8] = 0),
    (5, 0, |plan| plan.edges[8] = 1_000_001),
    (5, 0, |plan| plan.edges[10] = 6),
    (5, 0, |plan| plan.edges[9..11].copy_from_slice(&[3, 4])),
    (7, 0, |plan| plan.constraints[0] = 0),
    (7, 0, |plan| plan.constraints[0] = 6),
    (7, 0, |plan| plan.constraints[1] = 0),
    (7, 0, |plan| plan.constraints[1] = 7),
    (7, 0, |plan| plan.constraints[2] = 100_000_000_001),
    (7, 0, |plan| plan.constraints[5] = 2),
    (7, 0, |plan| plan.constraints[14] = u64::MAX),
    (7, 0, |plan| plan.constraints[15] = 0),
    (7, 0, |plan| plan.constraints[15] = 1_001),
    (8, 0, |plan| plan.colouring[0] = 0),
    (8, 0, |plan| plan.colouring[4] = 3),
    (8, 0, |plan| plan.colouring[4] = 255),
];

/// The first form holds no constraint of kind 5.
#[rustfmt::skip]
const FIRST_RULE_DAMAGES: &[PlanDamage] = &[
    (7, 0, |plan| plan.constraints[0] = 5),
    (7, 0, |plan| plan.constraints[12] = 5),
];

/// The second form has outside areas, flights and a constraint on them.
#[rustfmt::skip]
const SECOND_RULE_DAMAGES: &[PlanDamage] = &[
    (14, 0, |plan| plan.outside[0] = 1_000_001),
    (14, 0, |plan| plan.outside[4] = 0xFFFF_FFFF),
    (13, 0, |plan| plan.counts.copy_from_slice(&[0, 8])),
    (13, 0, |plan| plan.counts.copy_from_slice(&[8, 0])),
    (13, 0, |plan| plan.counts.copy_from_slice(&[33, 4])),
    (13, 0, |plan| plan.counts.copy_from_slice(&[4, 255])),
    (13, 0, |plan| plan.counts[0] = 3),
    (13, 0, |plan| plan.counts[1] = 5),
    (13, 0, |plan| plan.visits[0] = 0),
    (13, 0, |plan| plan.visits[6] = 6),
    (13, 0, |plan| plan.visits[14] = 65_535),
    (13, 0, |plan| plan.visits[1] = 0),
    (13, 0, |plan| plan.visits[7] = 86_401),
    (13, 0, |plan| plan.visits[15] = 0xFFFF_FFFF),
    (7, 0, |plan| plan.constraints[16] = 6),
    (7, 0, |plan| plan.constraints[17] = 7),
];
