//! `qirfadhun::lists::salvage` compared with the reference: code, place, how many regions are lost, and all memory in and around what
//! is lent. What holds of a sheet and of what is salvaged of it is in `salvaged`.

use crate::cases::{all_cases, random_cases, shrink, Case, Code};
use crate::library;
use crate::plans::{damaged, largest_whole_plan, plan_of, sheet_a, Damage, Numbers, Random};
use crate::reference::*;
use crate::sheets::salvaging::{by_library, by_reference, compare, lowest_beside, salvaged, Answer, Memory};
use crate::sheets::{all_stored, block_damages, numbers_in, reading, sheet_damages, Change, Salvaging, Sheet};

#[test]
fn random_salvages() {
    random_cases("salvages", 2_500, |random| {
        let mut sheet = Sheet::random(random);
        sheet.spoil(random);
        Salvaging::random(random, sheet)
    });
}

#[test]
fn random_damaged_sheets() {
    random_cases("salvages of damaged sheets", 2_500, |random| {
        let mut sheet = Sheet::random(random);
        if random.once_in(2) {
            sheet.spoil(random);
        }
        sheet.break_some(random);
        Salvaging::random(random, sheet)
    });
}

/// A sheet whose colouring has one block or two, with little else in it; the second form has a flight.
fn sheet_of(random: &mut Random, form: &'static Form, regions: u64) -> Sheet {
    let plan = plan_of(random, regions, 9);
    let edges = plan.edges.chunks(3).step_by(plan.edges.len().div_ceil(3 * 62).max(1)).flatten().copied().collect();
    let (counts, visits) = (vec![2], vec![1, 60, regions, 60]);
    Sheet::of(form, Numbers { edges, counts, visits, ..plan })
}

#[test]
fn random_large_sheets() {
    random_cases("salvages of large sheets", 600, |random| {
        let (form, regions) = (random.pick(&FORMS), random.pick(&[499, 500, 501, 502, 511, 512]));
        let mut sheet = sheet_of(random, form, regions);
        for _ in 0..random.between(1, 2) {
            sheet.spoil(random);
        }
        Salvaging::random(random, sheet)
    });
}

#[test]
fn empty_slices() {
    let answer = |sheet: &[u8], salvaged: &mut [u8], list: &mut [u64]| {
        library::salvage(sheet, salvaged, list).map_err(|refusal| (refusal.code, refusal.place))
    };
    assert_eq!(answer(&[], &mut [], &mut []), Err((31, 0)));
    for sheet in FORMS.map(Sheet::a) {
        let (sound, spoiled) = (sheet.bytes(), sheet.spoiled(&[0]).bytes());
        assert_eq!(answer(&sound, &mut [], &mut []), Err((40, 0)));
        assert_eq!(answer(&sound, &mut vec![0; sound.len()], &mut []), Ok(0));
        assert_eq!(answer(&spoiled, &mut [], &mut []), Err((40, 0)));
        assert_eq!(answer(&spoiled, &mut vec![0; sound.len()], &mut []), Err((17, 0)));
    }
}

/// The regions of a sheet that are lost, and the colouring of what is salvaged, the same from all.
fn after(sheet: Sheet) -> (Vec<u64>, Vec<u64>) {
    assert_eq!(Salvaging::exact(sheet.clone()).compare(), Ok((0, None)));
    let (bytes, lost) = salvaged(&sheet.bytes(), by_library).expect("a salvage");
    (lost, numbers_in(&bytes, reading::by_library).expect("a sound sheet").colouring)
}

/// Sheet A's regions lie in a row. The sectors 0 and 3 are none.
#[test]
fn sheet_a_by_hand() {
    for form in FORMS {
        let with = |colouring: [u64; 5]| Sheet::of(form, Numbers { colouring: colouring.to_vec(), ..sheet_a() });
        let due = |colouring, lost: &[u64], mended: [u64; 5]| {
            assert_eq!(after(with(colouring)), (lost.to_vec(), mended.to_vec()));
        };
        due([1, 1, 1, 2, 2], &[], [1, 1, 1, 2, 2]);
        due([1, 0, 2, 2, 2], &[2], [1, 1, 2, 2, 2]);
        due([0, 2, 1, 2, 2], &[1], [2, 2, 1, 2, 2]);
        due([1, 1, 1, 3, 2], &[4], [1, 1, 1, 1, 2]);
        due([2, 2, 2, 1, 255], &[5], [2, 2, 2, 1, 1]);
        // Region 4 is lost, so that region 3 has none but 2, and 5 has none at all.
        due([1, 2, 0, 0, 0], &[3, 4, 5], [1, 2, 2, 1, 1]);
        due([2, 0, 0, 0, 2], &[2, 3, 4], [2, 2, 1, 2, 2]);
        due([0, 0, 0, 2, 2], &[1, 2, 3], [1, 1, 2, 2, 2]);
        due([3, 0, 65, 255, 64], &[1, 2, 3, 4, 5], [1; 5]);
        // What a block that fails still shows is not taken.
        assert_eq!(after(with([2; 5]).spoiled(&[0])), (vec![1, 2, 3, 4, 5], vec![1; 5]));
        // The lowest neighbour, wherever its edge stands, and none without edges.
        let others = |edges: &[u64], colouring: [u64; 5]| {
            let (edges, colouring) = (edges.to_vec(), colouring.to_vec());
            after(Sheet::of(form, Numbers { sectors: 5, edges, colouring, ..sheet_a() }))
        };
        assert_eq!(others(&[1, 4, 9, 2, 4, 1, 4, 5, 9], [3, 2, 1, 0, 5]), (vec![4], vec![3, 2, 1, 3, 5]));
        assert_eq!(others(&[1, 4, 9, 2, 4, 1, 4, 5, 9], [0, 2, 1, 0, 5]), (vec![1, 4], vec![1, 2, 1, 2, 5]));
        assert_eq!(others(&[1, 4, 9, 2, 4, 1, 4, 5, 9], [0, 6, 4, 0, 5]), (vec![1, 2, 4], vec![1, 1, 4, 5, 5]));
        assert_eq!(others(&[], [2, 0, 3, 4, 0]), (vec![2, 5], vec![2, 1, 3, 4, 1]));
    }
}

/// Both blocks of a colouring are spoiled, one, or none: the first has regions 1 to 500.
#[test]
fn one_block_or_both() {
    for (form, regions) in FORMS.into_iter().flat_map(|form| [500, 501, 512].map(|regions| (form, regions))) {
        let sheet = sheet_of(&mut Random::new(regions), form, regions);
        let lost = |blocks: &[usize]| after(sheet.spoiled(blocks)).0;
        assert_eq!(sheet.colouring_blocks().len(), if regions == 500 { 1 } else { 2 });
        assert!(lost(&[]).is_empty());
        assert!(lost(&[0]).into_iter().eq(1..=500));
        if regions > 500 {
            assert!(lost(&[1]).into_iter().eq(501..=regions));
            assert!(lost(&[0, 1]).into_iter().eq(1..=regions));
        }
        assert_eq!(after(sheet).1.len() as u64, regions);
    }
}

/// Sheet A with a spoiled colouring, or with sectors that are none, is refused as reading refuses the sound one: for every fault but
/// those of the colouring, and then for the rooms.
#[test]
fn every_refusal_in_order() {
    for form in FORMS {
        let sound = Sheet::a(form);
        let stray = Sheet::of(form, Numbers { colouring: vec![1, 0, 1, 3, 2], ..sound.plan.clone() });
        let [sound, spoiled, stray] = [sound.clone(), sound.spoiled(&[0]), stray].map(Salvaging::new);
        let colouring = sound.sheet.colouring_blocks().start as u64;
        let mut damages: Vec<Damage<Salvaging>> = Vec::new();
        for (code, place, damage) in sheet_damages(form) {
            let of_colouring = ((32..=36).contains(&code) && place == colouring) || (code, place) == (37, 8);
            if !of_colouring {
                damages.push((code, place, Box::new(move |salvaging| damage(&mut salvaging.sheet))));
            }
        }
        for bytes in [0, 1, 512, sound.bytes - 512, sound.bytes - 1] {
            damages.push((40, 0, Box::new(move |salvaging| salvaging.bytes = bytes)));
        }
        let of_sound = damages.len();
        damages.extend([0, 1].map(|list| -> Damage<Salvaging> { (17, 0, Box::new(move |salvaging| salvaging.list = list)) }));
        let mut salvages = damaged(&spoiled, &damages);
        for (place, (code, named, damage)) in damages.iter().enumerate() {
            for good in [&sound, &stray].into_iter().skip(usize::from(place >= of_sound)) {
                let mut alone = good.clone();
                damage(&mut alone);
                salvages.push((*code, *named, alone));
            }
        }
        for (code, place, salvaging) in &salvages {
            assert_eq!(by_reference(&mut Memory::of(salvaging)), [*code, *place, 0], "{salvaging:?}");
        }
        all_cases(&format!("refused salvages, {form:?}"), salvages.into_iter().map(|(_, _, salvaging)| salvaging));
    }
}

/// Every damage to a colouring's block, alone and with the other block spoiled, and beside a fault before it and one after it.
#[test]
fn damaged_colourings() {
    for form in FORMS {
        let mut sheets = Vec::new();
        for sheet in [Sheet::a(form), sheet_of(&mut Random::new(1), form, 500), sheet_of(&mut Random::new(2), form, 512)] {
            let (bytes, own) = (sheet.bytes(), sheet.colouring_blocks());
            for (_, _, damage) in own.clone().flat_map(|number| block_damages(&bytes, number)) {
                let mut alone = sheet.clone();
                damage(&mut alone);
                sheets.extend((0..own.len()).map(|other| alone.spoiled(&[other])));
                for other in [own.start - 1, own.end].into_iter().filter(|&other| other < sheet.blocks()) {
                    sheets.push(alone.changed(&[Change::Flip(other * BLOCK + PREFIX, 1)]));
                }
                sheets.push(alone);
            }
            for (one, other) in own.clone().flat_map(|one| (0..sheet.blocks()).map(move |other| (one, other))) {
                let exchange = [Change::Exchange(one, other), Change::Numbers];
                sheets.extend([sheet.changed(&exchange[..1]), sheet.disguised(&exchange)]);
            }
        }
        all_cases(&format!("damaged colourings, {form:?}"), sheets.into_iter().map(Salvaging::exact));
    }
}

/// Each byte of these blocks flipped: all bits alone, and one bit with the block's check right after it.
fn flipped(sheet: &Sheet, blocks: impl Iterator<Item = usize>) -> impl Iterator<Item = Salvaging> {
    let good = Salvaging::new(sheet.clone());
    let places = blocks.flat_map(|block| (0..BLOCK).map(move |place| (block, block * BLOCK + place)));
    let flips = places.flat_map(|(block, place)| {
        [vec![Change::Flip(place, 255)], vec![Change::Flip(place, 1 << (place % 8)), Change::Check(block)]]
    });
    flips.map(move |changes| Salvaging { sheet: good.sheet.changed(&changes), ..good.clone() })
}

#[test]
fn every_byte_of_sheet_a_flipped() {
    for sheet in FORMS.map(Sheet::a) {
        all_cases("flipped bytes of sheet A", flipped(&sheet, 0..sheet.blocks()));
    }
}

/// Sheets with one block of colouring that is full, and with two.
#[test]
fn every_byte_of_large_sheets_flipped() {
    for (form, regions) in [500, 501].into_iter().flat_map(|regions| FORMS.map(|form| (form, regions))) {
        let sheet = sheet_of(&mut Random::new(regions), form, regions);
        all_cases(&format!("flipped bytes of {regions} regions, {form:?}"), flipped(&sheet, 0..sheet.blocks()));
    }
}

/// One short of either room, of both, and one more.
#[test]
fn rooms_around_the_limit() {
    let mut sheets = FORMS.map(Sheet::a).to_vec();
    sheets.extend(FORMS.map(|form| sheet_of(&mut Random::new(3), form, 512)));
    sheets.push(Sheet::of(&SECOND, largest_whole_plan(&mut Random::new(1))));
    for sheet in sheets {
        let colouring = vec![0; sheet.plan.colouring.len()];
        let stray = Sheet::of(sheet.form, Numbers { colouring, ..sheet.plan.clone() });
        for sheet in [sheet.clone(), sheet.spoiled(&[0]), sheet.spoiled(&[1]), stray] {
            let exact = Salvaging::exact(sheet);
            let all = [0, 1, exact.bytes - 512, exact.bytes - 1, exact.bytes, exact.bytes + 1, exact.bytes + 512];
            let lists = [0, 1, exact.list.saturating_sub(1), exact.list, exact.list + 1, exact.list + 9];
            let rooms = all.into_iter().flat_map(|bytes| lists.map(|list| (bytes, list)));
            all_cases("rooms", rooms.map(|(bytes, list)| Salvaging { bytes, list, ..exact.clone() }));
        }
    }
}

/// The sheets that are kept as files, those that are refused among them.
#[test]
fn sheet_files() {
    for (path, bytes) in all_stored() {
        let [due, found] = [by_reference, by_library].map(|salvage| salvaged(&bytes, salvage));
        assert_eq!(found, due, "{}", path.display());
    }
}

/// A salvager for which a region that it has given a sector is one whose sector survived.
fn in_place(memory: &mut Memory) -> Answer {
    let [code, place, lost] = by_reference(memory);
    if code == 0 {
        let bytes = memory.sheet.content().len();
        let list = memory.list.content()[..lost as usize].to_vec();
        let mut plan = numbers_in(&memory.salvaged.content()[..bytes], reading::by_reference).expect("a sound sheet");
        for (turn, &region) in list.iter().enumerate() {
            let beside = lowest_beside(&plan, &list[turn..], region);
            plan.colouring[region as usize - 1] = beside.map_or(1, |beside| plan.colouring[beside as usize - 1]);
        }
        let sheet = Sheet::of(Form::of(memory.sheet.content()), plan).bytes();
        memory.salvaged.slice()[..bytes].copy_from_slice(&sheet);
    }
    [code, place, lost]
}

/// A salvager that doesn't look at the checks of the colouring's blocks.
fn trusting(memory: &mut Memory) -> Answer {
    let lent = memory.sheet.clone();
    for block in memory.sheet.slice().chunks_exact_mut(BLOCK).filter(|block| block[4] == 5) {
        let check = fletcher(&block[..PREFIX + PAYLOAD]);
        block[PREFIX + PAYLOAD..].copy_from_slice(&check);
    }
    let answer = by_reference(memory);
    memory.sheet = lent;
    answer
}

#[derive(Clone, Debug)]
struct Missalvaged(Salvaging, fn(&mut Memory) -> Answer);

impl Case for Missalvaged {
    fn compare(&self) -> Result<Code, String> {
        compare(&self.0, &[self.1])
    }

    fn smaller(&self) -> Box<dyn Iterator<Item = Self> + '_> {
        Box::new(self.0.smaller().map(|salvaging| Missalvaged(salvaging, self.1)))
    }
}

/// The smallest salvage found that shows a salvager to be wrong.
fn shrunk(wrong: fn(&mut Memory) -> Answer) -> Sheet {
    let mut random = Random::new(1);
    let mut cases = (0..1_000).map(|_| {
        let mut sheet = Sheet::a(&FIRST);
        sheet.spoil(&mut random);
        Missalvaged(Salvaging::new(sheet), wrong)
    });
    shrink(cases.find(|case| case.compare().is_err()).expect("found")).0.sheet
}

#[test]
fn a_wrong_salvager_is_found_and_its_case_shrunk() {
    let Sheet { plan, changes, .. } = shrunk(in_place);
    assert_eq!((plan.regions, plan.sectors, plan.edges.len(), changes.len()), (3, 2, 2 * 3, 0));
    assert!(plan.colouring.contains(&2));

    // A byte is changed where the colouring stands after a block of edges.
    let Sheet { plan, changes, .. } = shrunk(trusting);
    assert_eq!((plan.regions, plan.sectors, plan.edges.len(), changes.len()), (2, 1, 3, 1));
}
