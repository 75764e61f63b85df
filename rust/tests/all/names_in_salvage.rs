//! Two damaged sheets that differ in the names of sectors alone: both are refused alike, or the same regions of both are lost. A lost
//! region is given the same sector by either name, but for one that has no neighbour whose sector survived: that is in sector 1
//! in both.

use crate::cases::{all_cases, random_cases, same, Case, Code};
use crate::names_in_sheets::some_damaged_sheets;
use crate::plans::{sheet_a, Numbers, Random};
use crate::reference::{BLOCK, FORMS};
use crate::renaming::{Renamed, Renaming};
use crate::sheets::salvaging::{by_library, lowest_beside, salvaged};
use crate::sheets::{files, numbers_in, reading, same_bytes, Change, Sheet};

#[derive(Clone, Debug)]
struct Salvages(Renamed<Sheet>);

impl Case for Salvages {
    fn compare(&self) -> Result<Code, String> {
        let Salvages(Renamed { ours: sheet, renaming }) = self;
        let [(ours, lost), (theirs, lost_there)] = match self.0.bytes().map(|bytes| salvaged(&bytes, by_library)) {
            [Ok(ours), Ok(theirs)] => [ours, theirs],
            [ours, theirs] => {
                same("the salvages", &ours, &theirs)?;
                return ours.map_or_else(Ok, |_| Err("both are salvaged".into()));
            }
        };
        same("the lost regions", &lost, &lost_there)?;
        let mut due =
            numbers_in(&ours, reading::by_library).map_err(|code| format!("what is salvaged is refused by {code:?}"))?;
        for region in 1..=due.regions {
            let from_nowhere = lost.contains(&region) && lowest_beside(&due, &lost, region).is_none();
            let sector = &mut due.colouring[region as usize - 1];
            if from_nowhere {
                same("the sectors of a region without a neighbour", sector, &1)?;
            } else {
                *sector = renaming.name(*sector);
            }
        }
        same_bytes(&theirs, &Sheet::of(sheet.form, due).bytes())?;
        Ok((0, None))
    }

    fn smaller(&self) -> Box<dyn Iterator<Item = Self> + '_> {
        Box::new(self.0.smaller().map(Salvages))
    }
}

/// A sheet of which a part of the colouring is lost, whatever its sectors are called: some of them are none, and some blocks are
/// spoiled. A check never fits after one byte is flipped, unless that was no sector's.
fn some_spoiled_sheets(random: &mut Random) -> Renamed<Sheet> {
    let mut sheet = Sheet::random(random);
    let often = random.pick(&[1, 2, 2, 4, 20]);
    for sector in &mut sheet.plan.colouring {
        if random.once_in(often) {
            *sector = random.pick(&[0, sheet.plan.sectors + 1, 255]);
        }
    }
    if random.once_in(2) {
        let spoiled: Vec<usize> = sheet.colouring_blocks().filter(|_| random.once_in(2)).collect();
        sheet.changes.extend(spoiled.into_iter().map(|block| Change::Flip(block * BLOCK + random.place(BLOCK), 1)));
    }
    Renamed::random(random, sheet)
}

#[test]
fn random_sheets() {
    random_cases("renamed salvages", 1_000, |random| Salvages(some_spoiled_sheets(random)));
    random_cases("renamed salvages of damaged sheets", 1_000, |random| Salvages(some_damaged_sheets(random)));
}

#[test]
fn sheet_files() {
    let mut random = Random::new(1);
    let spoiled = |sheet: Sheet| [&[0][..], &[1], &[0, 1]].map(|blocks| sheet.spoiled(blocks));
    let sheets: Vec<Sheet> = files().into_iter().flat_map(|(sheet, _)| spoiled(sheet)).collect();
    all_cases("renamed salvages of files", sheets.into_iter().map(|sheet| Salvages(Renamed::random(&mut random, sheet))));
}

/// Sheet A's sectors exchange their names. A region with a neighbour goes with it in both. Region 5 has none, and is in sector 1 in
/// both: with regions 1 to 4 in the one, by itself in the other.
#[test]
fn sheet_a_by_hand() {
    for form in FORMS {
        let salvage = |colouring: [u64; 5]| {
            let sheet = Sheet::of(form, Numbers { colouring: colouring.to_vec(), ..sheet_a() });
            let (bytes, lost) = salvaged(&sheet.bytes(), by_library).expect("a salvage");
            assert_eq!(Salvages(Renamed::new(sheet, &Renaming(vec![2, 1]))).compare(), Ok((0, None)));
            (lost, numbers_in(&bytes, reading::by_library).expect("a sound sheet").colouring)
        };
        assert_eq!(salvage([1, 0, 1, 2, 2]), (vec![2], vec![1, 1, 1, 2, 2]));
        assert_eq!(salvage([2, 0, 2, 1, 1]), (vec![2], vec![2, 2, 2, 1, 1]));
        assert_eq!(salvage([1, 1, 1, 0, 0]), (vec![4, 5], vec![1, 1, 1, 1, 1]));
        assert_eq!(salvage([2, 2, 2, 0, 0]), (vec![4, 5], vec![2, 2, 2, 2, 1]));
    }
}
