//! What holds of a sheet and of what is salvaged of it, and the typed face of it: `qirfadhun::salvage`.

use crate::cases::{all_cases, random_cases, same, Case, Code};
use crate::plans::{largest_whole_plan, sheet_a, Numbers, Random};
use crate::reference::{BLOCK, FORMS, PAYLOAD, PREFIX, SECOND};
use crate::sheets::salvaging::{by_library, by_reference, lowest_beside, salvaged};
use crate::sheets::{answers, files, numbers_in, reading, same_bytes, sheets_at_block_ends, Sheet};
use qirfadhun::Region;

/// A sheet, and what holds of it and of what is salvaged of it.
#[derive(Clone, Debug)]
struct Kept(Sheet);

impl Case for Kept {
    fn compare(&self) -> Result<Code, String> {
        let bytes = self.0.bytes();
        let (saved, lost) = match salvaged(&bytes, by_library) {
            Ok(both) => both,
            Err(code) => return Ok(code),
        };
        if !lost.is_sorted_by(|one, next| one < next) {
            return Err(format!("the lost regions are {lost:?}"));
        }
        // No region is lost exactly where the sheet is read; then it comes out as it was.
        let before = numbers_in(&bytes, reading::by_library);
        same("whether it is sound", &lost.is_empty(), &before.is_ok())?;
        if lost.is_empty() {
            same_bytes(&saved, &bytes)?;
        }
        let own = self.0.colouring_blocks();
        for (number, (saved, block)) in saved.chunks(BLOCK).zip(bytes.chunks(BLOCK)).enumerate() {
            if !own.contains(&number) {
                same_bytes(saved, block)?;
            }
        }
        for region in (1..=self.0.plan.regions).filter(|region| !lost.contains(region)) {
            let before = region as usize - 1;
            let place = (own.start + before / PAYLOAD) * BLOCK + PREFIX + before % PAYLOAD;
            same(&format!("the sectors of region {region}"), &bytes[place], &saved[place])?;
        }
        if let Err(refusal) = answers(&saved) {
            return Err(format!("what is salvaged is not judged: {refusal}"));
        }
        let (again, none) = salvaged(&saved, by_library).map_err(|code| format!("what is salvaged is refused by {code:?}"))?;
        same("the regions lost again", &none, &vec![])?;
        same_bytes(&again, &saved)?;
        Ok((0, None))
    }

    fn smaller(&self) -> Box<dyn Iterator<Item = Self> + '_> {
        Box::new(self.0.smaller().map(Kept))
    }
}

/// The other blocks, the regions that survived; the salvaged sheet is read, judged, and salvaged again as it is.
#[test]
fn what_a_salvage_keeps() {
    let files = files().into_iter().map(|(sheet, _)| sheet);
    let spoiled = files.flat_map(|sheet| [&[][..], &[0], &[1], &[0, 1]].map(|blocks| sheet.spoiled(blocks)));
    all_cases("kept of the files", spoiled.map(Kept));
    let at_ends = sheets_at_block_ends().into_iter();
    all_cases("kept of lists that end with a block", at_ends.flat_map(|sheet| [Kept(sheet.spoiled(&[1])), Kept(sheet)]));
    let mut stray = Sheet::of(&SECOND, largest_whole_plan(&mut Random::new(1)));
    stray.plan.colouring.iter_mut().step_by(3).for_each(|sector| *sector = 0);
    all_cases("kept of the largest sheet", [Kept(stray.clone()), Kept(stray.spoiled(&[1]))]);
    random_cases("kept", 1_000, |random| {
        let mut sheet = Sheet::random(random);
        sheet.spoil(random);
        Kept(sheet)
    });
}

/// A sheet salvaged as values.
#[derive(Clone, Debug)]
struct Told(Sheet);

impl Case for Told {
    fn compare(&self) -> Result<Code, String> {
        let bytes = self.0.bytes();
        let salvage = qirfadhun::salvage(&bytes).map_err(|refusal| reading::code(refusal.code, refusal.place));
        let (saved, lost) = match salvaged(&bytes, by_reference) {
            Ok(both) => both,
            Err(code) => return same("the codes", &salvage.err(), &Some(code)).map(|()| code),
        };
        let salvage = salvage.map_err(|code| format!("it is refused by {code:?}"))?;
        same_bytes(salvage.bytes(), &saved)?;
        same("whether it is whole", &salvage.is_whole(), &lost.is_empty())?;
        let plan = numbers_in(&saved, reading::by_reference).map_err(|code| format!("it is not read, by {code:?}"))?;
        let colouring: Vec<u64> = salvage.colouring().iter().map(|(_, sector)| sector.get()).collect();
        same("the colourings", &colouring, &plan.colouring)?;
        let told = salvage.lost().map_err(|untraced| untraced.to_string())?;
        let told: Vec<_> =
            told.iter().map(|one| (one.region().get(), one.sector().get(), one.neighbour().map(Region::get))).collect();
        let due = lost.iter().map(|&region| (region, plan.colouring[region as usize - 1], lowest_beside(&plan, &lost, region)));
        same("the lost regions", &told, &due.collect())?;
        Ok((0, None))
    }

    fn smaller(&self) -> Box<dyn Iterator<Item = Self> + '_> {
        Box::new(self.0.smaller().map(Told))
    }
}

#[test]
fn random_salvages() {
    random_cases("salvages as values", 1_000, |random| {
        let mut sheet = Sheet::random(random);
        sheet.spoil(random);
        if random.once_in(4) {
            sheet.break_some(random);
        }
        Told(sheet)
    });
}

#[test]
fn sheet_files() {
    let spoiled = |sheet: Sheet| [&[][..], &[0], &[1], &[0, 1]].map(|blocks| Told(sheet.spoiled(blocks)));
    all_cases("salvaged files as values", files().into_iter().flat_map(|(sheet, _)| spoiled(sheet)));
}

/// What is said of sheet A with this colouring.
fn said(sheet: &Sheet) -> Vec<String> {
    let lost = qirfadhun::salvage(&sheet.bytes()).expect("a salvage").lost().expect("reasons");
    lost.iter().map(|lost| lost.to_string()).collect()
}

#[test]
fn sheet_a_in_words() {
    for form in FORMS {
        let with = |colouring: [u64; 5]| Sheet::of(form, Numbers { colouring: colouring.to_vec(), ..sheet_a() });
        assert_eq!(said(&with([1, 1, 1, 2, 2])), [""; 0]);
        assert_eq!(
            said(&with([1, 0, 1, 3, 2])),
            [
                "Region 2 is in sector 1 now, as region 1 is, its lowest-numbered neighbour whose sector survived.",
                "Region 4 is in sector 1 now, as region 3 is, its lowest-numbered neighbour whose sector survived.",
            ]
        );
        assert_eq!(
            said(&with([1, 1, 2, 0, 0])),
            [
                "Region 4 is in sector 2 now, as region 3 is, its lowest-numbered neighbour whose sector survived.",
                "Region 5 is in sector 1 now, since it has no neighbour whose sector survived.",
            ]
        );
        let none = |region| format!("Region {region} is in sector 1 now, since it has no neighbour whose sector survived.");
        assert_eq!(said(&with([2; 5]).spoiled(&[0])), [1, 2, 3, 4, 5].map(none));
    }
}
