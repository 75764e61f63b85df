//! Damaged sheets of either form, read, asked and converted: whatever their bytes are, the library answers and leaves what the
//! reference does.

use crate::plans::{sheet_a, Numbers, Random};
use crate::reference::*;
use crate::sheets::{all_sheets, files, lengths, random_sheets, Change, Sheet};

/// A byte that is flipped, alone and with right checks after it. A flip of all bits turns 0 into 255, which the check can't see.
fn flipped(sheet: &Sheet, place: usize, bits: u8) -> [Sheet; 2] {
    let flip = [Change::Flip(place, bits)];
    [sheet.changed(&flip), sheet.disguised(&flip)]
}

#[test]
fn every_byte_of_sheet_a_flipped() {
    let sheet = Sheet::a(&FIRST);
    let flips = (0..sheet.bytes().len()).flat_map(|place| [(place, 255), (place, 1 << (place % 8))]);
    all_sheets("flipped bytes of sheet A", flips.flat_map(|(place, bits)| flipped(&sheet, place, bits)).collect());
}

/// All bits alone, and one bit with right checks after it.
#[test]
fn every_byte_of_the_second_sheet_flipped() {
    let sheet = Sheet::a(&SECOND);
    let all_bits = |place| sheet.changed(&[Change::Flip(place, 255)]);
    let one_bit = |place| sheet.disguised(&[Change::Flip(place, 1 << (place % 8))]);
    let sheets = (0..sheet.bytes().len()).flat_map(|place| [all_bits(place), one_bit(place)]);
    all_sheets("flipped bytes of the second sheet", sheets.collect());
}

#[test]
fn random_bytes_flipped() {
    let files = files();
    random_sheets("flipped bytes", 1_000, |random| {
        let any = Sheet::random(random);
        let sheet = if random.once_in(2) { any } else { random.pick(&files).0 };
        let place = random.place(sheet.blocks() * BLOCK);
        let bits = random.pick(&[1, 2, 4, 8, 16, 32, 64, 128, 255]);
        random.pick(&flipped(&sheet, place, bits))
    });
}

/// A check byte is below 255, so that 255 is wrong even where it is as good as 0 modulo 255.
#[test]
fn checks_of_255() {
    let mut sheets = Vec::new();
    for workload in 0..510 {
        let mut plan = sheet_a();
        plan.workloads[0] = workload;
        let sheet = Sheet::of(FORMS[workload as usize % 2], plan);
        let bytes = sheet.bytes();
        let checks = [2 * BLOCK - 2, 2 * BLOCK - 1].into_iter().filter(|&place| bytes[place] == 0);
        sheets.extend(checks.map(|place| sheet.changed(&[Change::Put(place, 255)])));
    }
    assert!(sheets.len() >= 2, "either sum is 0 for some workload");
    all_sheets("checks of 255", sheets);
}

#[test]
fn wrong_counts_in_the_head() {
    let mut sheets = Vec::new();
    for (sheet, bytes) in files() {
        let number = |place: usize| u16::from_le_bytes([bytes[place], bytes[place + 1]]);
        let ends = [REGIONS, SECTORS, EDGES, CONSTRAINTS, FLIGHTS, FLIGHTS * VISITS];
        for (count, most) in ends.into_iter().take(sheet.form.head).enumerate() {
            let place = PREFIX + 2 * count;
            let (own, most) = (number(place), most as u16);
            for number in [0, 1, own.wrapping_sub(1), own + 1, own + 256, most - 1, most, most + 1, 65_535] {
                sheets.push(sheet.disguised(&[Change::PutNumber(place, number)]));
            }
        }
        if *sheet.form == SECOND {
            let (of_flights, of_visits) = (PREFIX + 8, PREFIX + 10);
            let flights = number(of_flights);
            for end in [flights, 32 * flights] {
                let around = [end.wrapping_sub(1), end, end + 1];
                sheets.extend(around.map(|visits| sheet.disguised(&[Change::PutNumber(of_visits, visits)])));
            }
            for (flights, visits) in
                [(0, 0), (0, 1), (1, 0), (1, 1), (1, 32), (1, 33), (64, 64), (64, 2_048), (65, 65), (65, 2_080)]
            {
                sheets.push(sheet.disguised(&[Change::PutNumber(of_flights, flights), Change::PutNumber(of_visits, visits)]));
            }
        }
    }
    all_sheets("wrong counts", sheets);
}

/// Flights with any counts, and visits that are theirs, fewer or more; the blocks are as the head asks for.
#[test]
fn counts_and_visits_apart() {
    let mut sheets = Vec::new();
    let visits = |count: usize| [1, 60].repeat(count);
    let few = [vec![0], vec![1], vec![2], vec![33], vec![1, 1], vec![2, 0], vec![0, 2], vec![33, 1], vec![1, 33], vec![33, 31]];
    for counts in few.into_iter().chain([vec![32, 33], vec![255, 1], vec![32; 64], vec![33; 64]]) {
        for count in [0, 1, 2, 3, 32, 33, 34, 63, 64, 65, 83, 84, 255, 256, 2_047, 2_048, 2_049] {
            sheets.push(Sheet::of(&SECOND, Numbers { counts: counts.clone(), visits: visits(count), ..sheet_a() }));
        }
    }
    for flights in [0, 63, 64, 65, 66, 500, 501] {
        sheets.push(Sheet::of(&SECOND, Numbers { counts: vec![1; flights], visits: visits(flights), ..sheet_a() }));
    }
    all_sheets("counts and visits apart", sheets);
}

#[test]
fn lengths_around_whole_blocks() {
    let mut sheets = Vec::new();
    for (sheet, _) in files() {
        for length in lengths(sheet.blocks()) {
            let cut = [Change::Length(length), Change::Numbers];
            sheets.extend([sheet.changed(&cut[..1]), sheet.disguised(&cut)]);
        }
    }
    for form in FORMS {
        let every_length =
            (0..=SECOND.blocks + 1).flat_map(|blocks| [(blocks * BLOCK).saturating_sub(1), blocks * BLOCK, blocks * BLOCK + 1]);
        sheets.extend(every_length.map(|length| Sheet::a(form).changed(&[Change::Length(length)])));
    }
    all_sheets("lengths", sheets);
}

/// How long a sheet may be goes by its first four bytes, whatever else is in it.
#[test]
fn lengths_by_the_letters() {
    let mut sheets = Vec::new();
    for blocks in [1, 5, FIRST.blocks, FIRST.blocks + 1, SECOND.blocks, SECOND.blocks + 1] {
        for letters in [*b"SCTR", *b"SCT2", *b"SCT1", *b"SCT3", *b"sct2", *b"2TCS", [0; 4]] {
            let letters = letters.into_iter().enumerate().map(|(place, letter)| Change::Put(place, letter));
            let changes = [vec![Change::Length(blocks * BLOCK), Change::Numbers], letters.collect()].concat();
            sheets.extend(FORMS.map(|form| Sheet::a(form).changed(&changes)));
            sheets.extend(FORMS.map(|form| Sheet::a(form).disguised(&changes)));
        }
    }
    all_sheets("lengths by the letters", sheets);
}

/// Some of so many blocks, the first and the last among them; all where they are few.
fn some_blocks(blocks: usize) -> impl Iterator<Item = usize> {
    (0..blocks - 1).step_by(blocks.div_ceil(12)).chain([blocks - 1])
}

/// One block, all from it on, or all up to it have the letters of the other form.
#[test]
fn letters_of_the_other_form() {
    let mut sheets = Vec::new();
    for (sheet, _) in files() {
        let blocks = sheet.blocks();
        for number in some_blocks(blocks) {
            for changed in [number..number + 1, number..blocks, 0..number + 1] {
                let letters: Vec<Change> = changed.map(|number| Change::Letters(number, sheet.other_form())).collect();
                sheets.extend([sheet.changed(&letters), sheet.disguised(&letters)]);
            }
        }
    }
    all_sheets("letters of the other form", sheets);
}

#[test]
fn blocks_exchanged() {
    let mut random = Random::new(1);
    let mut sheets = Vec::new();
    for (sheet, _) in files() {
        let blocks = sheet.blocks();
        let pairs: Vec<_> = (0..blocks).flat_map(|one| (one + 1..blocks).map(move |other| (one, other))).collect();
        for (one, other) in (0..pairs.len().min(30)).map(|_| random.pick(&pairs)) {
            let exchange = [Change::Exchange(one, other), Change::Numbers];
            sheets.extend([sheet.changed(&exchange[..1]), sheet.disguised(&exchange)]);
        }
    }
    all_sheets("exchanged blocks", sheets);
}

/// Blocks that are taken out or come twice, alone, and one for the other so that their number is right.
#[test]
fn blocks_dropped_and_repeated() {
    let mut random = Random::new(1);
    let mut sheets = Vec::new();
    for (sheet, _) in files() {
        let blocks = sheet.blocks();
        for number in some_blocks(blocks) {
            let (drop, repeat) = (Change::Drop(number), Change::Repeat(number));
            for changes in [vec![drop.clone()], vec![repeat.clone()], vec![drop, Change::Repeat(random.place(blocks - 1))]] {
                let numbered = [&changes[..], &[Change::Numbers]].concat();
                sheets.extend([sheet.changed(&changes), sheet.disguised(&numbered)]);
            }
        }
    }
    all_sheets("dropped and repeated blocks", sheets);
}

/// Random bytes throughout, or after each block's letters with right checks.
#[test]
fn random_bytes() {
    random_sheets("random bytes", 2_000, |random| {
        let blocks = random.pick(&[0, 1, 2, 5, 8, FIRST.blocks, SECOND.blocks]);
        let sheet = Sheet::a(random.pick(&FORMS));
        let sheet = sheet.changed(&[Change::Length(blocks * BLOCK + random.pick(&[0, 0, 0, 1, 511]))]);
        if random.once_in(2) {
            return sheet.changed(&[Change::Noise(0, (blocks + 1) * BLOCK, random.any())]);
        }
        let noise: Vec<Change> = (0..blocks).map(|block| Change::Noise(block * BLOCK + 4, BLOCK - 4, random.any())).collect();
        sheet.disguised(&noise)
    });
}

/// Blocks that are right in form, with random payloads in their used part.
#[test]
fn random_payloads() {
    random_sheets("random payloads", 2_000, |random| {
        let sheet = Sheet::random(random);
        let bytes = sheet.bytes();
        let number = random.place(bytes.len() / BLOCK);
        let block = &bytes[number * BLOCK..];
        let used = usize::from(u16::from_le_bytes([block[8], block[9]]));
        let place = random.place(used);
        let count = random.between(1, (used - place) as u64) as usize;
        sheet.disguised(&[Change::Noise(number * BLOCK + PREFIX + place, count, random.any())])
    });
}

#[test]
fn wild_numbers_everywhere() {
    let small = [0, 1, 2, 3, 4, 5, 6, 7, 32, 33, 63, 64, 65, 255, 256, 511, 512, 513];
    let large = [1_000, 1_001, 86_400, 86_401, 1_000_000, 1_000_001];
    let ends = [16, 24, 31, 32, 40, 62, 63].map(|bits| 1 << bits);
    let limits = [LIMIT - 1, LIMIT, LIMIT + 1, u64::MAX];
    let mut sheets = Vec::new();
    for good in FORMS.map(Sheet::a) {
        let with = |change: &dyn Fn(&mut Numbers)| {
            let mut sheet = good.clone();
            change(&mut sheet.plan);
            sheet
        };
        for number in [&small[..], &large, &ends, &limits].concat() {
            sheets.extend([with(&|plan| plan.regions = number), with(&|plan| plan.sectors = number)]);
            for (list, numbers) in good.plan.lists().into_iter().enumerate() {
                sheets.extend((0..numbers.len()).map(|place| with(&|plan| plan.lists_mut()[list][place] = number)));
            }
        }
    }
    all_sheets("wild numbers", sheets);
}

#[test]
fn random_damaged_sheets() {
    random_sheets("damaged sheets", 5_000, |random| {
        let mut sheet = Sheet::random(random);
        sheet.break_some(random);
        sheet
    });
}
