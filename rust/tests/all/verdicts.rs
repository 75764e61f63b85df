//! The program `verdicts` run on sheets of either form, and what it prints compared with the reference's text.

use crate::cases::{all_cases, random_cases, Case, Code};
use crate::plans::sheet_a;
use crate::reference::*;
use crate::sheets::printing::{printed, run};
use crate::sheets::{self, all_stored, files, reading, Change, Sheet};
use std::collections::BTreeSet;
use std::fs::OpenOptions;
use std::process::Stdio;
use std::time::Duration;

#[derive(Clone, Debug)]
struct Printed(Sheet);

impl Case for Printed {
    fn compare(&self) -> Result<Code, String> {
        let bytes = self.0.bytes();
        let due = Verdicts::of(&bytes);
        let (text, text_due) = (printed(&bytes), due.text());
        if text != text_due {
            return Err(format!("the program prints {text:?}, the documents ask for {text_due:?}"));
        }
        Ok(reading::code(due.code, due.place))
    }

    fn smaller(&self) -> Box<dyn Iterator<Item = Self> + '_> {
        Box::new(self.0.smaller().map(Printed))
    }
}

#[test]
fn sheet_a_in_five_lines() {
    let lines = "1 1 1 0\n2 2 1 0\n3 3 1 0\n4 4 0 5\ntotal 15\n";
    for bytes in [Sheet::a(&FIRST).bytes(), Sheet::of(&SECOND, sheet_a()).bytes()] {
        assert_eq!(Verdicts::of(&bytes).text(), lines);
        assert_eq!(printed(&bytes), lines);
    }
}

/// The border is 13, 8 above its limit; a stretch of 45 seconds is 15 below its own.
#[test]
fn outside_areas_and_a_flight_in_six_lines() {
    let file = include_bytes!("../../../sheets/flights.sheet");
    let lines = "1 1 1 0\n2 2 0 8\n3 3 1 0\n4 4 0 5\n5 5 0 15\ntotal 53\n";
    assert_eq!(Verdicts::of(file).text(), lines);
    assert_eq!(printed(file), lines);
}

#[test]
fn sheet_files() {
    all_cases("sheet files", files().into_iter().map(|(sheet, _)| Printed(sheet)));
}

/// Beside each sheet's file stands its text: also that of the longest sheet, and of one that is a block longer.
#[test]
fn stored_texts() {
    let mut lengths = BTreeSet::new();
    for (path, bytes) in all_stored() {
        let text = std::fs::read_to_string(path.with_extension("text")).expect("its text");
        assert_eq!(Verdicts::of(&bytes).text(), text, "{}", path.display());
        assert_eq!(printed(&bytes), text, "{}", path.display());
        lengths.insert(bytes.len() / BLOCK);
    }
    assert!(lengths.is_superset(&BTreeSet::from([SECOND.blocks, SECOND.blocks + 1])));
}

/// What is read at once is not all of it.
#[test]
fn a_sheet_in_three_pieces() {
    let bytes = Sheet::a(&FIRST).bytes();
    let pieces: Vec<&[u8]> = bytes.chunks(bytes.len().div_ceil(3)).collect();
    let (text, left) = run("verdicts", &pieces, Duration::from_millis(100), Stdio::piped()).well();
    assert_eq!((text, left), (Verdicts::of(&bytes).text(), vec![]));
}

#[test]
fn text_that_cannot_be_written() {
    let full = OpenOptions::new().write(true).open("/dev/full").expect("a device that takes nothing");
    let ended = run("verdicts", &[&Sheet::a(&FIRST).bytes()], Duration::ZERO, full);
    assert_eq!(ended.err, "verdicts: the text could not be written\n");
}

#[test]
fn lengths() {
    for form in FORMS {
        let sheet = Sheet::a(form);
        let lengths = [sheets::lengths(sheet.blocks()), vec![1 << 20]].concat();
        all_cases("lengths", lengths.into_iter().map(|length| Printed(sheet.changed(&[Change::Length(length)]))));
    }
}

/// A sheet for each code from 32 on, with a place in the head and one after it.
#[test]
fn refused_sheets() {
    for sheet in FORMS.map(Sheet::a) {
        let mut sheets = Vec::new();
        for block in [0, 3] {
            let place = |of_block: usize| block * BLOCK + of_block;
            sheets.push(sheet.changed(&[Change::Put(place(0), 0)]));
            sheets.push(sheet.disguised(&[Change::Letters(block, sheet.other_form())]));
            sheets.push(sheet.changed(&[Change::Put(place(511), 255)]));
            for of_block in [4, 6, 8, 5, 509] {
                sheets.push(sheet.disguised(&[Change::Put(place(of_block), 9)]));
            }
        }
        for number in 0..sheet.form.head {
            sheets.push(sheet.disguised(&[Change::PutNumber(PREFIX + 2 * number, 65_535)]));
        }
        sheets.push(sheet.disguised(&[Change::PutNumber(PREFIX, 126)]));
        sheets.push(sheet.disguised(&[Change::Put(PREFIX + BLOCK + 3, 255)]));
        for payload in (2..sheet.blocks()).map(|block| PREFIX + block * BLOCK) {
            sheets.push(sheet.disguised(&[Change::Put(payload, 255), Change::Put(payload + 3, 255)]));
        }
        let refused = |sheet: &Sheet| Verdicts::of(&sheet.bytes());
        let codes: BTreeSet<u64> = sheets.iter().map(|sheet| refused(sheet).code).collect();
        assert_eq!(codes, (32..=38).collect());
        let rules: BTreeSet<u64> = sheets.iter().map(refused).filter(|due| due.code == 37).map(|due| due.place).collect();
        assert_eq!(rules, (1..9).chain([13, 14]).take(if *sheet.form == FIRST { 8 } else { 10 }).collect());
        all_cases("refused sheets", sheets.into_iter().map(Printed));
    }
}

#[test]
fn random_sheets() {
    random_cases("sheets printed", 40, |random| Printed(Sheet::random(random)));
}

#[test]
fn random_damaged_sheets() {
    random_cases("damaged sheets printed", 40, |random| {
        let mut sheet = Sheet::random(random);
        sheet.break_some(random);
        Printed(sheet)
    });
}
