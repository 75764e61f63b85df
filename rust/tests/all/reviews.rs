//! Figures read from a text: each number by its name, texts of another shape and numbers that contradict each other refused, and the
//! sentences; and the input that sheets are handed over in.

use crate::reference::{BLOCK, SECOND, SHEETS};
use crate::sheets::Sheet;
use qirfadhun::{Kind, Relation, Review, Unfit};

/// The text that a review is read from, put together again from what it answers.
pub fn retold(review: &Review) -> String {
    let by_kind = [
        Kind::Connected(Relation::Exactly),
        Kind::Border,
        Kind::Balanced,
        Kind::Bounded(Relation::Below),
        Kind::Dwell(Relation::AtLeast),
    ];
    let mut numbers = vec![review.sound(), review.refused(), review.with_total_zero()];
    numbers.extend(by_kind.map(|kind| review.failed(kind)));
    for extreme in [review.smallest(), review.largest()] {
        numbers.extend(extreme.map_or([0, 0], |extreme| [extreme.total(), extreme.sheet()]));
    }
    assert_eq!(review.sheets(), numbers[0] + numbers[1]);
    assert!(review
        .failures()
        .zip(1..)
        .all(|((kind, failed), number)| kind.number() == number && failed == numbers[number as usize + 2]));
    let text: String = numbers.iter().map(|number| format!("{number}\n")).collect();
    text + &review.stopped().map_or(String::new(), |refusal| format!("refused {} {}\n", refusal.code, refusal.place))
}

/// Three sheets, the second refused, and a fourth that is cut off.
const LINES: [&str; 13] = ["2", "1", "0", "0", "1", "0", "2", "1", "15", "1", "53", "3", "refused 18 4"];

fn text(lines: &[&str]) -> String {
    lines.iter().map(|line| format!("{line}\n")).collect()
}

/// The line that is named where a text is none of figures, or 0 where it is one.
fn refused_line(text: &str) -> usize {
    match text.parse::<Review>() {
        Ok(review) => {
            assert_eq!(retold(&review), text);
            0
        }
        Err(unread) => unread.line(),
    }
}

#[test]
fn sentences() {
    let review: Review = text(&LINES).parse().expect("figures");
    let given = "a sheet's block count is not in 1..74, or the input ends inside a count or inside a sheet (sheet 4)";
    let due = format!(
        "3 sheets: 2 read soundly, 1 refused.
No sheet has total 0.
Constraints that failed: connected 0, border 1, balanced 0, bounded 2, dwell time 1.
Smallest total: 15, in sheet 1, the first that has it.
Largest total: 53, in sheet 3, the first that has it.
Reading stopped: refused 18 4: {given}."
    );
    assert_eq!(review.to_string(), due);
    let named = due.replace("sheet 1,", "sheet 1, <1>,").replace("sheet 3,", "sheet 3, <3>,");
    assert_eq!(review.with_names(|sheet| format!("<{sheet}>")), named);
    let none: Review = "0\n".repeat(12).parse().expect("figures");
    let due = "0 sheets: 0 read soundly, 0 refused.
There is no smallest and no largest total, since no sheet was read soundly.";
    assert_eq!((none.to_string(), none.with_names(|_| unreachable!("no sheet"))), (due.to_string(), due.to_string()));
    for (zeros, sheets, sentence) in [("1", "1 sheet", "1 sheet has total 0."), ("2", "2 sheets", "2 sheets have total 0.")] {
        let review: Review = format!("{zeros}\n0\n{zeros}\n{}0\n1\n0\n1\n", "0\n".repeat(5)).parse().expect("figures");
        assert!(review.to_string().starts_with(&format!("{sheets}: {zeros} read soundly, 0 refused.\n{sentence}\n")));
    }
}

/// Lines that are missing, too many, not ended, or not written as a number is.
#[test]
fn other_texts() {
    let twelve = &LINES[..12];
    assert_eq!((refused_line(&text(twelve)), refused_line(&text(&LINES))), (0, 0));
    for place in 0..12 {
        assert_eq!(refused_line(&text(&LINES[..place])), place + 1, "cut before line {}", place + 1);
        let unended = text(&LINES[..=place]);
        assert_eq!(refused_line(unended.trim_end()), place + 1, "no end of line {}", place + 1);
        let number = LINES[place];
        let others = ["", "x", "-1", "18446744073709551616"].map(String::from);
        let written = ["+", "0", " ", "\t", "\u{660}"].map(|before| format!("{before}{number}"));
        let ended = [" ", "\r", ".", "\0", ",", " 1"].map(|after| format!("{number}{after}"));
        for other in others.iter().chain(&written).chain(&ended) {
            let mut lines = LINES;
            lines[place] = other;
            assert_eq!(refused_line(&text(&lines)), place + 1, "{other:?} in line {}", place + 1);
        }
    }
    for last in
        ["", "refused 18 3", "refused 18 5", "refused 18 04", "refused 18  4", "refused 31 4", "refused 18", "Refused 18 4", "0"]
    {
        assert_eq!(refused_line(&(text(twelve) + last + "\n")), 13, "{last:?}");
    }
    assert_eq!(refused_line(&(text(twelve) + "refused 18 4")), 13);
    for more in ["\n", "0\n", "refused 18 4\n", "x"] {
        assert_eq!(refused_line(&(text(&LINES) + more)), 14, "{more:?}");
    }
}

/// Numbers that can't stand beside each other, with the first line that doesn't go with those before it.
#[test]
fn numbers_that_contradict() {
    let with = |changes: &[(usize, &'static str)]| {
        let mut lines = LINES;
        changes.iter().for_each(|&(line, number)| lines[line - 1] = number);
        refused_line(&text(&lines[..12]))
    };
    assert_eq!(with(&[]), 0);
    assert_eq!(with(&[(1, "1001")]), 1);
    assert_eq!(with(&[(2, "998")]), 0);
    assert_eq!(with(&[(2, "999")]), 2);
    assert_eq!(with(&[(3, "3")]), 3);
    assert_eq!(with(&[(4, "28")]), 0);
    assert_eq!(with(&[(4, "29")]), 8);
    assert_eq!(with(&[(4, "33")]), 4);
    // Each of two sheets has a total above 0, and so a constraint that failed.
    assert_eq!(with(&[(5, "0"), (7, "1")]), 0);
    assert_eq!(with(&[(5, "0"), (7, "0")]), 8);
    assert_eq!(with(&[(8, "33")]), 8);
    // A total of 0 is the smallest exactly where a sheet has it; of two sheets the other then has failures, at most sixteen.
    assert_eq!(with(&[(3, "1")]), 10);
    assert_eq!(with(&[(9, "0")]), 10);
    assert_eq!(with(&[(3, "1"), (9, "0")]), 0);
    assert_eq!(with(&[(3, "1"), (9, "0"), (4, "17")]), 4);
    assert_eq!(with(&[(3, "2"), (9, "0")]), 5);
    // No place is 0 or behind the last sheet; the first with a total is the same exactly for the same total.
    assert_eq!(with(&[(10, "0")]), 10);
    assert_eq!(with(&[(10, "4")]), 10);
    assert_eq!(with(&[(12, "4")]), 12);
    assert_eq!(with(&[(12, "1")]), 12);
    assert_eq!(with(&[(11, "14")]), 12);
    assert_eq!(with(&[(11, "15")]), 12);
    assert_eq!(with(&[(11, "15"), (12, "1")]), 0);
    // Where all totals are equal, none but refused sheets stand before the first: here one.
    assert_eq!(with(&[(10, "2"), (11, "15"), (12, "2")]), 0);
    assert_eq!(with(&[(10, "3"), (11, "15"), (12, "3")]), 12);
    // One sheet has one total.
    assert_eq!(with(&[(1, "1"), (11, "15"), (12, "1")]), 0);
    assert_eq!(with(&[(1, "1"), (2, "2")]), 12);
    assert_eq!(with(&[(11, "4000000000000000000")]), 0);
    assert_eq!(with(&[(11, "4000000000000000001")]), 11);
    // Where no sheet was read soundly, all that follows is 0.
    for line in 3..=12 {
        let mut lines = ["0"; 12];
        lines[1] = "7";
        assert_eq!(refused_line(&text(&lines)), 0);
        lines[line - 1] = "1";
        assert_eq!(refused_line(&text(&lines)), line);
    }
    // No 1,001st sheet is refused.
    let zeros = "0\n".repeat(10);
    assert_eq!(refused_line(&format!("0\n999\n{zeros}refused 18 1000\n")), 0);
    assert_eq!(refused_line(&format!("0\n1000\n{zeros}")), 0);
    assert_eq!(refused_line(&format!("0\n1000\n{zeros}refused 18 1001\n")), 13);
}

#[test]
fn inputs() {
    let sheets: Vec<Vec<u8>> = crate::reference::FORMS.map(|form| Sheet::a(form).bytes()).to_vec();
    let due = [&[5, 0], &sheets[0][..], &[8, 0], &sheets[1]].concat();
    assert_eq!(Review::input_of(&sheets), Ok(due));
    assert_eq!(Review::input_of::<Vec<u8>>(&[]), Ok(vec![]));
    let most = vec![7; SECOND.blocks * BLOCK];
    assert_eq!(Review::input_of(&[&most]), Ok([&[74, 0], &most[..]].concat()));
    for bytes in [0, 1, BLOCK - 1, BLOCK + 1, most.len() - 1, most.len() + 1, most.len() + BLOCK, 256 * BLOCK, 65_537 * BLOCK] {
        let sheet = vec![0; bytes];
        let unfit = Unfit::Length { sheet: 3, bytes };
        assert_eq!(Review::input_of(&[&most[..], &most, &sheet, &[]]), Err(unfit));
        let said = format!("sheet 3 has {bytes} bytes, and figures are over sheets of 1 to 74 blocks of 512 bytes");
        assert_eq!(unfit.to_string(), said);
    }
    let block = [0; BLOCK];
    assert_eq!(Review::input_of(&vec![block; SHEETS]).map(|input| input.len()), Ok(SHEETS * (BLOCK + 2)));
    let unfit = Review::input_of(&vec![block; SHEETS + 1]).expect_err("too many");
    assert_eq!(
        (unfit, &unfit.to_string()[..]),
        (Unfit::Sheets(1_001), "there are 1001 sheets, and figures are over at most 1000")
    );
}
