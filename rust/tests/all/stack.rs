//! The stack that each call takes: on the largest plan it ends on a thread that has no more than the header states. Where it takes
//! more, the process ends, and names the thread.

use crate::calls::{self, Call};
use crate::library::raw;
use crate::plans::{largest_plan, largest_whole_plan, moves, Random};
use crate::reference::{Verdicts, CONSTRAINTS, FIRST, MOVES, SECOND};
use crate::sheets::{converting, reading, salvaging, writing, Converting, Reading, Salvaging, Sheet, Writing};
use std::thread::Builder;

/// What a thread takes for itself.
const THREAD: usize = 12 << 10;

/// The bytes of stack that the header states for this function.
fn stated(name: &str) -> usize {
    let names = |line: &str| line.split([' ', ',']).any(|word| word == name);
    let line = include_str!("../../../include/qirfadhun.h").lines().find(|line| line.contains(" KiB ") && names(line));
    let number = line.and_then(|line| line.trim_start_matches([' ', '*']).split(' ').next()?.parse::<usize>().ok());
    number.unwrap_or_else(|| panic!("the header states no stack for {name}")) << 10
}

/// What a call on a thread with that much stack answers.
fn within(name: &str, call: impl FnOnce() -> u64 + Send + 'static) -> u64 {
    let thread = Builder::new().name(name.into()).stack_size(stated(name) + THREAD).spawn(call).expect("a thread");
    thread.join().expect("an answer")
}

#[test]
fn calls_and_writings() {
    let random = &mut Random::new(1);
    let (plain, whole) = (largest_plan(random), largest_whole_plan(random));
    let list = moves(random, &whole, MOVES as usize);
    let mut memory = calls::Memory::of(&Call::new(whole.clone(), list));
    let mut other = memory.clone();
    assert_eq!(within("sctr_call", move || calls::by_archive(&mut memory)[0]), 0);
    assert_eq!(within("sctr_call_records", move || calls::by_archive_records(&mut other)[0]), 0);

    let mut memory = writing::Memory::of(&Writing::first(plain));
    let mut other = memory.clone();
    assert_eq!(within("sctr_write", move || writing::by_archive(&mut memory)[0]), 0);
    assert_eq!(within("sctr_write_records", move || writing::by_archive_records(&mut other)[0]), 0);
    let mut memory = writing::Memory::of(&Writing::new(&SECOND, whole));
    assert_eq!(within("sctr_write_second", move || writing::by_archive(&mut memory)[0]), 0);
}

#[test]
fn readings_conversions_and_salvages() {
    let random = &mut Random::new(1);
    let (plain, whole) = (largest_plan(random), Sheet::of(&SECOND, largest_whole_plan(random)));
    let mut memory = salvaging::Memory::of(&Salvaging::new(whole.spoiled(&[1])));
    assert_eq!(within("sctr_salvage", move || salvaging::by_archive(&mut memory)[2]), 12);
    let mut memory = reading::Memory::of(&Reading::new(whole));
    assert_eq!(within("sctr_read", move || reading::by_archive(&mut memory)[0]), 0);
    for (name, form) in [("sctr_to_second", &FIRST), ("sctr_to_first", &SECOND)] {
        let mut memory = converting::Memory::of(&Converting::over(Sheet::of(form, plain.clone())));
        assert_eq!(within(name, move || converting::by_archive(&mut memory)[0]), 0);
    }
}

#[test]
fn questions() {
    let whole = largest_whole_plan(&mut Random::new(1));
    let sheet = Sheet::of(&SECOND, whole).bytes();
    macro_rules! asked {
        ($question:ident $(, $place:literal)?) => {{
            let bytes = sheet.clone();
            // SAFETY: the pointer and the length are those of one slice.
            within(stringify!($question), move || unsafe { raw::$question(bytes.as_ptr(), bytes.len() $(, $place)?) })
        }};
    }
    assert_eq!([asked!(sctr_code), asked!(sctr_place), asked!(sctr_constraints)], [0, 0, CONSTRAINTS]);
    assert_eq!(asked!(sctr_holds, 1), u64::from(asked!(sctr_violation, 1) == 0));
    assert_eq!(asked!(sctr_total), Verdicts::of(&sheet).total);
}
