//! The program `figures` run on inputs of many sheets: what it prints, and how much of the input it takes, compared with the
//! reference. The library reads what is printed.

use crate::cases::{random_cases, same, Case, Code};
use crate::plans::{flights_along, largest_plan, sheet_a, sheet_a_with_both, Numbers, Random};
use crate::reference::*;
use crate::reviews::retold;
use crate::sheets::printing::{ended, printed_by, program, run};
use crate::sheets::{all_stored, Change, Sheet};
use qirfadhun::Unread;
use std::fs::{File, OpenOptions};
use std::io::{Seek, Write};
use std::path::Path;
use std::process::Stdio;
use std::time::Duration;

/// A sheet with its block count before it.
fn announced(sheet: &[u8]) -> Vec<u8> {
    with_count(sheet.len().div_ceil(BLOCK) as u16, sheet)
}

fn with_count(blocks: u16, sheet: &[u8]) -> Vec<u8> {
    [&blocks.to_le_bytes(), sheet].concat()
}

/// Holds the program to the reference on an input: to its text, and to how much it takes. Answers that text.
fn hold(input: &[u8]) -> String {
    compare(input).map(|due| due.text()).unwrap_or_else(|difference| panic!("{difference}"))
}

fn compare(input: &[u8]) -> Result<Figures, String> {
    let due = Figures::of(input);
    let (text, left) = printed_by("figures", input);
    same("the texts of the program and of the documents", &text, &due.text())?;
    let review = text.parse().map_err(|unread: Unread| format!("{unread}: {text:?}"))?;
    same("the texts of the program and of the library's reading of it", &text, &retold(&review))?;
    same("the bytes that are left by the program and by the documents", &left.len(), &(input.len() - due.taken))?;
    Ok(due)
}

/// The text of these lines.
fn lines(counts: [u64; 3], failed: [u64; 5], smallest: [u64; 2], largest: [u64; 2]) -> String {
    let numbers = counts.into_iter().chain(failed).chain(smallest).chain(largest);
    numbers.map(|number| format!("{number}\n")).collect()
}

fn worth(total: u64) -> Vec<u8> {
    Sheet::worth(total).bytes()
}

/// A block that is refused as a sheet.
const REFUSED: [u8; BLOCK] = [0; BLOCK];

#[test]
fn no_input() {
    assert_eq!(hold(&[]), "0\n".repeat(12));
}

#[test]
fn one_sheet_in_twelve_lines() {
    let a = lines([1, 0, 0], [0, 0, 0, 1, 0], [15, 1], [15, 1]);
    for sheet in [Sheet::a(&FIRST), Sheet::of(&SECOND, sheet_a())] {
        assert_eq!(hold(&announced(&sheet.bytes())), a);
    }
    let flights = include_bytes!("../../../sheets/flights.sheet");
    assert_eq!(hold(&announced(flights)), lines([1, 0, 0], [0, 1, 0, 1, 1], [53, 1], [53, 1]));
    assert_eq!(hold(&announced(&REFUSED)), lines([0, 1, 0], [0; 5], [0, 0], [0, 0]));
    assert_eq!(hold(&announced(&worth(0))), lines([1, 0, 1], [0; 5], [0, 1], [0, 1]));
}

/// Either form, sound and refused; the places count those that are refused.
#[test]
fn a_few_sheets() {
    let spoiled = Sheet::a(&FIRST).spoiled(&[0]).bytes();
    let flights = include_bytes!("../../../sheets/flights.sheet");
    let sheets = [&spoiled[..], flights, &Sheet::a(&FIRST).bytes(), &spoiled, &worth(7), flights];
    let input: Vec<u8> = sheets.into_iter().flat_map(announced).collect();
    assert_eq!(hold(&input), lines([4, 2, 0], [0, 2, 0, 4, 2], [7, 5], [53, 2]));
}

/// The files of sheets in one input, and the other way round. One has a block more than a count can say.
#[test]
fn stored_sheets() {
    let stored = all_stored();
    let too_long = stored.iter().position(|(_, bytes)| bytes.len() > SECOND.blocks * BLOCK).expect("a sheet of 75 blocks");
    let sheets: Vec<Vec<u8>> = stored.iter().map(|(_, bytes)| announced(bytes)).collect();
    assert!(hold(&sheets.concat()).ends_with(&format!("\nrefused 18 {}\n", too_long + 1)));
    let mut right = sheets;
    right.remove(too_long);
    assert!(!hold(&right.concat()).contains("refused"));
    right.reverse();
    assert!(!hold(&right.concat()).contains("refused"));
}

/// Each count there is, before as many blocks of zeros, and a sound sheet after them, so that none more or fewer are taken.
#[test]
fn every_count() {
    let sheets = |blocks: usize| [announced(&REFUSED.repeat(blocks)), announced(&worth(blocks as u64))].concat();
    let input: Vec<u8> = (1..=SECOND.blocks).flat_map(sheets).collect();
    assert_eq!(hold(&input), lines([74, 74, 0], [0, 0, 0, 74, 0], [1, 2], [74, 148]));
}

/// A first sheet of more blocks than it can have comes with a right count, is refused by 31, and reading goes on.
#[test]
fn first_sheets_of_44_to_74_blocks() {
    let long = |blocks: usize| Sheet::a(&FIRST).changed(&[Change::Length(blocks * BLOCK)]).bytes();
    let range = FIRST.blocks + 1..=SECOND.blocks;
    assert!(range.clone().all(|blocks| Verdicts::of(&long(blocks)).code == 31));
    let input: Vec<u8> = range.flat_map(|blocks| [announced(&long(blocks)), announced(&worth(blocks as u64))].concat()).collect();
    assert_eq!(hold(&input), lines([31, 31, 0], [0, 0, 0, 31, 0], [44, 2], [74, 62]));
}

/// A second sheet of so many blocks, 44 to 74: 14 have neither edges nor visits, and visits have one more with their counts.
fn second_of(random: &mut Random, blocks: usize) -> Vec<u8> {
    let (edges, visits) = match blocks {
        ..49 => (blocks - 14, 0),
        49 => (33, 1),
        _ => (34, blocks - 49),
    };
    let mut plan = largest_plan(random);
    plan.edges.truncate(3 * 62 * edges);
    let visits = (83 * visits as u64).min(FLIGHTS * VISITS);
    let counts = (0..visits.div_ceil(VISITS)).map(|flight| VISITS.min(visits - VISITS * flight)).collect();
    Sheet::of(&SECOND, flights_along(random, plan, counts)).bytes()
}

#[test]
fn second_sheets_of_44_to_74_blocks() {
    let mut random = Random::new(1);
    let sheets: Vec<Vec<u8>> = (44..=74).map(|blocks| second_of(&mut random, blocks)).collect();
    assert!(sheets.iter().map(|sheet| sheet.len() / BLOCK).eq(44..=74));
    let input: Vec<u8> = sheets.iter().flat_map(|sheet| announced(sheet)).collect();
    assert!(hold(&input).starts_with("31\n0\n"));
}

/// Every list of up to four sheets that are refused or have one of three totals: ties at all places, none sound, none at all.
#[test]
fn totals_in_every_order() {
    let sheets = [&REFUSED[..], &worth(0), &worth(7), &worth(9)].map(announced);
    for length in 0..=4 {
        for list in 0..4usize.pow(length) {
            let input: Vec<u8> = (0..length).flat_map(|place| sheets[list / 4usize.pow(place) % 4].clone()).collect();
            hold(&input);
        }
    }
    let [refused, zero, seven, nine] = &sheets;
    let input = [refused, nine, seven, nine, zero, refused, zero, seven, nine].map(Vec::as_slice).concat();
    assert_eq!(hold(&input), lines([7, 2, 2], [0, 0, 0, 5, 0], [0, 5], [9, 2]));
    let input = [refused, refused, seven, seven, refused].map(Vec::as_slice).concat();
    assert_eq!(hold(&input), lines([2, 3, 0], [0, 0, 0, 2, 0], [7, 3], [7, 3]));
}

/// Sheet A with outside areas and flights and sixteen constraints, so many of each kind failing in turn, the others holding.
fn failing(failing: [usize; 5]) -> Vec<u8> {
    let kinds = (1..).zip(failing).flat_map(|(kind, count)| std::iter::repeat_n(kind, count));
    let mut constraints: Vec<u64> = kinds.flat_map(|kind| [kind, 1, 0, 1]).collect();
    let holding = (0..16 - constraints.len() / 4).flat_map(|place| [1 + place as u64 % CALL_KINDS, 1, LIMIT, 1]);
    constraints.splice(..0, holding);
    Sheet::of(&SECOND, Numbers { constraints, ..sheet_a_with_both() }).bytes()
}

#[test]
fn each_kind_failing() {
    for kind in 0..5 {
        for count in [1, 2, 16] {
            let mut counts = [0; 5];
            counts[kind] = count;
            let text = hold(&announced(&failing(counts)));
            let failed: Vec<String> = counts.iter().map(ToString::to_string).collect();
            assert_eq!(text.lines().skip(3).take(5).collect::<Vec<_>>(), failed);
        }
    }
    let counts = [[1, 2, 3, 4, 6], [0; 5], [5, 0, 5, 0, 5], [6, 4, 3, 2, 1]];
    let input: Vec<u8> = counts.into_iter().flat_map(|counts| announced(&failing(counts))).collect();
    let text = hold(&input);
    assert!(text.starts_with("4\n0\n1\n12\n6\n11\n6\n12\n0\n2\n"), "{text}");
    // A sheet that is refused has no constraint that failed.
    let spoiled = Sheet::a(&SECOND).spoiled(&[0]).bytes();
    assert_eq!(hold(&announced(&spoiled)), lines([0, 1, 0], [0; 5], [0, 0], [0, 0]));
}

/// As many failures as there can be, and the largest total: 64 empty sectors, 100,000,000,000 too few each, by weights of 1,000.
#[test]
fn the_largest_figures() {
    let constraints = [4, 6, LIMIT, WEIGHT].repeat(CONSTRAINTS as usize);
    let numbers = Numbers {
        regions: 1,
        sectors: SECTORS,
        workloads: vec![0],
        outside: vec![0],
        edges: vec![],
        constraints,
        colouring: vec![1],
        ..sheet_a()
    };
    let input = announced(&Sheet::of(&FIRST, numbers).bytes()).repeat(SHEETS);
    let largest = SECTORS * LIMIT * WEIGHT * CONSTRAINTS;
    assert_eq!(hold(&input), lines([1_000, 0, 0], [0, 0, 0, 16_000, 0], [largest, 1], [largest, 1]));
}

/// Each way to 18: what stands where a sheet is due with its count.
fn ways_to_18() -> Vec<(&'static str, Vec<u8>)> {
    let sheet = announced(&worth(5));
    vec![
        ("a count of 0", with_count(0, &worth(5))),
        ("a count of 75", with_count(75, &vec![0; 75 * BLOCK])),
        ("a count of 256 blocks and more", with_count(4 << 8, &worth(5))),
        ("a count of 65,535", with_count(65_535, &worth(5))),
        ("one byte of a count", sheet[..1].to_vec()),
        ("a count alone", sheet[..2].to_vec()),
        ("a sheet cut after its first byte", sheet[..3].to_vec()),
        ("a sheet cut in the middle", sheet[..sheet.len() / 2].to_vec()),
        ("a sheet one byte short", sheet[..sheet.len() - 1].to_vec()),
        ("a sheet one block short", sheet[..sheet.len() - BLOCK].to_vec()),
    ]
}

/// So many sheets, most of them refused.
fn many(count: usize) -> Vec<u8> {
    let refused = announced(&REFUSED);
    let sound = [30, 40, 20, 40, 20].map(|total| announced(&worth(total)));
    let sheet = |place: usize| if place % 50 == 7 { &sound[place / 50 % 5] } else { &refused };
    (1..=count).flat_map(|place| sheet(place).iter().copied()).collect()
}

#[test]
fn each_way_to_18() {
    for place in [1, 2, 3, 8, 999, 1_000] {
        let before = many(place - 1);
        let figures = hold(&before);
        for (way, torn) in ways_to_18() {
            let text = hold(&[&before[..], &torn].concat());
            assert_eq!(text, format!("{figures}refused 18 {place}\n"), "{way}");
        }
    }
}

/// What comes after a count that is not right is left: the program takes no byte more.
#[test]
fn no_byte_after_a_wrong_count() {
    for blocks in [0, 75, 65_535] {
        for place in [1, 3] {
            let before = many(place - 1);
            let input = [&before[..], &with_count(blocks, &worth(5))].concat();
            let (_, left) = printed_by("figures", &input);
            assert_eq!(left, worth(5));
        }
    }
}

/// After the 1,000th sheet nothing is read, be it a sheet, a wrong count or a part of something: no refusal, and all of it is left.
#[test]
fn no_byte_after_the_last_sheet() {
    let input = many(SHEETS);
    let figures = hold(&input);
    assert_eq!(figures, lines([20, 980, 0], [0, 0, 0, 20, 0], [20, 107], [40, 57]));
    let after = ways_to_18().into_iter().chain([("a sheet", announced(&worth(1))), ("one byte", vec![1])]);
    for (what, after) in after {
        let (text, left) = printed_by("figures", &[&input[..], &after].concat());
        assert_eq!(text, figures, "{what}");
        assert!(left == after, "{what}");
    }
}

/// The input is a file: how far it was read is where the next reader goes on.
#[test]
fn a_file_as_the_input() {
    let path = Path::new(env!("CARGO_TARGET_TMPDIR")).join(format!("figures-{}", std::process::id()));
    let mut file = OpenOptions::new().read(true).write(true).create(true).truncate(true).open(&path).expect("a file");
    let _ = std::fs::remove_file(&path);
    let five = announced(&worth(5));
    let inputs = [
        [many(SHEETS), five.clone()].concat(),
        [many(SHEETS), vec![0]].concat(),
        [many(2), with_count(75, &worth(5))].concat(),
        [five.clone(), five[..100].to_vec()].concat(),
        five,
    ];
    for input in inputs {
        file.set_len(0).and_then(|()| file.rewind()).and_then(|()| file.write_all(&input)).expect("a file that is written");
        file.rewind().expect("its start");
        let own = file.try_clone().expect("the same file");
        let (text, err) =
            ended(program("figures").stdin(own).stdout(Stdio::piped()).stderr(Stdio::piped()).spawn().expect("it starts"));
        let due = Figures::of(&input);
        assert_eq!((text, &err[..]), (due.text(), ""));
        assert_eq!(file.stream_position().expect("a place"), due.taken as u64);
    }
}

/// Where nothing can be read, the input ends.
#[test]
fn an_input_that_cannot_be_read() {
    let folder = File::open("/").expect("a folder");
    let running = program("figures").stdin(folder).stdout(Stdio::piped()).stderr(Stdio::piped()).spawn().expect("it starts");
    assert_eq!(ended(running), ("0\n".repeat(12), String::new()));
}

/// What is read at once is not all of it: bytes one by one, a count in two pieces, a sheet in three.
#[test]
fn slow_inputs() {
    let input = [announced(&worth(5)), announced(&REFUSED), announced(&worth(3))].concat();
    let due = Figures::of(&input).text();
    let hold = |pieces: &[&[u8]], pause: u64| {
        let (text, left) = run("figures", pieces, Duration::from_micros(pause), Stdio::piped()).well();
        assert_eq!((text, left.len()), (due.clone(), 0));
    };
    hold(&input.chunks(1).collect::<Vec<_>>(), 1);
    hold(&[&input[..1], &input[1..]], 50_000);
    hold(&[&input[..2], &input[2..700], &input[700..1_400], &input[1_400..]], 50_000);
    let second = announced(&worth(5)).len();
    hold(&[&input[..second], &input[second..second + 1], &input[second + 1..]], 50_000);
    let cut = &input[..second + 1];
    let (text, _) = run("figures", &cut.chunks(1_000).collect::<Vec<_>>(), Duration::from_millis(20), Stdio::piped()).well();
    assert_eq!(text, Figures::of(cut).text());
}

#[test]
fn text_that_cannot_be_written() {
    let full = OpenOptions::new().write(true).open("/dev/full").expect("a device that takes nothing");
    let ended = run("figures", &[&announced(&worth(5))], Duration::ZERO, full);
    assert_eq!(ended.err, "figures: the text could not be written\n");
}

/// Sheets with what their counts say, and where the input ends, if not after them.
#[derive(Clone, Debug)]
struct Stream {
    sheets: Vec<(u16, Sheet)>,
    end: Option<usize>,
}

impl Stream {
    /// Some sheets, one in three damaged; few counts are wrong, and few inputs end early.
    fn random(random: &mut Random) -> Self {
        let count = random.pick(&[0, 1, 2, 3, 4, 5, 8, 12]);
        let sheets: Vec<(u16, Sheet)> = (0..count).map(|_| Stream::random_sheet(random)).collect();
        let stream = Stream { sheets, end: None };
        let length = stream.bytes().len() as u64;
        Stream { end: random.once_in(4).then(|| random.between(0, length) as usize), ..stream }
    }

    fn random_sheet(random: &mut Random) -> (u16, Sheet) {
        let mut sheet = Sheet::random(random);
        if random.once_in(3) {
            sheet.break_some(random);
        }
        let blocks = sheet.bytes().len().div_ceil(BLOCK) as u16;
        let wrong = [0, blocks.wrapping_sub(1), blocks + 1, blocks + 256, 74, 75, 65_535];
        (if random.once_in(20) { random.pick(&wrong) } else { blocks }, sheet)
    }

    fn bytes(&self) -> Vec<u8> {
        let mut bytes: Vec<u8> = self.sheets.iter().flat_map(|(blocks, sheet)| with_count(*blocks, &sheet.bytes())).collect();
        bytes.truncate(self.end.unwrap_or(bytes.len()));
        bytes
    }
}

impl Case for Stream {
    fn compare(&self) -> Result<Code, String> {
        compare(&self.bytes()).map(|due| (if due.refused.is_some() { 18 } else { 0 }, None))
    }

    /// Inputs with fewer sheets, then with smaller ones that have their own counts.
    fn smaller(&self) -> Box<dyn Iterator<Item = Self> + '_> {
        let whole = self.end.map(|_| Stream { end: None, ..self.clone() });
        let fewer = (0..self.sheets.len()).map(|place| {
            let mut stream = self.clone();
            stream.sheets.remove(place);
            stream
        });
        let smaller = self.sheets.iter().enumerate().flat_map(move |(place, (_, sheet))| {
            sheet.smaller().map(move |sheet| {
                let mut stream = self.clone();
                stream.sheets[place] = (sheet.bytes().len().div_ceil(BLOCK) as u16, sheet);
                stream
            })
        });
        Box::new(whole.into_iter().chain(fewer).chain(smaller))
    }
}

#[test]
fn random_streams() {
    random_cases("streams", 150, Stream::random);
}
