//! Either sheet read, written and converted in plain Rust: the same checks in the same order, each sum of a block's check reduced
//! once.

use crate::refusals::{plan_refusal, Refused};
use qirfadhun::lists::Numbers;

const BLOCK: usize = 512;
const PREFIX: usize = 10;
const CHECK: usize = 510;

fn fletcher(bytes: &[u8]) -> [u8; 2] {
    let (mut first, mut second) = (0, 0);
    for &byte in bytes {
        first += byte as u32;
        second += first;
    }
    [(first % 255) as u8, (second % 255) as u8]
}

fn unless(right: bool, code: u64, place: u64) -> Result<(), Refused> {
    if right {
        Ok(())
    } else {
        Err((code, place))
    }
}

fn u16_at(bytes: &[u8], at: usize) -> u64 {
    u16::from_le_bytes([bytes[at], bytes[at + 1]]) as u64
}

fn u32_at(bytes: &[u8], at: usize) -> u64 {
    u32::from_le_bytes(bytes[at..at + 4].try_into().unwrap()) as u64
}

fn u64_at(bytes: &[u8], at: usize) -> u64 {
    u64::from_le_bytes(bytes[at..at + 8].try_into().unwrap())
}

/// What tells the two sheets apart: the letters, the most blocks, the bytes of the head, and the kinds of constraints.
pub struct Form {
    letters: [u8; 4],
    most: usize,
    head: usize,
    kinds: u64,
}

pub const FIRST: Form = Form { letters: *b"SCTR", most: 43, head: 8, kinds: 4 };
pub const SECOND: Form = Form { letters: *b"SCT2", most: 74, head: 12, kinds: 5 };

impl Form {
    fn is_second(&self) -> bool {
        self.letters == SECOND.letters
    }

    fn of(sheet: &[u8]) -> Form {
        if sheet.starts_with(&SECOND.letters) {
            SECOND
        } else {
            FIRST
        }
    }
}

/// The numbers of the head: regions, sectors, edges, constraints, flights and visits; the last two are 0 in a first sheet.
pub type Head = [u64; 6];

/// The blocks of one kind: the first of them, a record's bytes, how many a full block has, and how many there are.
#[derive(Clone, Copy)]
struct Section {
    kind: u8,
    first: usize,
    width: usize,
    in_block: usize,
    count: usize,
}

impl Section {
    fn blocks(&self) -> usize {
        self.count.div_ceil(self.in_block)
    }

    fn used(&self, block: usize) -> usize {
        self.width * (self.count - block * self.in_block).min(self.in_block)
    }

    fn check(&self, form: &Form, sheet: &[u8]) -> Result<(), Refused> {
        for block in 0..self.blocks() {
            let number = self.first + block;
            check_block(form, &sheet[number * BLOCK..][..BLOCK], self.kind, number as u64, self.used(block))?;
        }
        Ok(())
    }

    fn records<'a>(&self, sheet: &'a [u8]) -> impl Iterator<Item = &'a [u8]> {
        let Section { first, width, in_block, count, .. } = *self;
        let blocks = sheet[first * BLOCK..].chunks_exact(BLOCK);
        blocks.flat_map(move |block| block[PREFIX..][..width * in_block].chunks_exact(width)).take(count)
    }

    fn put(&self, form: &Form, sheet: &mut [u8], mut record: impl FnMut(usize, &mut [u8])) {
        for block in 0..self.blocks() {
            let number = self.first + block;
            let used = self.used(block);
            let bytes = &mut sheet[number * BLOCK..][..BLOCK];
            bytes.fill(0);
            bytes[4] = self.kind;
            bytes[8..10].copy_from_slice(&(used as u16).to_le_bytes());
            for (k, part) in bytes[PREFIX..][..used].chunks_exact_mut(self.width).enumerate() {
                record(block * self.in_block + k, part);
            }
            finish(form, number, bytes);
        }
    }

    /// Puts down the same blocks as in a sheet of the other form, where they start at another one.
    fn carry(&self, form: &Form, sheet: &mut [u8], other: &[u8], first: usize) {
        for block in 0..self.blocks() {
            let number = self.first + block;
            let bytes = &mut sheet[number * BLOCK..][..BLOCK];
            bytes.copy_from_slice(&other[(first + block) * BLOCK..][..BLOCK]);
            finish(form, number, bytes);
        }
    }
}

/// Gives a block its letters, number and check.
fn finish(form: &Form, number: usize, block: &mut [u8]) {
    block[..4].copy_from_slice(&form.letters);
    block[6..8].copy_from_slice(&(number as u16).to_le_bytes());
    let check = fletcher(&block[..CHECK]);
    block[CHECK..].copy_from_slice(&check);
}

/// Head, workloads, outside areas, edges, constraints, colouring, visit counts and visits.
type Sections = [Section; 8];

/// Of a first sheet three of the sections have no blocks.
fn sections(form: &Form, head: Head) -> Sections {
    let [regions, _, edges, constraints, flights, visits] = head.map(|count| count as usize);
    let [outside, flights, visits] = if form.is_second() { [regions, flights, visits] } else { [0; 3] };
    let mut next = 0;
    [
        (1, form.head, 1, 1),
        (2, 4, 125, regions),
        (6, 4, 125, outside),
        (3, 8, 62, edges),
        (4, 12, 41, constraints),
        (5, 1, 500, regions),
        (7, 1, 500, flights),
        (8, 6, 83, visits),
    ]
    .map(|(kind, width, in_block, count)| {
        let section = Section { kind, first: next, width, in_block, count };
        next += section.blocks();
        section
    })
}

fn bytes_of(sections: &Sections) -> usize {
    BLOCK * sections.iter().map(Section::blocks).sum::<usize>()
}

fn check_block(form: &Form, block: &[u8], kind: u8, number: u64, used: usize) -> Result<(), Refused> {
    unless(block[..4] == form.letters, 32, number)?;
    unless(fletcher(&block[..CHECK]) == block[CHECK..], 33, number)?;
    unless(block[4] == kind && u16_at(block, 6) == number, 34, number)?;
    unless(u16_at(block, 8) == used as u64, 35, number)?;
    unless(block[5] == 0 && block[PREFIX + used..CHECK].iter().all(|&byte| byte == 0), 36, number)
}

/// Code 37 for rules 1, 2, 4, 6 and 13.
fn check_head([regions, sectors, edges, constraints, flights, visits]: Head) -> Result<(), Refused> {
    unless((1..=512).contains(&regions), 37, 1)?;
    unless((1..=64).contains(&sectors), 37, 2)?;
    unless(edges <= 2048, 37, 4)?;
    unless((1..=16).contains(&constraints), 37, 6)?;
    unless(flights <= 64 && flights <= visits && visits <= 32 * flights, 37, 13)
}

/// Code 37 for rules 3, 14, 5, 13, 7 and 8.
fn check_records(form: &Form, head: Head, sections: &Sections, sheet: &[u8]) -> Result<(), Refused> {
    let [regions, sectors, .., in_all] = head;
    let [_, workloads, outside, edges, constraints, colouring, counts, visits] = sections;
    unless(workloads.records(sheet).all(|w| u32_at(w, 0) <= 1_000_000), 37, 3)?;
    unless(outside.records(sheet).all(|a| u32_at(a, 0) <= 1_000_000), 37, 14)?;
    let mut before = (0, 0);
    let edge_right = |e: &[u8]| {
        let (a, b, area) = (u16_at(e, 0), u16_at(e, 2), u32_at(e, 4));
        let right = 1 <= a && a < b && b <= regions && (1..=1_000_000).contains(&area) && before < (a, b);
        before = (a, b);
        right
    };
    unless(edges.records(sheet).all(edge_right), 37, 5)?;
    unless(counts.records(sheet).all(|n| (1..=32).contains(&n[0])), 37, 13)?;
    unless(counts.records(sheet).map(|n| n[0] as u64).sum::<u64>() == in_all, 37, 13)?;
    let visit_right = |v: &[u8]| (1..=regions).contains(&u16_at(v, 0)) && (1..=86_400).contains(&u32_at(v, 2));
    unless(visits.records(sheet).all(visit_right), 37, 13)?;
    let constraint_right = |q: &[u8]| {
        let (kind, relation, weight, limit) = (q[0] as u64, q[1], u16_at(q, 2), u64_at(q, 4));
        (1..=form.kinds).contains(&kind)
            && (1..=6).contains(&relation)
            && (kind == 1 || kind >= 4 || relation == 1)
            && limit <= 100_000_000_000
            && (1..=1000).contains(&weight)
    };
    unless(constraints.records(sheet).all(constraint_right), 37, 7)?;
    unless(colouring.records(sheet).all(|c| (1..=sectors).contains(&(c[0] as u64))), 37, 8)
}

/// Codes 31 to 38 of a sheet that shall have this form; how long it may be goes by its own letters.
fn check(form: &Form, sheet: &[u8]) -> Result<(Head, Sections), Refused> {
    let blocks = sheet.len() / BLOCK;
    unless(blocks * BLOCK == sheet.len() && (1..=Form::of(sheet).most).contains(&blocks), 31, 0)?;
    check_block(form, &sheet[..BLOCK], 1, 0, form.head)?;
    let head = [0, 2, 4, 6, 8, 10].map(|at| if at < form.head { u16_at(sheet, PREFIX + at) } else { 0 });
    check_head(head)?;
    let all = sections(form, head);
    unless(bytes_of(&all) == sheet.len(), 38, 0)?;
    for section in &all[1..] {
        section.check(form, sheet)?;
    }
    check_records(form, head, &all, sheet)?;
    Ok((head, all))
}

/// Reads either sheet into the lists of a plan, from their starts.
pub fn read(sheet: &[u8], plan: &mut Numbers) -> Result<Head, Refused> {
    let form = Form::of(sheet);
    let (head, all) = check(&form, sheet)?;
    let [regions, sectors, edges, constraints, flights, visits] = head;
    let Numbers { workloads, outside, edges: edge_numbers, counts, visits: visit_numbers, constraints: fours, colouring, .. } =
        plan;
    let rooms = [&workloads, &outside, &edge_numbers, &counts, &visit_numbers, &fours, &colouring].map(|list| list.len() as u64);
    let needed = [regions, regions, 3 * edges, flights, 2 * visits, 4 * constraints, regions];
    unless(rooms.iter().zip(needed).all(|(&room, needed)| room >= needed), 39, 0)?;
    (plan.regions, plan.sectors) = (regions, sectors);
    for (to, w) in workloads.iter_mut().zip(all[1].records(sheet)) {
        *to = u32_at(w, 0);
    }
    if form.is_second() {
        for (to, a) in outside.iter_mut().zip(all[2].records(sheet)) {
            *to = u32_at(a, 0);
        }
    } else {
        outside[..regions as usize].fill(0);
    }
    for (to, e) in edge_numbers.chunks_exact_mut(3).zip(all[3].records(sheet)) {
        to.copy_from_slice(&[u16_at(e, 0), u16_at(e, 2), u32_at(e, 4)]);
    }
    for (to, q) in fours.chunks_exact_mut(4).zip(all[4].records(sheet)) {
        to.copy_from_slice(&[q[0] as u64, q[1] as u64, u64_at(q, 4), u16_at(q, 2)]);
    }
    for (to, c) in colouring.iter_mut().zip(all[5].records(sheet)) {
        *to = c[0] as u64;
    }
    for (to, n) in counts.iter_mut().zip(all[6].records(sheet)) {
        *to = n[0] as u64;
    }
    for (to, v) in visit_numbers.chunks_exact_mut(2).zip(all[7].records(sheet)) {
        to.copy_from_slice(&[u16_at(v, 0), u32_at(v, 2)]);
    }
    Ok(head)
}

fn put_head(section: &Section, form: &Form, head: Head, sheet: &mut [u8]) {
    section.put(form, sheet, |_, to| {
        for (part, number) in to.chunks_exact_mut(2).zip(head) {
            part.copy_from_slice(&(number as u16).to_le_bytes());
        }
    });
}

/// Writes a plan's sheet to the start of the bytes; answers how many it has.
pub fn write(form: &Form, plan: &Numbers, sheet: &mut [u8]) -> Result<usize, Refused> {
    let Numbers { regions, sectors, workloads, outside, edges, counts, visits, constraints, colouring } = plan;
    let (some_outside, counts, visits) =
        if form.is_second() { (Some(&outside[..]), &counts[..], &visits[..]) } else { (None, &[][..], &[][..]) };
    plan_refusal(form.kinds, *regions, *sectors, workloads, some_outside, edges, counts, visits, constraints, colouring)?;
    let [edge_count, constraint_count, visit_count] =
        [edges.len() / 3, constraints.len() / 4, visits.len() / 2].map(|n| n as u64);
    let head = [*regions, *sectors, edge_count, constraint_count, counts.len() as u64, visit_count];
    let all = sections(form, head);
    let bytes = bytes_of(&all);
    unless(bytes <= sheet.len(), 40, 0)?;
    put_head(&all[0], form, head, sheet);
    all[1].put(form, sheet, |k, to| to.copy_from_slice(&(workloads[k] as u32).to_le_bytes()));
    all[2].put(form, sheet, |k, to| to.copy_from_slice(&(outside[k] as u32).to_le_bytes()));
    all[3].put(form, sheet, |k, to| {
        to[..2].copy_from_slice(&(edges[3 * k] as u16).to_le_bytes());
        to[2..4].copy_from_slice(&(edges[3 * k + 1] as u16).to_le_bytes());
        to[4..].copy_from_slice(&(edges[3 * k + 2] as u32).to_le_bytes());
    });
    all[4].put(form, sheet, |k, to| {
        (to[0], to[1]) = (constraints[4 * k] as u8, constraints[4 * k + 1] as u8);
        to[2..4].copy_from_slice(&(constraints[4 * k + 3] as u16).to_le_bytes());
        to[4..].copy_from_slice(&constraints[4 * k + 2].to_le_bytes());
    });
    all[5].put(form, sheet, |k, to| to[0] = colouring[k] as u8);
    all[6].put(form, sheet, |k, to| to[0] = counts[k] as u8);
    all[7].put(form, sheet, |k, to| {
        to[..2].copy_from_slice(&(visits[2 * k] as u16).to_le_bytes());
        to[2..].copy_from_slice(&(visits[2 * k + 1] as u32).to_le_bytes());
    });
    Ok(bytes)
}

/// The sections that both sheets have, from the workloads on.
const IN_BOTH: [usize; 4] = [1, 3, 4, 5];

/// Converts a first sheet to a second one at the start of the bytes; answers how many it has.
pub fn to_second(sheet: &[u8], converted: &mut [u8]) -> Result<usize, Refused> {
    let (head, from) = check(&FIRST, sheet)?;
    let to = sections(&SECOND, head);
    unless(bytes_of(&to) <= converted.len(), 40, 0)?;
    put_head(&to[0], &SECOND, head, converted);
    to[2].put(&SECOND, converted, |_, _| {});
    IN_BOTH.into_iter().for_each(|k| to[k].carry(&SECOND, converted, sheet, from[k].first));
    Ok(bytes_of(&to))
}

/// Converts a second sheet back to a first one.
pub fn to_first(sheet: &[u8], converted: &mut [u8]) -> Result<usize, Refused> {
    let (head, from) = check(&SECOND, sheet)?;
    let to = sections(&FIRST, head);
    unless(bytes_of(&to) <= converted.len(), 40, 0)?;
    let inland = from[2].records(sheet).all(|a| u32_at(a, 0) == 0);
    let kinds_held = from[4].records(sheet).all(|q| q[0] as u64 <= FIRST.kinds);
    unless(inland && from[6].count == 0 && kinds_held, 41, 0)?;
    put_head(&to[0], &FIRST, head, converted);
    IN_BOTH.into_iter().for_each(|k| to[k].carry(&FIRST, converted, sheet, from[k].first));
    Ok(bytes_of(&to))
}
