//! What is done to the bytes of a sheet.

use crate::plans::{wild, Random};
use crate::reference::*;

/// Places and blocks are counted from 0; where one lies past the end, nothing is done.
#[derive(Clone, Debug)]
pub enum Change {
    /// The byte at this place becomes this one.
    Put(usize, u8),
    /// The two bytes from this place on become this number.
    PutNumber(usize, u16),
    /// These bits of the byte at this place are turned over.
    Flip(usize, u8),
    /// The bytes from this place on, so many of them, become random by a seed.
    Noise(usize, usize, u64),
    /// The sheet has so many bytes; a longer one starts anew after its end.
    Length(usize),
    /// These two blocks change places.
    Exchange(usize, usize),
    /// This block is taken out.
    Drop(usize),
    /// This block comes twice, one after the other.
    Repeat(usize),
    /// This block has the letters of this form.
    Letters(usize, &'static Form),
    /// Every block is numbered by its place.
    Numbers,
    /// This block's check is made right.
    Check(usize),
    /// Every block's check is made right.
    Checks,
}

impl Change {
    /// Any change but those that make something right, of a sheet with so many blocks.
    pub fn random(random: &mut Random, blocks: usize) -> Self {
        let place = some_place(random, blocks);
        match random.between(0, 12) {
            0 => Change::Put(place, wild(random, &[]) as u8),
            1 => Change::PutNumber(PREFIX + 2 * random.place(6), wild(random, &[FLIGHTS, VISITS]) as u16),
            2 => Change::Noise(place, random.pick(&[2, 8, PAYLOAD]), random.any()),
            3 => Change::Length(random.pick(&lengths(blocks))),
            4 => Change::Exchange(random.place(blocks), random.place(blocks)),
            5 => Change::Drop(random.place(blocks)),
            6 => Change::Repeat(random.place(blocks)),
            7 => Change::Letters(random.place(blocks), random.pick(&FORMS)),
            _ => Change::Flip(place, random.pick(&[1, 2, 4, 8, 16, 32, 64, 128, 255])),
        }
    }

    pub fn apply(&self, bytes: &mut Vec<u8>) {
        match *self {
            Change::Put(place, byte) => put(bytes, place, [byte]),
            Change::PutNumber(place, number) => put(bytes, place, number.to_le_bytes()),
            Change::Flip(place, bits) => bytes.iter_mut().skip(place).take(1).for_each(|byte| *byte ^= bits),
            Change::Noise(place, count, seed) => {
                let mut random = Random::new(seed);
                put(bytes, place, (0..count).map(|_| random.any() as u8));
            }
            Change::Length(length) => *bytes = bytes.iter().copied().cycle().take(length).collect(),
            Change::Exchange(one, other) => {
                for (one, other) in (one * BLOCK..).zip(other * BLOCK..).take(BLOCK) {
                    if one.max(other) < bytes.len() {
                        bytes.swap(one, other);
                    }
                }
            }
            Change::Drop(number) => {
                bytes.drain(bytes.len().min(number * BLOCK)..bytes.len().min((number + 1) * BLOCK));
            }
            Change::Repeat(number) => {
                let block: Vec<u8> = bytes.chunks(BLOCK).skip(number).take(1).flatten().copied().collect();
                bytes.splice(bytes.len().min(number * BLOCK)..bytes.len().min(number * BLOCK), block);
            }
            Change::Letters(number, form) => put(bytes, number * BLOCK, form.letters),
            Change::Numbers => {
                for (number, block) in (0u16..).zip(bytes.chunks_exact_mut(BLOCK)) {
                    block[6..8].copy_from_slice(&number.to_le_bytes());
                }
            }
            Change::Check(number) => bytes.chunks_exact_mut(BLOCK).skip(number).take(1).for_each(make_right),
            Change::Checks => bytes.chunks_exact_mut(BLOCK).for_each(make_right),
        }
    }
}

fn make_right(block: &mut [u8]) {
    let (bytes, check) = block.split_at_mut(PREFIX + PAYLOAD);
    check.copy_from_slice(&fletcher(bytes));
}

fn put(bytes: &mut [u8], place: usize, others: impl IntoIterator<Item = u8>) {
    bytes.iter_mut().skip(place).zip(others).for_each(|(byte, other)| *byte = other);
}

/// A place in a sheet, as often as not one with a meaning of its own.
fn some_place(random: &mut Random, blocks: usize) -> usize {
    let places = [random.place(PREFIX), PREFIX + random.place(24), random.place(BLOCK), BLOCK - 1 - random.place(2)];
    random.place(blocks) * BLOCK + random.pick(&places)
}

/// The ends of what a sheet's length can be in either form, and lengths around that of so many blocks.
pub fn lengths(blocks: usize) -> Vec<usize> {
    let mut lengths = vec![0, 1];
    for blocks in [1, FIRST.blocks, FIRST.blocks + 1, SECOND.blocks, SECOND.blocks + 1, blocks - 1, blocks, blocks + 1] {
        lengths.extend([(blocks * BLOCK).saturating_sub(1), blocks * BLOCK, blocks * BLOCK + 1]);
    }
    lengths.sort();
    lengths.dedup();
    lengths
}
