//! Blocks of a sheet: how one is built, and codes 32 to 36.

use super::form::Form;
use super::limits::*;
use super::plan::{demand, Refusal};

/// The block of a form with this kind, number and payload.
pub fn block(form: &Form, kind: usize, number: usize, payload: &[u8]) -> Vec<u8> {
    let mut block = form.letters.to_vec();
    block.extend([kind as u8, 0]);
    block.extend((number as u16).to_le_bytes());
    block.extend((payload.len() as u16).to_le_bytes());
    block.extend(payload);
    block.resize(PREFIX + PAYLOAD, 0);
    let check = fletcher(&block);
    block.extend(check);
    block
}

/// Fletcher's two sums.
pub fn fletcher(bytes: &[u8]) -> [u8; 2] {
    let (mut first, mut second) = (0, 0);
    for &byte in bytes {
        first = (first + u32::from(byte)) % 255;
        second = (second + first) % 255;
    }
    [first as u8, second as u8]
}

/// The used payload of a form's block, `used` bytes of it being due, or why the block is refused.
pub fn payload<'a>(form: &Form, block: &'a [u8], kind: usize, number: usize, used: usize) -> Result<&'a [u8], Refusal> {
    let place = number as u64;
    let (bytes, check) = block.split_at(PREFIX + PAYLOAD);
    let (payload, rest) = bytes[PREFIX..].split_at(used);
    demand(bytes.starts_with(&form.letters), 32, place)?;
    demand(fletcher(bytes) == check, 33, place)?;
    demand(usize::from(bytes[4]) == kind && number_of(&bytes[6..8]) == place, 34, place)?;
    demand(number_of(&bytes[8..10]) == used as u64, 35, place)?;
    demand(bytes[5] == 0 && rest.iter().all(|&byte| byte == 0), 36, place)?;
    Ok(payload)
}

/// The number that these bytes are, the lowest first.
pub fn number_of(bytes: &[u8]) -> u64 {
    bytes.iter().rev().fold(0, |number, &byte| number << 8 | u64::from(byte))
}
