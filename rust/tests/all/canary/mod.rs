//! Lent memory under guard: the slice that is lent is the middle of a larger buffer, and the whole buffer is compared.

use crate::library::Constraint;
use std::fmt::Debug;

/// As many numbers on either side; odd, so that lent bytes start at an odd address.
const MARGIN: usize = 9;

pub trait Number: Copy + PartialEq + Debug {
    /// What stands at this place of a buffer before anyone writes there.
    fn noise(place: usize) -> Self;
}

macro_rules! number {
    ($($number:ty)*) => {
        $(impl Number for $number {
            fn noise(place: usize) -> Self {
                ((place as u64 + 1).wrapping_mul(0x9E37_79B9_7F4A_7C15) >> (place % 32)) as $number
            }
        })*
    };
}

number!(u8 u64 i64);

impl Number for Constraint {
    fn noise(place: usize) -> Self {
        let [kind, relation, limit, weight] = [0, 1, 2, 3].map(|field| u64::noise(4 * place + field));
        Constraint { kind, relation, limit, weight }
    }
}

#[derive(Clone)]
pub struct Lent<T> {
    buffer: Vec<T>,
}

impl<T: Number> Lent<T> {
    /// Room for `length` numbers that holds noise, which the one it is lent to has to write over or leave.
    pub fn room(length: u64) -> Self {
        Lent { buffer: (0..length as usize + 2 * MARGIN).map(T::noise).collect() }
    }

    pub fn list(content: &[T]) -> Self {
        let mut lent = Self::room(content.len() as u64);
        lent.slice().copy_from_slice(content);
        lent
    }

    pub fn slice(&mut self) -> &mut [T] {
        let end = self.buffer.len() - MARGIN;
        &mut self.buffer[MARGIN..end]
    }

    /// The pointer and the length that the slice is handed over as.
    pub fn parts(&mut self) -> (*mut T, usize) {
        let slice = self.slice();
        (slice.as_mut_ptr(), slice.len())
    }

    pub fn content(&self) -> &[T] {
        &self.buffer[MARGIN..self.buffer.len() - MARGIN]
    }

    /// In words, where the buffer first differs from the one that is due; the lent slice starts at 0.
    pub fn same_as(&self, due: &Self, name: &str) -> Result<(), String> {
        assert_eq!(self.buffer.len(), due.buffer.len(), "both sides are lent the same");
        match (0..due.buffer.len()).find(|&place| self.buffer[place] != due.buffer[place]) {
            None => Ok(()),
            Some(place) => Err(format!(
                "{name}[{}] of {}: the library leaves {:?}, the documents ask for {:?}",
                place as i64 - MARGIN as i64,
                due.content().len(),
                self.buffer[place],
                due.buffer[place]
            )),
        }
    }
}
