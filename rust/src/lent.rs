//! Buffers that are lent to a call under test.

use std::hint::black_box;
use std::ops::Range;

use crate::rng::Rng;

/// Guard bytes on each side of a lent buffer.
pub const GUARD_LEN: usize = 24;

/// A buffer that is lent to a call, with guard bytes on both sides.
#[derive(Clone)]
pub struct Lent {
    memory: Vec<u8>,
    part: Range<usize>,
    /// What all the memory should hold.
    expected: Vec<u8>,
}

impl Lent {
    /// Lends `content`.
    pub fn new(rng: &mut Rng, content: &[u8]) -> Lent {
        Lent::followed(rng, content, &[])
    }

    /// Lends `content`; the bytes that stand behind it begin with `behind`.
    pub fn followed(rng: &mut Rng, content: &[u8], behind: &[u8]) -> Lent {
        let guard = guard(rng.byte());
        let memory = [&guard[..], content, behind, &guard].concat();
        Lent {
            part: GUARD_LEN..GUARD_LEN + content.len(),
            expected: memory.clone(),
            memory,
        }
    }

    pub fn content(&self) -> &[u8] {
        &self.memory[self.part.clone()]
    }

    pub fn content_mut(&mut self) -> &mut [u8] {
        &mut self.memory[self.part.clone()]
    }

    /// From now on the front of the buffer should hold these bytes.
    pub fn expect(&mut self, front: &[u8]) {
        let start = self.part.start;
        self.expected[start..start + front.len()].copy_from_slice(front);
    }

    /// Whether the buffer and all beside it hold what they should.
    pub fn is_as_expected(&self) -> bool {
        // The compiler must not take for granted what it cannot see the library do.
        *black_box(&self.memory) == self.expected
    }

    /// The first places at which that is not so, counted from the front of the buffer.
    pub fn differences(&self) -> String {
        let place = |at: usize| at as i64 - GUARD_LEN as i64;
        let pairs = self.memory.iter().zip(&self.expected).enumerate();
        pairs
            .filter(|(_, (is, should))| is != should)
            .take(8)
            .map(|(at, (is, should))| format!("byte {} is {is}, not {should}; ", place(at)))
            .collect()
    }
}

/// Guard bytes, of which no two neighbours are alike.
fn guard(seed: u8) -> [u8; GUARD_LEN] {
    std::array::from_fn(|place| seed.wrapping_add(37u8.wrapping_mul(place as u8)))
}
