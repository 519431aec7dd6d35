//! A small seeded generator (`SplitMix64`): the same seed, the same numbers.

/// A stream of random numbers.
#[derive(Clone, Debug)]
pub struct Random {
    state: u64,
}

impl Random {
    /// The stream of a seed for one purpose; streams of different purposes
    /// do not disturb one another.
    #[must_use]
    pub fn new(seed: u64, purpose: u64) -> Random {
        let mut first = Random { state: seed };
        let mixed = first.next_u64();
        let mut second = Random {
            state: mixed ^ purpose,
        };
        let state = second.next_u64();
        Random { state }
    }

    /// The next 64 bits.
    pub fn next_u64(&mut self) -> u64 {
        self.state = self.state.wrapping_add(0x9E37_79B9_7F4A_7C15);
        let mut bits = self.state;
        bits = (bits ^ (bits >> 30)).wrapping_mul(0xBF58_476D_1CE4_E5B9);
        bits = (bits ^ (bits >> 27)).wrapping_mul(0x94D0_49BB_1331_11EB);
        bits ^ (bits >> 31)
    }

    /// A number below the limit, which is not 0.
    pub fn below(&mut self, limit: usize) -> usize {
        let wide = u128::from(self.next_u64()) * limit as u128;
        usize::try_from(wide >> 64).expect("below the limit")
    }

    /// A number from first to last, both included.
    pub fn between(&mut self, first: usize, last: usize) -> usize {
        first + self.below(last - first + 1)
    }

    /// A byte from 0 to the last, included.
    pub fn up_to(&mut self, last: u8) -> u8 {
        u8::try_from(self.below(usize::from(last) + 1)).expect("at most last")
    }

    /// Any byte.
    pub fn byte(&mut self) -> u8 {
        self.up_to(0xFF)
    }

    /// True or false, evenly.
    pub fn flag(&mut self) -> bool {
        self.one_in(2)
    }

    /// True once in so many times.
    pub fn one_in(&mut self, times: usize) -> bool {
        self.below(times) == 0
    }

    /// One of the items, which are not none.
    pub fn pick<T: Copy>(&mut self, items: &[T]) -> T {
        items[self.below(items.len())]
    }

    /// Any bytes.
    pub fn fill(&mut self, bytes: &mut [u8]) {
        for part in bytes.chunks_mut(8) {
            let fresh_bytes = self.next_u64().to_le_bytes();
            part.copy_from_slice(&fresh_bytes[..part.len()]);
        }
    }
}
