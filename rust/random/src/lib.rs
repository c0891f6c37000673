//! The generator of random numbers that `compare`, `generate` and `bench` share. A seed gives the
//! same numbers in every run and on every machine.

/// A xorshift generator of 64 bits, whose state is multiplied by a constant to give a number. Not
/// for secrets.
///
/// The numbers of a seed must never change: shipped recordings were made from them.
#[derive(Clone, Debug)]
pub struct Random {
    /// Never 0: a xorshift would stay there.
    state: u64,
}

impl Random {
    /// The generator of this seed.
    pub fn new(seed: u64) -> Random {
        let state = seed.wrapping_mul(0x9E37_79B9_7F4A_7C15) | 1;
        let mut random = Random { state };
        // The first numbers of small seeds are alike, so a few are thrown away.
        for _ in 0..8 {
            random.next_u64();
        }
        random
    }

    /// A number of 64 bits. Every other method is made of this one, and takes one number for each
    /// choice that it makes.
    pub fn next_u64(&mut self) -> u64 {
        self.state ^= self.state << 13;
        self.state ^= self.state >> 7;
        self.state ^= self.state << 17;
        self.state.wrapping_mul(0x2545_F491_4F6C_DD1D)
    }

    /// A number of 32 bits: the upper ones of 64, which are the better ones.
    pub fn next_u32(&mut self) -> u32 {
        (self.next_u64() >> 32) as u32
    }

    /// A byte.
    pub fn byte(&mut self) -> u8 {
        (self.next_u64() >> 56) as u8
    }

    /// 0 or 1.
    pub fn flag(&mut self) -> u8 {
        self.byte() & 1
    }

    /// A number from 0 to below `bound`, which is above 0.
    pub fn below(&mut self, bound: u32) -> u32 {
        self.next_u32() % bound
    }

    /// An index into something of this length, which is above 0 and below 2^32.
    pub fn index(&mut self, length: usize) -> usize {
        let bound = u32::try_from(length).expect("a length below 2^32");
        self.below(bound) as usize
    }

    /// True once in so many times, on average. `times` is above 0.
    pub fn once_in(&mut self, times: u32) -> bool {
        self.below(times) == 0
    }

    /// One of these, of which there is at least one.
    pub fn pick<T: Copy>(&mut self, from: &[T]) -> T {
        from[self.index(from.len())]
    }

    /// Puts these in a random order.
    pub fn shuffle<T>(&mut self, items: &mut [T]) {
        for last in (1..items.len()).rev() {
            items.swap(last, self.index(last + 1));
        }
    }

    /// Fills these bytes, each eight with one number, the most significant byte first. Of the last
    /// number, as many bytes are used as are left.
    pub fn fill(&mut self, bytes: &mut [u8]) {
        for part in bytes.chunks_mut(8) {
            let number = self.next_u64().to_be_bytes();
            part.copy_from_slice(&number[..part.len()]);
        }
    }
}
