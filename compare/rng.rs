// Seeded numbers, so that every run with the same seed does the same.

/// A seeded row of numbers (xorshift).
#[derive(Clone)]
pub struct Rng(u64);

impl Rng {
    /// The row of a seed; seeds next to each other give rows that are not alike.
    pub fn new(seed: u64) -> Rng {
        let mixed = (seed ^ seed >> 31).wrapping_add(0x9E37_79B9_7F4A_7C15);
        let mixed = mixed.wrapping_mul(0xBF58_476D_1CE4_E5B9);
        let mut rng = Rng((mixed ^ mixed >> 29) | 1);
        rng.next();
        rng
    }

    /// The next number.
    pub fn next(&mut self) -> u64 {
        self.0 ^= self.0 >> 12;
        self.0 ^= self.0 << 25;
        self.0 ^= self.0 >> 27;
        self.0.wrapping_mul(0x2545_F491_4F6C_DD1D)
    }

    /// A number below an end that is not 0.
    pub fn below(&mut self, end: usize) -> usize {
        ((self.next() >> 16) % end as u64) as usize
    }

    /// True once in so many times.
    pub fn once_in(&mut self, times: usize) -> bool {
        self.below(times) == 0
    }

    /// One of a list.
    pub fn pick<T: Copy>(&mut self, list: &[T]) -> T {
        list[self.below(list.len())]
    }

    /// Any byte.
    pub fn byte(&mut self) -> u8 {
        (self.next() >> 24) as u8
    }

    /// Fills bytes with noise.
    pub fn fill(&mut self, bytes: &mut [u8]) {
        for part in bytes.chunks_mut(8) {
            let noise = self.next().to_le_bytes();
            part.copy_from_slice(&noise[..part.len()]);
        }
    }
}
