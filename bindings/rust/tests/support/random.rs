//! Random numbers by xorshift, from fixed seeds.
use crate::plain::Set;

pub struct Random(u64);

impl Random {
    /// The numbers of one case of a seed.
    pub fn new(seed: u64, case: u64) -> Random {
        let mixed = (seed ^ case.rotate_left(32)).wrapping_mul(0x9e37_79b9_7f4a_7c15) ^ case;
        let mut random = Random(mixed | 1);
        for _ in 0..8 {
            random.next();
        }
        random
    }

    pub fn next(&mut self) -> u64 {
        self.0 ^= self.0 >> 12;
        self.0 ^= self.0 << 25;
        self.0 ^= self.0 >> 27;
        self.0.wrapping_mul(0x2545_f491_4f6c_dd1d)
    }

    /// 0 to k-1.
    pub fn below(&mut self, k: usize) -> usize {
        (((self.next() >> 32) * k as u64) >> 32) as usize
    }

    /// From a to b, both included.
    pub fn between(&mut self, a: usize, b: usize) -> usize {
        a + self.below(b - a + 1)
    }

    pub fn percent(&mut self, k: usize) -> bool {
        self.below(100) < k
    }

    pub fn pick<T: Copy>(&mut self, from: &[T]) -> T {
        from[self.below(from.len())]
    }

    /// An index, each as likely as its weight says.
    pub fn weighted(&mut self, weights: &[usize]) -> usize {
        let mut k = self.below(weights.iter().sum());
        weights
            .iter()
            .position(|&weight| {
                k < weight || {
                    k -= weight;
                    false
                }
            })
            .unwrap()
    }

    /// A party of a set that is not empty.
    pub fn member(&mut self, set: Set) -> usize {
        let k = self.below(set.count_ones() as usize);
        crate::plain::Members(set).nth(k).unwrap()
    }

    pub fn part(&mut self, set: Set) -> Set {
        set & self.next() as Set
    }

    /// A part of a set that is not empty, not empty either.
    pub fn some_of(&mut self, set: Set) -> Set {
        self.part(set) | 1 << self.member(set)
    }

    /// An integer near an end of the range, or where a product wraps around.
    pub fn edge(&mut self) -> i32 {
        self.pick(&[i32::MIN, i32::MAX, i32::MIN + 1, i32::MAX - 1, 65_536, -65_536, 65_535, 46_341, -1, 0, 1, 2])
    }

    pub fn integer(&mut self) -> i32 {
        match self.below(10) {
            0 => self.edge(),
            1 => self.next() as i32,
            2 => self.below(50) as i32 - 25,
            _ => self.below(4) as i32,
        }
    }

    /// Bytes that may hold anything.
    pub fn junk(&mut self, length: usize) -> Vec<u8> {
        let mut bytes = vec![0; length];
        for chunk in bytes.chunks_mut(8) {
            let word = self.next().to_le_bytes();
            chunk.copy_from_slice(&word[..chunk.len()]);
        }
        bytes
    }
}
