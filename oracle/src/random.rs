//! Random numbers, the same for the same seed (splitmix64).

pub struct Rng(u64);

impl Rng {
    pub fn new(seed: u64, stream: u64) -> Rng {
        let mut r = Rng(seed ^ stream.wrapping_mul(0x9e37_79b9_7f4a_7c15).rotate_left(17));
        r.word();
        r.word();
        r
    }

    pub fn word(&mut self) -> u64 {
        self.0 = self.0.wrapping_add(0x9e37_79b9_7f4a_7c15);
        let mut z = self.0;
        z = (z ^ (z >> 30)).wrapping_mul(0xbf58_476d_1ce4_e5b9);
        z = (z ^ (z >> 27)).wrapping_mul(0x94d0_49bb_1331_11eb);
        z ^ (z >> 31)
    }

    pub fn byte(&mut self) -> u8 {
        self.word() as u8
    }

    /// From 0 up to, not including, n.
    pub fn below(&mut self, n: usize) -> usize {
        if n == 0 {
            return 0;
        }
        ((self.word() as u128 * n as u128) >> 64) as usize
    }

    /// From a to b, both included.
    pub fn within(&mut self, a: usize, b: usize) -> usize {
        a + self.below(b - a + 1)
    }

    /// Yes, in so many of a hundred.
    pub fn percent(&mut self, n: usize) -> bool {
        self.below(100) < n
    }

    pub fn flip(&mut self) -> bool {
        self.word() & 1 == 1
    }

    pub fn pick<T: Copy>(&mut self, from: &[T]) -> T {
        from[self.below(from.len())]
    }

    /// A number of which few bits, many bits, or the limits matter.
    pub fn number(&mut self) -> u64 {
        match self.below(8) {
            0 => self.below(4) as u64,
            1 => self.below(300) as u64,
            2 => {
                let k = self.below(64);
                (1u64 << k).wrapping_sub(self.below(2) as u64)
            }
            3 => {
                let k = self.below(10) * 7;
                (1u64 << k.min(63)).wrapping_sub(1).wrapping_add(self.below(3) as u64)
            }
            4 => u64::MAX - self.below(20) as u64,
            5 => self.word() >> self.below(64),
            6 => (1u64 << 63).wrapping_sub(1).wrapping_add(self.below(3) as u64),
            _ => self.word(),
        }
    }

    pub fn bytes(&mut self, n: usize) -> Vec<u8> {
        (0..n).map(|_| self.byte()).collect()
    }

    pub fn shuffle<T>(&mut self, list: &mut [T]) {
        for i in (1..list.len()).rev() {
            let j = self.below(i + 1);
            list.swap(i, j);
        }
    }
}
