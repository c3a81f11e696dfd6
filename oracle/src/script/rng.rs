//! Random numbers from a seed (SplitMix64), with a preference for the boundaries.

pub struct Rng(u64);

impl Rng {
    pub fn new(seed: u64) -> Self {
        Self(seed)
    }

    pub fn draw(&mut self) -> u64 {
        self.0 = self.0.wrapping_add(0x9e37_79b9_7f4a_7c15);
        let mut z = self.0;
        z = (z ^ (z >> 30)).wrapping_mul(0xbf58_476d_1ce4_e5b9);
        z = (z ^ (z >> 27)).wrapping_mul(0x94d0_49bb_1331_11eb);
        z ^ (z >> 31)
    }

    /// Below n.
    pub fn below(&mut self, n: usize) -> usize {
        (self.draw() % n as u64) as usize
    }

    /// A number of so many bytes: a boundary, a small one, one of any length in bits, or any.
    pub fn number(&mut self, width: usize) -> u64 {
        let top = top(width);
        match self.below(4) {
            0 => {
                let all = boundaries(width);
                all[self.below(all.len())]
            }
            1 => (self.draw() % 300) & top,
            2 => (self.draw() & top) >> self.below(8 * width),
            _ => self.draw() & top,
        }
    }

    pub fn bytes(&mut self, n: usize) -> Vec<u8> {
        (0..n).map(|_| self.draw() as u8).collect()
    }
}

/// The greatest number of so many bytes.
pub fn top(width: usize) -> u64 {
    u64::MAX >> (64 - 8 * width)
}

/// The numbers of so many bytes that stand at an end of a byte, of a sign or of the range.
pub fn boundaries(width: usize) -> Vec<u64> {
    let mut all = vec![0, 1, 2];
    for bits in (8..=8 * width).step_by(8) {
        let end = u64::MAX >> (64 - bits);
        let sign = 1u64 << (bits - 1);
        all.extend([sign - 1, sign, sign + 1, end - 1, end]);
        if bits < 8 * width {
            all.push(end + 1);
        }
    }
    all
}
