//! Numbers from a seed (splitmix64): the same seed gives the same numbers.

pub struct Rng(u64);

impl Rng {
    /// The numbers of one round of a seed.
    pub fn new(seed: u64, round: u64) -> Rng {
        let mut rng = Rng(seed);
        let start = rng.next() ^ round;
        Rng(start.wrapping_mul(0xd134_2543_de82_ef95))
    }

    // Not an iterator: it never ends.
    #[allow(clippy::should_implement_trait)]
    pub fn next(&mut self) -> u64 {
        self.0 = self.0.wrapping_add(0x9e37_79b9_7f4a_7c15);
        let mut mixed = self.0;
        mixed = (mixed ^ (mixed >> 30)).wrapping_mul(0xbf58_476d_1ce4_e5b9);
        mixed = (mixed ^ (mixed >> 27)).wrapping_mul(0x94d0_49bb_1331_11eb);
        mixed ^ (mixed >> 31)
    }

    /// A number below `bound`, which must not be 0.
    pub fn below(&mut self, bound: usize) -> usize {
        (self.next() % bound as u64) as usize
    }

    pub fn byte(&mut self) -> u8 {
        self.next() as u8
    }

    pub fn one_in(&mut self, count: usize) -> bool {
        self.below(count) == 0
    }

    pub fn pick<T: Copy>(&mut self, from: &[T]) -> T {
        from[self.below(from.len())]
    }

    /// A number that is often at the end of a field's range.
    pub fn number(&mut self) -> i32 {
        match self.below(6) {
            0 => self.pick(&[i32::MIN, i32::MAX, -1, 0, 1, 0x0102_0304]),
            1 => self.next() as i32,
            _ => self.below(2000) as i32 - 1000,
        }
    }

    pub fn numbers<const N: usize>(&mut self) -> [i32; N] {
        std::array::from_fn(|_| self.number())
    }

    /// Passage sizes, most within i16, some just outside.
    pub fn sides(&mut self) -> [i32; 4] {
        let wide = self.one_in(3);
        std::array::from_fn(|_| match self.below(8) {
            0 => -1,
            1 => self.pick(&[32767, -32768, 32766, -2]),
            2 if wide => self.pick(&[32768, -32769, 65535, i32::MIN, i32::MAX]),
            _ => self.below(1000) as i32,
        })
    }

    /// Bytes of a name: letters, dots, and now and then any byte.
    pub fn name(&mut self, length: usize) -> Vec<u8> {
        let any = self.one_in(8);
        (0..length).map(|_| if any { self.byte() } else { self.pick(b"abc01..") }).collect()
    }
}
