//! Random numbers, biased to where the paper's rules meet.
#![allow(dead_code)]

/// splitmix64
pub struct Random(u64);

impl Random {
    pub fn new(seed: u64) -> Random {
        Random(seed)
    }

    pub fn next(&mut self) -> u64 {
        self.0 = self.0.wrapping_add(0x9E37_79B9_7F4A_7C15);
        let mut z = self.0;
        z = (z ^ (z >> 30)).wrapping_mul(0xBF58_476D_1CE4_E5B9);
        z = (z ^ (z >> 27)).wrapping_mul(0x94D0_49BB_1331_11EB);
        z ^ (z >> 31)
    }

    /// 0 to n - 1
    pub fn below(&mut self, n: usize) -> usize {
        (self.next() % n as u64) as usize
    }

    /// from to to, both counted
    pub fn between(&mut self, from: usize, to: usize) -> usize {
        from + self.below(to - from + 1)
    }

    pub fn chance(&mut self, percent: usize) -> bool {
        self.below(100) < percent
    }

    pub fn pick<T: Copy>(&mut self, from: &[T]) -> T {
        from[self.below(from.len())]
    }

    pub fn pick_from<T: Copy>(&mut self, from: impl Iterator<Item = T>) -> Option<T> {
        let all: Vec<T> = from.collect();
        if all.is_empty() { None } else { Some(self.pick(&all)) }
    }

    pub fn shuffle<T>(&mut self, list: &mut [T]) {
        for i in (1..list.len()).rev() {
            list.swap(i, self.below(i + 1));
        }
    }

    /// A number as a border of some range, or any.
    pub fn border(&mut self) -> u32 {
        if self.chance(15) { self.next() as u32 } else { self.pick(&BORDERS) }
    }

    pub fn borders<const N: usize>(&mut self) -> [u32; N] {
        std::array::from_fn(|_| self.border())
    }

    /// A mask of flags: mostly of a few, so that masks overlap.
    pub fn mask(&mut self) -> u32 {
        match self.below(10) {
            0 => (self.next() as u32).max(1),
            1 => self.pick(&[1 << 31, 0x8000_0001, 0xFFFF_0000, u32::MAX]),
            _ => self.between(1, 15) as u32,
        }
    }

    /// A message: mostly one that no other is like, now and then 0.
    pub fn message(&mut self) -> u32 {
        match self.below(8) {
            0 => 0,
            1 => self.border(),
            _ => self.next() as u32,
        }
    }

    /// A channel's capacity: mostly a small one, so that it fills, or one of the greatest.
    pub fn capacity(&mut self) -> u8 {
        self.pick(&[1, 1, 2, 2, 3, 4, 5, 31, 32, 32])
    }

    /// A quantum above 0: mostly a small one, so that turns end.
    pub fn quantum(&mut self) -> u16 {
        self.pick(&[1, 1, 2, 2, 3, 99, 100, 256, 65534, 65535])
    }

    /// A tick counter: 0, just before the wrap, or any.
    pub fn tick(&mut self) -> u32 {
        match self.below(4) {
            0 => 0,
            1 | 2 => u32::MAX - self.below(12) as u32,
            _ => self.next() as u32,
        }
    }

    /// A time limit or delay above 0: mostly soon.
    pub fn soon(&mut self) -> u32 {
        match self.below(12) {
            0 => self.pick(&[u32::MAX, u32::MAX - 1, 1 << 31, 65536]),
            1 => (self.next() as u32).max(1),
            _ => self.between(1, 6) as u32,
        }
    }
}

/// The borders of every range of the paper, and of the numbers' widths.
pub const BORDERS: [u32; 28] = [
    0, 1, 2, 3, 4, 7, 8, 14, 15, 16, 17, 30, 31, 32, 33, 61, 62, 63, 249, 250, 251, 255, 256, 257, 65535, 65536,
    u32::MAX - 1, u32::MAX,
];
