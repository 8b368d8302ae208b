//! A small seeded source of numbers (the splitmix steps), so that each case can be made again.

pub struct Rng {
    state: u64,
}

impl Rng {
    pub fn new(seed: u64) -> Rng {
        Rng { state: seed }
    }

    /// A source of its own for each part and case of a seed.
    pub fn for_case(seed: u64, part: u64, case: u64) -> Rng {
        let mut rng = Rng::new(seed);
        let first = rng.next() ^ (part << 48) ^ case;
        let mut rng = Rng::new(first);
        let second = rng.next();
        Rng::new(second)
    }

    pub fn next(&mut self) -> u64 {
        self.state = self.state.wrapping_add(0x9e37_79b9_7f4a_7c15);
        let mut mixed = self.state;
        mixed = (mixed ^ (mixed >> 30)).wrapping_mul(0xbf58_476d_1ce4_e5b9);
        mixed = (mixed ^ (mixed >> 27)).wrapping_mul(0x94d0_49bb_1331_11eb);
        mixed ^ (mixed >> 31)
    }

    /// A number from 0 to `bound` - 1.
    pub fn below(&mut self, bound: u32) -> u32 {
        ((self.next() >> 32) * u64::from(bound) >> 32) as u32
    }

    /// True `hits` times out of `of`.
    pub fn chance(&mut self, hits: u32, of: u32) -> bool {
        self.below(of) < hits
    }

    pub fn byte(&mut self) -> u8 {
        self.next() as u8
    }

    pub fn bytes(&mut self, length: usize) -> Vec<u8> {
        (0..length).map(|_| self.byte()).collect()
    }

    /// One of the things, or nothing if there are none.
    pub fn pick<T: Clone>(&mut self, things: &[T]) -> Option<T> {
        if things.is_empty() {
            None
        } else {
            Some(things[self.below(things.len() as u32) as usize].clone())
        }
    }

    /// A density in sixteenths, both ends included.
    pub fn density(&mut self) -> u32 {
        [0, 1, 1, 2, 4, 8, 12, 15, 16][self.below(9) as usize]
    }

    /// A word of 32 bits: empty, one bit, full, or of any density.
    pub fn word(&mut self) -> u32 {
        match self.below(6) {
            0 => 0,
            1 => 1 << self.below(32),
            2 => u32::MAX,
            _ => {
                let density = self.density();
                (0..32).map(|bit| u32::from(self.chance(density, 16)) << bit).sum()
            }
        }
    }

    /// The numbers below `count` in any order.
    pub fn shuffled(&mut self, count: u8) -> Vec<u8> {
        let mut numbers: Vec<u8> = (0..count).collect();
        for last in (1..numbers.len()).rev() {
            numbers.swap(last, self.below(last as u32 + 1) as usize);
        }
        numbers
    }
}
