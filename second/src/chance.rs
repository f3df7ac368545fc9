//! A small seeded generator (splitmix64): the same seed gives the same stream everywhere.

pub struct Chance {
    at: u64,
}

fn mix(mut x: u64) -> u64 {
    x = (x ^ (x >> 30)).wrapping_mul(0xbf58_476d_1ce4_e5b9);
    x = (x ^ (x >> 27)).wrapping_mul(0x94d0_49bb_1331_11eb);
    x ^ (x >> 31)
}

impl Chance {
    /// Every case has its own stream, so a change to one kind of case leaves the others as they are.
    pub fn of_case(seed: u64, number: u64) -> Chance {
        Chance {
            at: mix(mix(seed ^ 0x5eed).wrapping_add(number)),
        }
    }

    fn next(&mut self) -> u64 {
        self.at = self.at.wrapping_add(0x9e37_79b9_7f4a_7c15);
        mix(self.at)
    }

    /// 0 to n-1.
    pub fn below(&mut self, n: u32) -> u32 {
        ((u128::from(self.next()) * u128::from(n)) >> 64) as u32
    }

    /// From low to high, both included.
    pub fn between(&mut self, low: u32, high: u32) -> u32 {
        low + self.below(high - low + 1)
    }

    pub fn percent(&mut self, p: u32) -> bool {
        self.below(100) < p
    }

    pub fn any(&mut self) -> u32 {
        self.next() as u32
    }

    pub fn pick<T: Copy>(&mut self, from: &[T]) -> T {
        from[self.below(from.len() as u32) as usize]
    }

    pub fn shuffle<T>(&mut self, list: &mut [T]) {
        for n in (1..list.len()).rev() {
            let m = self.below(n as u32 + 1) as usize;
            list.swap(n, m);
        }
    }
}
