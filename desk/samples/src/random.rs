//! Numbers drawn from a seed: xoshiro256**, seeded by splitmix64. The same
//! seed gives the same files on every machine.

pub struct Random {
    state: [u64; 4],
}

impl Random {
    pub fn new(seed: u64) -> Random {
        let mut step = seed;
        Random {
            state: [(); 4].map(|()| splitmix(&mut step)),
        }
    }

    /// The draws of one of many files, so that each can be drawn alone.
    pub fn of_file(seed: u64, index: u64) -> Random {
        let mut step = seed;
        Random::new(splitmix(&mut step) ^ index.wrapping_mul(0xd134_2543_de82_ef95))
    }

    pub fn draw(&mut self) -> u64 {
        let [a, b, c, d] = self.state;
        let drawn = b.wrapping_mul(5).rotate_left(7).wrapping_mul(9);
        let (c, d) = (c ^ a, d ^ b);
        self.state = [a ^ d, b ^ c, c ^ (b << 17), d.rotate_left(45)];
        drawn
    }

    /// From 0 up to before `bound`, which is above 0. The upper half of the
    /// product is even enough for files.
    pub fn below(&mut self, bound: usize) -> usize {
        ((u128::from(self.draw()) * bound as u128) >> 64) as usize
    }

    /// From `low` to `high`, both included.
    pub fn between(&mut self, low: u64, high: u64) -> u64 {
        low + ((u128::from(self.draw()) * u128::from(high - low + 1)) >> 64) as u64
    }

    /// True in so many of a hundred draws.
    pub fn percent(&mut self, share: usize) -> bool {
        self.below(100) < share
    }

    pub fn pick<T: Copy>(&mut self, from: &[T]) -> T {
        from[self.below(from.len())]
    }

    /// One of those given, if there are any.
    pub fn choose<'a, T>(&mut self, from: &'a [T]) -> Option<&'a T> {
        (!from.is_empty()).then(|| &from[self.below(from.len())])
    }

    pub fn shuffle<T>(&mut self, items: &mut [T]) {
        for last in (1..items.len()).rev() {
            items.swap(last, self.below(last + 1));
        }
    }
}

fn splitmix(step: &mut u64) -> u64 {
    *step = step.wrapping_add(0x9e37_79b9_7f4a_7c15);
    let mut mixed = *step;
    mixed = (mixed ^ (mixed >> 30)).wrapping_mul(0xbf58_476d_1ce4_e5b9);
    mixed = (mixed ^ (mixed >> 27)).wrapping_mul(0x94d0_49bb_1331_11eb);
    mixed ^ (mixed >> 31)
}

#[cfg(test)]
mod tests {
    use super::*;

    #[test]
    fn the_published_first_numbers() {
        let mut step = 0;
        assert_eq!(splitmix(&mut step), 0xe220_a839_7b1d_cdaf);
        assert_eq!(splitmix(&mut step), 0x6e78_9e6a_a1b9_65f4);
        let mut random = Random {
            state: [1, 2, 3, 4],
        };
        let drawn = [(); 4].map(|()| random.draw());
        assert_eq!(drawn, [11520, 0, 1_509_978_240, 1_215_971_899_390_074_240]);
    }

    #[test]
    fn draws_keep_their_bounds() {
        let mut random = Random::new(1);
        for _ in 0..1000 {
            assert!(random.below(7) < 7);
            assert!((3..=5).contains(&random.between(3, 5)));
        }
        assert_eq!(random.between(9, 9), 9);
        let mut all = [0, 1, 2, 3, 4];
        random.shuffle(&mut all);
        all.sort_unstable();
        assert_eq!(all, [0, 1, 2, 3, 4]);
    }

    #[test]
    fn files_of_one_seed_differ() {
        let first = Random::of_file(1, 0).draw();
        assert_ne!(first, Random::of_file(1, 1).draw());
        assert_ne!(first, Random::of_file(2, 0).draw());
    }
}
