//! A small random generator (splitmix64), since a seed must give the same cases everywhere and no crate is at hand.

pub struct Random {
    state: u64,
}

impl Random {
    pub fn new(seed: u64) -> Self {
        Random { state: seed }
    }

    /// Each case has a generator of its own, so that it can be made again alone.
    pub fn of_case(seed: u64, number: u64) -> Self {
        let base = Random::new(seed).next();
        Random::new(Random::new(base ^ number).next())
    }

    pub fn next(&mut self) -> u64 {
        self.state = self.state.wrapping_add(0x9e37_79b9_7f4a_7c15);
        let mixed = (self.state ^ (self.state >> 30)).wrapping_mul(0xbf58_476d_1ce4_e5b9);
        let mixed = (mixed ^ (mixed >> 27)).wrapping_mul(0x94d0_49bb_1331_11eb);
        mixed ^ (mixed >> 31)
    }

    /// Any number below `count`.
    pub fn below(&mut self, count: usize) -> usize {
        (self.next() % count as u64) as usize
    }

    /// Any number from `low` to `high`, both among them.
    pub fn between(&mut self, low: usize, high: usize) -> usize {
        low + self.below(high - low + 1)
    }

    pub fn chance(&mut self, percent: usize) -> bool {
        self.below(100) < percent
    }

    pub fn byte(&mut self) -> u8 {
        self.next() as u8
    }

    pub fn bytes(&mut self, count: usize) -> Vec<u8> {
        let words = std::iter::repeat_with(|| self.next().to_le_bytes());
        let mut bytes: Vec<u8> = words.take(count.div_ceil(8)).flatten().collect();
        bytes.truncate(count);
        bytes
    }

    pub fn choose<T: Copy>(&mut self, from: &[T]) -> T {
        from[self.below(from.len())]
    }

    /// One of the choices, each as often as its weight says.
    pub fn weighted<T: Copy>(&mut self, choices: &[(usize, T)]) -> T {
        let whole = choices.iter().map(|&(weight, _)| weight).sum();
        let mut left = self.below(whole);
        for &(weight, choice) in choices {
            if left < weight {
                return choice;
            }
            left -= weight;
        }
        unreachable!("what is left is below the sum of all weights")
    }

    /// So many different ones, in any order.
    pub fn sample<T: Copy>(&mut self, from: &[T], count: usize) -> Vec<T> {
        let mut drawn = from.to_vec();
        for at in 0..count {
            let other = self.between(at, drawn.len() - 1);
            drawn.swap(at, other);
        }
        drawn.truncate(count);
        drawn
    }

    pub fn shuffled<T: Copy>(&mut self, all: &[T]) -> Vec<T> {
        self.sample(all, all.len())
    }
}

#[cfg(test)]
mod tests {
    use super::*;

    /// The published first outputs of splitmix64 for this seed.
    #[test]
    fn the_generator_is_splitmix64() {
        let mut random = Random::new(1_234_567);
        let found = [random.next(), random.next(), random.next()];
        assert_eq!(
            found,
            [6_457_827_717_110_365_317, 3_203_168_211_198_807_973, 9_817_491_932_198_370_423]
        );
    }

    #[test]
    fn a_sample_has_no_two_alike() {
        let mut random = Random::new(1);
        let all: Vec<u8> = (1..64).collect();
        for count in 0..=63 {
            let mut drawn = random.sample(&all, count);
            drawn.sort_unstable();
            drawn.dedup();
            assert_eq!(drawn.len(), count);
        }
    }

    #[test]
    fn bounds_are_reached_and_kept() {
        let mut random = Random::new(2);
        let found: Vec<_> = (0..200).map(|_| random.between(3, 6)).collect();
        assert_eq!((found.iter().min(), found.iter().max()), (Some(&3), Some(&6)));
    }

    #[test]
    fn weights_decide() {
        let mut random = Random::new(3);
        let found: Vec<_> =
            (0..4000).map(|_| random.weighted(&[(3, 'a'), (0, 'b'), (1, 'c')])).collect();
        let count = |letter| found.iter().filter(|&&drawn| drawn == letter).count();
        assert_eq!(count('b'), 0);
        assert!((900..1100).contains(&count('c')), "{}", count('c'));
    }

    #[test]
    fn cases_differ() {
        let first = |seed, number| Random::of_case(seed, number).next();
        let mut found: Vec<_> =
            (0..40).flat_map(|seed| (0..40).map(move |number| first(seed, number))).collect();
        found.sort_unstable();
        found.dedup();
        assert_eq!(found.len(), 1600);
    }
}
