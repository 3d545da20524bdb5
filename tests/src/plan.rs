//! How many inputs a run takes, and from which seed.

use crate::random::Random;

/// The seed of a run that is given none.
pub const DEFAULT_SEED: u64 = 754;

/// The size and the seed of a run. The sizes are in thousandths of the quick
/// run's.
#[derive(Clone, Copy)]
pub struct Plan {
    seed: u64,
    /// How many cases a kind takes.
    cases: u64,
    /// How many inputs a function of one or a few numbers takes. There are many in
    /// the quick run already.
    values: u64,
    /// How often the largest meshes are gone over. Their forms are always the same.
    rounds: u64,
}

impl Plan {
    /// The gate's run: one of five inputs of the quick run.
    pub fn gate(seed: u64) -> Self {
        Self {
            seed,
            cases: 200,
            values: 200,
            rounds: 200,
        }
    }

    /// A run of two and a half minutes.
    pub fn quick(seed: u64) -> Self {
        Self {
            seed,
            cases: 1000,
            values: 1000,
            rounds: 1000,
        }
    }

    /// A run of about seven minutes.
    pub fn large(seed: u64) -> Self {
        Self {
            seed,
            cases: 7000,
            values: 2000,
            rounds: 2000,
        }
    }

    /// A run small enough for a unit test.
    #[cfg(test)]
    pub fn tiny() -> Self {
        Self::quick(DEFAULT_SEED).part(1000)
    }

    pub fn seed(&self) -> u64 {
        self.seed
    }

    /// The number of cases of which the quick run takes `quick`.
    pub fn times(&self, quick: u64) -> u64 {
        (quick * self.cases).div_ceil(1000)
    }

    /// The same of inputs of a function of numbers.
    pub fn values(&self, quick: u64) -> u64 {
        (quick * self.values).div_ceil(1000)
    }

    /// The same of rounds over the largest meshes.
    pub fn rounds(&self, quick: u64) -> u64 {
        (quick * self.rounds).div_ceil(1000)
    }

    /// The same run with one of every `n` inputs, for a slow kind.
    pub fn part(&self, n: u64) -> Self {
        Self {
            seed: self.seed,
            cases: self.cases.div_ceil(n),
            values: self.values.div_ceil(n),
            rounds: self.rounds.div_ceil(n),
        }
    }

    /// The random numbers of the kind with this name. Each kind has its own,
    /// so that a change to one kind leaves the inputs of the others alone.
    pub fn random(&self, kind: &str) -> Random {
        kind.bytes().fold(Random::new(self.seed), |mut random, b| {
            Random::new(random.bits() ^ u64::from(b))
        })
    }
}

#[cfg(test)]
mod tests {
    use super::*;

    #[test]
    fn a_large_run_takes_more() {
        for size in [Plan::times, Plan::values, Plan::rounds] {
            assert_eq!(size(&Plan::gate(1), 50), 10);
            assert_eq!(size(&Plan::quick(1), 50), 50);
            assert!(size(&Plan::large(1), 50) > 50);
            assert_eq!(size(&Plan::tiny(), 50), 1);
        }
    }

    #[test]
    fn kinds_and_seeds_have_their_own_numbers() {
        let first = |seed, kind| Plan::quick(seed).random(kind).bits();
        assert_eq!(first(1, "a"), first(1, "a"));
        assert_ne!(first(1, "a"), first(1, "b"));
        assert_ne!(first(1, "a"), first(2, "a"));
    }
}
