//! Random numbers from a fixed seed (SplitMix64), and a guard that names the failing case.

pub struct Random {
    state: u64,
}

impl Random {
    pub fn new(seed: u64) -> Random {
        Random { state: seed }
    }

    fn number(&mut self) -> u64 {
        self.state = self.state.wrapping_add(0x9E37_79B9_7F4A_7C15);
        let mut z = self.state;
        z = (z ^ (z >> 30)).wrapping_mul(0xBF58_476D_1CE4_E5B9);
        z = (z ^ (z >> 27)).wrapping_mul(0x94D0_49BB_1331_11EB);
        z ^ (z >> 31)
    }

    /// A number from 0 to n - 1.
    pub fn below(&mut self, n: usize) -> usize {
        (self.number() % n as u64) as usize
    }

    /// A number from `least` to `most`.
    pub fn between(&mut self, least: usize, most: usize) -> usize {
        least + self.below(most - least + 1)
    }

    /// A number from 0 to 1, both included.
    pub fn fraction(&mut self) -> f64 {
        self.between(0, 1 << 53) as f64 / (1u64 << 53) as f64
    }

    /// True in `part` of `whole` calls.
    pub fn chance(&mut self, part: usize, whole: usize) -> bool {
        self.below(whole) < part
    }

    /// The numbers 1 to m in a random order.
    pub fn order(&mut self, m: usize) -> Vec<u16> {
        let mut numbers: Vec<u16> = (1..=m as u16).collect();
        for i in (1..m).rev() {
            numbers.swap(i, self.below(i + 1));
        }
        numbers
    }

    /// m bytes of which about `part` in `whole` are 1, the others 0.
    pub fn selection(&mut self, m: usize, part: usize, whole: usize) -> Vec<u8> {
        (0..m).map(|_| self.chance(part, whole) as u8).collect()
    }

    /// m p-values in millionths, of which about `part` in `whole` are at most 1,000, the others anywhere.
    pub fn p_values(&mut self, m: usize, part: usize, whole: usize) -> Vec<u32> {
        let most = [1_000_000, 1_000];
        (0..m)
            .map(|_| {
                let small = self.chance(part, whole) as usize;
                self.between(0, most[small]) as u32
            })
            .collect()
    }
}

struct Running {
    seed: u64,
    case: u64,
}

impl Drop for Running {
    fn drop(&mut self) {
        if std::thread::panicking() {
            eprintln!("failed with seed {} in case {}", self.seed, self.case);
        }
    }
}

/// Runs a test `count` times, each time with random numbers that depend on the seed and the case only.
pub fn cases(seed: u64, count: u64, test: impl Fn(&mut Random)) {
    for case in 0..count {
        let _running = Running { seed, case };
        test(&mut Random::new(
            seed.wrapping_mul(1_000_003).wrapping_add(case),
        ));
    }
}
