//! For all tests: numbers that are the same at each run, the settings of a run, and answers in arrays.
use pageledger::Short;

pub struct Random(pub u64);

impl Random {
    pub fn next(&mut self) -> u64 {
        self.0 = self.0.wrapping_add(0x9e3779b97f4a7c15);
        let mut z = self.0;
        z = (z ^ (z >> 30)).wrapping_mul(0xbf58476d1ce4e5b9);
        z = (z ^ (z >> 27)).wrapping_mul(0x94d049bb133111eb);
        z ^ (z >> 31)
    }

    pub fn below(&mut self, n: u64) -> u64 {
        self.next() % n
    }

    pub fn one_in(&mut self, n: u64) -> bool {
        self.below(n) == 0
    }

    pub fn pick<T: Copy>(&mut self, from: &[T]) -> T {
        from[self.below(from.len() as u64) as usize]
    }
}

/// A number from the environment.
pub fn setting(name: &str, otherwise: u64) -> u64 {
    match std::env::var(name) {
        Ok(text) => text.parse().unwrap_or_else(|_| panic!("{name} is a number, and not {text}")),
        Err(_) => otherwise,
    }
}

/// An answer of N numbers in an array that has room for it; one that has not, and what lies behind the answer, may not be written.
pub fn told<const N: usize>(random: &mut Random, ask: impl Fn(&mut [u64]) -> Result<(), Short>) -> [u64; N] {
    const MARK: u64 = 0x5a5a_5a5a_5a5a_5a5a;
    if random.one_in(64) {
        let mut short = [MARK; N];
        let room = random.below(N as u64) as usize;
        assert_eq!(ask(&mut short[..room]), Err(Short));
        assert_eq!(short, [MARK; N], "an array that is too short was written");
    }
    let mut out = [MARK; 16];
    let room = N + random.below(3) as usize;
    assert_eq!(ask(&mut out[..room]), Ok(()));
    assert!(out[N..].iter().all(|x| *x == MARK), "more than an answer was written");
    *out.first_chunk().unwrap()
}
