//! A xorshift generator: small, and a seed always gives the same sequence.
/// Fixed, so that a run can be repeated.
const DEFAULT_SEED: u64 = 20_261_115;

/// A number from the environment, or the default if it is not set.
pub fn number(name: &str, default: u64) -> u64 {
    match std::env::var(name) {
        Ok(text) => text.trim().parse().unwrap_or_else(|_| panic!("{name} is not a number: {text}")),
        Err(_) => default,
    }
}

/// The seed of a test; prints it, so that a failure can be repeated.
pub fn seed(test: &str) -> u64 {
    let seed = number("GRELFINT_SEED", DEFAULT_SEED);
    println!("{test}: seed {seed} (GRELFINT_SEED)");
    seed
}

pub struct Rng(u64);

impl Rng {
    pub fn new(seed: u64) -> Rng {
        let mut r = Rng((seed ^ 0x9E37_79B9_7F4A_7C15).max(1)); // from 0 it would only give 0
        for _ in 0..8 {
            r.next();
        }
        r
    }

    fn next(&mut self) -> u64 {
        let mut x = self.0;
        x ^= x << 13;
        x ^= x >> 7;
        x ^= x << 17;
        self.0 = x;
        x.wrapping_mul(0x2545_F491_4F6C_DD1D)
    }

    /// A number from 0 to n - 1.
    pub fn below(&mut self, n: usize) -> usize {
        ((self.next() >> 32) as usize) % n
    }

    /// A number from a to b, inclusive.
    pub fn within(&mut self, a: usize, b: usize) -> usize {
        a + self.below(b - a + 1)
    }

    /// True with a probability of `of` in `outof`.
    pub fn chance(&mut self, of: usize, outof: usize) -> bool {
        self.below(outof) < of
    }

    pub fn byte(&mut self) -> u8 {
        (self.next() >> 40) as u8
    }

    pub fn word(&mut self) -> u16 {
        (self.next() >> 40) as u16
    }

    pub fn long(&mut self) -> u32 {
        (self.next() >> 32) as u32
    }

    pub fn pick<T: Copy>(&mut self, from: &[T]) -> T {
        from[self.below(from.len())]
    }

    pub fn fill(&mut self, bytes: &mut [u8]) {
        for part in bytes.chunks_mut(8) {
            let x = self.next().to_le_bytes();
            part.copy_from_slice(&x[..part.len()]);
        }
    }
}

/// A number from a to b; each limit is drawn more often than the numbers between them.
pub fn edge(g: &mut Rng, a: usize, b: usize) -> usize {
    match g.below(4) {
        0 => a,
        1 => b,
        _ => g.within(a, b),
    }
}
