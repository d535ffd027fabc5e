//! `ChaCha8Rng` as docs/RULES.md describes it: the seed expanded to ChaCha's key,
//! eight rounds, a 64-bit block counter from 0, words 14 and 15 zero.

use rand::{RngCore, SeedableRng};

/// RFC 8439's constants, words 0 to 3.
const CONSTANTS: [u32; 4] = [0x61707865, 0x3320646e, 0x79622d32, 0x6b206574];

/// The words that each quarter round of a double round takes: columns, diagonals.
const QUARTERS: [[usize; 4]; 8] = [
    [0, 4, 8, 12],
    [1, 5, 9, 13],
    [2, 6, 10, 14],
    [3, 7, 11, 15],
    [0, 5, 10, 15],
    [1, 6, 11, 12],
    [2, 7, 8, 13],
    [3, 4, 9, 14],
];

#[derive(Debug, Clone)]
pub struct ChaCha8Rng {
    key: [u32; 8],
    counter: u64,
    words: [u32; 16],
    used: usize,
}

impl ChaCha8Rng {
    /// The draws of a key, from the block with this number on.
    pub fn from_key(key: [u32; 8], counter: u64) -> Self {
        let words = [0; 16];
        Self {
            key,
            counter,
            words,
            used: words.len(),
        }
    }
}

impl SeedableRng for ChaCha8Rng {
    fn seed_from_u64(seed: u64) -> Self {
        Self::from_key(expand_seed(seed), 0)
    }
}

impl RngCore for ChaCha8Rng {
    /// Two output words, low first.
    fn next_u64(&mut self) -> u64 {
        if self.used == self.words.len() {
            self.words = block(&input(&self.key, self.counter), 8);
            self.counter = self.counter.wrapping_add(1);
            self.used = 0;
        }
        let low = self.words[self.used] as u64;
        let high = self.words[self.used + 1] as u64;
        self.used += 2;
        high << 32 | low
    }
}

/// ChaCha's key words of a seed.
pub fn expand_seed(seed: u64) -> [u32; 8] {
    let mut s = seed;
    [0; 8].map(|_: u32| {
        s = s
            .wrapping_mul(6364136223846793005)
            .wrapping_add(11634580027462260723);
        ((((s >> 18) ^ s) >> 27) as u32).rotate_right((s >> 59) as u32)
    })
}

/// The sixteen words that a block is worked out from.
pub fn input(key: &[u32; 8], counter: u64) -> [u32; 16] {
    let mut words = [0; 16];
    words[..4].copy_from_slice(&CONSTANTS);
    words[4..12].copy_from_slice(key);
    words[12] = counter as u32;
    words[13] = (counter >> 32) as u32;
    words
}

/// One block after `rounds` rounds, an even number.
pub fn block(input: &[u32; 16], rounds: usize) -> [u32; 16] {
    let mut words = *input;
    for _ in 0..rounds / 2 {
        for at in QUARTERS {
            let turned = quarter_round(at.map(|i| words[i]));
            for (i, word) in at.into_iter().zip(turned) {
                words[i] = word;
            }
        }
    }
    for (word, first) in words.iter_mut().zip(input) {
        *word = word.wrapping_add(*first);
    }
    words
}

pub fn quarter_round([mut a, mut b, mut c, mut d]: [u32; 4]) -> [u32; 4] {
    a = a.wrapping_add(b);
    d = (d ^ a).rotate_left(16);
    c = c.wrapping_add(d);
    b = (b ^ c).rotate_left(12);
    a = a.wrapping_add(b);
    d = (d ^ a).rotate_left(8);
    c = c.wrapping_add(d);
    b = (b ^ c).rotate_left(7);
    [a, b, c, d]
}
