//! Compares oracle/'s generator with the published vectors and with Debian's
//! rand and rand_chacha. `gen_range` is left out: it has another
//! meaning than the crate's.

mod vectors;

use rand::{Rng, RngCore, SeedableRng};
use rand_chacha::ChaCha8Rng;
use shim_rand::{Rng as _, RngCore as _, SeedableRng as _};
use shim_rand_chacha::ChaCha8Rng as Shim;

/// 25 blocks of 8 draws: more than rand_chacha works out at once.
const DRAWS: usize = 200;

fn main() {
    vectors::check();
    let seeds = seeds();
    for &seed in &seeds {
        compare_draws(seed, DRAWS);
        compare_fractions(seed);
        compare_coins(seed);
    }
    compare_draws(7, 1_000_000);
    let keys = 1000;
    for seed in 0..keys {
        compare_blocks(Shim::seed_from_u64(seed));
    }
    println!("vectors: all as published");
    println!(
        "seeds: {} with {DRAWS} draws, fractions and coins each: all equal",
        seeds.len()
    );
    println!("seed 7: 1000000 draws: all equal");
    println!("keys: {keys}, also where the block counter passes 2^32: all equal");
}

/// The first and last numbers, those around powers of two, and scattered ones.
fn seeds() -> Vec<u64> {
    let mut seeds: Vec<u64> = (0..2000).collect();
    seeds.extend((0..2000).map(|k| u64::MAX - k));
    for power in 0..64 {
        let at = 1u64 << power;
        seeds.extend([at - 1, at, at.wrapping_add(1), !at]);
    }
    let mut scattered = Shim::seed_from_u64(2024);
    seeds.extend((0..6000).map(|_| scattered.next_u64()));
    seeds
}

fn compare_draws(seed: u64, count: usize) {
    let mut shim = Shim::seed_from_u64(seed);
    let mut real = ChaCha8Rng::seed_from_u64(seed);
    for k in 0..count {
        assert_eq!(shim.next_u64(), real.next_u64(), "seed {seed}, draw {k}");
    }
}

fn compare_fractions(seed: u64) {
    let mut shim = Shim::seed_from_u64(seed);
    let mut real = ChaCha8Rng::seed_from_u64(seed);
    for k in 0..DRAWS {
        let (ours, theirs): (f64, f64) = (shim.gen(), real.gen());
        assert_eq!(
            ours.to_bits(),
            theirs.to_bits(),
            "seed {seed}, fraction {k}"
        );
    }
}

/// `gen_bool(0.5)`, where L11's meaning and the crate's are the same.
fn compare_coins(seed: u64) {
    let mut shim = Shim::seed_from_u64(seed);
    let mut real = ChaCha8Rng::seed_from_u64(seed);
    for k in 0..DRAWS {
        assert_eq!(
            shim.gen_bool(0.5),
            real.gen_bool(0.5),
            "seed {seed}, coin {k}"
        );
    }
}

/// Any key, from block 0 and from just before word 12 overflows into word 13.
fn compare_blocks(mut scattered: Shim) {
    let key = [0; 8].map(|_: u32| scattered.next_u64() as u32);
    let mut bytes = [0; 32];
    for (four, word) in bytes.chunks_mut(4).zip(key) {
        four.copy_from_slice(&word.to_le_bytes());
    }
    for block in [0, (1u64 << 32) - 2] {
        let mut shim = Shim::from_key(key, block);
        let mut real = ChaCha8Rng::from_seed(bytes);
        real.set_word_pos(u128::from(block) * 16);
        for k in 0..DRAWS {
            assert_eq!(
                shim.next_u64(),
                real.next_u64(),
                "key {key:x?}, block {block}, draw {k}"
            );
        }
    }
}
