//! What ctsim's files call of the crate `rand`, with the meaning of docs/RULES.md;
//! `gen_range` is the draw modulo the range's length, for capture rounds.
//!
//! The random topologies are left out of the comparison. What only they call has
//! to compile and no more: it stops with a message.

use std::ops::{Range, RangeInclusive};

pub trait RngCore {
    /// The next draw.
    fn next_u64(&mut self) -> u64;
}

pub trait SeedableRng: Sized {
    fn seed_from_u64(seed: u64) -> Self;
}

pub trait Rng: RngCore {
    fn gen<T: Standard>(&mut self) -> T {
        T::from_draw(self.next_u64())
    }

    /// L11: the draw is below 2^63. No other probability has a meaning.
    fn gen_bool(&mut self, p: f64) -> bool {
        assert!(p == 0.5, "gen_bool({p}): only 0.5 has a meaning");
        self.next_u64() < 1 << 63
    }

    fn gen_range<S: SampleRange>(&mut self, range: S) -> usize {
        range.sample(self.next_u64())
    }
}

impl<R: RngCore + ?Sized> Rng for R {}

pub trait Standard {
    fn from_draw(draw: u64) -> Self;
}

impl Standard for f64 {
    /// The fraction m / 2^53, m the draw's top 53 bits: exact.
    fn from_draw(draw: u64) -> f64 {
        (draw >> 11) as f64 / (1u64 << 53) as f64
    }
}

pub trait SampleRange {
    fn sample(self, draw: u64) -> usize;
}

impl SampleRange for RangeInclusive<usize> {
    /// L11, for 0..=i: the draw modulo i + 1.
    fn sample(self, draw: u64) -> usize {
        assert!(*self.start() == 0, "gen_range: only 0..=i has a meaning");
        (draw % (*self.end() as u64 + 1)) as usize
    }
}

impl SampleRange for Range<usize> {
    fn sample(self, _draw: u64) -> usize {
        panic!("gen_range: only 0..=i has a meaning")
    }
}

pub mod seq {
    pub trait SliceRandom {
        type Item;
        fn choose<R: crate::Rng + ?Sized>(&self, rng: &mut R) -> Option<&Self::Item>;
    }

    impl<T> SliceRandom for [T] {
        type Item = T;

        fn choose<R: crate::Rng + ?Sized>(&self, _rng: &mut R) -> Option<&T> {
            panic!("choose: random topologies are left out")
        }
    }
}
