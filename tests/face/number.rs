//! A signature as a number below 2^512, whatever its width. Words come in only where it is lent or stored: high word first.
use crate::rng::Rng;
use std::fmt::{Debug, Formatter, Result as Written};
use std::ops::{BitAnd, BitXor};

pub const WIDEST: u32 = 512;

/// The words of a signature of this width.
pub fn word_count(width: u32) -> usize {
    (width as usize).div_ceil(64)
}

/// The bit of weight 2^k is bit k % 64 of limb k / 64.
#[derive(Clone, Copy, Default, PartialEq, Eq, PartialOrd, Ord)]
pub struct Number([u64; 8]);

impl Number {
    pub fn weight(k: u32) -> Number {
        Number::default().with(k)
    }
    /// 2^width - 1
    pub fn ones(width: u32) -> Number {
        Number([u64::MAX; 8]).low(width)
    }
    pub fn random(rng: &mut Rng) -> Number {
        Number([0; 8].map(|_: u64| rng.next()))
    }
    pub fn bit(self, k: u32) -> u64 {
        self.0[k as usize / 64] >> (k % 64) & 1
    }
    /// Is it below 2^width?
    pub fn below(self, width: u32) -> bool {
        self == self.low(width)
    }
    /// The number modulo 2^width.
    pub fn low(self, width: u32) -> Number {
        let kept = |i: u32| match width.saturating_sub(64 * i) {
            0 => 0,
            bits @ 1..=63 => (1 << bits) - 1,
            _ => u64::MAX,
        };
        let mut n = self;
        (0..8).for_each(|i| n.0[i] &= kept(i as u32));
        n
    }
    /// Its last so many words in the other order: what a reading of its words low word first would take it for.
    pub fn turned(self, count: usize) -> Number {
        let mut n = self;
        n.0[..count].reverse();
        n
    }
    /// The number with this bit set.
    pub fn with(mut self, k: u32) -> Number {
        self.0[k as usize / 64] |= 1 << (k % 64);
        self
    }
    pub fn covers(self, query: Number) -> bool {
        self & query == query
    }

    /// The number in these words.
    pub fn read(words: &[u64]) -> Number {
        let mut n = Number::default();
        words.iter().rev().enumerate().for_each(|(i, &word)| n.0[i] = word);
        n
    }
    /// Its last so many words.
    pub fn words(self, count: usize) -> Vec<u64> {
        self.high_first(count).collect()
    }
    pub fn high_first(self, count: usize) -> impl Iterator<Item = u64> {
        (0..count).rev().map(move |i| self.0[i])
    }
}

impl BitAnd for Number {
    type Output = Number;
    fn bitand(mut self, other: Number) -> Number {
        self.0.iter_mut().zip(other.0).for_each(|(a, b)| *a &= b);
        self
    }
}

impl BitXor for Number {
    type Output = Number;
    fn bitxor(mut self, other: Number) -> Number {
        self.0.iter_mut().zip(other.0).for_each(|(a, b)| *a ^= b);
        self
    }
}

/// In hexadecimal, from its first word that is not 0 on.
impl Debug for Number {
    fn fmt(&self, f: &mut Formatter) -> Written {
        let words = (1..8).rev().find(|&i| self.0[i] != 0).map_or(1, |i| i + 1);
        write!(f, "0x{:x}", self.0[words - 1])?;
        self.0[..words - 1].iter().rev().try_for_each(|w| write!(f, "_{w:016x}"))
    }
}
