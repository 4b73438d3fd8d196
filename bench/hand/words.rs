//! A signature or query as what is hand-written has it: one word, which stays in a register, or W words, the high one first, W known when
//! it runs. Searches and changes are written once and compiled for either.
use std::ops::Range;
use std::ptr::{copy_nonoverlapping, read_volatile, write_volatile};

/// Room for a turned query: position j at bit j mod 64 of word j / 64, so that a node's position finds its bit.
pub type Room = [u64; 9];

pub trait Words: Copy {
    /// A query, turned.
    type Turned: Copy;
    /// What the walk of a change asks for positions.
    type Path: Copy;
    /// Whether a chain is marked from its second block on by a call, so that a search's loops lack no register.
    const FEW_REGISTERS: bool;

    unsafe fn turned(self, width: u32, room: &mut Room) -> Self::Turned;
    unsafe fn is_set(turned: Self::Turned, position: u32) -> bool;
    unsafe fn path(self, width: u32) -> Self::Path;
    unsafe fn goes_right(path: Self::Path, position: u32) -> bool;
    /// Its bit at a position, 0 or 1.
    unsafe fn bit(self, width: u32, position: u32) -> u32;
    /// How many words it has.
    fn words(self) -> usize;

    /// The signature of a block, where each has so many words.
    unsafe fn stored(signatures: *const u64, words: usize, block: usize) -> Self;
    unsafe fn store(self, signatures: *mut u64, block: usize);
    unsafe fn clear(self, signatures: *mut u64, block: usize);
    /// The bit of a block's signature, read as volatile.
    unsafe fn read_bit(signatures: *const u64, words: usize, block: usize, width: u32, position: u32) -> u32;

    unsafe fn is_covered(self, signature: Self) -> bool;
    unsafe fn is(self, other: Self) -> bool;
    unsafe fn first_difference(self, other: Self, width: u32) -> u32;
}

impl Words for u64 {
    type Turned = u64;
    type Path = u64;
    const FEW_REGISTERS: bool = false;

    #[inline(always)]
    unsafe fn turned(self, width: u32, _: &mut Room) -> u64 {
        (self << (64 - width)).reverse_bits().rotate_left(1)
    }
    #[inline(always)]
    unsafe fn is_set(turned: u64, position: u32) -> bool {
        turned.wrapping_shr(position) & 1 == 1
    }
    #[inline(always)]
    unsafe fn path(self, width: u32) -> u64 {
        self.turned(width, &mut [0; 9])
    }
    #[inline(always)]
    unsafe fn goes_right(path: u64, position: u32) -> bool {
        Self::is_set(path, position)
    }
    #[inline(always)]
    unsafe fn bit(self, width: u32, position: u32) -> u32 {
        (self >> (width - position)) as u32 & 1
    }
    #[inline(always)]
    fn words(self) -> usize {
        1
    }
    #[inline(always)]
    unsafe fn stored(signatures: *const u64, _: usize, block: usize) -> u64 {
        *signatures.add(block - 1)
    }
    #[inline(always)]
    unsafe fn store(self, signatures: *mut u64, block: usize) {
        *signatures.add(block - 1) = self;
    }
    #[inline(always)]
    unsafe fn clear(self, signatures: *mut u64, block: usize) {
        *signatures.add(block - 1) = 0;
    }
    #[inline(always)]
    unsafe fn read_bit(signatures: *const u64, _: usize, block: usize, width: u32, position: u32) -> u32 {
        read_volatile(signatures.add(block - 1)).bit(width, position)
    }
    #[inline(always)]
    unsafe fn is_covered(self, signature: u64) -> bool {
        self & !signature == 0
    }
    #[inline(always)]
    unsafe fn is(self, other: u64) -> bool {
        self == other
    }
    #[inline(always)]
    unsafe fn first_difference(self, other: u64, width: u32) -> u32 {
        (self ^ other).leading_zeros() + width - 63
    }
}

/// So many words from an address on. A query's high word stands beside them, so that a compare reads it at once.
#[derive(Clone, Copy)]
pub struct Many {
    first: *const u64,
    words: usize,
    high: u64,
}

impl Many {
    pub fn of(words: &[u64]) -> Many {
        Many { first: words.as_ptr(), words: words.len(), high: words[0] }
    }
    #[inline(always)]
    unsafe fn word(self, i: usize) -> u64 {
        *self.first.add(i)
    }
    /// Whether these words of it are covered.
    #[inline(always)]
    pub unsafe fn is_covered_in(self, signature: Many, mut words: Range<usize>) -> bool {
        words.all(|i| self.word(i) & !signature.word(i) == 0)
    }
    /// How many words before a signature's end the one with a position stands, and how far the position from its right.
    #[inline(always)]
    fn place(width: u32, position: u32) -> (usize, u32) {
        ((width - position) as usize / 64 + 1, (width - position) % 64)
    }
}

/// Tried beside a search of this kind, B 1,024 and 65,535, this one 1.00: all words in one loop 1.06 and 1.03; the words after the
/// high one by a call 1.06 at 1,024, a third longer for query 0; the query not turned 1.05; all of a chain marked in the loop 1.02 and
/// 1.00; all of it by a call 1.00 and 1.01, a fifth longer for query 0. For filing, the walk's signature turned 1.1; all words copied by
/// a call 1.05.
impl Words for Many {
    type Turned = *const u64;
    /// The signature's end, and the width.
    type Path = (*const u64, u32);
    const FEW_REGISTERS: bool = true;

    #[inline(always)]
    unsafe fn turned(self, width: u32, room: &mut Room) -> *const u64 {
        let unused = (64 - width % 64) % 64;
        room[0] = 0;
        for i in 0..self.words {
            let next = if i + 1 < self.words { self.word(i + 1) } else { 0 };
            let used = ((((self.word(i) as u128) << 64 | next as u128) << unused) >> 64) as u64;
            room[i] |= used.reverse_bits() << 1;
            room[i + 1] = used & 1;
        }
        room.as_ptr()
    }
    #[inline(always)]
    unsafe fn is_set(turned: *const u64, position: u32) -> bool {
        (*turned.add(position as usize / 64)).wrapping_shr(position) & 1 == 1
    }
    #[inline(always)]
    unsafe fn path(self, width: u32) -> (*const u64, u32) {
        (self.first.add(self.words), width)
    }
    #[inline(always)]
    unsafe fn goes_right((end, width): (*const u64, u32), position: u32) -> bool {
        let (back, shift) = Many::place(width, position);
        *end.sub(back) >> shift & 1 == 1
    }
    #[inline(always)]
    unsafe fn bit(self, width: u32, position: u32) -> u32 {
        Self::goes_right(self.path(width), position) as u32
    }
    #[inline(always)]
    fn words(self) -> usize {
        self.words
    }
    #[inline(always)]
    unsafe fn stored(signatures: *const u64, words: usize, block: usize) -> Many {
        Many { first: signatures.add((block - 1) * words), words, high: 0 }
    }
    /// The first word by itself: one is not worth a call that copies.
    #[inline(always)]
    unsafe fn store(self, signatures: *mut u64, block: usize) {
        let to = signatures.add((block - 1) * self.words);
        *to = self.word(0);
        if self.words > 1 {
            copy_nonoverlapping(self.first.add(1), to.add(1), self.words - 1);
        }
    }
    /// As volatile, so that the loop is no call.
    #[inline(always)]
    unsafe fn clear(self, signatures: *mut u64, block: usize) {
        let to = signatures.add((block - 1) * self.words);
        for i in 0..self.words {
            write_volatile(to.add(i), 0);
        }
    }
    #[inline(always)]
    unsafe fn read_bit(signatures: *const u64, words: usize, block: usize, width: u32, position: u32) -> u32 {
        let (back, shift) = Many::place(width, position);
        (read_volatile(signatures.add(block * words - back)) >> shift) as u32 & 1
    }
    #[inline(always)]
    unsafe fn is_covered(self, signature: Many) -> bool {
        self.high & !signature.word(0) == 0 && self.is_covered_in(signature, 1..self.words)
    }
    #[inline(always)]
    unsafe fn is(self, other: Many) -> bool {
        (0..self.words).all(|i| self.word(i) == other.word(i))
    }
    #[inline(always)]
    unsafe fn first_difference(self, other: Many, width: u32) -> u32 {
        let mut i = 0;
        while self.word(i) == other.word(i) {
            i += 1;
        }
        let to_end = (self.words - i) as u32 * 64;
        (self.word(i) ^ other.word(i)).leading_zeros() + width + 1 - to_end
    }
}
