//! What the library is measured beside: a linear scan, and the tree's search, filing, withdrawing and rebuilding and the signer,
//! hand-written with no index checked. None asks any question, and all trust the tables. They are a crate of their own: compiled into the
//! program, they moved by a fifth from build to build with the code around them. It is compiled twice: as `hand` for any x86-64 processor,
//! which is how the library is delivered, and as `hand_native` for the one that runs it.
//!
//! The searches, each between the same clearing and the same listing:
//! - `plain`: one recursive function.
//! - `fastest`: the fastest found that calls itself on each side, and marks a chain where it has compared its head.
//! - `three_words`: the same function over the form of 5B + 2 links.
//! - `looped`: faster still by other steps. It calls nothing, and gathers the heads that cover before it marks their chains.
//! - `wide_plain`, `wide_fastest`: the first two over signatures of W words, W known when they run; so for the calls that change tables.
//! - `wide_compared`: `wide_plain` that trusts no chain, but compares each block that it lists, as the library has to.
#[path = "hand/change.rs"]
mod change;
#[path = "hand/search.rs"]
mod search;
#[path = "hand/sign.rs"]
mod sign;
#[path = "hand/words.rs"]
mod words;

pub use change::{file, rebuild, wide_file, wide_rebuild, wide_withdraw, withdraw};
pub use search::{fastest, looped, plain, scan, three_words, wide_compared, wide_fastest, wide_plain, wide_scan};
pub use sign::{sign, sign_fastest};

#[derive(Clone, Copy, Debug, Default, PartialEq)]
pub struct Counts {
    pub found: u32,
    pub compares: u32,
    pub bits: u32,
}

/// Sound tables. `three_words` is lent the links of the form of 5B + 2, and reads no nodes beside them.
#[derive(Clone, Copy)]
pub struct Tables<'a> {
    pub signatures: &'a [u64],
    pub links: &'a [u32],
    pub nodes: &'a [u64],
}

impl Tables<'_> {
    fn blocks(self) -> usize {
        self.nodes.len() + 1
    }
}

/// A node's word: position * 2^34 + left * 2^17 + right.
const SIDE: u32 = 17;
const REFERENCE: u64 = (1 << SIDE) - 1;

fn joined(position: u32, left: usize, right: usize) -> u64 {
    (position as u64) << (2 * SIDE) | (left as u64) << SIDE | right as u64
}

fn position(word: u64) -> u32 {
    (word >> (2 * SIDE)) as u32
}

fn left(word: u64) -> usize {
    (word >> SIDE & REFERENCE) as usize
}

fn right(word: u64) -> usize {
    (word & REFERENCE) as usize
}
