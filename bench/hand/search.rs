//! The searches.
use super::words::{Many, Words};
use super::{left, position, right, Counts, Tables};
use std::mem::MaybeUninit;
use std::ops::Range;

/// A linear scan that writes the same marks and the same list. The result is how many are listed.
#[inline(never)]
pub fn scan(tables: Tables, query: u64, marks: &mut [u8], output: &mut [u32]) -> u32 {
    let mut found = 0;
    for (b, &s) in tables.signatures.iter().enumerate() {
        let hit = (s & query == query) & (tables.links[2 * b + 6] != 0);
        marks[b] = hit as u8;
        output[found] = b as u32 + 1;
        found += hit as usize;
    }
    found as u32
}

/// The same of signatures of W words. Where the high one passes it reads all others at once: word by word it is a third slower.
#[inline(never)]
pub fn wide_scan(tables: Tables, query: &[u64], marks: &mut [u8], output: &mut [u32]) -> u32 {
    let mut found = 0;
    for (b, s) in tables.signatures.chunks_exact(query.len()).enumerate() {
        let mut missing = query[0] & !s[0];
        if missing == 0 && query.len() > 1 {
            for i in 1..query.len() {
                // SAFETY: each signature has as many words as the query.
                missing |= unsafe { query.get_unchecked(i) & !s.get_unchecked(i) };
            }
        }
        let hit = (missing == 0) & (tables.links[2 * b + 6] != 0);
        marks[b] = hit as u8;
        output[found] = b as u32 + 1;
        found += hit as usize;
    }
    found as u32
}

/// Lists the marked blocks of a part, until found are listed.
unsafe fn list_part(marks: &[u8], output: &mut [u32], part: Range<usize>, mut listed: usize, found: usize) -> usize {
    for b in part {
        if listed == found {
            break;
        }
        *output.get_unchecked_mut(listed) = b as u32 + 1;
        listed += (*marks.get_unchecked(b) == 1) as usize;
    }
    listed
}

/// Lists the marked blocks, passing over runs of 64 that have none.
unsafe fn list(marks: &[u8], output: &mut [u32], blocks: usize, found: usize) {
    let (mut listed, mut b) = (0, 0);
    while listed < found && b + 64 <= blocks {
        let run = &*(marks.as_ptr().add(b) as *const [u8; 64]);
        if run.iter().fold(0, |any, m| any | m) != 0 {
            listed = list_part(marks, output, b..b + 64, listed, found);
        }
        b += 64;
    }
    list_part(marks, output, b..blocks, listed, found);
}

/// How a form holds its nodes. A `Node` is what a walk carries of one while it walks another side: by then the memory has answered.
trait Form: Copy {
    type Node: Copy;
    unsafe fn node(self, reference: usize) -> Self::Node;
    unsafe fn position(node: Self::Node) -> u32;
    unsafe fn left(node: Self::Node) -> usize;
    unsafe fn right(node: Self::Node) -> usize;
}

/// One word a node, from where reference 0 would stand: then a reference is its own index.
#[derive(Clone, Copy)]
struct OneWord(*const u64);

impl OneWord {
    fn of(tables: Tables) -> OneWord {
        OneWord(tables.nodes.as_ptr().wrapping_sub(tables.blocks() + 1))
    }
}

impl Form for OneWord {
    type Node = u64;
    #[inline(always)]
    unsafe fn node(self, reference: usize) -> u64 {
        *self.0.wrapping_add(reference)
    }
    #[inline(always)]
    unsafe fn position(node: u64) -> u32 {
        position(node)
    }
    #[inline(always)]
    unsafe fn left(node: u64) -> usize {
        left(node)
    }
    #[inline(always)]
    unsafe fn right(node: u64) -> usize {
        right(node)
    }
}

/// Three words a node, in the same way. The walk carries where they stand and the position, whose reading fetches the others.
///
/// Tried as below, this one 1.00: all three carried 1.21 and 1.09; none carried 1.03 and 1.04; none carried but fetched 1.02 and 1.03.
#[derive(Clone, Copy)]
struct ThreeWords(*const [u32; 3]);

impl ThreeWords {
    fn of(tables: Tables) -> ThreeWords {
        let blocks = tables.blocks();
        ThreeWords(tables.links[2 * blocks + 5..].as_ptr().cast::<[u32; 3]>().wrapping_sub(blocks + 1))
    }
}

impl Form for ThreeWords {
    type Node = (*const [u32; 3], u32);
    #[inline(always)]
    unsafe fn node(self, reference: usize) -> Self::Node {
        let at = self.0.wrapping_add(reference);
        (at, (*at)[0])
    }
    #[inline(always)]
    unsafe fn position(node: Self::Node) -> u32 {
        node.1
    }
    #[inline(always)]
    unsafe fn left(node: Self::Node) -> usize {
        (*node.0)[1] as usize
    }
    #[inline(always)]
    unsafe fn right(node: Self::Node) -> usize {
        (*node.0)[2] as usize
    }
}

/// What a walk asks of the blocks on a chain after its head.
trait Chains<S>: Copy {
    unsafe fn admits(self, query: S, signature: S) -> bool;
}

/// Nothing: on sound tables they have the head's signature.
#[derive(Clone, Copy)]
struct Trusted;

impl<S> Chains<S> for Trusted {
    #[inline(always)]
    unsafe fn admits(self, _: S, _: S) -> bool {
        true
    }
}

/// That each covers the query, which no table can then make untrue. Words of the query that are 0 before the first other one or after the
/// last are not compared.
#[derive(Clone, Copy)]
struct Compared {
    from: usize,
    to: usize,
}

impl Compared {
    fn of(query: &[u64]) -> Compared {
        let from = query.iter().position(|word| *word != 0).unwrap_or(0);
        Compared { from, to: query.iter().rposition(|word| *word != 0).map_or(0, |last| last + 1) }
    }
}

impl Chains<Many> for Compared {
    #[inline(always)]
    unsafe fn admits(self, query: Many, signature: Many) -> bool {
        query.is_covered_in(signature, self.from..self.to)
    }
}

/// What a walk reads and marks at its leaves, and what it counts.
struct Walk<S, C> {
    signatures: *const u64,
    links: *const u32,
    marks: *mut u8,
    blocks: usize,
    width: u32,
    query: S,
    chains: C,
    counts: Counts,
}

impl<S: Words, C: Chains<S>> Walk<S, C> {
    #[inline(always)]
    unsafe fn stored(&self, block: usize) -> S {
        S::stored(self.signatures, self.query.words(), block)
    }

    #[inline(always)]
    unsafe fn covers(&self, head: usize) -> bool {
        self.query.is_covered(self.stored(head))
    }

    /// Marks a chain whose head covers. The result is how many blocks it has.
    #[inline(always)]
    unsafe fn mark_chain(&self, head: usize) -> u32 {
        if !S::FEW_REGISTERS {
            return self.mark(head);
        }
        *self.marks.add(head - 1) = 1;
        match *self.links.add(2 * head + 3) as usize {
            0 => 1,
            next => 1 + self.mark_rest(next),
        }
    }

    #[inline(never)]
    unsafe fn mark_rest(&self, block: usize) -> u32 {
        self.mark(block)
    }

    /// Marks a chain from a block on.
    #[inline(always)]
    unsafe fn mark(&self, head: usize) -> u32 {
        let (mut b, mut marked) = (head, 0);
        loop {
            *self.marks.add(b - 1) = 1;
            marked += 1;
            b = *self.links.add(2 * b + 3) as usize;
            if b == 0 || !self.chains.admits(self.query, self.stored(b)) {
                return marked;
            }
        }
    }

    unsafe fn leaf(&mut self, head: usize) {
        self.counts.compares += 1;
        if self.covers(head) {
            self.counts.found += self.mark(head);
        }
    }

    /// The subtree at a reference, as one recursive function.
    unsafe fn visit(&mut self, nodes: OneWord, reference: usize) {
        if reference <= self.blocks {
            return self.leaf(reference);
        }
        self.counts.bits += 1;
        let node = nodes.node(reference);
        if self.query.bit(self.width, position(node)) == 0 {
            self.visit(nodes, left(node));
        }
        self.visit(nodes, right(node))
    }
}

/// The counts in one register: each is below 2^20.
#[derive(Clone, Copy)]
struct Tally(u64);

impl Tally {
    const COMPARE: u64 = 1 << 20;
    const BIT: u64 = 1 << 40;

    fn counts(self) -> Counts {
        let count = |unit: u64| (self.0 / unit % Tally::COMPARE) as u32;
        Counts { found: count(1), compares: count(Tally::COMPARE), bits: count(Tally::BIT) }
    }

    #[inline(always)]
    unsafe fn leaf<S: Words>(self, walk: &Walk<S, Trusted>, head: usize) -> Tally {
        let marked = if walk.covers(head) { walk.mark_chain(head) } else { 0 };
        Tally(self.0 + Tally::COMPARE + marked as u64)
    }
}

/// The subtree at a node, as fast as we found it that calls itself. A leaf is told before the call and compared before the other side is
/// walked, so that only a node with two nodes below it needs a call; there the right node is read before the left side is walked.
///
/// Tried as `hand_native`, geometric means over the benchmark's rows at B 1,024 and at 65,535, this one 1.00: left always before right
/// 1.08 and 1.05; nothing read ahead 1.10 and 1.11; neither 1.15 and 1.13; the right word fetched and read later 1.08 and 1.05; the counts
/// in memory 1.03 and 1.01; all behind one pointer 1.06 and 1.04, then left before right 1.07 and 1.05, then nothing read ahead 1.14 and
/// 1.15; `plain` 1.29 and 1.20. By other steps: heads gathered as `looped` does 0.92 and 1.00; `looped` 0.78 and 0.93, with nothing
/// gathered 0.93 and 0.98.
unsafe fn sides<F: Form, S: Words>(
    walk: &Walk<S, Trusted>, query: S::Turned, blocks: usize, nodes: F, mut node: F::Node, mut tally: Tally,
) -> Tally {
    loop {
        tally.0 += Tally::BIT;
        let right = F::right(node);
        if !S::is_set(query, F::position(node)) {
            let left = F::left(node);
            if left <= blocks {
                tally = tally.leaf(walk, left);
            } else if right <= blocks {
                tally = tally.leaf(walk, right);
                node = nodes.node(left);
                continue;
            } else {
                let ahead = nodes.node(right);
                tally = sides(walk, query, blocks, nodes, nodes.node(left), tally);
                node = ahead;
                continue;
            }
        }
        if right <= blocks {
            return tally.leaf(walk, right);
        }
        node = nodes.node(right);
    }
}

unsafe fn by_calls<F: Form, S: Words>(walk: &mut Walk<S, Trusted>, nodes: F, root: usize) {
    let mut room = [0; 9];
    let query = walk.query.turned(walk.width, &mut room);
    walk.counts = sides(walk, query, walk.blocks, nodes, nodes.node(root), Tally(0)).counts();
}

/// Heads that cover the query, gathered so that no branch hangs on what a compare says, which no processor foresees.
struct Gathered([MaybeUninit<u32>; Gathered::ROOM]);

impl Gathered {
    const ROOM: usize = 64;

    /// Compares a head and holds it where it covers. The result is how many are held.
    #[inline(always)]
    unsafe fn compare(&mut self, walk: &mut Walk<u64, Trusted>, head: usize, held: usize) -> usize {
        self.0.get_unchecked_mut(held).write(head as u32);
        match held + walk.covers(head) as usize {
            Self::ROOM => self.mark(walk, Self::ROOM),
            held => held,
        }
    }

    /// Marks the chains of the heads that are held. None are held then.
    #[inline(never)]
    unsafe fn mark(&mut self, walk: &mut Walk<u64, Trusted>, held: usize) -> usize {
        for head in self.0.get_unchecked(..held) {
            walk.counts.found += walk.mark(head.assume_init() as usize);
        }
        0
    }
}

/// The same tree in a loop. Right nodes wait on a stack of its own: at most one for each of 64 positions. Compares are not counted: every
/// node whose bit is 0 has two sides, so the leaves are one more than those. With no branch on the query's bit and on leaf or node either
/// it was slower as `hand_native`: 16 nodes at a time 1.4 at B 1,024 and 0.9 at 65,535, one at a time 2.3 and 1.4.
unsafe fn by_loop(walk: &mut Walk<u64, Trusted>, nodes: OneWord, root: usize) {
    let (query, blocks) = (walk.query.turned(walk.width, &mut [0; 9]), walk.blocks);
    let mut gathered = Gathered([MaybeUninit::uninit(); Gathered::ROOM]);
    let mut waiting = [MaybeUninit::<u64>::uninit(); 64];
    let (mut waits, mut held, mut bits, mut ones) = (0, 0, 0, 0);
    let mut node = nodes.node(root);
    loop {
        bits += 1;
        let (left, right) = (left(node), right(node));
        if u64::is_set(query, position(node)) {
            ones += 1;
        } else if left <= blocks {
            held = gathered.compare(walk, left, held);
        } else {
            node = nodes.node(left);
            if right <= blocks {
                held = gathered.compare(walk, right, held);
            } else {
                waiting.get_unchecked_mut(waits).write(nodes.node(right));
                waits += 1;
            }
            continue;
        }
        if right > blocks {
            node = nodes.node(right);
            continue;
        }
        held = gathered.compare(walk, right, held);
        if waits == 0 {
            break;
        }
        waits -= 1;
        node = waiting.get_unchecked(waits).assume_init();
    }
    gathered.mark(walk, held);
    walk.counts = Counts { compares: bits - ones + 1, bits, ..walk.counts };
}

/// Clears the marks, walks from the root, by `from` where it is a node, and lists what is marked.
#[inline(always)]
unsafe fn search<S: Words, C: Chains<S>>(
    tables: Tables, query: S, chains: C, marks: &mut [u8], output: &mut [u32], from: impl FnOnce(&mut Walk<S, C>, usize),
) -> Counts {
    let blocks = tables.blocks();
    marks[..blocks].fill(0);
    let mut walk = Walk {
        signatures: tables.signatures.as_ptr(),
        links: tables.links.as_ptr(),
        marks: marks.as_mut_ptr(),
        blocks,
        width: tables.links[0],
        query,
        chains,
        counts: Counts::default(),
    };
    match tables.links[2] as usize {
        0 => (),
        root if root <= blocks => walk.leaf(root),
        root => from(&mut walk, root),
    }
    list(marks, output, blocks, walk.counts.found as usize);
    walk.counts
}

/// # Safety
/// The tables are sound, and the marks and the output at least as long as the signatures; so for the others.
#[inline(never)]
pub unsafe fn plain(tables: Tables, query: u64, marks: &mut [u8], output: &mut [u32]) -> Counts {
    search(tables, query, Trusted, marks, output, |walk, root| walk.visit(OneWord::of(tables), root))
}

/// # Safety
/// As for `plain`.
#[inline(never)]
pub unsafe fn fastest(tables: Tables, query: u64, marks: &mut [u8], output: &mut [u32]) -> Counts {
    search(tables, query, Trusted, marks, output, |walk, root| by_calls(walk, OneWord::of(tables), root))
}

/// # Safety
/// As for `plain`.
#[inline(never)]
pub unsafe fn three_words(tables: Tables, query: u64, marks: &mut [u8], output: &mut [u32]) -> Counts {
    search(tables, query, Trusted, marks, output, |walk, root| by_calls(walk, ThreeWords::of(tables), root))
}

/// # Safety
/// As for `plain`.
#[inline(never)]
pub unsafe fn looped(tables: Tables, query: u64, marks: &mut [u8], output: &mut [u32]) -> Counts {
    search(tables, query, Trusted, marks, output, |walk, root| by_loop(walk, OneWord::of(tables), root))
}

/// # Safety
/// As for `plain`. The query has the words of the tables' width.
#[inline(never)]
pub unsafe fn wide_plain(tables: Tables, query: &[u64], marks: &mut [u8], output: &mut [u32]) -> Counts {
    search(tables, Many::of(query), Trusted, marks, output, |walk, root| walk.visit(OneWord::of(tables), root))
}

/// # Safety
/// As for `wide_plain`.
#[inline(never)]
pub unsafe fn wide_fastest(tables: Tables, query: &[u64], marks: &mut [u8], output: &mut [u32]) -> Counts {
    search(tables, Many::of(query), Trusted, marks, output, |walk, root| by_calls(walk, OneWord::of(tables), root))
}

/// # Safety
/// As for `wide_plain`.
#[inline(never)]
pub unsafe fn wide_compared(tables: Tables, query: &[u64], marks: &mut [u8], output: &mut [u32]) -> Counts {
    search(tables, Many::of(query), Compared::of(query), marks, output, |walk, root| walk.visit(OneWord::of(tables), root))
}
