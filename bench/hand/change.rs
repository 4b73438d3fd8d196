//! Filing, withdrawing and rebuilding.
use super::words::{Many, Words};
use super::{joined, left, position, right, REFERENCE, SIDE};

/// The tables that a change writes, with no index checked.
#[derive(Clone, Copy)]
struct Lent {
    signatures: *mut u64,
    links: *mut u32,
    nodes: *mut u64,
    blocks: usize,
    words: usize,
}

/// Where a reference stands: in which node, 0 for the root's link, and on which side of it.
#[derive(Clone, Copy)]
struct Place {
    node: usize,
    on_right: bool,
}

impl Lent {
    fn of(signatures: &mut [u64], words: usize, links: &mut [u32], nodes: &mut [u64]) -> Lent {
        let blocks = nodes.len() + 1;
        Lent { signatures: signatures.as_mut_ptr(), links: links.as_mut_ptr(), nodes: nodes.as_mut_ptr(), blocks, words }
    }
    unsafe fn signature<S: Words>(self, block: usize) -> S {
        S::stored(self.signatures, self.words, block)
    }
    unsafe fn link<'a>(self, at: usize) -> &'a mut u32 {
        &mut *self.links.add(at)
    }
    unsafe fn next<'a>(self, block: usize) -> &'a mut u32 {
        self.link(2 * block + 3)
    }
    unsafe fn node<'a>(self, node: usize) -> &'a mut u64 {
        &mut *self.nodes.add(node - 1)
    }
    unsafe fn width(self) -> u32 {
        *self.link(0)
    }

    /// The reference that the walk by s reaches, where it stands, and where its parent's reference stands.
    unsafe fn reached<S: Words>(self, s: S) -> (usize, Place, Place) {
        let path = s.path(self.width());
        let root = Place { node: 0, on_right: false };
        let (mut reference, mut at, mut above) = (*self.link(2) as usize, root, root);
        while reference > self.blocks {
            let node = reference - self.blocks;
            let word = *self.node(node);
            let on_right = S::goes_right(path, position(word));
            (above, at) = (at, Place { node, on_right });
            reference = if on_right { right(word) } else { left(word) };
        }
        (reference, at, above)
    }

    unsafe fn put(self, at: Place, reference: usize) {
        if at.node == 0 {
            *self.link(2) = reference as u32;
        } else {
            let (word, shift) = (self.node(at.node), if at.on_right { 0 } else { SIDE });
            *word = *word & !(REFERENCE << shift) | (reference as u64) << shift;
        }
    }

    /// A new node at a place, over the leaf that stood there and a block.
    unsafe fn split<S: Words>(self, at: Place, leaf: usize, block: usize, s: S) {
        let position = s.first_difference(self.signature(leaf), self.width());
        let free = *self.link(3) as usize;
        let node = self.node(free);
        *self.link(3) = left(*node) as u32;
        *node = if s.bit(self.width(), position) == 1 { joined(position, leaf, block) } else { joined(position, block, leaf) };
        self.put(at, self.blocks + free);
    }

    /// Takes a leaf and its parent out: the parent's other side comes in its place.
    unsafe fn unite(self, at: Place, above: Place) {
        let parent = self.node(at.node);
        self.put(above, if at.on_right { left(*parent) } else { right(*parent) });
        *parent = joined(0, *self.link(3) as usize, 0);
        *self.link(3) = at.node as u32;
    }
}

#[inline(always)]
unsafe fn file_in<S: Words>(lent: Lent, block: u32, s: S) {
    let b = block as usize;
    let (leaf, at, _) = lent.reached(s);
    s.store(lent.signatures, b);
    *lent.link(2 * b + 4) = 1;
    *lent.link(4) += 1;
    if leaf == 0 {
        *lent.link(2) = block;
    } else if lent.signature::<S>(leaf).is(s) {
        *lent.next(b) = *lent.next(leaf);
        *lent.next(leaf) = block;
    } else {
        lent.split(at, leaf, b, s);
    }
}

#[inline(always)]
unsafe fn withdraw_in<S: Words>(lent: Lent, block: u32) {
    let b = block as usize;
    let signature: S = lent.signature(b);
    let (head, at, above) = lent.reached(signature);
    let next = *lent.next(b);
    if head != b {
        let mut before = head;
        while *lent.next(before) != block {
            before = *lent.next(before) as usize;
        }
        *lent.next(before) = next;
    } else if next != 0 || at.node == 0 {
        lent.put(at, next as usize);
    } else {
        lent.unite(at, above);
    }
    *lent.next(b) = 0;
    *lent.link(2 * b + 4) = 0;
    *lent.link(4) -= 1;
    signature.clear(lent.signatures, b);
}

/// Gathers the heads below a reference after those that are gathered. The result is how many are gathered then.
unsafe fn heads(lent: Lent, reference: usize, scratch: &mut [u32], gathered: usize) -> usize {
    if reference <= lent.blocks {
        *scratch.get_unchecked_mut(gathered) = reference as u32;
        return gathered + 1;
    }
    let word = *lent.node(reference - lent.blocks);
    let gathered = heads(lent, left(word), scratch, gathered);
    heads(lent, right(word), scratch, gathered)
}

/// The position where the smaller side of a group is largest, the lowest of those: position by position, as the library goes. A signature
/// is read as volatile so that no vector gathers it, which as `hand_native` takes a quarter longer at B 1,024 and a tenth at 65,535; there
/// all positions in one pass over the group, by vectors of 64 counts, would make the rebuild 1.9 and 2.7 times as fast.
unsafe fn best_position<S: Words>(lent: Lent, group: &[u32]) -> u32 {
    let (mut best, mut size) = (1, 0);
    for position in 1..=lent.width() {
        let bit = |&b: &u32| S::read_bit(lent.signatures, lent.words, b as usize, lent.width(), position) as usize;
        let ones: usize = group.iter().map(bit).sum();
        let smaller = ones.min(group.len() - ones);
        if smaller > size {
            (best, size) = (position, smaller);
        }
    }
    best
}

/// Writes a group's tree from a node on. The result is the reference to it.
unsafe fn place<S: Words>(lent: Lent, group: &mut [u32], node: usize) -> usize {
    if group.len() == 1 {
        return group[0] as usize;
    }
    let position = best_position::<S>(lent, group);
    let (mut i, mut k) = (0, group.len());
    while i < k {
        if lent.signature::<S>(*group.get_unchecked(i) as usize).bit(lent.width(), position) == 0 {
            i += 1;
        } else {
            k -= 1;
            group.swap(i, k);
        }
    }
    let (zeros, ones) = group.split_at_mut_unchecked(k);
    let left = place::<S>(lent, zeros, node + 1);
    let right = place::<S>(lent, ones, node + k);
    *lent.node(node) = joined(position, left, right);
    lent.blocks + node
}

#[inline(always)]
unsafe fn rebuild_in<S: Words>(lent: Lent, scratch: &mut [u32]) {
    let mut first = 1;
    if *lent.link(2) != 0 {
        first = heads(lent, *lent.link(2) as usize, scratch, 0);
        *lent.link(2) = place::<S>(lent, &mut scratch[..first], 1) as u32;
    }
    let after = |node: usize| if node < lent.blocks { node } else { 0 };
    *lent.link(3) = after(first) as u32;
    for node in first..lent.blocks {
        *lent.node(node) = joined(0, after(node + 1), 0);
    }
}

/// # Safety
/// The tables are sound and the block is unfiled.
#[inline(never)]
pub unsafe fn file(signatures: &mut [u64], links: &mut [u32], nodes: &mut [u64], block: u32, s: u64) {
    file_in(Lent::of(signatures, 1, links, nodes), block, s);
}

/// # Safety
/// The tables are sound and the block is filed.
#[inline(never)]
pub unsafe fn withdraw(signatures: &mut [u64], links: &mut [u32], nodes: &mut [u64], block: u32) {
    withdraw_in::<u64>(Lent::of(signatures, 1, links, nodes), block);
}

/// # Safety
/// The tables are sound, and the scratch has a word for each block.
#[inline(never)]
pub unsafe fn rebuild(signatures: &mut [u64], links: &mut [u32], nodes: &mut [u64], scratch: &mut [u32]) {
    rebuild_in::<u64>(Lent::of(signatures, 1, links, nodes), scratch);
}

fn words_of(links: &[u32]) -> usize {
    links[0].div_ceil(64) as usize
}

/// # Safety
/// As for `file`. The signature has the words of the tables' width.
#[inline(never)]
pub unsafe fn wide_file(signatures: &mut [u64], links: &mut [u32], nodes: &mut [u64], block: u32, s: &[u64]) {
    file_in(Lent::of(signatures, s.len(), links, nodes), block, Many::of(s));
}

/// # Safety
/// As for `withdraw`.
#[inline(never)]
pub unsafe fn wide_withdraw(signatures: &mut [u64], links: &mut [u32], nodes: &mut [u64], block: u32) {
    withdraw_in::<Many>(Lent::of(signatures, words_of(links), links, nodes), block);
}

/// # Safety
/// As for `rebuild`.
#[inline(never)]
pub unsafe fn wide_rebuild(signatures: &mut [u64], links: &mut [u32], nodes: &mut [u64], scratch: &mut [u32]) {
    rebuild_in::<Many>(Lent::of(signatures, words_of(links), links, nodes), scratch);
}
