//! The tables as the calls take them: a signature in words, and one word per node, put together and taken apart by its own bits. No code of
//! the library.
use crate::number::word_count;
use crate::reference::{Tables, MOST_BLOCKS};
use crate::rng::Rng;

/// The lowest bit and the number of bits of a node's position, left and right.
const FIELDS: [(u32, u32); 3] = [(34, 30), (17, 17), (0, 17)];

/// A node's word. Each part must fit its field.
pub fn word(parts: [u32; 3]) -> u64 {
    FIELDS.iter().zip(parts).fold(0, |word, ((low, bits), part)| {
        assert!(part >> bits == 0, "{part} does not fit in {bits} bits");
        word | (part as u64) << low
    })
}

/// The parts of any word.
pub fn parts(word: u64) -> [u32; 3] {
    FIELDS.map(|(low, bits)| (word >> low & ((1 << bits) - 1)) as u32)
}

/// The lengths of the three slices that B blocks have, with so many words to a signature.
pub fn lengths(blocks: usize, words: usize) -> [usize; 3] {
    [blocks * words, 5 + 2 * blocks, blocks.saturating_sub(1)]
}

#[derive(Clone, Debug, PartialEq, Eq)]
pub struct Packed {
    pub signatures: Vec<u64>,
    pub links: Vec<u32>,
    pub nodes: Vec<u64>,
}

impl Packed {
    /// Tables never cleared, with any words lent for signatures.
    pub fn blank(blocks: usize, signatures: Vec<u64>) -> Packed {
        let [_, m, e] = lengths(blocks, 0);
        Packed { signatures, links: vec![0; m], nodes: vec![0; e] }
    }

    /// The same tables as these of 5B + 2 links.
    pub fn of(t: &Tables) -> Packed {
        let (rows, nodes) = t.links.split_at(5 + 2 * t.blocks());
        let nodes = nodes.chunks(3).map(|n| word([n[0], n[1], n[2]])).collect();
        Packed { signatures: t.words(), links: rows.to_vec(), nodes }
    }

    /// The same tables in 5B + 2 links, or none where question 4 refuses these.
    pub fn open(&self) -> Option<Tables> {
        let nodes = self.nodes.iter().flat_map(|&w| parts(w));
        self.long().then(|| Tables::read(&self.signatures, self.links.iter().copied().chain(nodes).collect())).flatten()
    }

    /// B, told from the links.
    pub fn blocks(&self) -> usize {
        self.links.len().saturating_sub(5) / 2
    }
    /// The words of a signature, by word 0 of the links; 0 before the first clear.
    pub fn words(&self) -> usize {
        word_count(self.links.first().copied().unwrap_or(0))
    }
    pub fn lengths(&self) -> [usize; 3] {
        [self.signatures.len(), self.links.len(), self.nodes.len()]
    }
    /// Block b's words, where a signature has so many.
    pub fn block(&self, b: usize, words: usize) -> &[u64] {
        self.signatures.get((b - 1) * words..b * words).unwrap_or_default()
    }
    /// Do the lengths of links and nodes, and B, fit?
    pub fn long(&self) -> bool {
        let b = self.blocks();
        (1..=MOST_BLOCKS).contains(&b) && [self.links.len(), self.nodes.len()] == lengths(b, 0)[1..]
    }

    /// These tables, cut or drawn out with random words to other lengths.
    pub fn resized(&self, lengths: [usize; 3], rng: &mut Rng) -> Packed {
        let mut p = self.clone();
        p.signatures.resize_with(lengths[0], || rng.next());
        p.links.resize_with(lengths[1], || rng.next() as u32);
        p.nodes.resize_with(lengths[2], || rng.next());
        p
    }
}
