//! An independent reading of the customer's request, for tests alone: the tables of 5B + 2 links over signatures that are numbers, and what
//! each call leaves in them, word for word. No code of the library.
use crate::number::{word_count, Number, WIDEST};
use std::collections::BTreeMap;

pub const MOST_BLOCKS: usize = 65535;

/// How many links B blocks have in this form.
pub fn links_of(blocks: usize) -> usize {
    5 * blocks + 2
}

pub fn bit(width: u32, s: Number, position: u32) -> u64 {
    s.bit(width - position)
}

/// Tables of which question 4 is answered: a signature for each block, the links, and nothing else.
#[derive(Clone, Debug, PartialEq, Eq)]
pub struct Tables {
    pub signatures: Vec<Number>,
    pub links: Vec<u32>,
}

impl Tables {
    /// The tables in these words, or none where question 4 refuses them. B is told from the links.
    pub fn read(words: &[u64], links: Vec<u32>) -> Option<Tables> {
        let blocks = links.len().saturating_sub(2) / 5;
        let fit = (1..=MOST_BLOCKS).contains(&blocks)
            && links.len() == links_of(blocks)
            && (1..=WIDEST).contains(&links[0])
            && links[1] as usize == blocks
            && words.len() == blocks * word_count(links[0]);
        fit.then(|| Tables { signatures: words.chunks(word_count(links[0])).map(Number::read).collect(), links })
    }
    /// The words of the signatures.
    pub fn words(&self) -> Vec<u64> {
        let count = word_count(self.width());
        let mut words = Vec::with_capacity(self.blocks() * count);
        self.signatures.iter().for_each(|s| words.extend(s.high_first(count)));
        words
    }
    pub fn blocks(&self) -> usize {
        self.signatures.len()
    }
    pub fn width(&self) -> u32 {
        self.links[0]
    }
    pub fn next_at(b: usize) -> usize {
        5 + 2 * (b - 1)
    }
    pub fn filed_at(b: usize) -> usize {
        6 + 2 * (b - 1)
    }
    pub fn node_at(&self, i: usize) -> usize {
        5 + 2 * self.blocks() + 3 * (i - 1)
    }
    pub fn filed(&self, b: usize) -> bool {
        self.links[Tables::filed_at(b)] != 0
    }

    pub fn cleared(blocks: usize, width: u32) -> Tables {
        let mut t = Tables { signatures: vec![Number::default(); blocks], links: vec![0; links_of(blocks)] };
        t.links[0] = width;
        t.links[1] = blocks as u32;
        t.links[3] = if blocks > 1 { 1 } else { 0 };
        for i in 1..blocks {
            let row = t.node_at(i);
            t.links[row + 1] = if i + 1 < blocks { i as u32 + 1 } else { 0 };
        }
        t
    }

    /// The addresses of the references that the walk by s passes; the last holds a leaf or nothing. Sound tables only.
    fn way(&self, s: Number) -> Vec<usize> {
        let mut way = vec![2];
        loop {
            let r = self.links[*way.last().unwrap()] as usize;
            if r <= self.blocks() {
                return way;
            }
            let row = self.node_at(r - self.blocks());
            way.push(row + 1 + bit(self.width(), s, self.links[row]) as usize);
        }
    }

    pub fn file(&mut self, b: usize, s: Number) {
        let at = *self.way(s).last().unwrap();
        let leaf = self.links[at] as usize;
        self.signatures[b - 1] = s;
        self.links[Tables::filed_at(b)] = 1;
        self.links[4] += 1;
        if leaf == 0 {
            self.links[2] = b as u32;
        } else if self.signatures[leaf - 1] == s {
            self.links[Tables::next_at(b)] = self.links[Tables::next_at(leaf)];
            self.links[Tables::next_at(leaf)] = b as u32;
        } else {
            let (width, other) = (self.width(), self.signatures[leaf - 1]);
            let p = (1..=width).find(|&p| bit(width, s, p) != bit(width, other, p)).unwrap();
            let free = self.links[3] as usize;
            let row = self.node_at(free);
            self.links[3] = self.links[row + 1];
            let (left, right) = if bit(width, s, p) == 0 { (b, leaf) } else { (leaf, b) };
            self.links[row..row + 3].copy_from_slice(&[p, left as u32, right as u32]);
            self.links[at] = (self.blocks() + free) as u32;
        }
    }

    pub fn withdraw(&mut self, b: usize) {
        let way = self.way(self.signatures[b - 1]);
        let at = *way.last().unwrap();
        let (head, after) = (self.links[at] as usize, self.links[Tables::next_at(b)]);
        if head != b {
            let mut c = head;
            while self.links[Tables::next_at(c)] as usize != b {
                c = self.links[Tables::next_at(c)] as usize;
            }
            self.links[Tables::next_at(c)] = after;
        } else if after != 0 {
            self.links[at] = after;
        } else if way.len() == 1 {
            self.links[2] = 0;
        } else {
            let up = way[way.len() - 2];
            let parent = self.links[up] as usize - self.blocks();
            let row = self.node_at(parent);
            self.links[up] = if at == row + 1 { self.links[row + 2] } else { self.links[row + 1] };
            let free = self.links[3];
            self.links[row..row + 3].copy_from_slice(&[0, free, 0]);
            self.links[3] = parent as u32;
        }
        self.links[Tables::next_at(b)] = 0;
        self.links[Tables::filed_at(b)] = 0;
        self.signatures[b - 1] = Number::default();
        self.links[4] -= 1;
    }

    fn heads(&self, r: usize, heads: &mut BTreeMap<Number, u32>) {
        if r == 0 {
        } else if r <= self.blocks() {
            heads.insert(self.signatures[r - 1], r as u32);
        } else {
            let row = self.node_at(r - self.blocks());
            self.heads(self.links[row + 1] as usize, heads);
            self.heads(self.links[row + 2] as usize, heads);
        }
    }

    fn place(&mut self, group: Vec<Number>, heads: &BTreeMap<Number, u32>, count: &mut usize) -> u32 {
        if group.len() == 1 {
            return heads[&group[0]];
        }
        let width = self.width();
        let (mut best, mut size) = (0, 0);
        for p in 1..=width {
            let ones = group.iter().filter(|&&s| bit(width, s, p) == 1).count();
            if ones.min(group.len() - ones) > size {
                (best, size) = (p, ones.min(group.len() - ones));
            }
        }
        *count += 1;
        let node = *count;
        let (right, left): (Vec<Number>, Vec<Number>) = group.into_iter().partition(|&s| bit(width, s, best) == 1);
        let left = self.place(left, heads, count);
        let right = self.place(right, heads, count);
        let row = self.node_at(node);
        self.links[row..row + 3].copy_from_slice(&[best, left, right]);
        (self.blocks() + node) as u32
    }

    pub fn rebuild(&mut self) {
        let mut heads = BTreeMap::new();
        self.heads(self.links[2] as usize, &mut heads);
        let mut count = 0;
        let group: Vec<Number> = heads.keys().copied().collect();
        self.links[2] = if group.is_empty() { 0 } else { self.place(group, &heads, &mut count) };
        let blocks = self.blocks();
        let chain = |i: usize| if i < blocks { i as u32 } else { 0 };
        self.links[3] = chain(count + 1);
        for i in count + 1..blocks {
            let row = self.node_at(i);
            self.links[row..row + 3].copy_from_slice(&[0, chain(i + 1), 0]);
        }
    }
}
