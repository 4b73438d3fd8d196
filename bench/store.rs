//! The tables, and the library's calls that change them or only read them.
use crate::c_face::*;
use crate::measure::{words_of, Rng};

#[derive(Clone, PartialEq)]
pub struct Store {
    pub width: u32,
    pub signatures: Vec<u64>,
    pub links: Vec<u32>,
    pub nodes: Vec<u64>,
}

impl Store {
    pub fn filed(width: u32, signatures: &[u64]) -> Store {
        let blocks = signatures.len() / words_of(width);
        Store::filed_in(width, signatures, 1..=blocks as u32)
    }
    pub fn filed_in(width: u32, signatures: &[u64], order: impl Iterator<Item = u32>) -> Store {
        let words = words_of(width);
        let n = signatures.len() / words;
        let mut x = Store { width, signatures: vec![0; signatures.len()], links: vec![0; 5 + 2 * n], nodes: vec![0; n - 1] };
        let (s, l, d) = (&mut x.signatures, &mut x.links, &mut x.nodes);
        assert_eq!(unsafe { sigtree_clear(s.as_mut_ptr(), s.len(), l.as_mut_ptr(), l.len(), d.as_mut_ptr(), d.len(), width) }, 0);
        for b in order {
            x.file(b, &signatures[(b as usize - 1) * words..b as usize * words]);
        }
        x
    }
    pub fn blocks(&self) -> usize {
        self.nodes.len() + 1
    }
    pub fn file(&mut self, b: u32, signature: &[u64]) {
        let (s, l, d) = (&mut self.signatures, &mut self.links, &mut self.nodes);
        let (q, w) = (signature.as_ptr(), signature.len());
        let answer = unsafe { sigtree_file(s.as_mut_ptr(), s.len(), l.as_mut_ptr(), l.len(), d.as_mut_ptr(), d.len(), b, q, w) };
        assert_eq!(answer, 0);
    }
    pub fn withdraw(&mut self, b: u32) {
        let (s, l, d) = (&mut self.signatures, &mut self.links, &mut self.nodes);
        assert_eq!(unsafe { sigtree_withdraw(s.as_mut_ptr(), s.len(), l.as_mut_ptr(), l.len(), d.as_mut_ptr(), d.len(), b) }, 0);
    }
    pub fn rebuild(&mut self, scratch: &mut [u32]) {
        let (s, l, d) = (&self.signatures, &mut self.links, &mut self.nodes);
        let (c, k) = (scratch.as_mut_ptr(), scratch.len());
        assert_eq!(unsafe { sigtree_rebuild(s.as_ptr(), s.len(), l.as_mut_ptr(), l.len(), d.as_mut_ptr(), d.len(), c, k) }, 0);
    }
    pub fn audit(&self) {
        let (s, l, d) = (&self.signatures, &self.links, &self.nodes);
        assert_eq!(unsafe { sigtree_audit(s.as_ptr(), s.len(), l.as_ptr(), l.len(), d.as_ptr(), d.len()) }, 0);
    }
    pub fn pack(&mut self, old: &[u32]) {
        let (s, l, d) = (&self.signatures, &mut self.links, &mut self.nodes);
        let (o, k) = (old.as_ptr(), old.len());
        assert_eq!(unsafe { sigtree_pack(s.as_ptr(), s.len(), o, k, l.as_mut_ptr(), l.len(), d.as_mut_ptr(), d.len()) }, 0);
    }
    pub fn unpack(&self, old: &mut [u32]) {
        let (s, l, d) = (&self.signatures, &self.links, &self.nodes);
        let (o, k) = (old.as_mut_ptr(), old.len());
        assert_eq!(unsafe { sigtree_unpack(s.as_ptr(), s.len(), l.as_ptr(), l.len(), d.as_ptr(), d.len(), o, k) }, 0);
    }
    /// The links of the form with three words a node.
    pub fn old_links(&self) -> Vec<u32> {
        let mut old = vec![0; 5 * self.blocks() + 2];
        self.unpack(&mut old);
        old
    }
    pub fn rebuilt(mut self) -> Store {
        let mut scratch = vec![0; self.blocks()];
        self.rebuild(&mut scratch);
        self
    }
}

/// Random signatures of a weight, a half or a quarter of the width, and a record of 1,000 kinds of minute.
pub fn stores(width: u32, rng: &mut Rng) -> Vec<(String, Vec<u64>)> {
    let mut stores = Vec::new();
    for n in [1024, 65535] {
        for weight in [width / 2, width / 4] {
            stores.push((format!("random, weight {weight}, B {n}"), rng.signatures(n, weight, width)));
        }
    }
    let words = words_of(width);
    let kinds = rng.signatures(1000, width / 4, width);
    let kind = |n: u64| &kinds[n as usize * words..(n as usize + 1) * words];
    let clock = (0..65535).flat_map(|_| kind(rng.next() % 1000)).copied().collect();
    stores.push(("clock-like, B 65535".into(), clock));
    stores
}
