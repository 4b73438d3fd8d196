//! Soundness of tables of 5B + 2 links, clause by clause; that lengths and words 0 and 1 fit is asked before.
use crate::number::Number;
use crate::reference::{bit, Tables};

/// What a walk from the root has met: blocks on chains, and nodes.
struct Met {
    blocks: Vec<bool>,
    nodes: Vec<bool>,
}

/// Sets a place; false where it was set before.
fn first_time(seen: &mut [bool], i: usize) -> bool {
    !std::mem::replace(&mut seen[i], true)
}

impl Tables {
    pub fn sound(&self) -> bool {
        let mut met = Met { blocks: vec![false; self.blocks() + 1], nodes: vec![false; self.blocks()] };
        let root = self.links[2] as usize;
        if root != 0 && !self.reference_sound(root, &mut Vec::new(), &mut met) {
            return false;
        }
        self.rows_sound(&met) && self.free_sound(met.nodes)
    }

    /// A reference with all below it. The path is of positions with the edges taken.
    fn reference_sound(&self, r: usize, path: &mut Vec<(u32, u64)>, met: &mut Met) -> bool {
        let blocks = self.blocks();
        if r == 0 || r >= 2 * blocks {
            return false;
        }
        if r <= blocks {
            return self.chain_sound(r, path, met);
        }
        let row = self.node_at(r - blocks);
        let p = self.links[row];
        if p < 1 || p > self.width() || path.iter().any(|&(x, _)| x == p) || !first_time(&mut met.nodes, r - blocks) {
            return false;
        }
        (0..2).all(|e| {
            path.push((p, e));
            let sound = self.reference_sound(self.links[row + 1 + e as usize] as usize, path, met);
            path.pop();
            sound
        })
    }

    /// A leaf agrees with its path, and its chain ends and holds only filed blocks of its signature.
    fn chain_sound(&self, head: usize, path: &[(u32, u64)], met: &mut Met) -> bool {
        let s = self.signatures[head - 1];
        if !path.iter().all(|&(p, e)| bit(self.width(), s, p) == e) {
            return false;
        }
        let mut b = head;
        while b != 0 {
            let filed = b <= self.blocks() && self.links[Tables::filed_at(b)] == 1 && self.signatures[b - 1] == s;
            if !filed || !first_time(&mut met.blocks, b) {
                return false;
            }
            b = self.links[Tables::next_at(b)] as usize;
        }
        true
    }

    /// Every filed block is on a chain and counted, every other row is 0, and all signatures are below 2^F.
    fn rows_sound(&self, met: &Met) -> bool {
        let row_sound = |b: usize| match self.links[Tables::filed_at(b)] {
            0 => self.signatures[b - 1] == Number::default() && self.links[Tables::next_at(b)] == 0,
            1 => met.blocks[b],
            _ => false,
        };
        let filed = (1..=self.blocks()).filter(|&b| self.filed(b)).count();
        (1..=self.blocks()).all(row_sound)
            && self.signatures.iter().all(|s| s.below(self.width()))
            && self.links[4] as usize == filed
            && (self.links[2] == 0) == (filed == 0)
    }

    /// The free chain ends and holds exactly the nodes that the tree has not met, their position and right 0.
    fn free_sound(&self, mut met: Vec<bool>) -> bool {
        let mut i = self.links[3] as usize;
        while i != 0 {
            if i >= self.blocks() || !first_time(&mut met, i) {
                return false;
            }
            let row = self.node_at(i);
            if self.links[row] != 0 || self.links[row + 2] != 0 {
                return false;
            }
            i = self.links[row + 1] as usize;
        }
        met[1..].iter().all(|&seen| seen)
    }
}
