//! The plain tree of the tables, and a search by a scan of the blocks and by the tree's paths. Sound tables only.
use crate::number::Number;
use crate::reference::{bit, Tables};

enum Tree {
    Leaf(Number),
    Node(u32, Box<Tree>, Box<Tree>),
}

/// The positions from the root down, each with the edge taken.
type Path = Vec<(u32, u64)>;

/// What a search reports.
#[derive(Clone, Debug, PartialEq, Eq, Default)]
pub struct Found {
    pub blocks: Vec<u32>,
    pub compares: u32,
    pub bits: u32,
}

impl Tree {
    /// The path of each leaf, with its signature, and of each node.
    fn paths(&self, path: &mut Path, leaves: &mut Vec<(Number, Path)>, nodes: &mut Vec<Path>) {
        match self {
            Tree::Leaf(s) => leaves.push((*s, path.clone())),
            Tree::Node(p, left, right) => {
                nodes.push(path.clone());
                for (e, side) in [(0, left), (1, right)] {
                    path.push((*p, e));
                    side.paths(path, leaves, nodes);
                    path.pop();
                }
            }
        }
    }
}

impl Tables {
    fn tree(&self, r: usize) -> Option<Tree> {
        if r == 0 {
            return None;
        }
        if r <= self.blocks() {
            return Some(Tree::Leaf(self.signatures[r - 1]));
        }
        let row = self.node_at(r - self.blocks());
        let side = |e: usize| Box::new(self.tree(self.links[row + 1 + e] as usize).unwrap());
        Some(Tree::Node(self.links[row], side(0), side(1)))
    }

    /// The list by a scan of the filed blocks; the counts by the paths of the tree.
    pub fn search(&self, q: Number) -> Found {
        let covers = |b: &u32| self.filed(*b as usize) && self.signatures[*b as usize - 1].covers(q);
        let blocks = (1..=self.blocks() as u32).filter(covers).collect();
        let (mut leaves, mut nodes) = (Vec::new(), Vec::new());
        if let Some(tree) = self.tree(self.links[2] as usize) {
            tree.paths(&mut Vec::new(), &mut leaves, &mut nodes);
        }
        let width = self.width();
        let agrees = |(s, path): &(Number, Path)| path.iter().all(|&(p, e)| bit(width, *s, p) == e);
        assert!(leaves.iter().all(agrees), "a leaf disagrees with its path");
        let reached = |path: &Path| path.iter().all(|&(p, e)| e == 1 || bit(width, q, p) == 0);
        let compares = leaves.iter().filter(|(_, path)| reached(path)).count() as u32;
        let bits = nodes.iter().filter(|path| reached(path)).count() as u32;
        Found { blocks, compares, bits }
    }
}
