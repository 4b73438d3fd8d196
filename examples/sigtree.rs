//! A safe wrapper around the library's C face: slices carry their lengths, and borrows keep them apart. A program may use a part of it.
#![allow(dead_code)]

#[path = "c_face.rs"]
mod c;

/// The number of the question that refused a call.
#[derive(Clone, Copy, Debug, PartialEq, Eq)]
pub struct Refused(pub u32);

fn answered(answer: u32) -> Result<(), Refused> {
    if answer == 0 { Ok(()) } else { Err(Refused(answer)) }
}

/// The widest width.
pub const WIDEST: u32 = 512;

/// How many words a signature of this width has, high word first. A wider one than the widest is refused, with any words.
pub fn words(width: u32) -> usize {
    width.min(WIDEST).div_ceil(64) as usize
}

/// The signature of this width in which these positions, 1 to the width, are set.
pub fn set(positions: &[u32], width: u32) -> Vec<u64> {
    let mut signature = vec![0; words(width)];
    for position in positions {
        let k = width - position;
        signature[words(width) - 1 - k as usize / 64] |= 1 << (k % 64);
    }
    signature
}

/// What a search found, and what it cost.
#[derive(Clone, Debug, PartialEq, Eq)]
pub struct Found {
    pub blocks: Vec<u32>,
    pub compares: u32,
    pub bits_read: u32,
}

/// An index that owns its tables.
pub struct Index {
    signatures: Vec<u64>,
    links: Vec<u32>,
    nodes: Vec<u64>,
}

impl Index {
    /// Links and nodes for so many blocks over these signatures, not yet filled.
    fn over(signatures: Vec<u64>, blocks: usize) -> Index {
        Index { signatures, links: vec![0; 5 + 2 * blocks], nodes: vec![0; blocks.saturating_sub(1)] }
    }

    /// An index of `blocks` blocks, cleared to a width.
    pub fn new(blocks: usize, width: u32) -> Result<Index, Refused> {
        let mut index = Index::over(vec![], blocks);
        index.clear(width)?;
        Ok(index)
    }

    /// An index from a store of 5B + 2 links.
    pub fn pack(signatures: Vec<u64>, old: &[u32]) -> Result<Index, Refused> {
        let mut index = Index::over(signatures, old.len().saturating_sub(2) / 5);
        let (s, l, d) = (&index.signatures, &mut index.links, &mut index.nodes);
        // SAFETY: each slice is valid for its length and borrowed for this call alone; so below.
        answered(unsafe {
            c::sigtree_pack(s.as_ptr(), s.len(), old.as_ptr(), old.len(), l.as_mut_ptr(), l.len(), d.as_mut_ptr(), d.len())
        })?;
        Ok(index)
    }

    /// The same store as 5B + 2 links.
    pub fn unpack(&self) -> Result<Vec<u32>, Refused> {
        let (s, l, d) = (&self.signatures, &self.links, &self.nodes);
        let mut old = vec![0; 5 * self.blocks() + 2];
        answered(unsafe {
            c::sigtree_unpack(s.as_ptr(), s.len(), l.as_ptr(), l.len(), d.as_ptr(), d.len(), old.as_mut_ptr(), old.len())
        })?;
        Ok(old)
    }

    pub fn blocks(&self) -> usize {
        (self.links.len() - 5) / 2
    }

    /// Clears to a width, with new words for the signatures; where it is refused the index stays.
    pub fn clear(&mut self, width: u32) -> Result<(), Refused> {
        let mut signatures = vec![0; self.blocks() * words(width)];
        let (s, l, d) = (&mut signatures, &mut self.links, &mut self.nodes);
        answered(unsafe { c::sigtree_clear(s.as_mut_ptr(), s.len(), l.as_mut_ptr(), l.len(), d.as_mut_ptr(), d.len(), width) })?;
        self.signatures = signatures;
        Ok(())
    }

    pub fn file(&mut self, block: u32, signature: &[u64]) -> Result<(), Refused> {
        let (s, l, d) = (&mut self.signatures, &mut self.links, &mut self.nodes);
        answered(unsafe {
            c::sigtree_file(
                s.as_mut_ptr(), s.len(), l.as_mut_ptr(), l.len(), d.as_mut_ptr(), d.len(), block, signature.as_ptr(), signature.len(),
            )
        })
    }

    pub fn withdraw(&mut self, block: u32) -> Result<(), Refused> {
        let (s, l, d) = (&mut self.signatures, &mut self.links, &mut self.nodes);
        answered(unsafe { c::sigtree_withdraw(s.as_mut_ptr(), s.len(), l.as_mut_ptr(), l.len(), d.as_mut_ptr(), d.len(), block) })
    }

    pub fn rebuild(&mut self) -> Result<(), Refused> {
        let mut scratch = vec![0; self.blocks()];
        let (s, l, d) = (&self.signatures, &mut self.links, &mut self.nodes);
        answered(unsafe {
            c::sigtree_rebuild(
                s.as_ptr(), s.len(), l.as_mut_ptr(), l.len(), d.as_mut_ptr(), d.len(), scratch.as_mut_ptr(), scratch.len(),
            )
        })
    }

    pub fn search(&self, query: &[u64]) -> Result<Found, Refused> {
        let (s, l, d) = (&self.signatures, &self.links, &self.nodes);
        let (mut marks, mut output) = (vec![0u8; self.blocks()], vec![0u32; self.blocks()]);
        let (mut found, mut compares, mut bits_read) = (0, 0, 0);
        answered(unsafe {
            c::sigtree_search(
                s.as_ptr(), s.len(), l.as_ptr(), l.len(), d.as_ptr(), d.len(), query.as_ptr(), query.len(), marks.as_mut_ptr(),
                marks.len(), output.as_mut_ptr(), output.len(), &mut found, &mut compares, &mut bits_read,
            )
        })?;
        output.truncate(found as usize);
        Ok(Found { blocks: output, compares, bits_read })
    }

    pub fn audit(&self) -> Result<(), Refused> {
        let (s, l, d) = (&self.signatures, &self.links, &self.nodes);
        answered(unsafe { c::sigtree_audit(s.as_ptr(), s.len(), l.as_ptr(), l.len(), d.as_ptr(), d.len()) })
    }
}

/// The signature of a text.
pub fn sign(text: &[u8], width: u32, k: u32) -> Result<Vec<u64>, Refused> {
    let mut signature = vec![0; words(width)];
    answered(unsafe { c::sigtree_sign(text.as_ptr(), text.len(), width, k, signature.as_mut_ptr(), signature.len()) })?;
    Ok(signature)
}
