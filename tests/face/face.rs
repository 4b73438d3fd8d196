//! The C face, with every slice lent between guard words.
use crate::c_face::*;
use crate::guarded::Guarded;
use crate::packed::Packed;
use crate::request::{Call, Request};
use crate::rng::Rng;

#[derive(Clone, Debug, PartialEq, Eq)]
pub struct Report {
    pub answer: u32,
    pub found: u32,
    pub compares: u32,
    pub bits: u32,
}

impl Report {
    pub fn bare(answer: u32) -> Report {
        Report { answer, found: 0, compares: 0, bits: 0 }
    }
    /// Counts that a call has to set.
    fn unset() -> Report {
        Report { answer: 77, found: 77, compares: 77, bits: 77 }
    }
}

/// All that is lent with a call, filled with random words where the content is free.
#[derive(Clone, Debug, PartialEq, Eq)]
pub struct Lent {
    signatures: Guarded<u64>,
    links: Guarded<u32>,
    nodes: Guarded<u64>,
    scratch: Guarded<u32>,
    marks: Guarded<u8>,
    output: Guarded<u32>,
    /// the words of a direct call's signature or query
    field: Guarded<u64>,
    slip: Guarded<u8>,
    null: bool,
}

/// The tables as a call takes them.
type Slices = (*mut u64, usize, *mut u32, usize, *mut u64, usize);

impl Lent {
    pub fn new(p: &Packed, r: &Request, rng: &mut Rng) -> Lent {
        let mut words = |n: usize| (0..n).map(|_| rng.next() as u32).collect::<Vec<u32>>();
        let marks: Vec<u8> = words(r.marks).iter().map(|w| *w as u8).collect();
        let mut lent = Lent {
            signatures: Guarded::new(&p.signatures, 0x5a5a_5a5a_5a5a_5a5a),
            links: Guarded::new(&p.links, 0xa5a5_a5a5),
            nodes: Guarded::new(&p.nodes, 0x6969_6969_6969_6969),
            scratch: Guarded::new(&words(r.scratch), 0xc3c3_c3c3),
            marks: Guarded::new(&marks, 0x3c),
            output: Guarded::new(&words(r.output), 0x9696_9696),
            field: Guarded::new(&[], 0x0f0f_0f0f_0f0f_0f0f),
            slip: Guarded::new(&[], 0xf0),
            null: r.null,
        };
        lent.hand(&r.call);
        lent
    }
    /// Lends what the call itself brings: its words or its bytes.
    fn hand(&mut self, call: &Call) {
        match call {
            Call::File(_, words) | Call::Search(words) => self.field.fill(words),
            Call::Slip(bytes) => self.slip.fill(bytes),
            _ => {}
        }
    }
    pub fn guards(&self) -> Result<(), String> {
        let tables = self.signatures.kept() && self.links.kept() && self.nodes.kept();
        let kept = tables && self.scratch.kept() && self.marks.kept() && self.output.kept() && self.field.kept() && self.slip.kept();
        if kept { Ok(()) } else { Err("a guard word has changed".into()) }
    }
    pub fn tables(&self) -> Packed {
        Packed { signatures: self.signatures.data().to_vec(), links: self.links.data().to_vec(), nodes: self.nodes.data().to_vec() }
    }
    pub fn set_tables(&mut self, p: &Packed) {
        self.signatures.data_mut().copy_from_slice(&p.signatures);
        self.links.data_mut().copy_from_slice(&p.links);
        self.nodes.data_mut().copy_from_slice(&p.nodes);
    }
    pub fn output(&self) -> &[u32] {
        self.output.data()
    }
    /// Takes over the first words of the scratch, which a rebuild leaves free, from what a call left.
    pub fn free_scratch(&mut self, left: &Lent, blocks: usize) {
        self.scratch.data_mut()[..blocks].copy_from_slice(&left.scratch.data()[..blocks]);
    }
    /// Takes over the first marks, which a search that gives up leaves free.
    pub fn free_marks(&mut self, left: &Lent, blocks: usize) {
        self.marks.data_mut()[..blocks].copy_from_slice(&left.marks.data()[..blocks]);
    }
    /// The marks and the output of a list of blocks.
    pub fn list(&mut self, list: &[u32], blocks: usize) {
        let marks = &mut self.marks.data_mut()[..blocks];
        marks.fill(0);
        list.iter().for_each(|&b| marks[b as usize - 1] = 1);
        self.output.data_mut()[..list.len()].copy_from_slice(list);
    }

    pub fn run(&mut self, call: &Call) -> Report {
        self.hand(call);
        match call {
            Call::Clear(width) => Report::bare(self.clear(*width)),
            Call::File(b, _) => Report::bare(self.file(*b)),
            Call::Withdraw(b) => Report::bare(self.withdraw(*b)),
            Call::Rebuild => Report::bare(self.rebuild()),
            Call::Search(_) => self.search(),
            Call::Audit => Report::bare(self.audit()),
            Call::Slip(_) => self.slip(),
        }
    }
    fn lend(&mut self) -> Slices {
        let ((s, n), (l, m), (d, e)) = (self.signatures.lend(self.null), self.links.lend(self.null), self.nodes.lend(self.null));
        (s, n, l, m, d, e)
    }
    fn clear(&mut self, width: u32) -> u32 {
        let (s, n, l, m, d, e) = self.lend();
        unsafe { sigtree_clear(s, n, l, m, d, e, width) }
    }
    fn file(&mut self, block: u32) -> u32 {
        let ((s, n, l, m, d, e), (q, w)) = (self.lend(), self.field.lend(self.null));
        unsafe { sigtree_file(s, n, l, m, d, e, block, q, w) }
    }
    fn withdraw(&mut self, block: u32) -> u32 {
        let (s, n, l, m, d, e) = self.lend();
        unsafe { sigtree_withdraw(s, n, l, m, d, e, block) }
    }
    fn rebuild(&mut self) -> u32 {
        let ((s, n, l, m, d, e), (c, k)) = (self.lend(), self.scratch.lend(self.null));
        unsafe { sigtree_rebuild(s, n, l, m, d, e, c, k) }
    }
    fn audit(&mut self) -> u32 {
        let (s, n, l, m, d, e) = self.lend();
        unsafe { sigtree_audit(s, n, l, m, d, e) }
    }
    fn search(&mut self) -> Report {
        let ((s, n, l, m, d, e), (q, w)) = (self.lend(), self.field.lend(self.null));
        let ((k, j), (o, i)) = (self.marks.lend(self.null), self.output.lend(self.null));
        let mut r = Report::unset();
        r.answer = unsafe { sigtree_search(s, n, l, m, d, e, q, w, k, j, o, i, &mut r.found, &mut r.compares, &mut r.bits) };
        r
    }
    fn slip(&mut self) -> Report {
        let ((s, n, l, m, d, e), (slip, length)) = (self.lend(), self.slip.lend(self.null));
        let ((c, h), (k, j), (o, i)) = (self.scratch.lend(self.null), self.marks.lend(self.null), self.output.lend(self.null));
        let mut r = Report::unset();
        r.answer = unsafe {
            sigtree_slip(slip, length, s, n, l, m, d, e, c, h, k, j, o, i, &mut r.found, &mut r.compares, &mut r.bits)
        };
        r
    }
}
