//! Searches of one store by all who search it.
use crate::c_face::sigtree_search;
use crate::measure::{least, timed, PARTS};
use crate::store::Store;
use hand::{Counts, Tables};
use std::hint::black_box;

/// Who searches.
#[derive(Clone, Copy, PartialEq)]
pub enum Side {
    Library,
    Plain,
    Fastest,
    FastestNative,
    Loop,
    ThreeWords,
    Scan,
    WidePlain,
    WideFastest,
    WideCompared,
    WideScan,
}

/// At width 64.
pub const SIDES: [Side; 7] = [Side::Library, Side::Plain, Side::Fastest, Side::FastestNative, Side::Loop, Side::ThreeWords, Side::Scan];

/// At any width.
pub const WIDE_SIDES: [Side; 5] = [Side::Library, Side::WidePlain, Side::WideFastest, Side::WideCompared, Side::WideScan];

/// `hand::fastest` compiled for this processor. The two crates are one source, but each has types of its own.
///
/// # Safety
/// As for `hand::plain`.
unsafe fn fastest_native(Tables { signatures, links, nodes }: Tables, query: u64, marks: &mut [u8], output: &mut [u32]) -> Counts {
    let tables = hand_native::Tables { signatures, links, nodes };
    let hand_native::Counts { found, compares, bits } = hand_native::fastest(tables, query, marks, output);
    Counts { found, compares, bits }
}

/// A store in both forms, and the buffers that every search borrows.
pub struct Searched {
    pub store: Store,
    old: Vec<u32>,
    marks: Vec<u8>,
    output: Vec<u32>,
}

impl Searched {
    pub fn of(store: Store) -> Searched {
        let (old, n) = (store.old_links(), store.blocks());
        Searched { store, old, marks: vec![0; n], output: vec![0; n] }
    }

    pub fn by_library(&mut self, query: &[u64]) -> Counts {
        let (s, l, d) = (&self.store.signatures, &self.store.links, &self.store.nodes);
        let (m, o) = (&mut self.marks, &mut self.output);
        let mut c = Counts::default();
        let answer = unsafe {
            sigtree_search(
                s.as_ptr(), s.len(), l.as_ptr(), l.len(), d.as_ptr(), d.len(), query.as_ptr(), query.len(), m.as_mut_ptr(), m.len(),
                o.as_mut_ptr(), o.len(), &mut c.found, &mut c.compares, &mut c.bits,
            )
        };
        assert_eq!(answer, 0);
        c
    }

    fn search(&mut self, side: Side, query: &[u64]) -> Counts {
        let packed = Tables { signatures: &self.store.signatures, links: &self.store.links, nodes: &self.store.nodes };
        let old = Tables { links: &self.old, ..packed };
        let (m, o) = (&mut self.marks[..], &mut self.output[..]);
        let scanned = |found| Counts { found, ..Counts::default() };
        // SAFETY: the library has left the tables sound, the buffers have a place for each block, and the query has the width's words.
        unsafe {
            match side {
                Side::Library => self.by_library(query),
                Side::Plain => hand::plain(packed, query[0], m, o),
                Side::Fastest => hand::fastest(packed, query[0], m, o),
                Side::FastestNative => fastest_native(packed, query[0], m, o),
                Side::Loop => hand::looped(packed, query[0], m, o),
                Side::ThreeWords => hand::three_words(old, query[0], m, o),
                Side::Scan => scanned(hand::scan(packed, query[0], m, o)),
                Side::WidePlain => hand::wide_plain(packed, query, m, o),
                Side::WideFastest => hand::wide_fastest(packed, query, m, o),
                Side::WideCompared => hand::wide_compared(packed, query, m, o),
                Side::WideScan => scanned(hand::wide_scan(packed, query, m, o)),
            }
        }
    }

    /// The counts of a query, on which all agree: counts, marks and list. What one has left cannot pass for the next one's.
    fn agreed(&mut self, sides: &[Side], query: &[u64]) -> Counts {
        let ours = self.search(Side::Library, query);
        let found = ours.found as usize;
        let (marks, list) = (self.marks.clone(), self.output[..found].to_vec());
        for side in sides {
            self.marks.fill(2);
            self.output.fill(0);
            let theirs = self.search(*side, query);
            let scans = matches!(side, Side::Scan | Side::WideScan);
            assert!(theirs == ours || scans && theirs.found == ours.found);
            assert!(self.marks == marks && self.output[..found] == list);
        }
        ours
    }

    /// Nanoseconds a search of each side over the queries, and the means of what is found and compared.
    pub fn measured<const N: usize>(&mut self, sides: [Side; N], queries: &[Vec<u64>], turns: usize) -> ([f64; N], [f64; 2]) {
        let n = queries.len() as f64;
        let counts: Vec<Counts> = queries.iter().map(|q| self.agreed(&sides, q)).collect();
        let mean = |count: fn(&Counts) -> u32| counts.iter().map(|c| count(c) as f64).sum::<f64>() / n;
        let parts: Vec<&[Vec<u64>]> = queries.chunks(queries.len() / PARTS).collect();
        let times = least(turns, PARTS, |side, part| {
            timed(|| {
                for q in parts[part] {
                    black_box(self.search(sides[side], q));
                }
            })
        });
        (times.map(|t| t / n), [mean(|c| c.found), mean(|c| c.compares)])
    }
}
