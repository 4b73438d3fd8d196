//! How times are taken, and random signatures and queries.
use std::time::Instant;

pub struct Rng(pub u64);

impl Rng {
    pub fn next(&mut self) -> u64 {
        self.0 = self.0.wrapping_add(0x9e37_79b9_7f4a_7c15);
        let mut z = self.0;
        z = (z ^ (z >> 30)).wrapping_mul(0xbf58_476d_1ce4_e5b9);
        z = (z ^ (z >> 27)).wrapping_mul(0x94d0_49bb_1331_11eb);
        z ^ (z >> 31)
    }

    /// k of a width's bits, first among those of `from`, in as many words, the high one first.
    pub fn bits(&mut self, k: u32, width: u32, from: &[u64]) -> Vec<u64> {
        let weight = from.iter().map(|word| word.count_ones()).sum();
        let mut s = vec![0; from.len()];
        let mut set = 0;
        while set < k {
            let at = self.next() % width as u64;
            let (word, bit) = (s.len() - 1 - at as usize / 64, 1 << (at % 64));
            if s[word] & bit == 0 && (set >= weight || from[word] & bit != 0) {
                s[word] |= bit;
                set += 1;
            }
        }
        s
    }

    /// So many random signatures of a weight, end to end.
    pub fn signatures(&mut self, count: usize, weight: u32, width: u32) -> Vec<u64> {
        let none = vec![0; words_of(width)];
        (0..count).flat_map(|_| self.bits(weight, width, &none)).collect()
    }

    /// Queries of k bits, each from a stored signature's.
    pub fn queries(&mut self, signatures: &[u64], width: u32, count: usize, k: u32) -> Vec<Vec<u64>> {
        let words = words_of(width);
        let blocks = signatures.len() / words;
        (0..count)
            .map(|_| {
                let at = (self.next() % blocks as u64) as usize * words;
                self.bits(k, width, &signatures[at..at + words])
            })
            .collect()
    }
}

pub fn words_of(width: u32) -> usize {
    width.div_ceil(64) as usize
}

/// Into how many parts work is parted that is timed in parts.
pub const PARTS: usize = 16;

/// In nanoseconds.
pub fn timed(work: impl FnOnce()) -> f64 {
    let from = Instant::now();
    work();
    from.elapsed().as_nanos() as f64
}

/// The least time of each of N over some turns: other work on the machine only ever adds. They take turns, so that it adds to all of
/// them; each goes once before it is timed, so that it finds in the caches, and in what the processor foresees, its own last turn; and
/// the parts of its work are timed each for itself, so that one interruption does not spoil a turn.
pub fn least<const N: usize>(turns: usize, parts: usize, mut time: impl FnMut(usize, usize) -> f64) -> [f64; N] {
    let mut least = vec![[f64::INFINITY; N]; parts];
    for _ in 0..turns {
        for i in 0..N {
            for part in 0..parts {
                time(i, part);
            }
            for (part, least) in least.iter_mut().enumerate() {
                least[i] = least[i].min(time(i, part));
            }
        }
    }
    std::array::from_fn(|i| least.iter().map(|part| part[i]).sum())
}

pub fn is_large(blocks: usize) -> bool {
    blocks > 10_000
}

/// Short work takes more turns, so that some of them are not interrupted.
pub fn turns(blocks: usize) -> usize {
    if is_large(blocks) { 15 } else { 500 }
}

/// The geometric mean of some rows, and the largest.
pub fn mean_and_largest<R>(rows: &[&R], ratio: fn(&R) -> f64) -> (f64, f64) {
    let logs: f64 = rows.iter().map(|&r| ratio(r).ln()).sum();
    ((logs / rows.len() as f64).exp(), rows.iter().map(|&r| ratio(r)).fold(0.0, f64::max))
}

pub fn heading(columns: &str) {
    println!("\n| {columns} |\n|{}", "---|".repeat(columns.split(" | ").count()));
}
