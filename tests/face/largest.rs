//! The largest store: 65,535 blocks with different signatures, so that every node is in the tree and references go up to 131,069.
use crate::convert::{check, lengths, Forms, Old, Way};
use crate::face::{Lent, Report};
use crate::guarded::same;
use crate::number::{word_count, Number};
use crate::packed::{parts, word, Packed};
use crate::reference::{links_of, Tables, MOST_BLOCKS};
use crate::request::{plain_request, Call};
use crate::rng::Rng;
use crate::step::step;

/// The library's tables beside the reference's, after the same calls.
struct Both {
    lent: Lent,
    tables: Tables,
    words: usize,
    calls: usize,
}

impl Both {
    fn cleared(width: u32, rng: &mut Rng) -> Both {
        let words = word_count(width);
        let blank = Packed::blank(MOST_BLOCKS, vec![0; MOST_BLOCKS * words]);
        let lent = Lent::new(&blank, &plain_request(Call::Audit, MOST_BLOCKS, words), rng);
        let mut both = Both { lent, tables: Tables::cleared(MOST_BLOCKS, width), words, calls: 0 };
        both.accepted(Call::Clear(width));
        both
    }
    fn accepted(&mut self, call: Call) {
        assert_eq!(self.lent.run(&call), Report::bare(0));
        self.calls += 1;
    }
    fn file(&mut self, block: usize, signature: Number) {
        self.accepted(Call::File(block as u32, signature.words(self.words)));
        self.tables.file(block, signature);
    }
    fn withdraw(&mut self, block: usize) {
        self.accepted(Call::Withdraw(block as u32));
        self.tables.withdraw(block);
    }
    fn rebuild(&mut self) {
        self.accepted(Call::Rebuild);
        self.tables.rebuild();
    }
    /// The words are the same; an audit, searches of few and of many bits, and both conversions are as the request says.
    fn agree(&mut self, rng: &mut Rng) -> Result<(), String> {
        self.lent.guards()?;
        let mut p = Packed::of(&self.tables);
        if self.lent.tables() != p {
            return Err("the tables differ".into());
        }
        let of = self.tables.signatures[rng.below(MOST_BLOCKS as u64) as usize];
        let some = of & Number::random(rng);
        let queries = [Number::default(), some & Number::random(rng) & Number::random(rng), some, of];
        for call in queries.map(|q| Call::Search(q.words(self.words))).into_iter().chain([Call::Audit]) {
            step(&mut p, &plain_request(call, MOST_BLOCKS, self.words), rng)?;
        }
        for way in [Way::Pack, Way::Unpack] {
            let lent = Forms::new(way, &p, &Old::of(&self.tables), lengths(MOST_BLOCKS, self.words), rng);
            same("conversion", &check(way, &lent)?, &0)?;
        }
        self.calls += queries.len() + 3;
        Ok(())
    }
}

/// The blocks 1 to 65,535 in a random order.
fn shuffled(rng: &mut Rng) -> Vec<usize> {
    rng.shuffled((1..=MOST_BLOCKS).collect())
}

/// Where the largest reference stands: a node's index, and 1 for its left or 2 for its right.
fn largest_reference(p: &Packed) -> (usize, usize, u32) {
    let sides = p.nodes.iter().enumerate().flat_map(|(at, &w)| [1, 2].map(|side| (at, side, parts(w)[side])));
    sides.max_by_key(|&(_, _, reference)| reference).unwrap()
}

/// The full store with one word of a node changed: a reference that is too large or has lost its highest bit, a position too high.
fn corrupted(p: &Packed, rng: &mut Rng) -> Result<usize, String> {
    let (at, side, top) = largest_reference(p);
    same("largest reference", &top, &131_069)?;
    let (words, mut calls) = (p.words(), 0);
    let wide = p.links[0] + 1;
    for (part, value) in [(side, 131_070), (side, 131_071), (side, top - 65_536), (side, 0), (0, wide), (0, (1 << 30) - 1)] {
        let mut changed = parts(p.nodes[at]);
        changed[part] = value;
        let mut bad = p.clone();
        bad.nodes[at] = word(changed);
        let withdrawn = 1 + rng.below(MOST_BLOCKS as u64) as u32;
        for call in [Call::Audit, Call::Rebuild, Call::Search(vec![0; words]), Call::Withdraw(withdrawn)] {
            step(&mut bad.clone(), &plain_request(call, MOST_BLOCKS, words), rng)?;
        }
        let old = Old { signatures: vec![], links: vec![] };
        let lent = Forms::new(Way::Unpack, &bad, &old, lengths(MOST_BLOCKS, words), rng);
        same("conversion", &check(Way::Unpack, &lent)?, &11)?;
        calls += 5;
    }
    Ok(calls)
}

/// Fills the store, rebuilds it, withdraws half of it, files that half again, and withdraws all.
fn fill_and_empty(width: u32, signatures: &[Number], rng: &mut Rng) -> Result<usize, String> {
    let mut both = Both::cleared(width, rng);
    for (b, s) in shuffled(rng).into_iter().zip(signatures) {
        both.file(b, *s);
    }
    both.agree(rng)?;
    both.calls += corrupted(&both.lent.tables(), rng)?;
    both.rebuild();
    both.agree(rng)?;
    let full = both.tables.signatures.clone();
    let half = &shuffled(rng)[..MOST_BLOCKS / 2];
    half.iter().for_each(|&b| both.withdraw(b));
    both.agree(rng)?;
    half.iter().rev().for_each(|&b| both.file(b, full[b - 1]));
    both.agree(rng)?;
    shuffled(rng).into_iter().for_each(|b| both.withdraw(b));
    both.agree(rng)?;
    Ok(both.calls)
}

/// One block more: lengths that fit each other and no tables.
fn too_many(rng: &mut Rng) -> Result<usize, String> {
    let blocks = MOST_BLOCKS + 1;
    let (mut p, words) = (Packed::blank(blocks, vec![0; blocks]), 1);
    (p.links[0], p.links[1]) = (64, blocks as u32);
    let calls = [Call::Clear(64), Call::File(1, vec![1]), Call::Withdraw(1), Call::Rebuild, Call::Search(vec![0]), Call::Audit];
    let made = calls.len() + 2;
    for call in calls {
        step(&mut p, &plain_request(call, blocks, words), rng)?;
    }
    let mut old = Old { signatures: vec![0; blocks], links: vec![0; links_of(blocks)] };
    (old.links[0], old.links[1]) = (64, blocks as u32);
    for way in [Way::Pack, Way::Unpack] {
        same("conversion", &check(way, &Forms::new(way, &p, &old, lengths(blocks, words), rng))?, &4)?;
    }
    Ok(made)
}

/// How many calls were made: signatures of 512 random bits, then all of 16 bits but one.
pub fn largest(rng: &mut Rng) -> usize {
    let wide: Vec<Number> = (0..MOST_BLOCKS).map(|_| Number::random(rng).low(512)).collect();
    let dense: Vec<Number> = shuffled(rng).iter().map(|&s| Number::read(&[s as u64])).collect();
    let made = fill_and_empty(512, &wide, rng)
        .and_then(|n| Ok(n + fill_and_empty(16, &dense, rng)?))
        .and_then(|n| Ok(n + too_many(rng)?));
    made.unwrap_or_else(|e| {
        println!("failed: the largest store: {}", e.chars().take(400).collect::<String>());
        std::process::exit(1)
    })
}
