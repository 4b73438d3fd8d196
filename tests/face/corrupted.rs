//! Sound tables with some words changed, and every call on them.
use crate::number::{word_count, Number};
use crate::packed::{parts, word, Packed};
use crate::reference::Tables;
use crate::request::{plain_request, random_call, random_request, Call, Request, WIDTHS};
use crate::rng::Rng;
use crate::step::step;

/// Sound tables, by random calls on the library beside the reference.
pub fn store(rng: &mut Rng) -> Packed {
    let blocks = rng.pick(&[1, 2, 3, 5, 8, 17]);
    let width = if rng.one_in(2) { rng.pick(&[1, 2, 3, 4, 6]) } else { rng.pick(&WIDTHS) };
    let mut p = Packed::of(&Tables::cleared(blocks, width));
    for _ in 0..rng.below(3 * blocks as u64 + 1) {
        let r = plain_request(random_call(&p, rng), blocks, word_count(width));
        if matches!(r.call, Call::File(..) | Call::Withdraw(_) | Call::Rebuild) {
            step(&mut p, &r, rng).unwrap_or_else(|e| panic!("{e}: {r:?}"));
        }
    }
    p
}

/// A word of a signature changed, in one bit of any, or exchanged with another.
pub fn change_signature(signatures: &mut [u64], rng: &mut Rng) {
    let (at, from) = (rng.below(signatures.len() as u64) as usize, rng.below(signatures.len() as u64) as usize);
    if rng.one_in(4) {
        return signatures.swap(at, from);
    }
    let flipped = signatures[at] ^ 1 << rng.below(64);
    signatures[at] = rng.pick(&[0, 1, signatures[at] ^ 1, signatures[at] ^ 1 << 63, flipped, signatures[from], u64::MAX]);
}

/// A link changed: to a word that means something at its place or elsewhere, to any word, or in one bit.
pub fn change_link(links: &mut [u32], blocks: usize, rng: &mut Rng) {
    let (at, b) = (rng.below(links.len() as u64) as usize, blocks as u32);
    let (any, flipped) = (rng.below(2 * blocks as u64) as u32, links[at] ^ 1 << rng.below(32));
    links[at] = match at {
        // mostly a width of as many words
        0 => rng.pick(&[0, 513, flipped, links[0].wrapping_add(1), links[0].wrapping_sub(1), 64 * word_count(links[0].min(513)) as u32]),
        _ => rng.pick(&[0, 1, 2, b, b + 1, 2 * b - 1, 2 * b, u32::MAX, any, any, flipped, flipped]),
    };
}

/// A node's word changed: all its bits, one of them, one of its parts, its sides swapped, or that of another node.
fn changed_word(p: &Packed, at: usize, rng: &mut Rng) -> u64 {
    let [position, left, right] = parts(p.nodes[at]);
    let (b, width) = (p.blocks() as u32, p.links[0].clamp(1, 512));
    let (tested, any) = (1 + rng.below(width as u64) as u32, rng.below(2 * b as u64) as u32);
    let other = rng.pick(&[0, tested, tested, width + 1, 64, 65, 512, 513, 1 << 17, (1 << 30) - 1]);
    let side = rng.pick(&[0, 1, b, b + 1, 2 * b - 1, 2 * b, any, any, 1 << 16, (1 << 17) - 2, (1 << 17) - 1]);
    match rng.below(8) {
        0 => rng.next(),
        1 | 2 => p.nodes[at] ^ 1 << rng.below(64),
        3 => word([other, left, right]),
        4 => word([position, side, right]),
        5 => word([position, left, side]),
        6 => word([position, right, left]),
        _ => p.nodes[rng.below(p.nodes.len() as u64) as usize],
    }
}

/// Up to three words changed. Where the width is another, the signature slice mostly has the words of that width.
pub fn changed(mut p: Packed, rng: &mut Rng) -> Packed {
    let blocks = p.blocks();
    for _ in 0..1 + rng.below(3) {
        match rng.below(6) {
            0 => change_signature(&mut p.signatures, rng),
            1..=3 if blocks > 1 => {
                let at = rng.below(p.nodes.len() as u64) as usize;
                p.nodes[at] = changed_word(&p, at, rng);
            }
            _ => change_link(&mut p.links, blocks, rng),
        }
    }
    if !rng.one_in(4) {
        p.signatures.resize(blocks * p.words().min(9), 0);
    }
    p
}

/// Tables that are sound but for a position tested twice: a leaf agrees with the second test of it, and not with the first.
fn twice_tested(rng: &mut Rng) -> Packed {
    let (blocks, width) = (rng.pick(&[3, 4, 7]), rng.pick(&[2, 3, 5, 64, 65, 129, 512]));
    let p = 1 + rng.below(width as u64) as u32;
    let (k, e) = (width - p, rng.below(2) as usize);
    let mut with = |set: bool| {
        let s = Number::random(rng).low(width);
        if (s.bit(k) == 1) == set { s } else { s ^ Number::weight(k) }
    };
    let (a, b) = (with(e == 1), with(e == 0));
    let other = Number::weight(if k == 0 { 1 } else { 0 });
    let mut t = Tables::cleared(blocks, width);
    t.signatures[..3].copy_from_slice(&[a, b, b ^ other]);
    for b in 1..=3 {
        t.links[Tables::filed_at(b)] = 1;
    }
    t.links[2] = blocks as u32 + 1;
    t.links[3] = if blocks > 3 { 3 } else { 0 };
    t.links[4] = 3;
    for (node, here, there) in [(1, blocks as u32 + 2, 3), (2, 1, 2)] {
        let row = t.node_at(node);
        t.links[row] = p;
        t.links[row + 1 + e] = here;
        t.links[row + 2 - e] = there;
    }
    Packed::of(&t)
}

/// Six calls and an audit, each on these tables. It says whether they are sound.
fn every_call(p: &Packed, rng: &mut Rng) -> bool {
    for i in 0..7 {
        let r = if i < 6 { random_request(p, rng) } else { plain_request(Call::Audit, p.blocks(), 0) };
        let r = if r.another { r } else { Request { tables: p.lengths(), ..r } };
        if let Err(e) = step(&mut p.clone(), &r, rng) {
            println!("failed: {e}\n  {r:?}\n  {p:?}");
            std::process::exit(1)
        }
    }
    p.open().is_some_and(|t| t.sound())
}

/// Every call on so many changed tables; how many of them were sound all the same.
pub fn corrupted(rng: &mut Rng, tables: usize) -> usize {
    let mut sound = 0;
    for _ in 0..tables {
        let p = store(rng);
        sound += every_call(&changed(p, rng), rng) as usize;
    }
    for _ in 0..tables / 50 {
        assert!(!every_call(&twice_tested(rng), rng));
    }
    sound
}
