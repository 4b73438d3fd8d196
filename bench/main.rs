//! Ratios in one run: the library's calls beside a linear scan and beside the same algorithms hand-written in unsafe Rust, on the same
//! tables and queries. No caller clears a buffer first: the marks hold the last search's, and each search sets its own.
//! What is hand-written is compiled for any x86-64 processor, as the library is, so that a ratio compares two programs and not two
//! instruction sets. The fastest search is also compiled for this processor, to show what its own instructions would give.
#[path = "../examples/c_face.rs"]
mod c_face;

mod changing;
mod measure;
mod searching;
mod signing;
mod store;
mod wide;

use changing::{changes, By};
use hand::Counts;
use measure::{heading, is_large, least, mean_and_largest, timed, turns, Rng};
use searching::{Searched, Side, SIDES};
use store::{stores, Store};

const WIDTH: u32 = 64;

/// What the summary needs of a row of searches.
struct Row {
    blocks: usize,
    bits: u32,
    to_fastest: f64,
    to_native: f64,
    to_loop: f64,
    one_to_three: f64,
}

fn searches(name: &str, tree: &str, store: Store, rng: &mut Rng, rows: &mut Vec<Row>) {
    let blocks = store.blocks();
    let distinct = {
        let mut s = store.signatures.clone();
        s.sort_unstable();
        s.dedup();
        s.len()
    };
    let mut x = Searched::of(store);
    // few searches of a small store would be learnt by heart: the processor would foresee every branch
    let (count, turns) = if is_large(blocks) { (16, 15) } else { (256, 50) };
    for bits in [0, 1, 2, 4, 8, 16, 24, 32] {
        let queries = rng.queries(&x.store.signatures, WIDTH, count, bits);
        let ([ours, plain, fastest, native, looped, three, scan], [found, compares]) = x.measured(SIDES, &queries, turns);
        let (to_fastest, to_native, to_loop, one_to_three) = (ours / fastest, ours / native, ours / looped, fastest / three);
        let ratios = [ours / plain, to_fastest, to_native, to_loop, one_to_three, ours / scan].map(|ratio| format!("{ratio:.2}"));
        let us = ours / 1000.0;
        println!("| {name} | {tree} | {distinct} | {bits} | {found:.0} | {compares:.0} | {us:.1} | {} |", ratios.join(" | "));
        rows.push(Row { blocks, bits, to_fastest, to_native, to_loop, one_to_three });
    }
}

/// How a search grows with the number of blocks: queries of 8 bits on rebuilt trees of random signatures of weight 32.
fn growth(n: usize, rng: &mut Rng) {
    let signatures = rng.signatures(n, 32, WIDTH);
    let queries = rng.queries(&signatures, WIDTH, 64, 8);
    let mut x = Searched::of(Store::filed(WIDTH, &signatures).rebuilt());
    let ([ours, plain, fastest], [_, compares]) = x.measured([Side::Library, Side::Plain, Side::Fastest], &queries, turns(n));
    println!("| {n} | {compares:.0} | {:.1} | {:.1} | {:.2} | {:.2} |", ours / 1000.0, ours / compares, ours / plain, ours / fastest);
}

fn conversions(name: &str, signatures: &[u64]) {
    let from = Store::filed(WIDTH, signatures);
    let old = from.old_links();
    let mut packed = Store { links: vec![0; from.links.len()], nodes: vec![0; from.nodes.len()], ..from.clone() };
    let mut unpacked = vec![0; old.len()];
    let [audit, pack, unpack] = least(turns(signatures.len()), 1, |call, _| match call {
        0 => timed(|| from.audit()),
        1 => timed(|| packed.pack(&old)),
        _ => timed(|| from.unpack(&mut unpacked)),
    });
    assert!(packed == from && unpacked == old);
    println!("| {name} | {:.0} | {:.0} | {:.0} |", audit / 1000.0, pack / 1000.0, unpack / 1000.0);
}

/// What a search compares where the same blocks were filed in two orders, and once both stores are rebuilt.
fn quotes(name: &str, signatures: &[u64], rng: &mut Rng) {
    let filed = [Store::filed(WIDTH, signatures), Store::filed_in(WIDTH, signatures, (1..=signatures.len() as u32).rev())];
    let mut rebuilt = filed.clone().map(|store| Searched::of(store.rebuilt()));
    let mut filed = filed.map(Searched::of);
    for bits in [1, 4, 8, 16, 32] {
        let queries = rng.queries(signatures, WIDTH, 64, bits);
        let counts = |x: &mut Searched| queries.iter().map(|q| x.by_library(q)).collect::<Vec<Counts>>();
        let [first, last] = filed.each_mut().map(counts);
        let [one, other] = rebuilt.each_mut().map(counts);
        assert!(one == other);
        let mean = |counts: &[Counts]| counts.iter().map(|c| c.compares as f64).sum::<f64>() / counts.len() as f64;
        let differ = first.iter().zip(&last).filter(|(a, b)| a.compares != b.compares).count();
        println!("| {name} | {bits} | {:.0} | {:.0} | {differ} of {} | {:.0} |", mean(&first), mean(&last), queries.len(), mean(&one));
    }
}

fn summary(rows: &[Row]) {
    println!("\nGeometric means, and the largest of the rows.");
    heading(
        "B | bits set | to fastest | largest | to fastest, this processor's | largest | to loop | largest | one word to three | largest",
    );
    for blocks in [1024, 65535] {
        for (label, many) in [("4 and more", true), ("fewer", false)] {
            let some: Vec<&Row> = rows.iter().filter(|r| r.blocks == blocks && (r.bits >= 4) == many).collect();
            let ratios = [|r: &Row| r.to_fastest, |r: &Row| r.to_native, |r: &Row| r.to_loop, |r: &Row| r.one_to_three];
            let cells = ratios.map(|ratio| mean_and_largest(&some, ratio)).map(|(mean, largest)| format!("{mean:.2} | {largest:.2}"));
            println!("| {blocks} | {label} | {} |", cells.join(" | "));
        }
    }
}

fn main() {
    let mut rng = Rng(20261115);
    let stores = stores(WIDTH, &mut rng);
    println!("No buffer is cleared before a search: the marks hold the last one's, and each search sets its own.");
    println!("Hand-written: one recursive function. Fastest: the fastest found that calls itself on each side. Loop: faster by other");
    println!("steps. One word to three: the fastest over one word a node to the same over three. All are compiled for any x86-64");
    println!("processor, as the library is, and the fastest once more for this one.");
    heading(
        "store | tree | distinct | bits set | found | compares | us a search | to hand-written | to fastest | \
         to fastest, this processor's | to loop | one word to three | to linear scan",
    );
    let mut rows = Vec::new();
    for (name, signatures) in &stores {
        let filed = Store::filed(WIDTH, signatures);
        searches(name, "as filed", filed.clone(), &mut rng, &mut rows);
        searches(name, "rebuilt", filed.rebuilt(), &mut rng, &mut rows);
    }
    heading("B | compares | us a search | ns a compare | to hand-written | to fastest");
    for n in [1024, 4096, 16384, 65535] {
        growth(n, &mut rng);
    }
    heading("store | call | us | to hand-written");
    for (name, signatures) in &stores {
        changes(name, WIDTH, signatures, By::Hand);
    }
    heading("store | audit | pack, with its audit | unpack, with its audit");
    for (name, signatures) in &stores {
        conversions(name, signatures);
    }
    heading("store | bits set | compares, filed first to last | last to first | queries that differ | rebuilt, either");
    for (name, signatures) in &stores {
        quotes(name, signatures, &mut rng);
    }
    summary(&rows);
    wide::tables();
    signing::table();
}
