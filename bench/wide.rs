//! Searches, filing, withdrawing, rebuilding and auditing at widths of one word and of more, beside what is hand-written for W words, W
//! known when it runs.
use crate::changing::{changes, By};
use crate::measure::{heading, is_large, mean_and_largest, Rng};
use crate::searching::{Searched, WIDE_SIDES};
use crate::store::{stores, Store};

const WIDTHS: [u32; 3] = [64, 128, 512];

/// What the summary needs of a row of searches.
struct Row {
    width: u32,
    blocks: usize,
    bits: u32,
    to_plain: f64,
    to_fastest: f64,
    to_compared: f64,
}

fn searches(name: &str, tree: &str, store: Store, rng: &mut Rng, rows: &mut Vec<Row>) {
    let (width, blocks) = (store.width, store.blocks());
    let mut x = Searched::of(store);
    let (count, turns) = if is_large(blocks) { (16, 10) } else { (256, 25) };
    for bits in [0, 1, 2, 4, 8, 16, 32] {
        let queries = rng.queries(&x.store.signatures, width, count, bits);
        let ([ours, plain, fastest, compared, scan], [found, compares]) = x.measured(WIDE_SIDES, &queries, turns);
        let (to_plain, to_fastest, to_compared) = (ours / plain, ours / fastest, ours / compared);
        let ratios = [to_plain, to_fastest, to_compared, ours / scan].map(|ratio| format!("{ratio:.2}"));
        let us = ours / 1000.0;
        println!("| {width} | {name} | {tree} | {bits} | {found:.0} | {compares:.0} | {us:.1} | {} |", ratios.join(" | "));
        rows.push(Row { width, blocks, bits, to_plain, to_fastest, to_compared });
    }
}

fn summary_of_searches(rows: &[Row]) {
    heading("width | B | bits set | to hand-written | largest | to fastest | largest | to compared | largest");
    for (width, blocks) in WIDTHS.into_iter().flat_map(|width| [(width, 1024), (width, 65535)]) {
        for (label, many) in [("4 and more", true), ("fewer", false)] {
            let is_of = |r: &&Row| r.width == width && r.blocks == blocks && (r.bits >= 4) == many;
            let some: Vec<&Row> = rows.iter().filter(is_of).collect();
            let ratios = [|r: &Row| r.to_plain, |r: &Row| r.to_fastest, |r: &Row| r.to_compared];
            let cells = ratios.map(|ratio| mean_and_largest(&some, ratio)).map(|(mean, largest)| format!("{mean:.2} | {largest:.2}"));
            println!("| {width} | {blocks} | {label} | {} |", cells.join(" | "));
        }
    }
}

fn summary_of_changes(rows: &[(u32, [f64; 3])]) {
    heading("width | file | largest | withdraw | largest | rebuild, with its audit | largest");
    for width in WIDTHS {
        let some: Vec<&[f64; 3]> = rows.iter().filter(|row| row.0 == width).map(|row| &row.1).collect();
        let ratios = [|r: &[f64; 3]| r[0], |r: &[f64; 3]| r[1], |r: &[f64; 3]| r[2]];
        let cells = ratios.map(|ratio| mean_and_largest(&some, ratio)).map(|(mean, largest)| format!("{mean:.2} | {largest:.2}"));
        println!("| {width} | {} |", cells.join(" | "));
    }
}

pub fn tables() {
    let mut rng = Rng(20270301);
    let widths = WIDTHS.map(|width| (width, stores(width, &mut rng)));
    println!("\nWidths of one word and of more, beside what is hand-written for W words, W known when it runs. A cover test goes word by");
    println!("word from the high one and stops at the first that fails.");
    heading(
        "width | store | tree | bits set | found | compares | us a search | to hand-written | to fastest | to compared | to linear scan",
    );
    let mut searched = Vec::new();
    for (width, stores) in &widths {
        for (name, signatures) in stores {
            let filed = Store::filed(*width, signatures);
            searches(name, "as filed", filed.clone(), &mut rng, &mut searched);
            searches(name, "rebuilt", filed.rebuilt(), &mut rng, &mut searched);
        }
    }
    heading("width | store | call | us | to hand-written");
    let mut changed = Vec::new();
    for (width, stores) in &widths {
        for (name, signatures) in stores {
            changed.push((*width, changes(&format!("{width} | {name}"), *width, signatures, By::WideHand)));
        }
    }
    println!("\nGeometric means, and the largest of the rows.");
    summary_of_searches(&searched);
    summary_of_changes(&changed);
}
