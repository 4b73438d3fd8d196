//! Filing, withdrawing, rebuilding and auditing, and the conversions.
use crate::measure::{least, timed, turns, words_of, PARTS};
use crate::store::Store;
use std::ops::Range;

#[derive(Clone, Copy)]
enum Change {
    File,
    Withdraw,
    Rebuild,
}

/// Who changes a store: the library, or what is hand-written for one word or for W.
#[derive(Clone, Copy)]
pub enum By {
    Library,
    Hand,
    WideHand,
}

/// Files or withdraws some of the blocks in turn, or rebuilds. The scratch is as long as there are blocks.
fn change(x: &mut Store, change: Change, by: By, some: Range<usize>, signatures: &[u64], scratch: &mut [u32]) {
    let words = words_of(x.width);
    let blocks = some.map(|i| (i as u32 + 1, &signatures[i * words..(i + 1) * words]));
    if let By::Library = by {
        return match change {
            Change::File => blocks.for_each(|(b, s)| x.file(b, s)),
            Change::Withdraw => blocks.for_each(|(b, _)| x.withdraw(b)),
            Change::Rebuild => x.rebuild(scratch),
        };
    }
    let (s, l, d) = (&mut x.signatures[..], &mut x.links[..], &mut x.nodes[..]);
    let wide = matches!(by, By::WideHand);
    // SAFETY: the tables are sound; the blocks are filed, or unfiled where they are to be filed.
    match (change, wide) {
        (Change::File, false) => blocks.for_each(|(b, signature)| unsafe { hand::file(s, l, d, b, signature[0]) }),
        (Change::File, true) => blocks.for_each(|(b, signature)| unsafe { hand::wide_file(s, l, d, b, signature) }),
        (Change::Withdraw, false) => blocks.for_each(|(b, _)| unsafe { hand::withdraw(s, l, d, b) }),
        (Change::Withdraw, true) => blocks.for_each(|(b, _)| unsafe { hand::wide_withdraw(s, l, d, b) }),
        (Change::Rebuild, false) => unsafe { hand::rebuild(s, l, d, scratch) },
        (Change::Rebuild, true) => unsafe { hand::wide_rebuild(s, l, d, scratch) },
    }
}

/// Times a store's calls beside those of `by`, all in the same memory, and asserts that both leave the same. The result is the ratio of each.
pub fn changes(name: &str, width: u32, signatures: &[u64], by: By) -> [f64; 3] {
    let filed = Store::filed(width, signatures);
    let n = filed.blocks();
    let mut scratch = vec![0; n];
    let mut emptied = filed.clone();
    change(&mut emptied, Change::Withdraw, By::Library, 0..n, signatures, &mut scratch);
    let calls = [
        ("file, each", Change::File, &emptied, PARTS, 3),
        ("withdraw, each", Change::Withdraw, &filed, PARTS, 3),
        ("rebuild, with its audit", Change::Rebuild, &filed, 1, 0),
    ];
    let ratios = calls.map(|(call, kind, from, parts, digits)| {
        let mut x = from.clone();
        let mut left: Option<Store> = None;
        let [ours, by_hand] = least(turns_of(kind, n, width), parts, |side, part| {
            if part == 0 {
                x.clone_from(from);
            }
            let some = n * part / parts..n * (part + 1) / parts;
            let time = timed(|| change(&mut x, kind, [By::Library, by][side], some, signatures, &mut scratch));
            if part + 1 == parts {
                assert!(*left.get_or_insert_with(|| x.clone()) == x);
            }
            time
        });
        let calls = if parts == 1 { 1 } else { n };
        println!("| {name} | {call} | {:.digits$} | {:.2} |", ours / calls as f64 / 1000.0, ours / by_hand);
        ours / by_hand
    });
    let [audit] = least(turns(n), 1, |_, _| timed(|| filed.audit()));
    println!("| {name} | audit | {:.0} | |", audit / 1000.0);
    ratios
}

/// A rebuild reads each signature once for each position.
fn turns_of(change: Change, blocks: usize, width: u32) -> usize {
    match change {
        Change::Rebuild => (turns(blocks) / words_of(width)).max(3),
        _ => turns(blocks),
    }
}
