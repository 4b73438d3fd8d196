//! A store that was filled in the form of 5B + 2 links, over the safe wrapper: the calls and the lines of convert.c, without the words.
mod sigtree;

use sigtree::{Index, Refused};

const SIGNATURES: [u64; 5] = [0b1011, 0b0110, 0b1110, 0b0110, 0];
const OLD_LINKS: [u32; 27] = [4, 5, 6, 3, 4, 0, 1, 4, 1, 0, 1, 0, 1, 0, 0, 1, 2, 7, 2, 1, 3, 0, 4, 0, 0, 0, 0];

fn search(index: &Index, query: u64) -> Result<(), Refused> {
    let found = index.search(&[query])?;
    let blocks: String = found.blocks.iter().map(|b| format!(" {b}")).collect();
    println!("search: answer 0, {} compares, blocks{blocks}", found.compares);
    Ok(())
}

fn main() -> Result<(), Refused> {
    let index = Index::pack(SIGNATURES.to_vec(), &OLD_LINKS)?;
    println!("pack: 0");
    search(&index, 0b1000)?;
    let back = index.unpack()?;
    println!("unpack: 0");
    println!("the same words: {}", if back == OLD_LINKS { "yes" } else { "no" });
    let mut written = OLD_LINKS;
    written[15] += 64;
    let refused = Index::pack(SIGNATURES.to_vec(), &written).err();
    println!("pack with a word written over: {}", refused.map_or(0, |refused| refused.0));
    search(&index, 0b1000)
}
