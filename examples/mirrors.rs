//! Two mirrors of one record, over the safe wrapper: the calls and the lines of mirrors.c.
mod sigtree;

use sigtree::{Index, Refused};

const WIDTH: u32 = 3;
const MINUTES: [u64; 4] = [0b001, 0b010, 0b100, 0b101];
const ORDERS: [(&str, [u32; 4]); 2] = [("east", [1, 2, 3, 4]), ("west", [3, 4, 1, 2])];

fn filled(order: [u32; 4]) -> Result<Index, Refused> {
    let mut index = Index::new(MINUTES.len(), WIDTH)?;
    order.iter().try_for_each(|&block| index.file(block, &[MINUTES[block as usize - 1]]))?;
    Ok(index)
}

fn quote(name: &str, index: &Index, query: u64) -> Result<(), Refused> {
    let found = index.search(&[query])?;
    let blocks: String = found.blocks.iter().map(|b| format!(" {b}")).collect();
    println!("{name}: answer 0, {} compares, {} bits read, blocks{blocks}", found.compares, found.bits_read);
    Ok(())
}

fn main() -> Result<(), Refused> {
    let mut mirrors = Vec::new();
    for (name, order) in ORDERS {
        let index = filled(order)?;
        quote(name, &index, 0b010)?;
        mirrors.push((name, index));
    }
    for (name, index) in &mut mirrors {
        index.rebuild()?;
        println!("{name} rebuilt: 0");
        quote(name, index, 0b010)?;
    }
    Ok(())
}
