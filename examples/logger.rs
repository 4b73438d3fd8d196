//! The station logger in small, over the safe wrapper: the same calls as logger.c, and the same lines up to the last audit.
mod sigtree;

use sigtree::{set, sign, Index, Refused};

const WIDTH: u32 = 24;
const POSITIONS: u32 = 3;
const CONDITIONS: u32 = 70;
const MINUTES: [&str; 6] = ["drift step", "drift", "leap pending", "step backup", "drift step leap", "quiet"];
/// The conditions of each minute by their numbers in the price list.
const OCCURRED: [&[u32]; 6] = [&[1, 6, 70], &[7, 70], &[1, 6, 7, 70], &[64, 65], &[6, 70], &[1, 6, 70]];

fn number(answer: Result<(), Refused>) -> u32 {
    answer.err().map_or(0, |refused| refused.0)
}

fn list(numbers: &[u32]) -> String {
    numbers.iter().map(|n| format!(" {n}")).collect()
}

fn sell(index: &Index, what: &str, query: &[u64]) -> Result<(), Refused> {
    let found = index.search(query)?;
    println!("search {what}: answer 0, {} compares, blocks{}", found.compares, list(&found.blocks));
    Ok(())
}

fn sell_text(index: &Index, text: &str) -> Result<(), Refused> {
    sell(index, &format!("\"{text}\""), &sign(text.as_bytes(), WIDTH, POSITIONS)?)
}

fn log_texts() -> Result<Index, Refused> {
    let mut index = Index::new(MINUTES.len(), WIDTH)?;
    println!("clear: 0");
    for (block, text) in (1..).zip(MINUTES) {
        let answer = index.file(block, &sign(text.as_bytes(), WIDTH, POSITIONS)?);
        println!("file {block} \"{text}\": {}", number(answer));
    }
    for text in ["drift", "step", "leap step"] {
        sell_text(&index, text)?;
    }
    println!("withdraw 2: {}", number(index.withdraw(2)));
    println!("rebuild: {}", number(index.rebuild()));
    sell_text(&index, "drift")?;
    Ok(index)
}

fn log_conditions(index: &mut Index) -> Result<(), Refused> {
    println!("clear to 70 conditions: {}", number(index.clear(CONDITIONS)));
    for (block, positions) in (1..).zip(OCCURRED) {
        let answer = index.file(block, &set(positions, CONDITIONS));
        println!("file {block} with{}: {}", list(positions), number(answer));
    }
    for positions in [&[6, 70][..], &[1, 7], &[64]] {
        sell(index, &format!("for{}", list(positions)), &set(positions, CONDITIONS))?;
    }
    Ok(())
}

fn main() -> Result<(), Refused> {
    let mut index = log_texts()?;
    println!("audit: {}", number(index.audit()));
    log_conditions(&mut index)?;
    println!("audit: {}", number(index.audit()));
    Ok(())
}
