//! Drives the C face with random direct calls and slips, good and bad, on sound and on corrupted tables, and with conversions, and holds
//! every answer, count, list, mark and word to an independent reading of the request. Guard words stand around every buffer.
#[path = "../../examples/c_face.rs"]
mod c_face;
mod convert;
mod corrupted;
mod face;
mod guarded;
mod largest;
mod lists;
mod mirrors;
mod number;
mod packed;
mod plain;
mod reference;
mod request;
mod rng;
mod sound;
mod step;
mod texts;
mod widths;

use rng::Rng;

fn main() {
    let mut rng = Rng::new(20261115);
    println!("{} calls at every width from 1 to 512 as the request says", widths::widths(&mut rng));
    println!("{} calls as the request says", lists::lists(&mut rng, 1_200_000));
    let (tables, sound) = (250_000, corrupted::corrupted(&mut rng, 250_000));
    println!("{tables} corrupted tables, {sound} of them still sound, with seven calls each");
    let [done, unfit, unsound] = convert::convert(&mut rng, 100_000);
    println!("{} conversions as the request says: {done} done, {unfit} refused with 4, {unsound} with 11", done + unfit + unsound);
    println!("{} calls on stores of 65,535 blocks as the request says", largest::largest(&mut rng));
    let mirrors = mirrors::mirrors(&mut rng, 120_000);
    println!(
        "{} pairs of mirrors with the same counts for {} queries once rebuilt, {} of them with other counts before",
        mirrors.pairs, mirrors.queries, mirrors.differed
    );
    println!("{} texts signed and split as the request says", texts::texts(&mut rng, 500_000));
}
