//! Mirrors: two indexes with the same ledger, or with the same set of signatures, that have grown differently. Once both are rebuilt,
//! every query has the same counts in both, and where the ledgers are the same, the same list. Before, some pairs have to differ: else
//! this would show nothing.
use crate::face::{Lent, Report};
use crate::guarded::same;
use crate::number::{word_count, Number};
use crate::packed::Packed;
use crate::reference::Tables;
use crate::request::{plain_request, Call};
use crate::rng::Rng;
use std::collections::{BTreeMap, BTreeSet};

type Ledger = BTreeMap<u32, Number>;

/// What the pairs came to.
#[derive(Default)]
pub struct Outcome {
    pub pairs: usize,
    pub queries: usize,
    /// pairs of which some query had other counts in the one than in the other before they were rebuilt
    pub differed: usize,
}

/// A signature below 2^width, of few bits or of many.
fn signature(width: u32, rng: &mut Rng) -> Number {
    let s = if rng.one_in(2) { Number::random(rng) } else { Number::random(rng) & Number::random(rng) };
    s.low(width)
}

/// Some of the signatures, for blocks 1 to B at random.
fn any_ledger(blocks: usize, from: &[Number], rng: &mut Rng) -> Ledger {
    (1..=blocks as u32).filter_map(|b| (!rng.one_in(3)).then(|| (b, rng.pick(from)))).collect()
}

/// All of the signatures, each in a block of its own, then some of them in other blocks again.
fn ledger_of(set: &[Number], blocks: usize, rng: &mut Rng) -> Ledger {
    let order = rng.shuffled((1..=blocks as u32).collect());
    let again = order[set.len()..].iter().filter_map(|&b| rng.one_in(2).then(|| (b, rng.pick(set)))).collect::<Vec<_>>();
    order.iter().copied().zip(set.iter().copied()).chain(again).collect()
}

/// The calls that take a block from one entry to another, by way of some others.
fn way(block: u32, from: Option<Number>, to: Option<Number>, others: &[Number], words: usize, rng: &mut Rng) -> Vec<Call> {
    let (mut calls, mut now) = (Vec::new(), from);
    let mut stops: Vec<Option<Number>> = (0..rng.below(4)).map(|_| rng.one_in(2).then(|| rng.pick(others))).collect();
    stops.push(to);
    for stop in stops {
        if stop != now {
            calls.extend(now.map(|_| Call::Withdraw(block)));
            calls.extend(stop.map(|s| Call::File(block, s.words(words))));
            now = stop;
        }
    }
    calls
}

/// A sound store of this ledger, written by the independent reading: filed in any order, now and then rebuilt.
fn written(blocks: usize, width: u32, ledger: &Ledger, rng: &mut Rng) -> Tables {
    let mut tables = Tables::cleared(blocks, width);
    for (b, s) in rng.shuffled(ledger.clone().into_iter().collect()) {
        tables.file(b as usize, s);
    }
    if rng.one_in(3) {
        tables.rebuild();
    }
    tables
}

struct Mirror {
    lent: Lent,
    blocks: usize,
    /// to a signature
    words: usize,
}

impl Mirror {
    /// An index that holds this ledger: a cleared one or any sound store, filed in and withdrawn from in any order, now and then rebuilt.
    fn grown(blocks: usize, width: u32, ledger: &Ledger, others: &[Number], rng: &mut Rng) -> Mirror {
        let start = if rng.one_in(2) { Ledger::new() } else { any_ledger(blocks, others, rng) };
        let tables = Packed::of(&written(blocks, width, &start, rng));
        let words = word_count(width);
        let mut mirror = Mirror { lent: Lent::new(&tables, &plain_request(Call::Audit, blocks, words), rng), blocks, words };
        let entry = |ledger: &Ledger, b: u32| ledger.get(&b).copied();
        let ways = (1..=blocks as u32).map(|b| way(b, entry(&start, b), entry(ledger, b), others, words, rng).into_iter());
        let mut ways: Vec<_> = ways.collect();
        while !ways.is_empty() {
            let i = rng.below(ways.len() as u64) as usize;
            match ways[i].next() {
                Some(call) => mirror.accepted(call, rng),
                None => drop(ways.swap_remove(i)),
            }
            if rng.one_in(20 + blocks as u64) {
                mirror.accepted(Call::Rebuild, rng);
            }
        }
        mirror
    }

    /// A call, directly or by a slip.
    fn run(&mut self, call: Call, rng: &mut Rng) -> Report {
        match call.bytes(self.words) {
            Some(bytes) if rng.one_in(3) => self.lent.run(&Call::Slip(bytes)),
            _ => self.lent.run(&call),
        }
    }
    fn accepted(&mut self, call: Call, rng: &mut Rng) {
        let report = self.run(call.clone(), rng);
        assert_eq!(report, Report::bare(0), "{call:?}");
    }
    /// Calls that leave the tables as they are.
    fn left_alone(&mut self, rng: &mut Rng) {
        let before = self.lent.tables();
        let none = vec![0; self.words];
        let out = self.blocks as u32 + 1;
        for call in [Call::Audit, Call::File(0, none.clone()), Call::Withdraw(out), Call::Clear(513), Call::Search(none)] {
            if rng.one_in(2) {
                self.run(call, rng);
            }
        }
        assert!(self.lent.tables() == before);
    }
    fn search(&mut self, query: Number, rng: &mut Rng) -> (Report, Vec<u32>) {
        let report = self.run(Call::Search(query.words(self.words)), rng);
        assert_eq!(report.answer, 0);
        let list = self.lent.output()[..report.found as usize].to_vec();
        (report, list)
    }
}

fn counts(report: &Report) -> [u32; 2] {
    [report.compares, report.bits]
}

/// Both mirrors are asked, rebuilt, and asked again.
fn compare(mut mirrors: [Mirror; 2], ledgers: [&Ledger; 2], queries: &[Number], rng: &mut Rng) -> Result<bool, String> {
    let mut differed = false;
    for &q in queries {
        let [a, b] = mirrors.each_mut().map(|m| m.search(q, rng));
        differed |= counts(&a.0) != counts(&b.0);
    }
    mirrors.iter_mut().for_each(|m| m.accepted(Call::Rebuild, rng));
    for &q in queries {
        let [a, b] = mirrors.each_mut().map(|m| {
            m.left_alone(rng);
            m.search(q, rng)
        });
        same("compares and bits read", &counts(&a.0), &counts(&b.0))?;
        if ledgers[0] == ledgers[1] {
            same("answers", &a, &b)?;
        }
    }
    mirrors.iter().try_for_each(|m| m.lent.guards())?;
    Ok(differed)
}

/// Queries for all, for nothing that is stored, and for bits of what is stored.
fn queries(width: u32, set: &[Number], rng: &mut Rng) -> Vec<Number> {
    let some = |rng: &mut Rng| if set.is_empty() { Number::default() } else { rng.pick(set) };
    let mut queries = vec![Number::default(), signature(width, rng), some(rng), some(rng) & Number::random(rng) & Number::random(rng)];
    queries.extend((0..4).map(|_| some(rng) & Number::random(rng)));
    queries
}

/// One pair, of the same ledger or of the same set.
fn pair(blocks: [usize; 2], width: u32, rng: &mut Rng, outcome: &mut Outcome) -> Result<(), String> {
    let others: Vec<Number> = (0..blocks[0].max(blocks[1])).map(|_| signature(width, rng)).collect();
    let fewer = blocks[0].min(blocks[1]);
    let first = any_ledger(fewer, &others, rng);
    let set: Vec<Number> = first.values().copied().collect::<BTreeSet<Number>>().into_iter().collect();
    let ledgers = if set.is_empty() || rng.one_in(2) {
        [first.clone(), first]
    } else {
        blocks.map(|n| ledger_of(&set, n, rng))
    };
    let mirrors = [0, 1].map(|i| Mirror::grown(blocks[i], width, &ledgers[i], &others, rng));
    let queries = queries(width, &set, rng);
    let differed = compare(mirrors, [&ledgers[0], &ledgers[1]], &queries, rng).map_err(|e| format!("{blocks:?} blocks, width {width}: {e}"))?;
    outcome.pairs += 1;
    outcome.queries += queries.len();
    outcome.differed += differed as usize;
    Ok(())
}

fn all(rng: &mut Rng, pairs: usize) -> Result<Outcome, String> {
    let mut outcome = Outcome::default();
    for _ in 0..pairs {
        let blocks = [0, 1].map(|_| rng.pick(&[1, 2, 3, 5, 8, 17, 40]));
        pair(blocks, rng.pick(&[1, 2, 3, 5, 8, 33, 63, 64, 65, 70, 128, 129, 512]), rng, &mut outcome)?;
    }
    for (blocks, width) in [([1024, 1000], 512), ([65_535, 65_535], 64), ([65_535, 40_000], 70)] {
        pair(blocks, width, rng, &mut outcome)?;
    }
    if outcome.differed == 0 {
        return Err("no pair differed before it was rebuilt".into());
    }
    Ok(outcome)
}

pub fn mirrors(rng: &mut Rng, pairs: usize) -> Outcome {
    all(rng, pairs).unwrap_or_else(|e| {
        println!("failed: mirrors: {}", e.chars().take(400).collect::<String>());
        std::process::exit(1)
    })
}
