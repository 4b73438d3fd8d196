//! Every width from 1 to 512, one after the other in any order on one index: a clear to each is lent a slice of its own words.
use crate::number::{word_count, Number, WIDEST};
use crate::packed::Packed;
use crate::request::{plain_request, Call, Request};
use crate::rng::Rng;
use crate::step::step;

const BLOCKS: usize = 9;

/// Signatures at the ends of the row and of its words, some of them with the same bits in other words.
fn signatures(width: u32, rng: &mut Rng) -> Vec<Number> {
    let any = Number::random(rng).low(width);
    let turned = any.turned(word_count(width)).low(width);
    let mut all = vec![Number::weight(width - 1), Number::weight(0), Number::ones(width), Number::default(), any, turned];
    all.extend([63, 64, width - width % 64].into_iter().filter(|&k| k < width).map(Number::weight));
    all
}

/// Numbers in as many words that the width does not have.
fn too_large(width: u32) -> Vec<Number> {
    let highest = 64 * word_count(width) as u32;
    [width, highest - 1].into_iter().filter(|&k| k >= width && k < highest).map(|k| Number::ones(width).with(k)).collect()
}

/// The calls at one width, good and bad, after its clear.
fn calls(width: u32, rng: &mut Rng) -> Vec<Call> {
    let (words, stored, wide) = (word_count(width), signatures(width, rng), too_large(width));
    let lent = |s: &Number| s.words(words);
    let mut calls = Vec::new();
    for (block, s) in (1..).zip(&stored) {
        calls.push(Call::File(block, lent(s)));
    }
    calls.extend(wide.iter().map(|s| Call::File(BLOCKS as u32, lent(s))));
    for other in [0, words - 1, words + 1] {
        calls.push(Call::File(BLOCKS as u32, vec![0; other]));
        calls.push(Call::Search(vec![0; other]));
    }
    let queries: Vec<Call> = stored.iter().chain(&wide).map(|q| Call::Search(lent(q))).collect();
    calls.extend(queries.iter().cloned());
    calls.push(Call::Rebuild);
    calls.extend(queries);
    calls.extend([Call::Withdraw(3), Call::Withdraw(1), Call::Audit]);
    calls
}

/// The call as a slip that mostly is too short or too long, as it comes, then as a slip; what it has done is undone in between.
fn ways(call: Call, words: usize, rng: &mut Rng) -> Vec<Call> {
    let Some(bytes) = call.bytes(words) else { return vec![call] };
    let slip = Call::Slip(bytes.clone());
    let undo = match call {
        Call::File(b, _) => vec![Call::Withdraw(b)],
        Call::Withdraw(b) => vec![Call::File(b, vec![0; words])],
        _ => vec![],
    };
    let resized = [0, 8, 16, bytes.len() - 8, bytes.len() - 1, bytes.len() + 1, bytes.len() + 8];
    let length = rng.pick(&resized);
    let other = Call::Slip(bytes.iter().copied().chain([0; 8]).take(length).collect());
    [vec![other, call], undo, vec![slip]].concat()
}

/// The clear to this width: refused on slices of other lengths, then carried out on one of its own.
fn clears(width: u32, rng: &mut Rng) -> Vec<Request> {
    let (call, words) = (Call::Clear(width), word_count(width));
    let slip = Call::Slip(call.bytes(words).unwrap());
    let lent = |length: usize, call: &Call| {
        let plain = plain_request(call.clone(), BLOCKS, words);
        Request { tables: [length, plain.tables[1], plain.tables[2]], another: true, ..plain }
    };
    let lengths = [0, BLOCKS * (words - 1), BLOCKS * words - 1, BLOCKS * words + 1, BLOCKS * (words + 1)];
    let mut clears: Vec<Request> = lengths.iter().flat_map(|&length| [lent(length, &call), lent(length, &slip)]).collect();
    clears.push(lent(BLOCKS * words, rng.pick(&[&call, &slip])));
    clears
}

/// How many calls were made.
pub fn widths(rng: &mut Rng) -> usize {
    let (mut p, mut made) = (Packed::blank(BLOCKS, vec![]), 0);
    for width in rng.shuffled((1..=WIDEST).collect()) {
        let words = word_count(width);
        let mut requests = clears(width, rng);
        let calls = calls(width, rng).into_iter().flat_map(|call| ways(call, words, rng));
        requests.extend(calls.map(|call| plain_request(call, BLOCKS, words)));
        for r in &requests {
            step(&mut p, r, rng).unwrap_or_else(|e| {
                println!("failed: {e}\n  {r:?}\n  {p:?}");
                std::process::exit(1)
            });
        }
        assert_eq!(p.links[0], width);
        made += requests.len();
    }
    made
}
