//! Random lists of calls from blank tables, and the shortest list that fails.
use crate::packed::Packed;
use crate::request::{random_request, Request};
use crate::rng::Rng;
use crate::step::step;

/// Tables never cleared, with any words lent for signatures, and what comes at random after them.
fn start(blocks: usize, seed: u64) -> (Packed, Rng) {
    let mut rng = Rng::new(seed);
    let words = rng.pick(&[0, 1, blocks, 2 * blocks, 8 * blocks]);
    (Packed::blank(blocks, (0..words).map(|_| rng.next()).collect()), rng)
}

/// Runs the requests from blank tables; the number of the step that failed, with what was wrong.
fn replay(blocks: usize, requests: &[Request], seed: u64) -> Option<(usize, String)> {
    let (mut p, mut rng) = start(blocks, seed);
    for (i, r) in requests.iter().enumerate() {
        if let Err(e) = step(&mut p, r, &mut rng) {
            return Some((i, e));
        }
    }
    None
}

/// The shortest list found by leaving calls out of a failing one.
fn shrink(blocks: usize, mut requests: Vec<Request>, seed: u64) -> ! {
    let mut last = replay(blocks, &requests, seed).expect("fails again");
    requests.truncate(last.0 + 1);
    let mut i = 0;
    while i < requests.len() {
        let mut fewer = requests.clone();
        fewer.remove(i);
        match replay(blocks, &fewer, seed) {
            Some(e) => {
                requests = fewer;
                requests.truncate(e.0 + 1);
                last = e;
                i = 0;
            }
            None => i += 1,
        }
    }
    println!("failed: {} blocks, {}", blocks, last.1);
    for r in &requests {
        println!("  {r:?}");
    }
    std::process::exit(1)
}

pub fn lists(rng: &mut Rng, calls: usize) -> usize {
    let mut done = 0;
    while done < calls {
        let blocks = rng.pick(&[1, 2, 3, 5, 8, 17, 40]);
        let (seed, mut requests) = (rng.next(), Vec::new());
        let (mut p, mut inner) = start(blocks, seed);
        for _ in 0..150 {
            let r = random_request(&p, rng);
            requests.push(r.clone());
            done += 1;
            if step(&mut p, &r, &mut inner).is_err() {
                shrink(blocks, requests, seed);
            }
        }
    }
    done
}
