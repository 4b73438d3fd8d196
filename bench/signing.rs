//! Signing texts, beside a signer that is hand-written.
use crate::c_face::sigtree_sign;
use crate::measure::{heading, least, timed, words_of, Rng, PARTS};
use std::hint::black_box;

const LONGEST_TEXT: usize = 4096;

/// Small letters at random, in words of a size, one space between two words.
fn text(size: usize, rng: &mut Rng) -> Vec<u8> {
    let byte = |at: usize, letter: u64| if at % (size + 1) == size { b' ' } else { b'a' + (letter % 26) as u8 };
    (0..LONGEST_TEXT).map(|at| byte(at, rng.next())).collect()
}

fn by_library(text: &[u8], width: u32, k: u32, signature: &mut [u64]) {
    assert_eq!(unsafe { sigtree_sign(text.as_ptr(), text.len(), width, k, signature.as_mut_ptr(), signature.len()) }, 0);
}

fn row(width: u32, size: usize, k: u32, rng: &mut Rng) {
    let texts: Vec<Vec<u8>> = (0..PARTS).map(|_| text(size, rng)).collect();
    let signed = [by_library, hand::sign, hand::sign_fastest].map(|sign| {
        move |text: &Vec<u8>| {
            let mut signature = [0; 8];
            sign(text, width, k, &mut signature[..words_of(width)]);
            signature
        }
    });
    for text in &texts {
        assert!(signed[1](text) == signed[0](text) && signed[2](text) == signed[0](text));
    }
    let [ours, by_hand, fastest] = least(50, PARTS, |side, part| {
        timed(|| {
            black_box(signed[side](&texts[part]));
        })
    });
    let us = ours / texts.len() as f64 / 1000.0;
    println!("| {width} | {size} | {k} | {us:.2} | {:.2} | {:.2} |", ours / by_hand, ours / fastest);
}

pub fn table() {
    let mut rng = Rng(20270302);
    println!("\nTexts of {LONGEST_TEXT} bytes, in words of a size.");
    heading("width | bytes a word | k | us a text | to hand-written | to fastest");
    for width in [64, 512] {
        for size in [3, 6, 12] {
            for k in [1, 4, 8] {
                row(width, size, k, &mut rng);
            }
        }
    }
}
