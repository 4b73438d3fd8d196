//! Drives the signer and the splitter with random texts, good and bad, beside an independent reading of the request.
use crate::c_face::*;
use crate::guarded::{same, Guarded};
use crate::number::{word_count, Number};
use crate::request::WIDTHS;
use crate::rng::Rng;

/// A text and what is asked of it, with so many words lent for its signature.
#[derive(Clone, Debug)]
struct Asked {
    text: Vec<u8>,
    width: u32,
    k: u32,
    words: usize,
    n: u32,
    null: bool,
}

/// The longest runs of bytes other than 32 and 10: where each starts, and its size.
fn runs(text: &[u8]) -> Vec<(usize, usize)> {
    let apart = |b: &u8| *b == 32 || *b == 10;
    let (mut all, mut from) = (Vec::new(), 0);
    while let Some(skipped) = text[from..].iter().position(|b| !apart(b)) {
        let start = from + skipped;
        let size = text[start..].iter().position(apart).unwrap_or(text.len() - start);
        all.push((start, size));
        from = start + size;
    }
    all
}

/// The signature, or the number that refuses it.
fn signature(a: &Asked) -> Result<Number, u32> {
    if !(1..=512).contains(&a.width) || a.words != word_count(a.width) {
        return Err(4);
    }
    if a.text.len() > 4096 {
        return Err(12);
    }
    if !(1..=8).contains(&a.k) {
        return Err(13);
    }
    let mut s = Number::default();
    for (start, size) in runs(&a.text) {
        let mut positions = Vec::new();
        for t in a.text[start..start + size].windows(3) {
            let position = 1 + (961 * t[0] as u32 + 31 * t[1] as u32 + t[2] as u32) % a.width;
            if !positions.contains(&position) && positions.len() < a.k as usize {
                positions.push(position);
            }
        }
        for p in positions {
            s = s.with(a.width - p);
        }
    }
    Ok(s)
}

/// The answer, and where the word stands.
fn place(a: &Asked) -> (u32, usize, usize) {
    let end = a.text.len();
    if end > 4096 {
        return (12, end, 0);
    }
    let (start, size) = (a.n as usize).checked_sub(1).and_then(|i| runs(&a.text).get(i).copied()).unwrap_or((end, 0));
    (0, start, size)
}

fn check(a: &Asked) -> Result<(), String> {
    let mut text = Guarded::new(&a.text, 0x3c);
    let old: Vec<u64> = (0..a.words as u64).map(|i| 0x1234_5678_9abc_def0 + i).collect();
    let mut words = Guarded::new(&old, 0x5a5a_5a5a_5a5a_5a5a);
    let ((t, m), (s, n)) = (text.lend(a.null), words.lend(a.null));
    let answer = unsafe { sigtree_sign(t, m, a.width, a.k, s, n) };
    let (number, left) = match signature(a) {
        Ok(s) => (0, s.words(a.words)),
        Err(number) => (number, old),
    };
    same("sign: answer", &answer, &number)?;
    same("sign: words", &words.data(), &&left[..])?;
    let (mut start, mut size) = (77, 77);
    let answer = unsafe { sigtree_word(t, m, a.n, &mut start, &mut size) };
    same("word", &(answer, start, size), &place(a))?;
    same("text", &text.data(), &&a.text[..])?;
    if text.kept() && words.kept() { Ok(()) } else { Err("a guard word has changed".into()) }
}

/// The shortest text found by leaving bytes out of one that fails.
fn shrink(mut a: Asked, mut wrong: String) -> ! {
    let mut i = 0;
    while i < a.text.len() {
        let mut fewer = a.clone();
        fewer.text.remove(i);
        match check(&fewer) {
            Err(e) => (a, wrong, i) = (fewer, e, 0),
            Ok(()) => i += 1,
        }
    }
    println!("failed: {wrong}\n  {a:?}");
    std::process::exit(1)
}

pub fn texts(rng: &mut Rng, count: usize) -> usize {
    for _ in 0..count {
        let length = if rng.one_in(200) { 4090 + rng.below(12) } else { rng.below(40) };
        let few = rng.one_in(2);
        let text = (0..length).map(|_| if rng.one_in(5) { rng.pick(&[32, 10]) } else if few { 97 + rng.below(3) as u8 } else { rng.next() as u8 }).collect();
        let width = if rng.one_in(8) { rng.pick(&[0, 513, 576, u32::MAX]) } else { rng.pick(&WIDTHS) };
        let own = word_count(width).min(9);
        let asked = Asked {
            text,
            width,
            k: rng.pick(&[0, 1, 2, 3, 4, 5, 6, 7, 8, 9, u32::MAX]),
            words: if rng.one_in(10) { rng.pick(&[0, own.saturating_sub(1), own + 1, 8]) } else { own },
            n: if rng.one_in(20) { u32::MAX } else { rng.below(8) as u32 },
            null: rng.one_in(2),
        };
        if let Err(e) = check(&asked) {
            shrink(asked, e);
        }
    }
    count
}
