//! Signing: the same steps over one word, which stays in a register, and over W.

fn is_separator(byte: u8) -> bool {
    byte == b' ' || byte == b'\n'
}

/// Calls a function with each word of a text and its number: where it starts and ends.
#[inline(always)]
fn each_word(text: &[u8], mut each: impl FnMut(u16, usize, usize)) {
    let (mut start, mut number) = (0, 0);
    while start < text.len() {
        let mut end = start;
        // SAFETY: end is below the text's length.
        while end < text.len() && !is_separator(unsafe { *text.get_unchecked(end) }) {
            end += 1;
        }
        number += 1;
        each(number, start, end);
        start = end + 1;
    }
}

/// Sets the positions of a word until k different ones are set. A position is how far it stands from the right, which is what `from_right`
/// makes of a triplet; `set` sets it and says whether the word had not set it yet.
#[inline(always)]
unsafe fn sign_word(text: &[u8], start: usize, end: usize, k: u32, from_right: impl Fn(u32) -> u32, mut set: impl FnMut(u32) -> bool) {
    let (mut last, mut count) = (start + 2, 0);
    while last < end && count < k {
        let byte = |back: usize| *text.get_unchecked(last - back) as u32;
        count += set(from_right(961 * byte(2) + 31 * byte(1) + byte(0))) as u32;
        last += 1;
    }
}

#[inline(always)]
fn sign_one(text: &[u8], k: u32, from_right: impl Fn(u32) -> u32) -> u64 {
    let mut all = 0;
    each_word(text, |_, start, end| {
        let mut own = 0;
        let set = |position: u32| {
            let first = own >> position & 1 == 0;
            own |= 1 << position;
            first
        };
        // SAFETY: the word is within the text.
        unsafe { sign_word(text, start, end, k, &from_right, set) };
        all |= own;
    });
    all
}

/// Which word was the last to set a position stands in `set_by`, so that nothing is cleared between words.
#[inline(always)]
fn sign_many(text: &[u8], k: u32, from_right: impl Fn(u32) -> u32, signature: &mut [u64]) {
    let words = signature.len();
    let mut set_by = [0u16; 512];
    signature.fill(0);
    each_word(text, |number, start, end| {
        // SAFETY: the word is within the text, and each position within the words, of which there are at most 8.
        unsafe {
            let set = |position: u32| {
                let position = position as usize;
                let first = *set_by.get_unchecked(position) != number;
                *set_by.get_unchecked_mut(position) = number;
                *signature.get_unchecked_mut(words - 1 - position / 64) |= 1 << (position % 64);
                first
            };
            sign_word(text, start, end, k, &from_right, set);
        }
    });
}

#[inline(always)]
fn sign_by(text: &[u8], k: u32, from_right: impl Fn(u32) -> u32, signature: &mut [u64]) {
    match signature {
        [word] => *word = sign_one(text, k, from_right),
        _ => sign_many(text, k, from_right, signature),
    }
}

/// Fills the words of the width with the text's signature, by a division for each triplet.
#[inline(never)]
pub fn sign(text: &[u8], width: u32, k: u32, signature: &mut [u64]) {
    sign_by(text, k, |triplet| width - 1 - triplet % width, signature);
}

/// The same by the width's reciprocal: what is behind the point of its product with a number below 2^32, times the width, is the rest.
#[inline(never)]
pub fn sign_fastest(text: &[u8], width: u32, k: u32, signature: &mut [u64]) {
    let reciprocal = (u64::MAX / width as u64).wrapping_add(1);
    let rest = |triplet: u32| (reciprocal.wrapping_mul(triplet as u64) as u128 * width as u128 >> 64) as u32;
    sign_by(text, k, |triplet| width - 1 - rest(triplet), signature);
}
