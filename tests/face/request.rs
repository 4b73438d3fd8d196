//! Requests: a call with the lengths of what it is lent, how a slip carries it, and the questions that refuse it.
use crate::number::{word_count, Number, WIDEST};
use crate::packed::{lengths, Packed};
use crate::reference::{links_of, Tables};
use crate::rng::Rng;

/// Widths on both sides of those at which a signature has a word more, and some others.
pub const WIDTHS: [u32; 21] = [1, 2, 3, 5, 8, 33, 63, 64, 64, 64, 65, 65, 70, 127, 128, 129, 192, 300, 511, 512, 512];

#[derive(Clone, Debug)]
pub enum Call {
    Clear(u32),
    File(u32, Vec<u64>),
    Withdraw(u32),
    Rebuild,
    Search(Vec<u64>),
    Audit,
    Slip(Vec<u8>),
}

/// A call with the lengths of the tables and of the slices to work in. `another`: the signature slice has other words than the index's
/// own. `null`: a slice of length 0 is lent as a null pointer.
#[derive(Clone, Debug)]
pub struct Request {
    pub call: Call,
    pub tables: [usize; 3],
    pub another: bool,
    pub scratch: usize,
    pub marks: usize,
    pub output: usize,
    pub null: bool,
}

fn number(bytes: &[u8]) -> u64 {
    bytes.iter().fold(0, |n, &b| n << 8 | b as u64)
}

impl Call {
    /// The call itself: what a slip carries on these tables, which are none where question 4 refuses them, or the number that refuses the
    /// slip.
    pub fn read(&self, t: Option<&Tables>) -> Result<Call, u32> {
        let Call::Slip(bytes) = self else { return Ok(self.clone()) };
        let kind = *bytes.first().ok_or(1u32)?;
        let words = match kind {
            0 => 1,
            1..=4 => word_count(t.ok_or(4u32)?.width()),
            _ => return Err(2),
        };
        if bytes.len() != 8 + 8 * words {
            return Err(1);
        }
        let (block, field) = (number(&bytes[4..8]) as u32, bytes[8..].chunks(8).map(number).collect::<Vec<u64>>());
        let unused = match kind {
            1 => false,
            4 => block != 0,
            3 => block != 0 || field.iter().any(|&w| w != 0),
            _ => field.iter().any(|&w| w != 0),
        };
        if unused || bytes[1..4] != [0, 0, 0] {
            return Err(3);
        }
        Ok(match kind {
            0 => Call::Clear(block),
            1 => Call::File(block, field),
            2 => Call::Withdraw(block),
            3 => Call::Rebuild,
            _ => Call::Search(field),
        })
    }

    /// The bytes of its slip, where it has one, for signatures of so many words.
    pub fn bytes(&self, words: usize) -> Option<Vec<u8>> {
        let (kind, block, field) = match self {
            Call::Clear(width) => (0, *width, vec![0]),
            Call::File(b, s) => (1, *b, s.clone()),
            Call::Withdraw(b) => (2, *b, vec![0; words]),
            Call::Rebuild => (3, 0, vec![0; words]),
            Call::Search(q) => (4, 0, q.clone()),
            _ => return None,
        };
        let mut bytes = Vec::with_capacity(8 + 8 * field.len());
        bytes.extend([kind, 0, 0, 0]);
        bytes.extend(block.to_be_bytes());
        field.iter().for_each(|w| bytes.extend(w.to_be_bytes()));
        Some(bytes)
    }

    /// The same, now and then with one byte changed or another length.
    fn as_slip(&self, words: usize, rng: &mut Rng) -> Option<Vec<u8>> {
        let mut bytes = self.bytes(words)?;
        if rng.one_in(6) {
            let any = rng.below(bytes.len() as u64) as usize;
            let at = rng.pick(&[0, any % 8, any]);
            bytes[at] = rng.next() as u8;
        }
        if rng.one_in(12) {
            let (own, any) = (bytes.len(), rng.below(80) as usize);
            bytes.resize(rng.pick(&[0, 1, own - 8, own - 1, own + 1, own + 8, 16, any]), rng.pick(&[0, 7]));
        }
        Some(bytes)
    }
}

/// Questions 4 to 10 of the lent tables, which are none as `t` where question 4 refuses them; 0 where none refuses.
pub fn refusal(call: &Call, lent: &Packed, t: Option<&Tables>, r: &Request) -> u32 {
    if let Call::Clear(width) = call {
        let fit = lent.long() && (1..=WIDEST).contains(width) && lent.signatures.len() == lent.blocks() * word_count(*width);
        return if fit { 0 } else { 4 };
    }
    let Some(t) = t else { return 4 };
    let (width, blocks) = (t.width(), t.blocks());
    let is_block = |b: u32| b >= 1 && b as usize <= blocks;
    match call {
        Call::File(_, s) | Call::Search(s) if s.len() != word_count(width) => 4,
        Call::File(b, _) | Call::Withdraw(b) if !is_block(*b) => 5,
        Call::File(_, s) | Call::Search(s) if !Number::read(s).below(width) => 6,
        Call::File(b, _) if t.filed(*b as usize) => 7,
        Call::Withdraw(b) if !t.filed(*b as usize) => 8,
        Call::Rebuild if r.scratch < blocks => 9,
        Call::Search(_) if r.marks < blocks => 9,
        Call::Search(_) if r.output < blocks => 10,
        _ => 0,
    }
}

/// A signature near those that are stored: one of them or any, now and then with one bit changed, with its words in the other order, or
/// with bits that the width does not have. Its words, now and then too few or too many.
fn signature(p: &Packed, rng: &mut Rng) -> Vec<u64> {
    let width = p.links.first().map_or(1, |w| (*w).clamp(1, WIDEST));
    let words = word_count(width);
    let stored = p.block(1 + rng.below(p.blocks() as u64) as usize, words);
    let mut s = if rng.one_in(2) { Number::read(stored) } else { Number::random(rng) & Number::random(rng) };
    if rng.one_in(3) {
        let any = rng.below(64 * words as u64) as u32;
        s = s ^ Number::weight(rng.pick(&[any, any, 0, width - 1, any / 64 * 64, any / 64 * 64 + 63]));
    }
    if rng.one_in(8) {
        s = s.turned(words);
    }
    if !rng.one_in(20) {
        s = s.low(width);
    }
    let mut s = s.words(words);
    if rng.one_in(30) {
        s.resize(rng.pick(&[0, 1, words - 1, words + 1, words + 1, 9]), 0);
    }
    s
}

pub fn random_call(p: &Packed, rng: &mut Rng) -> Call {
    let blocks = p.blocks() as u64;
    let block = |rng: &mut Rng| if rng.one_in(15) { rng.pick(&[0, blocks as u32 + 1, u32::MAX]) } else { 1 + rng.below(blocks) as u32 };
    match rng.below(if p.links[0] == 0 { 4 } else { 40 }) {
        0 => Call::Clear(if rng.one_in(4) { rng.pick(&[0, 513, 1 << 31, u32::MAX]) } else { rng.pick(&WIDTHS) }),
        1..=16 => Call::File(block(rng), signature(p, rng)),
        17..=23 => Call::Withdraw(block(rng)),
        24..=26 => Call::Rebuild,
        27..=36 => Call::Search({
            let (mut q, mask) = (signature(p, rng), rng.one_in(2));
            q.iter_mut().for_each(|w| *w &= if mask { rng.next() } else { u64::MAX });
            q
        }),
        _ => Call::Audit,
    }
}

/// Lengths that mostly do not fit: none, one less, one more, any; two slices swapped; those of another number of blocks.
pub fn other_lengths<const N: usize>(of: impl Fn(usize) -> [usize; N], blocks: usize, rng: &mut Rng) -> [usize; N] {
    let mut found = of(blocks);
    let (i, j, any) = (rng.below(N as u64) as usize, rng.below(N as u64) as usize, rng.below(6 * blocks as u64) as usize);
    match rng.below(4) {
        0 => return of(rng.pick(&[blocks - 1, blocks + 1])),
        1 => found.swap(i, j),
        _ => found[i] = rng.pick(&[0, found[i].saturating_sub(1), found[i] + 1, any]),
    }
    found
}

/// The call with slices of the least lengths that fit, for signatures of so many words.
pub fn plain_request(call: Call, blocks: usize, words: usize) -> Request {
    Request { call, tables: lengths(blocks, words), another: false, scratch: blocks, marks: blocks, output: blocks, null: false }
}

/// The lengths of the tables that are lent with a call, and whether the signature slice is another: a clear's mostly is, of the words of
/// its own width. Now and then they do not fit, are for another number of words, or are those of 5B + 2 links and no nodes.
fn tables_for(call: &Call, p: &Packed, rng: &mut Rng) -> ([usize; 3], bool) {
    let (blocks, own) = (p.blocks(), p.lengths());
    let words = match call {
        Call::Clear(width) => word_count(*width),
        _ => p.words(),
    }
    .clamp(1, 9);
    let another = matches!(call, Call::Clear(_)) && !rng.one_in(4);
    let fitting = if another { lengths(blocks, words) } else { own };
    let found = match rng.below(40) {
        0 => [blocks, links_of(blocks), 0],
        1 | 2 => other_lengths(|b| lengths(b, words), blocks, rng),
        3 => lengths(blocks, rng.pick(&[words - 1, words + 1, 1, 8])),
        _ => fitting,
    };
    (found, another)
}

/// A call on these tables, direct or as a slip, with lengths that now and then do not fit.
pub fn random_request(p: &Packed, rng: &mut Rng) -> Request {
    let (call, blocks) = (random_call(p, rng), p.blocks());
    let (tables, another) = tables_for(&call, p, rng);
    let call = match call.as_slip(p.words().min(8), rng) {
        Some(bytes) if rng.one_in(3) => Call::Slip(bytes),
        _ => call,
    };
    let length = |rng: &mut Rng| if rng.one_in(20) { rng.below(blocks as u64 + 1) as usize } else { blocks + rng.below(4) as usize };
    Request { call, tables, another, scratch: length(rng), marks: length(rng), output: length(rng), null: rng.one_in(2) }
}
