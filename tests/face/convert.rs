//! Drives both conversions on sound stores, on unsound ones of either form and on lengths that do not fit, beside an independent reading.
use crate::c_face::*;
use crate::corrupted::{change_link, change_signature, changed, store};
use crate::guarded::{same, Guarded};
use crate::packed::{self, Packed};
use crate::reference::{links_of, Tables};
use crate::request::other_lengths;
use crate::rng::Rng;

/// The four slices of a conversion, over the same signatures: 5B + 2 links, and the links and nodes of the packed form.
#[derive(Clone, Debug, PartialEq, Eq)]
pub struct Forms {
    signatures: Guarded<u64>,
    old: Guarded<u32>,
    links: Guarded<u32>,
    nodes: Guarded<u64>,
    null: bool,
}

#[derive(Clone, Copy, Debug, PartialEq, Eq)]
pub enum Way {
    Pack,
    Unpack,
}

/// A store in the form of 5B + 2 links, as it is lent.
#[derive(Clone, Debug)]
pub struct Old {
    pub signatures: Vec<u64>,
    pub links: Vec<u32>,
}

impl Old {
    pub fn of(t: &Tables) -> Old {
        Old { signatures: t.words(), links: t.links.clone() }
    }
}

/// The lengths of the four slices that B blocks have, with so many words to a signature.
pub fn lengths(blocks: usize, words: usize) -> [usize; 4] {
    let [n, m, e] = packed::lengths(blocks, words);
    [n, links_of(blocks), m, e]
}

/// So many words of these, then random ones.
fn drawn<T: Copy>(words: &[T], length: usize, mut any: impl FnMut() -> T) -> Vec<T> {
    (0..length).map(|i| words.get(i).copied().unwrap_or_else(&mut any)).collect()
}

impl Forms {
    /// The source at these lengths; the target's words are random.
    pub fn new(way: Way, p: &Packed, o: &Old, lengths: [usize; 4], rng: &mut Rng) -> Forms {
        let (old, links, nodes): (&[u32], &[u32], &[u64]) = match way {
            Way::Pack => (&o.links, &[], &[]),
            Way::Unpack => (&[], &p.links, &p.nodes),
        };
        let signatures = if way == Way::Pack { &o.signatures } else { &p.signatures };
        Forms {
            signatures: Guarded::new(&drawn(signatures, lengths[0], || rng.next()), 0x5a5a_5a5a_5a5a_5a5a),
            old: Guarded::new(&drawn(old, lengths[1], || rng.next() as u32), 0xc3c3_c3c3),
            links: Guarded::new(&drawn(links, lengths[2], || rng.next() as u32), 0xa5a5_a5a5),
            nodes: Guarded::new(&drawn(nodes, lengths[3], || rng.next()), 0x6969_6969_6969_6969),
            null: rng.one_in(2),
        }
    }
    fn packed(&self) -> Packed {
        let nodes = self.nodes.data().to_vec();
        Packed { signatures: self.signatures.data().to_vec(), links: self.links.data().to_vec(), nodes }
    }
    /// The tables that are read, or none where question 4 refuses them or the lengths of the others.
    fn source(&self, way: Way) -> Option<Tables> {
        let (packed, old) = (self.packed(), self.old.data());
        let fit = packed.long() && old.len() == links_of(packed.blocks());
        let source = match way {
            Way::Pack => Tables::read(self.signatures.data(), old.to_vec()),
            Way::Unpack => packed.open(),
        };
        source.filter(|_| fit)
    }
    fn convert(&mut self, way: Way) -> u32 {
        let ((s, n), (o, k)) = (self.signatures.lend(self.null), self.old.lend(self.null));
        let ((l, m), (d, e)) = (self.links.lend(self.null), self.nodes.lend(self.null));
        match way {
            Way::Pack => unsafe { sigtree_pack(s, n, o, k, l, m, d, e) },
            Way::Unpack => unsafe { sigtree_unpack(s, n, l, m, d, e, o, k) },
        }
    }
    fn kept(&self) -> bool {
        self.signatures.kept() && self.old.kept() && self.links.kept() && self.nodes.kept()
    }
}

/// The answer, and what is left in the four slices.
fn expected(way: Way, lent: &Forms) -> (u32, Forms) {
    let mut left = lent.clone();
    let Some(source) = lent.source(way) else { return (4, left) };
    if !source.sound() {
        return (11, left);
    }
    match way {
        Way::Pack => {
            let target = Packed::of(&source);
            left.links.data_mut().copy_from_slice(&target.links);
            left.nodes.data_mut().copy_from_slice(&target.nodes);
        }
        Way::Unpack => left.old.data_mut().copy_from_slice(&source.links),
    }
    (0, left)
}

/// One conversion on the library and in the reading; its answer.
pub fn check(way: Way, lent: &Forms) -> Result<u32, String> {
    let mut memory = lent.clone();
    let answer = memory.convert(way);
    if !memory.kept() {
        return Err("a guard word has changed".into());
    }
    let (number, left) = expected(way, lent);
    same("answer", &answer, &number)?;
    same("memory", &memory, &left)?;
    Ok(answer)
}

/// A conversion of a small store, which ends the test where it fails; its answer.
fn checked(way: Way, p: &Packed, o: &Old, lengths: [usize; 4], rng: &mut Rng) -> u32 {
    let lent = Forms::new(way, p, o, lengths, rng);
    check(way, &lent).unwrap_or_else(|e| {
        println!("failed: {way:?}: {e}\n  {lent:?}");
        std::process::exit(1)
    })
}

/// Up to three words of the tables of 5B + 2 links changed.
fn changed_links(mut o: Old, blocks: usize, rng: &mut Rng) -> Old {
    for _ in 0..1 + rng.below(3) {
        if rng.one_in(6) {
            change_signature(&mut o.signatures, rng);
        } else {
            change_link(&mut o.links, blocks, rng);
        }
    }
    o
}

/// Conversions both ways of so many stores: as they are, with words changed, and with lengths that do not fit. How many answered 0, 4
/// and 11.
pub fn convert(rng: &mut Rng, stores: usize) -> [usize; 3] {
    let mut answers = [0; 3];
    for _ in 0..stores {
        let p = store(rng);
        let (o, blocks, words) = (Old::of(&p.open().expect("a store fits")), p.blocks(), p.words());
        let fitting = lengths(blocks, words);
        let (p_changed, o_changed) = (changed(p.clone(), rng), changed_links(o.clone(), blocks, rng));
        for way in [Way::Pack, Way::Unpack] {
            assert_eq!(checked(way, &p, &o, fitting, rng), 0, "a store of the reference is not sound");
            answers[0] += 1;
            let other = match rng.below(5) {
                0 => lengths(blocks, rng.pick(&[words - 1, words + 1])),
                _ => other_lengths(|b| lengths(b, words), blocks, rng),
            };
            for number in [checked(way, &p_changed, &o_changed, fitting, rng), checked(way, &p, &o, other, rng)] {
                answers[[0, 4, 11].iter().position(|n| *n == number).unwrap()] += 1;
            }
        }
    }
    answers
}
