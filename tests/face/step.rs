//! One request on the library beside the independent reading: answer, counts, and every word of what was lent.
use crate::face::{Lent, Report};
use crate::guarded::same;
use crate::number::Number;
use crate::packed::Packed;
use crate::reference::Tables;
use crate::request::{refusal, Call, Request};
use crate::rng::Rng;

/// A call that was made: what it was lent, what it left, what it reported.
struct Made<'a> {
    lent: &'a Lent,
    left: &'a Lent,
    report: &'a Report,
}

impl Made<'_> {
    fn agrees(&self, report: &Report, left: &Lent) -> Result<(), String> {
        same("report", self.report, report)?;
        same("memory", self.left, left)
    }
}

/// Runs one request on the library and says what is wrong; on success the tables become what a call on sound ones, or a clear, has left,
/// with the signature slice that it was lent.
pub fn step(p: &mut Packed, r: &Request, rng: &mut Rng) -> Result<(), String> {
    let mut tables = p.resized(r.tables, rng);
    if r.another {
        tables.signatures.iter_mut().for_each(|w| *w = rng.next());
    }
    let lent = Lent::new(&tables, r, rng);
    let mut left = lent.clone();
    let report = left.run(&r.call);
    left.guards()?;
    let made = Made { lent: &lent, left: &left, report: &report };
    let t = tables.open();
    let call = match r.call.read(t.as_ref()) {
        Err(number) => return made.agrees(&Report::bare(number), &lent),
        Ok(call) => call,
    };
    match refusal(&call, &tables, t.as_ref(), r) {
        // a clear reads none of the old words
        0 => carried_out(p, &call, t.unwrap_or_else(|| Tables::cleared(tables.blocks(), 1)), &made),
        number => made.agrees(&Report::bare(number), &lent),
    }
}

/// A call that questions 1 to 10 let pass.
fn carried_out(p: &mut Packed, call: &Call, mut t: Tables, made: &Made) -> Result<(), String> {
    let sound = t.sound();
    if !sound && matches!(call, Call::File(..) | Call::Withdraw(_) | Call::Search(_)) {
        return any_tables(call, &t, made);
    }
    let mut expected = made.lent.clone();
    let report = carry_out(call, sound, &mut t, &mut expected, made.left);
    let after = Packed::of(&t);
    expected.set_tables(&after);
    made.agrees(&report, &expected)?;
    if sound || matches!(call, Call::Clear(_)) {
        if !t.sound() {
            return Err("the reference left unsound tables".into());
        }
        *p = after;
    }
    Ok(())
}

/// What the call reports, and leaves in the tables and in the slices to work in.
fn carry_out(call: &Call, sound: bool, t: &mut Tables, expected: &mut Lent, left: &Lent) -> Report {
    let blocks = t.blocks();
    match call {
        Call::Clear(width) => *t = Tables::cleared(blocks, *width),
        Call::Audit | Call::Rebuild if !sound => return Report::bare(11),
        Call::Rebuild => {
            t.rebuild();
            expected.free_scratch(left, blocks);
        }
        Call::File(b, s) => t.file(*b as usize, Number::read(s)),
        Call::Withdraw(b) => t.withdraw(*b as usize),
        Call::Search(q) => {
            let found = t.search(Number::read(q));
            expected.list(&found.blocks, blocks);
            return Report { answer: 0, found: found.blocks.len() as u32, compares: found.compares, bits: found.bits };
        }
        Call::Audit | Call::Slip(_) => {}
    }
    Report::bare(0)
}

/// What must hold of file, withdraw and search on tables that are not sound.
fn any_tables(call: &Call, t: &Tables, made: &Made) -> Result<(), String> {
    let (blocks, given_up) = (t.blocks(), made.report.answer == 11);
    let mut expected = made.lent.clone();
    match call {
        Call::Search(q) if !given_up => return any_list(Number::read(q), t, made),
        Call::Search(_) => expected.free_marks(made.left, blocks),
        _ if !given_up => expected.set_tables(&made.left.tables()),
        _ => {}
    }
    made.agrees(&Report::bare(if given_up { 11 } else { 0 }), &expected)
}

/// A list that a search of unsound tables gave: filed covering blocks, ascending, after few enough nodes and compares.
fn any_list(q: Number, t: &Tables, made: &Made) -> Result<(), String> {
    let (blocks, report) = (t.blocks(), made.report);
    let list = made.left.output().get(..report.found as usize).unwrap_or_default();
    let matches = |b: &u32| (1..=blocks).contains(&(*b as usize)) && t.filed(*b as usize) && t.signatures[*b as usize - 1].covers(q);
    let fine = report.answer == 0
        && list.len() == report.found as usize
        && list.windows(2).all(|w| w[0] < w[1])
        && list.iter().all(matches)
        && report.compares as usize <= blocks
        && (report.bits as usize) < blocks;
    if !fine {
        return Err(format!("a search of unsound tables reported {report:?} with {list:?}"));
    }
    let mut expected = made.lent.clone();
    expected.list(list, blocks);
    same("memory", made.left, &expected)
}
