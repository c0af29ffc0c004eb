//! How the registers of a LAB break 63 or keep it: what two of them have at
//! (sload, sclr). `-` is unconnected.

use crate::generate::*;
use crate::plain::CellRecord;

type Pair = (u16, u16);
type Test = fn(Pair, Pair) -> bool;

/// Two registers that break 63.
pub const BREAKS: [(&str, Test); 12] = [
    ("two sload", |p, q| two(p, q)),
    ("two sclr", |p, q| two(turned(p), turned(q))),
    ("(A,B) (C,D)", |p, q| {
        differ(p.0, q.0) && differ(p.1, q.1) && p != turned(q)
    }),
    ("(A,B) (B,A)", |p, q| differ(p.0, p.1) && p == turned(q)),
    ("(A,B) (A,-)", |p, q| nets(p) && lacks(p, q, 0)),
    ("(A,B) (A,GND)", |p, q| nets(p) && lacks(p, q, GND)),
    ("(A,B) (-,B)", |p, q| {
        nets(p) && lacks(turned(p), turned(q), 0)
    }),
    ("(A,B) (GND,B)", |p, q| {
        nets(p) && lacks(turned(p), turned(q), GND)
    }),
    ("(A,-) (-,B)", |p, q| {
        used(p.0) && !used(p.1) && !used(q.0) && used(q.1)
    }),
    ("VCC against -", |p, q| {
        lacks_vcc(p, q, 0) || lacks_vcc(turned(p), turned(q), 0)
    }),
    ("VCC against GND", |p, q| {
        lacks_vcc(p, q, GND) || lacks_vcc(turned(p), turned(q), GND)
    }),
    ("a net against its inverse", |p, q| {
        inverse(p.0, q.0) || inverse(p.1, q.1)
    }),
];

/// Two registers that keep 63.
pub const KEPT: [(&str, Test); 6] = [
    ("(A,-) (A,GND)", |p, q| one_used(p, q)),
    ("(-,B) (GND,B)", |p, q| one_used(turned(p), turned(q))),
    ("one beside (-,-)", |p, q| uses(p) && q == (0, 0)),
    ("one beside (-,GND)", |p, q| uses(p) && q == (0, GND)),
    ("one beside (GND,-)", |p, q| uses(p) && q == (GND, 0)),
    ("one beside (GND,GND)", |p, q| uses(p) && q == (GND, GND)),
];

fn used(v: u16) -> bool {
    v != 0 && v != GND
}

fn uses(p: Pair) -> bool {
    used(p.0) || used(p.1)
}

fn turned(p: Pair) -> Pair {
    (p.1, p.0)
}

fn differ(v: u16, w: u16) -> bool {
    used(v) && used(w) && v != w
}

fn nets(p: Pair) -> bool {
    p.0 >= net(0) && p.1 >= net(0)
}

/// Two signals at the first port, no inverses; the second ports are alike.
fn two(p: Pair, q: Pair) -> bool {
    let alike = p.1 == q.1 || !(used(p.1) || used(q.1));
    differ(p.0, q.0) && !inverse(p.0, q.0) && alike
}

/// Both ports of the first are in use; the other has the same first signal and `v`.
fn lacks(p: Pair, q: Pair, v: u16) -> bool {
    used(p.0) && used(p.1) && q == (p.0, v)
}

fn lacks_vcc(p: Pair, q: Pair, v: u16) -> bool {
    p.1 == VCC && lacks(p, q, v)
}

fn inverse(v: u16, w: u16) -> bool {
    v >= net(0) && v ^ 1 == w
}

/// The same at the first port; the second is unconnected and GND.
fn one_used(p: Pair, q: Pair) -> bool {
    used(p.0) && p == (q.0, 0) && q.1 == GND
}

/// How many LABs or lists there were, each counted once at what two of its
/// registers show.
pub struct Counts {
    pub broken: u64,
    /// Each port by itself has at most one signal in use.
    pub pairs_only: u64,
    pub breaks: [u64; BREAKS.len()],
    pub kept: [u64; KEPT.len()],
}

impl Counts {
    pub fn new() -> Counts {
        Counts {
            broken: 0,
            pairs_only: 0,
            breaks: [0; BREAKS.len()],
            kept: [0; KEPT.len()],
        }
    }

    /// Cells of one LAB, or a list, that have the number.
    pub fn note(&mut self, number: u8, list: &[CellRecord]) {
        let pair = |c: &CellRecord| (c.signals[SLOAD], c.signals[SCLR]);
        let registers = list.iter().filter(|c| c.kind == REGISTER);
        let mut pairs: Vec<Pair> = registers.map(pair).collect();
        pairs.sort_unstable();
        pairs.dedup();
        match number {
            0 => count(&mut self.kept, &KEPT, &pairs),
            63 => {
                self.broken += 1;
                let apart: Test = |p, q| differ(p.0, q.0) || differ(p.1, q.1);
                self.pairs_only += !shows(&pairs, apart) as u64;
                count(&mut self.breaks, &BREAKS, &pairs);
            }
            _ => {}
        }
    }
}

fn shows(pairs: &[Pair], test: Test) -> bool {
    pairs.iter().any(|&p| pairs.iter().any(|&q| test(p, q)))
}

fn count(counts: &mut [u64], tests: &[(&str, Test)], pairs: &[Pair]) {
    for (n, &(_, test)) in counts.iter_mut().zip(tests) {
        *n += shows(pairs, test) as u64;
    }
}
