//! LABs and lists at the limit of 64: exactly 38 nets in a legal one, exactly 39 in
//! a refused one, and what a wrong count would take in or leave out there.

use crate::generate::*;
use crate::plain::CellRecord;

/// Cells of one LAB, rising, or a list; the cells of the lower LABs; and the nets
/// that count, by their plain codes.
pub struct Lab<'a> {
    own: &'a [CellRecord],
    lower: &'a [CellRecord],
    counted: Vec<u16>,
}

type Test = fn(&Lab) -> bool;

/// What a LAB at the limit shows. A further net is one that does not count.
pub const CASES: [(&str, Test); 7] = [
    ("in all", |_| true),
    ("a further net read, then driven", |l| {
        l.inside(|reader, driver| reader < driver)
    }),
    ("a further net driven, then read", |l| {
        l.inside(|reader, driver| driver < reader)
    }),
    ("a further net at cin only", |l| {
        let at_cin = l.own.iter().filter_map(cin);
        let mut further = at_cin.filter(|n| !l.counted.contains(n));
        further.any(|n| !l.own.iter().any(|c| drives(c, n)))
    }),
    ("one in both polarities", |l| {
        let has = |v: u16| l.own.iter().any(|c| reads(c).any(|r| r == v));
        l.counted.iter().any(|&n| has(n) && has(n ^ 1))
    }),
    ("one read in a lower LAB", |l| {
        let read = |n: u16| l.lower.iter().any(|c| reads(c).any(|r| plain(r) == n));
        l.counted.iter().any(|&n| read(n))
    }),
    ("one driven in a lower LAB", |l| {
        let driven = |n: u16| l.lower.iter().any(|c| drives(c, n));
        l.counted.iter().any(|&n| driven(n))
    }),
];

/// The cases before the lower LABs, which lists have not.
pub const OF_LISTS: usize = 5;

impl Lab<'_> {
    /// Whether some net is read and driven by cells, by their places, that pass the
    /// test.
    fn inside(&self, test: fn(usize, usize) -> bool) -> bool {
        let drivers = |n: u16| (0..self.own.len()).filter(move |&i| drives(&self.own[i], n));
        self.own.iter().enumerate().any(|(reader, c)| {
            reads(c).any(|v| drivers(plain(v)).any(|driver| test(reader, driver)))
        })
    }
}

/// The code of the net, polarity aside.
fn plain(v: u16) -> u16 {
    v & !1
}

/// The nets that the cell reads, in their polarities, not those at cin.
fn reads(c: &CellRecord) -> impl Iterator<Item = u16> + '_ {
    let ports = if c.kind == REGISTER { REGOUT } else { CIN };
    let signals = c.signals[..ports].iter().copied();
    signals.filter(|&v| v >= net(0))
}

fn cin(c: &CellRecord) -> Option<u16> {
    let v = c.signals[CIN];
    (c.kind == COMBINATIONAL && v >= net(0)).then_some(plain(v))
}

fn drives(c: &CellRecord, n: u16) -> bool {
    let outputs = if c.kind == REGISTER {
        &c.signals[REGOUT..=REGOUT]
    } else {
        &c.signals[COMBOUT..=COUT]
    };
    outputs.contains(&n)
}

/// How many LABs or lists at the limit showed each case.
pub struct Counts {
    pub legal: [u64; CASES.len()],
    pub refused: [u64; CASES.len()],
}

impl Counts {
    pub fn new() -> Counts {
        Counts {
            legal: [0; CASES.len()],
            refused: [0; CASES.len()],
        }
    }

    /// Cells of one LAB, or a list, that have the number; and of the lower LABs.
    pub fn note(&mut self, number: u8, own: &[CellRecord], lower: &[CellRecord]) {
        let (limit, counts) = match number {
            0 => (38, &mut self.legal),
            64 => (39, &mut self.refused),
            _ => return,
        };
        let mut counted: Vec<u16> = own.iter().flat_map(reads).map(plain).collect();
        counted.sort_unstable();
        counted.dedup();
        if counted.len() < limit {
            return;
        }
        counted.retain(|&n| !own.iter().any(|c| drives(c, n)));
        if counted.len() != limit {
            return;
        }
        let lab = Lab {
            own,
            lower,
            counted,
        };
        for (n, (_, test)) in counts.iter_mut().zip(CASES) {
            *n += test(&lab) as u64;
        }
    }
}
