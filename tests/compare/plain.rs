//! The readers and the list check in plain Rust, straight from document 01, M-102 and
//! M-107: sets, and lists of entries that grow by one entry at a time.
#![allow(dead_code)]

use std::collections::BTreeSet;
use std::ops::Deref;

/// Kind, flag and eleven signals, laid out as in the exercise.
#[repr(C)]
#[derive(Clone, Copy, Debug, PartialEq, Eq)]
pub struct CellRecord {
    pub kind: u8,
    pub flag: u8,
    pub signals: [u16; 11],
}

/// What a reader gives.
#[derive(Clone, Copy, Debug, PartialEq, Eq)]
pub enum Step<T> {
    Given(T),
    Broken,
    End,
}

pub fn word(b: &[u8], at: usize) -> u16 {
    let byte = |i: usize| b.get(i).copied().unwrap_or(0) as u16;
    byte(at) + 256 * byte(at + 1)
}

pub fn open_exercise(b: &[u8]) -> u8 {
    if b.len() < 9 {
        10
    } else if &b[..3] != b"LXE" {
        11
    } else if word(b, 3) != 1 {
        12
    } else if word(b, 5) > 1024 || word(b, 7) > 512 {
        13
    } else if b.len() != 9 + 24 * word(b, 7) as usize {
        14
    } else {
        0
    }
}

/// 20 to 25 without 24.
pub fn open_answer(b: &[u8]) -> u8 {
    if b.len() < 11 {
        20
    } else if &b[..3] != b"LXA" {
        21
    } else if word(b, 3) != 1 {
        22
    } else if b[5..9] == [0; 4] {
        23
    } else if b.len() != 11 + 4 * word(b, 9) as usize {
        25
    } else {
        0
    }
}

/// What stands on a settings sheet; an entry is its flags.
#[derive(Clone, Debug, PartialEq, Eq)]
pub struct Settings {
    pub version: u16,
    pub board: u16,
    pub entries: Vec<u8>,
}

/// Or the number of 70 to 75.
pub fn read_settings(b: &[u8]) -> Result<Settings, u8> {
    let version = word(b, 3);
    let count = b.get(5).copied().unwrap_or(0) as usize;
    let (head, board) = if version == 2 {
        (8, word(b, 6))
    } else {
        (6, 0)
    };
    let entries = b.get(head..).unwrap_or(&[]);
    let refusals = [
        (70, b.len() < 6),
        (71, !b.starts_with(b"LXT")),
        (72, ![1, 2].contains(&version)),
        (73, count > 8),
        (74, b.len() != head + count),
        (75, entries.iter().any(|&flags| flags > 1 + 2 + 4 + 8 + 16)),
    ];
    match refusals.iter().find(|r| r.1) {
        Some(&(number, _)) => Err(number),
        None => Ok(Settings {
            version,
            board,
            entries: entries.to_vec(),
        }),
    }
}

pub fn record(b: &[u8]) -> CellRecord {
    let mut signals = [0; 11];
    for (k, s) in signals.iter_mut().enumerate() {
        *s = word(b, 2 + 2 * k);
    }
    CellRecord {
        kind: b[0],
        flag: b[1],
        signals,
    }
}

fn is_net(v: u16) -> bool {
    v >= 4
}

fn net_of(v: u16) -> u16 {
    (v - 4) / 2
}

fn bad(v: u16, nets: u16) -> bool {
    v == 3 || (is_net(v) && net_of(v) >= nets)
}

/// Inputs and outputs by the kind, or nothing for another kind.
fn ports(c: &CellRecord) -> Option<(&[u16], &[u16], &[u16])> {
    let s = &c.signals;
    match c.kind {
        1 => Some((&s[..5], &s[5..7], &s[7..])),
        2 => Some((&s[..7], &s[7..8], &s[8..])),
        _ => None,
    }
}

pub fn keeps_layout(c: &CellRecord, nets: u16) -> bool {
    let Some((inputs, outputs, rest)) = ports(c) else {
        return false;
    };
    let flags = if c.kind == 1 { 1 } else { 0 };
    let output = |v: u16| v == 0 || (is_net(v) && v % 2 == 0 && !bad(v, nets));
    c.flag <= flags
        && inputs.iter().all(|&v| !bad(v, nets))
        && outputs.iter().all(|&v| output(v))
        && rest.iter().all(|&v| v == 0)
}

/// What a reader of the exercise gives at a number, and where it goes on.
pub fn next_cell(b: &[u8], at: u16) -> (Step<CellRecord>, u16) {
    if at >= word(b, 7) {
        return (Step::End, at);
    }
    let from = 9 + 24 * at as usize;
    match b.get(from..from + 24).map(record) {
        Some(c) if keeps_layout(&c, word(b, 5)) => (Step::Given(c), at + 1),
        _ => (Step::Broken, at),
    }
}

/// The same for the answer: x, y and LE.
pub fn next_place(b: &[u8], at: u16) -> (Step<[u16; 3]>, u16) {
    if at >= word(b, 9) {
        return (Step::End, at);
    }
    let from = 11 + 4 * at as usize;
    match b.get(from..from + 4) {
        Some(&[x, y, le, 0]) if x < 32 && y < 32 && le < 16 => {
            (Step::Given([x as u16, y as u16, le as u16]), at + 1)
        }
        _ => (Step::Broken, at),
    }
}

/// 30 to 35.
fn breaks_register_rule(c: &CellRecord) -> bool {
    let [datain, clk, ena, _, sclr, sload, sdata, regout, ..] = c.signals;
    let gnd_or_inverted = |v: u16| v == 1 || (is_net(v) && v % 2 == 1);
    (clk != 0 && regout == 0)
        || (sclr != 0 && clk == 0)
        || (sload != 0 && clk == 0)
        || (sload != 0 && sdata == 0)
        || (ena != 0 && clk == 0)
        || gnd_or_inverted(datain)
        || gnd_or_inverted(sdata)
}

/// A need: the entries that serve its role, a bit an entry, and its net.
#[derive(Clone, Copy, Debug, PartialEq, Eq, Hash)]
pub struct Need {
    pub serving: u8,
    pub net: u16,
}

impl Need {
    /// Of a role and a signal, where the board has these entries.
    pub fn new(role: usize, signal: u16, entries: &[u8]) -> Need {
        let bit = |(entry, &flags): (usize, &u8)| (flags >> role & 1) << entry;
        Need {
            serving: entries.iter().enumerate().map(bit).sum(),
            net: net_of(signal),
        }
    }
}

/// Entries for the first needs, in their order.
#[derive(Clone, Copy, Default)]
pub struct List {
    entries: [u8; 8],
    length: usize,
}

impl Deref for List {
    type Target = [u8];

    fn deref(&self) -> &[u8] {
        &self.entries[..self.length]
    }
}

impl List {
    pub fn with(mut self, entry: u8) -> List {
        self.entries[self.length] = entry;
        self.length += 1;
        self
    }

    /// With one more entry, each in turn that the next need may have: it serves the need,
    /// and the list has given it to no need of another net.
    pub fn longer(self, needs: &[Need]) -> impl Iterator<Item = List> {
        let next = needs[self.length];
        let given = needs.iter().zip(&*self);
        let others = given.filter(|(need, _)| need.net != next.net);
        let closed = others.fold(0, |set, (_, entry)| set | 1 << entry);
        let may_have = move |entry: &u8| (next.serving & !closed) >> entry & 1 == 1;
        (0..8).filter(may_have).map(move |entry| self.with(entry))
    }
}

/// The first list for all needs that begins with this one.
fn earliest(list: List, needs: &[Need]) -> Option<List> {
    if list.len() == needs.len() {
        return Some(list);
    }
    list.longer(needs).find_map(|list| earliest(list, needs))
}

/// What the register fixes of (sload, sclr), where it uses one of them (M-101).
fn sync_pair(c: &CellRecord) -> Option<(u16, u16)> {
    let used = |v: u16| v != 0 && v != 1;
    let [_, _, _, _, sclr, sload, ..] = c.signals;
    match (used(sload), used(sclr)) {
        (false, false) => None,
        (true, false) => Some((sload, 1)),
        (false, true) => Some((1, sclr)),
        (true, true) => Some((sload, sclr)),
    }
}

pub fn check_list(settings: &[u8], list: &[CellRecord]) -> (u8, [u8; 8]) {
    let none = [255; 8];
    let unfit = |c: &CellRecord| !keeps_layout(c, 1024) || (c.kind == 2 && breaks_register_rule(c));
    if list.len() > 32 || list.iter().any(unfit) {
        return (18, none);
    }
    let entries = match read_settings(settings) {
        Ok(sheet) => sheet.entries,
        Err(number) => return (number, none),
    };
    let mut counted: [BTreeSet<u16>; 3] = Default::default();
    let [clks, aclrs, enas] = &mut counted;
    let (mut sclrs, mut sloads) = (BTreeSet::new(), BTreeSet::new());
    let mut pairs = BTreeSet::new();
    let mut sync_pairs = BTreeSet::new();
    let (mut read, mut driven) = (BTreeSet::new(), BTreeSet::new());
    for c in list {
        let Some((inputs, outputs, _)) = ports(c) else {
            continue;
        };
        // Reads at cin do not count.
        let inputs = if c.kind == 1 { &inputs[..4] } else { inputs };
        read.extend(inputs.iter().filter(|&&v| is_net(v)).map(|&v| net_of(v)));
        driven.extend(outputs.iter().filter(|&&v| v != 0).map(|&v| net_of(v)));
        if c.kind == 1 {
            continue;
        }
        let [_, clk, ena, aclr, sclr, sload, _, regout, ..] = c.signals;
        let or = |v: u16, open: u16| {
            if v == 0 && regout != 0 {
                open
            } else {
                v
            }
        };
        let (clk, ena, aclr) = (or(clk, 1), or(ena, 2), or(aclr, 1));
        if clk != 0 {
            clks.insert(clk);
            pairs.insert((clk, ena));
        }
        if aclr != 0 {
            aclrs.insert(aclr);
        }
        enas.insert(ena);
        if is_net(sclr) {
            sclrs.insert(sclr);
        }
        if is_net(sload) {
            sloads.insert(sload);
        }
        if let Some(pair) = sync_pair(c) {
            sync_pairs.insert(pair);
        }
    }
    if clks.len() > 2 {
        return (60, none);
    }
    if pairs.len() > 2 {
        return (61, none);
    }
    if aclrs.len() > 2 {
        return (62, none);
    }
    if sync_pairs.len() > 1 {
        return (63, none);
    }
    if read.difference(&driven).count() > 38 {
        return (64, none);
    }
    let first = [0, 2, 4, 6, 7];
    let (mut needs, mut bytes) = (Vec::new(), Vec::new());
    for (role, set) in [&*clks, &*enas, &*aclrs, &sclrs, &sloads]
        .into_iter()
        .enumerate()
    {
        for (k, &v) in set.iter().filter(|&&v| is_net(v)).enumerate() {
            needs.push(Need::new(role, v, &entries));
            bytes.push(first[role] + k);
        }
    }
    let Some(way) = earliest(List::default(), &needs) else {
        return (65, none);
    };
    let mut route = none;
    for (&b, &entry) in bytes.iter().zip(&*way) {
        route[b] = entry;
    }
    (0, route)
}
