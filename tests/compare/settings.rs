//! Settings sheets: boards of every kind, sheets bent towards each of 70 to 75, and
//! how often each board was judged on.
#![allow(dead_code)]

use crate::generate::Rng;
use crate::plain::{Need, Settings};
use std::collections::BTreeSet;

pub const MOST: usize = 8;

/// The entries of document 01's board, and its sheet.
pub const HOUSE_ENTRIES: [u8; 6] = [1, 5, 3, 18, 12, 24];
pub const HOUSE: [u8; 12] = *b"LXT\x01\x00\x06\x01\x05\x03\x12\x0c\x18";

#[derive(Clone, Copy)]
pub enum Kind {
    House,
    NearHouse,
    Poor,
    Rich,
    Equal,
    Any,
    Empty,
    StillGood,
}

use Kind::*;

/// Every kind of board, with its share of a hundred.
pub const KINDS: [(Kind, &str, usize); 8] = [
    (House, "document 01's", 50),
    (NearHouse, "one near it", 12),
    (Poor, "poor", 10),
    (Rich, "rich", 14),
    (Equal, "equal entries", 5),
    (Any, "any", 7),
    (Empty, "no entry", 2),
    (StillGood, "bent and still good", 0),
];

/// A board, with the place of its kind in KINDS.
pub fn board(rng: &mut Rng) -> (Settings, usize) {
    let mut left = rng.below(100);
    let mut kind = 0;
    while left >= KINDS[kind].2 {
        left -= KINDS[kind].2;
        kind += 1;
    }
    let entries = entries(rng, KINDS[kind].0);
    let version = rng.range(1, 2) as u16;
    let board = if version == 1 { 0 } else { number(rng) };
    let settings = Settings {
        version,
        board,
        entries,
    };
    (settings, kind)
}

/// The sheet as it stands, whatever is in it.
pub fn sheet(s: &Settings) -> Vec<u8> {
    let mut b = b"LXT".to_vec();
    b.extend(s.version.to_le_bytes());
    b.push(s.entries.len() as u8);
    if s.version == 2 {
        b.extend(s.board.to_le_bytes());
    }
    b.extend(&s.entries);
    b
}

/// A board's number; some have bytes that could be flags.
pub fn number(rng: &mut Rng) -> u16 {
    match rng.below(4) {
        0 => rng.pick(&[0, 1, 2, 255, 256, 65535]),
        1 => (rng.below(32) + 256 * rng.below(32)) as u16,
        _ => rng.next() as u16,
    }
}

/// Each role with the chance.
fn roles(rng: &mut Rng, chance: usize) -> u8 {
    (0..5).fold(0, |f, role| f | (rng.percent(chance) as u8) << role)
}

fn entries(rng: &mut Rng, kind: Kind) -> Vec<u8> {
    match kind {
        House => HOUSE_ENTRIES.to_vec(),
        NearHouse => near_house(rng),
        // An entry serves nothing or one role, seldom more.
        Poor => (0..rng.range(1, MOST))
            .map(|_| match rng.below(10) {
                0..=1 => 0,
                2..=7 => 1 << rng.below(5),
                _ => roles(rng, 35),
            })
            .collect(),
        Rich => {
            let chance = rng.pick(&[60, 75, 90, 100]);
            (0..rng.range(5, MOST))
                .map(|_| roles(rng, chance))
                .collect()
        }
        Equal => {
            let two = [roles(rng, 70), roles(rng, 70)];
            (0..rng.range(2, MOST)).map(|_| rng.pick(&two)).collect()
        }
        Any => (0..rng.range(1, MOST)).map(|_| roles(rng, 50)).collect(),
        Empty | StillGood => vec![],
    }
}

/// Document 01's entries in another order, with a role more or less, with an entry
/// more or less.
fn near_house(rng: &mut Rng) -> Vec<u8> {
    let mut list = HOUSE_ENTRIES.to_vec();
    for _ in 0..rng.range(1, 3) {
        let at = rng.below(list.len());
        match rng.below(6) {
            0 => rng.shuffle(&mut list),
            1 => list.reverse(),
            2 => list[at] ^= 1 << rng.below(5),
            3 => drop(list.remove(at)),
            _ if list.len() == MOST => {}
            4 => list.insert(at, 0),
            _ => list.push(roles(rng, 50)),
        }
    }
    list
}

/// Bends a good sheet so that the wanted one of 70 to 75 applies, where that can be.
pub fn aim(rng: &mut Rng, number: u8, b: &mut Vec<u8>) {
    if b.len() < 6 {
        return;
    }
    let head = if b[3] == 2 { 8 } else { 6 };
    match number {
        70 => b.truncate(rng.below(6)),
        71 => b[rng.below(3)] ^= 1 << rng.below(8),
        72 => {
            // Some are good by one of their bytes.
            let version = rng.pick(&[0, 3, 3, 4, 255, 256, 257, 258, 512, 513, 65535]);
            b[3..5].copy_from_slice(&u16::to_le_bytes(version));
        }
        73 => {
            b[5] = rng.pick(&[9, 9, 10, 16, 128, 255]);
            match rng.below(3) {
                0 => b.resize(head + b[5] as usize, 1),
                // Too short for a board number.
                1 => b.truncate(rng.range(6, 8)),
                _ => {}
            }
        }
        74 => match rng.below(6) {
            0 => b.push(rng.byte()),
            1 => b.extend((0..rng.range(1, 20)).map(|k| k as u8)),
            2 => b.truncate(6 + rng.below((b.len() - 6).max(1))),
            // The other version has another head.
            3 => b[3] = 3 - b[3].min(2),
            4 => b[5] = b[5].wrapping_add(1) % 9,
            _ => b.truncate(rng.range(6, 8)),
        },
        75 if b.len() > head => {
            let at = match rng.below(3) {
                0 => head,
                1 => b.len() - 1,
                _ => rng.range(head, b.len() - 1),
            };
            b[at] = match rng.below(3) {
                0 => 32,
                1 => b[at] | rng.pick(&[32, 64, 128]),
                _ => rng.range(32, 255) as u8,
            };
        }
        _ => {}
    }
}

/// A sheet bent once or twice, in one byte, or random bytes; it may still be good.
pub fn bent(rng: &mut Rng, good: &[u8]) -> Vec<u8> {
    let mut b = good.to_vec();
    match rng.below(10) {
        0 => b = (0..rng.below(20)).map(|_| rng.byte()).collect(),
        1 if !b.is_empty() => {
            let at = rng.below(b.len());
            b[at] = rng.byte();
        }
        2..=4 => {
            for _ in 0..2 {
                let number = rng.range(70, 75) as u8;
                aim(rng, number, &mut b);
            }
        }
        _ => {
            let number = rng.range(70, 75) as u8;
            aim(rng, number, &mut b);
        }
    }
    b
}

/// The same table on a sheet with another board number, in either version.
pub fn renumbered(rng: &mut Rng, s: &Settings) -> Settings {
    let board = number(rng);
    let version = if board == 0 || rng.percent(25) { 1 } else { 2 };
    Settings {
        version,
        board: if version == 1 { 0 } else { board },
        entries: s.entries.clone(),
    }
}

/// Whether the needs have a way: the entries go to nets, each to one, in any manner that
/// leaves no need unserved by the entries of its net.
pub fn has_way(needs: &[Need]) -> bool {
    let nets: BTreeSet<u16> = needs.iter().map(|need| need.net).collect();
    // The sets of needs that the entries so far can serve together, a bit a need.
    let mut together = vec![false; 1 << needs.len()];
    together[0] = true;
    for entry in 0..MOST {
        let before = together.clone();
        for &net in &nets {
            let served = |n: &Need| n.net == net && n.serving >> entry & 1 == 1;
            let bit = |i: usize| (served(&needs[i]) as usize) << i;
            let own: usize = (0..needs.len()).map(bit).sum();
            let sets = (0..before.len()).filter(|&set| before[set]);
            sets.for_each(|set| together[set | own] = true);
        }
    }
    together.last() == Some(&true)
}

/// How often boards were judged on; by kind, version and number of entries.
pub struct Counts {
    pub kinds: [u64; KINDS.len()],
    pub versions: [u64; 2],
    pub entries: [u64; MOST + 1],
    pub legal: [u64; MOST + 1],
    pub no_way: [u64; MOST + 1],
    /// Pairs judged again under another board number.
    pub renumbered: u64,
    /// 70 to 75 beside another fault of the two sheets.
    pub beside: u64,
    /// 1 and 3 beside a settings sheet that is none.
    pub buffer: u64,
    pub list: u64,
}

impl Counts {
    pub fn new() -> Counts {
        Counts {
            kinds: [0; KINDS.len()],
            versions: [0; 2],
            entries: [0; MOST + 1],
            legal: [0; MOST + 1],
            no_way: [0; MOST + 1],
            renumbered: 0,
            beside: 0,
            buffer: 0,
            list: 0,
        }
    }

    /// A pair on a board, with its verdict.
    pub fn note(&mut self, s: &Settings, kind: usize, number: u8) {
        let n = s.entries.len();
        self.kinds[kind] += 1;
        self.versions[s.version as usize - 1] += 1;
        self.entries[n] += 1;
        self.legal[n] += (number == 0) as u64;
        self.no_way[n] += (number == 65) as u64;
    }
}
