//! Seeded pairs of sheets, each on a board: valid ones, ones aimed at each verdict
//! number, noise.
#![allow(dead_code)]

use crate::plain::Need;
use crate::settings;
use std::collections::BTreeSet;

/// Every verdict number of the judge of two sheets.
pub const NUMBERS: [u8; 42] = [
    0, 1, 3, 70, 71, 72, 73, 74, 75, 10, 11, 12, 13, 14, 15, 16, 20, 21, 22, 23, 24, 25, 26, 30,
    31, 32, 33, 34, 35, 40, 41, 42, 43, 44, 50, 51, 60, 61, 62, 63, 64, 65,
];

pub const COMBINATIONAL: u8 = 1;
pub const REGISTER: u8 = 2;

// Ports of a combinational cell.
pub const DATAA: usize = 0;
pub const DATAB: usize = 1;
pub const DATAC: usize = 2;
pub const DATAD: usize = 3;
pub const CIN: usize = 4;
pub const COMBOUT: usize = 5;
pub const COUT: usize = 6;

// Ports of a register.
pub const DATAIN: usize = 0;
pub const CLK: usize = 1;
pub const ENA: usize = 2;
pub const ACLR: usize = 3;
pub const SCLR: usize = 4;
pub const SLOAD: usize = 5;
pub const SDATA: usize = 6;
pub const REGOUT: usize = 7;

pub const GND: u16 = 1;
pub const VCC: u16 = 2;

pub fn net(n: u16) -> u16 {
    4 + 2 * n
}

/// The signal of a letter: A, B and so on are the nets from `first` on, small letters their
/// inverses. Any other sign is for unconnected.
pub fn signal(letter: u8, first: u16) -> u16 {
    match letter {
        b'A'..=b'Z' => net(first + (letter - b'A') as u16),
        b'a'..=b'z' => net(first + (letter - b'a') as u16) + 1,
        _ => 0,
    }
}

/// The role of each route byte: clk, ena, aclr, sclr and sload from 0 on.
pub const ROLES: [usize; 8] = [0, 0, 1, 1, 2, 2, 3, 4];

/// Xorshift, with the seed stirred first so that any seed will do.
pub struct Rng(u64);

impl Rng {
    pub fn new(seed: u64) -> Rng {
        let mut z = seed.wrapping_add(0x9e37_79b9_7f4a_7c15);
        z = (z ^ (z >> 30)).wrapping_mul(0xbf58_476d_1ce4_e5b9);
        z = (z ^ (z >> 27)).wrapping_mul(0x94d0_49bb_1331_11eb);
        Rng((z ^ (z >> 31)) | 1)
    }

    pub fn next(&mut self) -> u64 {
        self.0 ^= self.0 >> 12;
        self.0 ^= self.0 << 25;
        self.0 ^= self.0 >> 27;
        self.0.wrapping_mul(0x2545_f491_4f6c_dd1d)
    }

    pub fn below(&mut self, n: usize) -> usize {
        (((self.next() >> 32) * n as u64) >> 32) as usize
    }

    /// Both ends included.
    pub fn range(&mut self, low: usize, high: usize) -> usize {
        low + self.below(high - low + 1)
    }

    pub fn percent(&mut self, p: usize) -> bool {
        self.below(100) < p
    }

    pub fn pick<T: Copy>(&mut self, list: &[T]) -> T {
        list[self.below(list.len())]
    }

    pub fn byte(&mut self) -> u8 {
        (self.next() >> 40) as u8
    }

    pub fn shuffle<T>(&mut self, list: &mut [T]) {
        for i in (1..list.len()).rev() {
            list.swap(i, self.below(i + 1));
        }
    }
}

/// A cell of the exercise with its place on the answer.
#[derive(Clone, Copy)]
pub struct Cell {
    pub kind: u8,
    pub flag: u8,
    pub s: [u16; 11],
    pub x: u8,
    pub y: u8,
    pub le: u8,
    pub zero: u8,
}

impl Cell {
    pub fn new(kind: u8, lab: usize, le: usize) -> Cell {
        Cell {
            kind,
            flag: 0,
            s: [0; 11],
            x: (lab % 32) as u8,
            y: (lab / 32) as u8,
            le: le as u8,
            zero: 0,
        }
    }

    pub fn lab(&self) -> usize {
        32 * self.y as usize + self.x as usize
    }

    fn inputs(&self) -> usize {
        if self.kind == REGISTER {
            REGOUT
        } else {
            COMBOUT
        }
    }

    fn outputs(&self) -> &'static [usize] {
        if self.kind == REGISTER {
            &[REGOUT]
        } else {
            &[COMBOUT, COUT]
        }
    }

    fn put_at(&mut self, other: Cell) {
        (self.x, self.y, self.le) = (other.x, other.y, other.le);
    }
}

#[derive(Clone)]
pub struct Sheets {
    pub nets: u16,
    pub cells: Vec<Cell>,
    pub apprentice: u32,
}

impl Sheets {
    pub fn exercise(&self) -> Vec<u8> {
        let mut b = Vec::with_capacity(9 + 24 * self.cells.len());
        b.extend_from_slice(b"LXE\x01\x00");
        b.extend_from_slice(&self.nets.to_le_bytes());
        b.extend_from_slice(&(self.cells.len() as u16).to_le_bytes());
        for c in &self.cells {
            b.extend_from_slice(&[c.kind, c.flag]);
            for v in c.s {
                b.extend_from_slice(&v.to_le_bytes());
            }
        }
        b
    }

    pub fn answer(&self) -> Vec<u8> {
        let mut b = Vec::with_capacity(11 + 4 * self.cells.len());
        b.extend_from_slice(b"LXA\x01\x00");
        b.extend_from_slice(&self.apprentice.to_le_bytes());
        b.extend_from_slice(&(self.cells.len() as u16).to_le_bytes());
        for c in &self.cells {
            b.extend_from_slice(&[c.x, c.y, c.le, c.zero]);
        }
        b
    }

    /// A fresh net's code, or 0 when all 1,024 are taken.
    fn fresh(&mut self) -> u16 {
        if self.nets >= 1024 {
            return 0;
        }
        self.nets += 1;
        net(self.nets - 1)
    }

    /// A random cell that passes the test.
    fn some(&self, rng: &mut Rng, test: impl Fn(&Cell) -> bool) -> Option<usize> {
        let n = self.cells.len();
        if n == 0 {
            return None;
        }
        let from = rng.below(n);
        (0..n)
            .map(|k| (from + k) % n)
            .find(|&i| test(&self.cells[i]))
    }

    fn any_net(&self, rng: &mut Rng) -> u16 {
        if self.nets == 0 {
            VCC
        } else {
            net(rng.below(self.nets as usize) as u16) + rng.below(2) as u16
        }
    }

    /// A connected signal: a constant or a net in either polarity.
    fn connected(&self, rng: &mut Rng) -> u16 {
        match rng.below(4) {
            0 => GND,
            1 => VCC,
            _ => self.any_net(rng),
        }
    }

    fn labs(&self) -> Vec<usize> {
        let mut l: Vec<usize> = self.cells.iter().map(|c| c.lab()).collect();
        l.sort_unstable();
        l.dedup();
        l
    }
}

pub struct Case {
    pub name: &'static str,
    pub settings: Vec<u8>,
    /// The board's kind, by its place in settings::KINDS.
    pub board: usize,
    pub exercise: Vec<u8>,
    pub answer: Vec<u8>,
    /// Bytes and numbers lent.
    pub route: usize,
    pub tries: usize,
}

/// The control signals of one LAB. GND at clk and aclr and VCC at ena may also
/// be left unconnected.
struct Control {
    pairs: Vec<(u16, u16)>,
    aclr: Vec<u16>,
    /// (sload, sclr) with at least one in use; 0 stands for unconnected or GND.
    sync: Vec<(u16, u16)>,
}

impl Control {
    fn spread(&self) -> usize {
        self.pairs.len().max(self.aclr.len()).max(self.sync.len())
    }

    /// Whether its needs have a way on the board.
    fn has_way(&self, board: &[u8]) -> bool {
        let clk = self.pairs.iter().map(|p| (0, p.0));
        let ena = self.pairs.iter().map(|p| (1, p.1));
        let aclr = self.aclr.iter().map(|&v| (2, v));
        let sync = self.sync.iter().flat_map(|p| [(3, p.1), (4, p.0)]);
        let all = clk.chain(ena).chain(aclr).chain(sync);
        let needs: BTreeSet<(usize, u16)> = all.filter(|&(_, v)| v >= net(0)).collect();
        let needs = needs.iter().map(|&(role, v)| Need::new(role, v, board));
        settings::has_way(&needs.collect::<Vec<_>>())
    }
}

/// `n` distinct signals out of the pool's nets in either polarity, with the
/// constants mixed in.
pub fn distinct(
    rng: &mut Rng,
    pool: &[u16],
    n: usize,
    constants: &[u16],
    share: usize,
) -> Vec<u16> {
    let mut list: Vec<u16> = Vec::new();
    let mut tries = 0;
    while list.len() < n && tries < 200 {
        tries += 1;
        let v = if !constants.is_empty() && rng.percent(share) {
            rng.pick(constants)
        } else if !list.is_empty() && list[0] >= 4 && rng.percent(15) {
            // The inverse is a signal of its own.
            list[0] ^ 1
        } else {
            rng.pick(pool) + rng.percent(30) as u16
        };
        if !list.contains(&v) {
            list.push(v);
        }
    }
    list
}

/// The nets of a pool, or often only a few of them, at least so many.
fn few(rng: &mut Rng, pool: &[u16], least: usize) -> Vec<u16> {
    let mut nets = pool.to_vec();
    if rng.percent(40) {
        rng.shuffle(&mut nets);
        nets.truncate(rng.pick(&[1, 1, 2, 3]).max(least));
    }
    nets
}

/// At most one (sload, sclr), each in use as often as `busy` says.
fn one_sync(rng: &mut Rng, pool: &[u16], share: usize, busy: usize) -> Vec<(u16, u16)> {
    let mut signal = || {
        let n = rng.percent(busy) as usize;
        distinct(rng, pool, n, &[VCC], share).pop().unwrap_or(0)
    };
    let pair = (signal(), signal());
    if pair == (0, 0) {
        vec![]
    } else {
        vec![pair]
    }
}

/// Two (sload, sclr) that break 63, now and then with a third.
fn unlike_sync(rng: &mut Rng, pool: &[u16], share: usize) -> Vec<(u16, u16)> {
    let v = distinct(rng, pool, 4, &[VCC], share);
    let (a, b, c, d) = (v[0], v[1], v[2], v[3]);
    // Now and then one net at both ports.
    let e = rng.pick(&[a, b, b, b, b, b]);
    // What both have at the port where they are alike.
    let same = rng.pick(&[0, a, c, c]);
    let n = rng.pick(pool) + rng.percent(30) as u16;
    let mut list = match rng.below(13) {
        0 => vec![(same, a), (same, b)],
        1 => vec![(a, same), (b, same)],
        2 => vec![(a, b), (c, d)],
        3 | 4 => vec![(a, e), (a, 0)],
        5 | 6 => vec![(a, e), (0, e)],
        7 => vec![(a, 0), (0, e)],
        8 => vec![(a, b), (b, a)],
        9 => vec![(VCC, a), (0, a)],
        10 => vec![(a, VCC), (a, 0)],
        11 => vec![(n, same), (n ^ 1, same)],
        _ => vec![(same, n), (same, n ^ 1)],
    };
    if rng.percent(15) {
        list.push(rng.pick(&[(a, 0), (0, b), (a, b), (b, a), (VCC, 0), (0, VCC)]));
    }
    rng.shuffle(&mut list);
    list
}

/// Control signals that keep 60 to 63 and 65 (`want` 0), or break the wanted rule
/// and perhaps later ones; whether 65 goes as wanted is left to a board on which
/// that is hard.
fn control(rng: &mut Rng, board: &[u8], pool: &[u16], want: u8) -> Control {
    let mut share = rng.pick(&[0, 10, 30]);
    let mut busy = rng.pick(&[30, 60, 90]);
    // Other boards than document 01's may break 65 at once.
    let mut draws = if board == settings::HOUSE_ENTRIES || rng.percent(70) {
        40
    } else {
        rng.range(1, 4)
    };
    // Four signals where a rule before 64 is to be broken.
    let least = 1 + (60..=63).contains(&want) as usize;
    loop {
        let pool = &few(rng, pool, least)[..];
        let over = |rng: &mut Rng, rule: u8| {
            want == rule || (want != 0 && want < rule && want < 64 && rng.percent(15))
        };
        let clocks = if want == 60 {
            rng.range(3, 4)
        } else {
            1 + rng.percent(busy) as usize
        };
        let clk = distinct(rng, pool, clocks, &[GND, VCC], share);
        let several = 1 + rng.percent(busy) as usize + over(rng, 61) as usize * 2;
        let ena = distinct(rng, pool, several, &[VCC, VCC, GND], 100 - busy);
        let mut pairs: Vec<(u16, u16)> = clk.iter().map(|&k| (k, rng.pick(&ena))).collect();
        let most = if over(rng, 61) { rng.range(3, 4) } else { 2 };
        for _ in 0..8 {
            let p = (rng.pick(&clk), rng.pick(&ena));
            if pairs.len() < most && !pairs.contains(&p) && (most > 2 || rng.percent(busy)) {
                pairs.push(p);
            }
        }
        let clears = if over(rng, 62) {
            rng.range(3, 4)
        } else {
            1 + rng.percent(busy) as usize
        };
        let open = if rng.percent(busy) { share } else { 80 };
        let aclr = distinct(rng, pool, clears, &[GND, GND, VCC], open);
        let sync = if over(rng, 63) {
            unlike_sync(rng, pool, share)
        } else {
            one_sync(rng, pool, share, busy)
        };
        let c = Control { pairs, aclr, sync };
        let fits = match want {
            0 | 64 => c.has_way(board),
            65 => !c.has_way(board),
            _ => true,
        };
        draws -= 1;
        if fits || draws == 0 {
            return c;
        }
        // Draw again, rather more or fewer signals, in the end more constants.
        busy = if want == 65 {
            (busy + 10).min(95)
        } else {
            busy.saturating_sub(10).max(10)
        };
        if want != 65 && draws < 32 {
            share = (share + 5).min(90);
        }
    }
}

/// The one at the place, or any.
fn one_of<T: Copy>(rng: &mut Rng, list: &[T], place: Option<usize>) -> T {
    match place {
        Some(j) => list[j % list.len()],
        None => rng.pick(list),
    }
}

struct Builder<'a> {
    rng: &'a mut Rng,
    sheets: Sheets,
    taken: Vec<u32>,
    pool: Vec<u16>,
    undriven: Vec<u16>,
}

impl<'a> Builder<'a> {
    fn new(rng: &'a mut Rng) -> Builder<'a> {
        let apprentice = match rng.below(4) {
            0 => rng.range(1, 9) as u32,
            1 => 1 << rng.below(32),
            2 => u32::MAX,
            _ => (rng.next() >> 32) as u32 | 1,
        };
        let mut sheets = Sheets {
            nets: 0,
            cells: Vec::new(),
            apprentice,
        };
        let pool: Vec<u16> = (0..rng.range(4, 10)).map(|_| sheets.fresh()).collect();
        Builder {
            rng,
            sheets,
            taken: vec![0; 1024],
            undriven: pool.clone(),
            pool,
        }
    }

    /// Takes the slot of a kind if it is free.
    fn take(&mut self, kind: u8, lab: usize, le: usize) -> bool {
        let bit = 1 << (le + 16 * (kind == REGISTER) as usize);
        let free = self.taken[lab] & bit == 0;
        self.taken[lab] |= bit;
        free
    }

    fn free_le(&mut self, kind: u8, lab: usize) -> Option<usize> {
        let from = self.rng.below(16);
        (0..16)
            .map(|k| (from + k) % 16)
            .find(|&le| self.take(kind, lab, le))
    }

    /// A net for an output; now and then one of the control nets.
    fn output(&mut self) -> u16 {
        if !self.undriven.is_empty() && self.rng.percent(4) {
            let i = self.rng.below(self.undriven.len());
            return self.undriven.swap_remove(i);
        }
        self.sheets.fresh()
    }

    /// The `j`-th register of a LAB; the first ones show every control signal.
    fn register(&mut self, lab: usize, control: &Control, j: usize) {
        let Some(le) = self.free_le(REGISTER, lab) else {
            return;
        };
        let mut c = Cell::new(REGISTER, lab, le);
        let shown = j >= control.spread();
        if shown && self.rng.percent(12) {
            // Unused; its aclr may still be connected.
            if self.rng.percent(60) {
                c.s[ACLR] = self.rng.pick(&control.aclr);
            }
            self.sheets.cells.push(c);
            return;
        }
        let rng = &mut *self.rng;
        let place = (!shown).then_some(j);
        let (k, e) = one_of(rng, &control.pairs, place);
        (c.s[CLK], c.s[ENA]) = (k, e);
        if e == VCC && rng.percent(60) {
            c.s[ENA] = 0;
        }
        let has_sync = j < control.sync.len();
        if k == GND && e == VCC && !has_sync && rng.percent(60) {
            (c.s[CLK], c.s[ENA]) = (0, 0);
        }
        let a = one_of(rng, &control.aclr, place);
        c.s[ACLR] = if a == GND && rng.percent(60) { 0 } else { a };
        if c.s[CLK] != 0 {
            // The whole pair or neither.
            let (sload, sclr) = if has_sync || (!control.sync.is_empty() && rng.percent(50)) {
                one_of(rng, &control.sync, place)
            } else {
                (0, 0)
            };
            for (port, v) in [(SLOAD, sload), (SCLR, sclr)] {
                c.s[port] = if v == 0 && rng.percent(30) { GND } else { v };
            }
        }
        c.s[REGOUT] = self.output();
        if c.s[REGOUT] != 0 {
            self.sheets.cells.push(c);
        }
    }

    fn combinational(&mut self, lab: usize) {
        let Some(le) = self.free_le(COMBINATIONAL, lab) else {
            return;
        };
        let mut c = Cell::new(COMBINATIONAL, lab, le);
        c.flag = self.rng.percent(15) as u8;
        if self.rng.percent(90) {
            c.s[COMBOUT] = self.output();
        }
        self.sheets.cells.push(c);
    }

    /// A carry chain from the given LE upwards, over the LAB's border to y - 1.
    fn chain(&mut self, lab: usize, le: usize, length: usize) {
        let (mut lab, mut le) = (lab, le);
        let mut carry = 0;
        for k in 0..length {
            if !self.take(COMBINATIONAL, lab, le) {
                break;
            }
            let mut c = Cell::new(COMBINATIONAL, lab, le);
            c.s[CIN] = carry;
            c.flag = (carry != 0 || self.rng.percent(20)) as u8;
            if self.rng.percent(70) && self.sheets.nets < 900 {
                c.s[COMBOUT] = self.sheets.fresh();
            }
            let (up_lab, up_le) = match (le, lab) {
                (15, 0..=31) => (0, 16),
                (15, _) => (lab - 32, 0),
                _ => (lab, le + 1),
            };
            let room = up_le < 16 && self.taken[up_lab] & (1 << up_le) == 0;
            if k + 1 < length && room && self.sheets.nets < 1000 {
                c.s[COUT] = self.sheets.fresh();
            }
            carry = c.s[COUT];
            self.sheets.cells.push(c);
            if carry == 0 {
                break;
            }
            (lab, le) = (up_lab, up_le);
        }
    }

    /// Connects the data ports; each LAB reads a small window of nets.
    fn wire(&mut self) {
        let width = self.rng.range(1, 22);
        let mut readable: Vec<u16> = Vec::new();
        for _ in 0..self.rng.range(1, 16) {
            let v = self.sheets.fresh();
            if v != 0 {
                readable.push(v);
            }
        }
        readable.extend(self.pool.iter().take(2));
        for c in &self.sheets.cells {
            let v = if c.kind == REGISTER {
                c.s[REGOUT]
            } else {
                c.s[COMBOUT]
            };
            if v != 0 {
                readable.push(v);
            }
        }
        let turn = self.rng.below(1000);
        let rng = &mut *self.rng;
        for c in &mut self.sheets.cells {
            let start = c.lab() * 37 + turn;
            let some = |rng: &mut Rng| readable[(start + rng.below(width)) % readable.len()];
            if c.kind == REGISTER {
                c.s[DATAIN] = match rng.below(8) {
                    0 => 0,
                    1 => VCC,
                    _ => some(rng),
                };
                c.s[SDATA] = match rng.below(8) {
                    0..=4 if c.s[SLOAD] == 0 => 0,
                    0 => VCC,
                    _ => some(rng),
                };
            } else {
                let ports = match (c.s[CIN], c.s[COUT]) {
                    (0, 0) => DATAD,
                    (0, _) => DATAC,
                    _ => DATAB,
                };
                for port in DATAA..=ports {
                    c.s[port] = match rng.below(8) {
                        0 | 1 => 0,
                        2 => rng.pick(&[GND, VCC]),
                        3 | 4 => some(rng) + 1,
                        _ => some(rng),
                    };
                }
            }
        }
    }

    fn finish(mut self) -> Sheets {
        self.wire();
        self.sheets.nets = (self.sheets.nets + self.rng.below(3) as u16).min(1024);
        match self.rng.below(8) {
            0 => {}
            1 => self.sheets.cells.reverse(),
            _ => self.rng.shuffle(&mut self.sheets.cells),
        }
        self.sheets
    }
}

pub fn some_labs(rng: &mut Rng, n: usize) -> Vec<usize> {
    let mut labs: Vec<usize> = match rng.below(4) {
        0 => {
            let from = rng.below(1025 - n.min(1024));
            (from..from + n).collect()
        }
        1 => {
            let x = rng.below(32);
            (0..n.min(32)).map(|_| 32 * rng.below(32) + x).collect()
        }
        2 => (0..n)
            .map(|_| rng.pick(&[0, 1, 31, 32, 33, 63, 64, 511, 512, 990, 992, 1022, 1023]))
            .collect(),
        _ => (0..n).map(|_| rng.below(1024)).collect(),
    };
    labs.sort_unstable();
    labs.dedup();
    labs
}

fn small_size(rng: &mut Rng) -> usize {
    match rng.below(100) {
        0..=1 => 0,
        2..=59 => rng.range(1, 8),
        60..=91 => rng.range(6, 30),
        _ => rng.range(20, 90),
    }
}

/// Sheets of about `size` cells that keep all rules on the board, except that one
/// LAB breaks the wanted one of 60 to 65.
fn build(rng: &mut Rng, board: &[u8], size: usize, labs: usize, chains: usize, want: u8) -> Sheets {
    let labs = some_labs(rng, labs);
    let broken = match rng.below(4) {
        0 => 0,
        1 => rng.below(labs.len()),
        _ => labs.len() - 1,
    };
    // Nets into that LAB, where they are set. Now and then one that breaks a lower
    // rule breaks 64 too, and one that breaks none comes to its limit.
    let nets = match want {
        64 => Some(39),
        0 => rng.percent(3).then_some(38),
        1..=63 => rng.percent(10).then_some(39),
        _ => None,
    };
    let mut b = Builder::new(rng);
    for _ in 0..chains {
        let lab = b.rng.pick(&labs);
        let le = if b.rng.percent(50) {
            b.rng.below(16)
        } else {
            b.rng.range(11, 15)
        };
        let length = if b.rng.percent(90) {
            b.rng.range(2, 9)
        } else {
            b.rng.range(16, 40)
        };
        b.chain(lab, le, length);
    }
    let share = size.div_ceil(labs.len());
    for (k, &lab) in labs.iter().enumerate() {
        let is_broken = want != 0 && k == broken;
        let pool = b.pool.clone();
        let c = control(b.rng, board, &pool, if is_broken { want } else { 0 });
        let mut registers = b.rng.range(share.saturating_sub(16).min(16), share.min(16));
        let mut combinational = share.saturating_sub(registers).min(16);
        if is_broken {
            registers = registers.max(c.spread());
        }
        if k == broken && nets.is_some() {
            combinational = combinational.max(b.rng.range(9, 16));
        }
        for j in 0..registers {
            b.register(lab, &c, j);
        }
        for _ in 0..combinational {
            b.combinational(lab);
        }
    }
    let mut sheets = b.finish();
    sheets.cells.truncate(512);
    if let Some(target) = nets {
        read_nets(rng, &mut sheets, labs[broken], target);
    }
    sheets
}

/// Nets of the lower LABs that any cell may read: those read there, not at cin, and
/// those driven there, not by a cout.
fn lower_nets(sheets: &Sheets, lab: usize) -> Vec<u16> {
    let mut list = Vec::new();
    for c in sheets.cells.iter().filter(|c| c.lab() < lab) {
        let (inputs, output) = match c.kind {
            REGISTER => (&c.s[..REGOUT], c.s[REGOUT]),
            _ => (&c.s[..CIN], c.s[COMBOUT]),
        };
        list.extend(inputs.iter().map(|v| v & !1));
        list.push(output);
    }
    list.retain(|&v| v >= net(0));
    list.sort_unstable();
    list.dedup();
    list
}

/// Reads more nets in the LAB until it reads exactly `target` from outside, often
/// nets of the lower LABs.
fn read_nets(rng: &mut Rng, sheets: &mut Sheets, lab: usize, target: usize) {
    let mine: Vec<usize> = (0..sheets.cells.len())
        .filter(|&i| sheets.cells[i].lab() == lab)
        .collect();
    if mine.is_empty() {
        return;
    }
    let mut inside = vec![false; 1026];
    for &i in &mine {
        for &port in sheets.cells[i].outputs() {
            inside[sheets.cells[i].s[port] as usize / 2] = true;
        }
    }
    let mut ports = Vec::new();
    for &i in &mine {
        let c = &sheets.cells[i];
        if c.kind == REGISTER {
            ports.extend([(i, DATAIN), (i, SDATA)]);
        } else {
            ports.extend([(i, DATAA), (i, DATAB)]);
            if c.s[CIN] == 0 {
                ports.push((i, DATAC));
                if c.s[COUT] == 0 {
                    ports.push((i, DATAD));
                }
            }
        }
    }
    rng.shuffle(&mut ports);
    // Ports that read no net go first, then, or with them, those that read one from
    // inside.
    let kept = rng.percent(50) as u8;
    ports.sort_by_key(|&(i, p)| match sheets.cells[i].s[p] {
        0..=3 => 0,
        v if inside[v as usize / 2] => kept,
        _ => 2,
    });
    let mut lower = lower_nets(sheets, lab);
    lower.retain(|&v| !inside[v as usize / 2]);
    rng.shuffle(&mut lower);
    for (i, p) in ports {
        let mut seen = vec![false; 1026];
        let mut read = 0;
        for &k in &mine {
            let c = &sheets.cells[k];
            for port in 0..c.inputs() {
                let v = c.s[port];
                let cin = c.kind == COMBINATIONAL && port == CIN;
                if v >= 4 && !cin && !inside[v as usize / 2] && !seen[v as usize / 2] {
                    seen[v as usize / 2] = true;
                    read += 1;
                }
            }
        }
        if read >= target {
            break;
        }
        lower.retain(|&v| !seen[v as usize / 2]);
        let v = match lower.pop() {
            Some(v) if rng.percent(50) => v,
            _ => sheets.fresh(),
        };
        if v != 0 {
            let turned = sheets.cells[i].kind == COMBINATIONAL && rng.percent(40);
            sheets.cells[i].s[p] = v + turned as u16;
        }
    }
}

/// A ring of carries, placed as a chain would be, beside other cells.
fn ring(rng: &mut Rng) -> Sheets {
    let mut b = Builder::new(rng);
    let n = b.rng.range(1, 6);
    let (lab, le) = (b.rng.range(32, 1023), b.rng.below(16));
    b.chain(lab, le, n.max(2));
    let first = 0;
    let last = b.sheets.cells.len() - 1;
    let v = b.sheets.fresh();
    b.sheets.cells[last].s[COUT] = v;
    b.sheets.cells[first].s[CIN] = v;
    b.sheets.cells[first].flag = 1;
    if n == 1 {
        // A cell fed by its own cout.
        b.sheets.cells.truncate(1);
        b.sheets.cells[0].s[COUT] = v;
    }
    for _ in 0..b.rng.below(6) {
        let other = (lab + 1 + b.rng.below(2)) % 1024;
        b.combinational(other);
    }
    b.finish()
}

/// A chain that goes past LE 15, in the middle or at y = 0, placed rightly or not.
fn border(rng: &mut Rng) -> Sheets {
    let mut b = Builder::new(rng);
    let y = if b.rng.percent(40) {
        0
    } else {
        b.rng.range(1, 31)
    };
    let x = b.rng.below(32);
    let le = b.rng.range(10, 15);
    let more = 16 * b.rng.percent(20) as usize;
    let length = b.rng.range(17 - le, 22 - le + more);
    // Built one y higher, then moved down if it is to end at y = 0.
    b.chain(32 * y.max(1) + x, le, length);
    for c in &mut b.sheets.cells {
        if y == 0 {
            c.y = if c.y == 1 { 0 } else { 31 };
        }
    }
    if y == 0 && b.rng.percent(50) {
        // Other wrong places after LE 15 at y = 0: the same LAB, or none at all.
        let to = b.rng.pick(&[0, 0, 1, 31]);
        for c in &mut b.sheets.cells {
            if c.y == 31 {
                c.y = to;
            }
        }
    }
    if b.rng.percent(30) {
        for _ in 0..b.rng.range(1, 5) {
            let far = 32 * b.rng.range(3, 30) + (x + 1) % 32;
            b.combinational(far);
        }
    }
    let mut s = b.finish();
    if rng.percent(25) {
        aim_cells(rng, 51, &mut s);
    }
    s
}

/// Random records with small codes, so that they get past the layout.
fn noise(rng: &mut Rng) -> Sheets {
    let n = rng.range(1, 8);
    let nets = rng.range(0, 12) as u16;
    let mut s = Sheets {
        nets,
        cells: Vec::new(),
        apprentice: 1 + rng.below(1000) as u32,
    };
    let spread = rng.pick(&[1, 2, 32]);
    for _ in 0..n {
        let kind = rng.pick(&[COMBINATIONAL, REGISTER]);
        let mut c = Cell::new(
            kind,
            32 * rng.below(spread) + rng.below(spread),
            rng.below(16),
        );
        c.flag = (kind == COMBINATIONAL && rng.percent(50)) as u8;
        for port in 0..c.inputs() {
            if rng.percent(40) {
                c.s[port] = s.connected(rng);
            }
        }
        for &port in c.outputs() {
            if nets > 0 && rng.percent(60) {
                c.s[port] = net(rng.below(nets as usize) as u16);
            }
        }
        s.cells.push(c);
    }
    s
}

/// Bends cells or places so that the wanted one of 15 to 51 is broken.
fn aim_cells(rng: &mut Rng, number: u8, s: &mut Sheets) {
    let register = |c: &Cell| c.kind == REGISTER;
    let combinational = |c: &Cell| c.kind == COMBINATIONAL;
    let fed = |c: &Cell| c.kind == COMBINATIONAL && c.s[CIN] != 0;
    let feeds = |c: &Cell| c.kind == COMBINATIONAL && c.s[COUT] != 0;
    let any = |_: &Cell| true;
    match number {
        15 => {
            let Some(i) = s.some(rng, any) else { return };
            let beyond = (4 + 2 * s.nets as usize + rng.below(4)) as u16;
            let far = rng.pick(&[beyond, beyond, 65535, 2052, 2053]).max(beyond);
            let v = rng.pick(&[1, 2, 4, 5]);
            let c = &mut s.cells[i];
            let out = rng.pick(c.outputs());
            let input = rng.below(c.inputs());
            match rng.below(7) {
                0 => c.kind = rng.pick(&[0, 3, 4, 129, 255]),
                1 if c.kind == REGISTER => c.flag = rng.pick(&[1, 2, 255]),
                1 => c.flag = rng.pick(&[2, 3, 128, 255]),
                2 => c.s[input] = 3,
                3 => c.s[input] = far,
                4 => c.s[out] = rng.pick(&[1, 2, 3, far]),
                5 => c.s[out] = if c.s[out] == 0 { 1 } else { c.s[out] | 1 },
                _ => c.s[rng.range(if c.kind == REGISTER { 8 } else { 7 }, 10)] = v,
            }
        }
        16 => {
            for _ in 0..rng.range(1, 3) {
                let (Some(i), Some(k)) = (s.some(rng, any), s.some(rng, any)) else {
                    return;
                };
                let from = rng.pick(s.cells[k].outputs());
                let to = rng.pick(s.cells[i].outputs());
                if s.cells[k].s[from] != 0 {
                    s.cells[i].s[to] = s.cells[k].s[from];
                }
            }
        }
        26 => {
            for _ in 0..rng.range(1, 2) {
                let Some(i) = s.some(rng, any) else { return };
                let c = &mut s.cells[i];
                match rng.below(4) {
                    0 => c.x = rng.pick(&[32, 33, 64, 255]),
                    1 => c.y = rng.pick(&[32, 33, 64, 255]),
                    2 => c.le = rng.pick(&[16, 17, 32, 255]),
                    _ => c.zero = rng.pick(&[1, 2, 128, 255]),
                }
            }
        }
        30..=35 => {
            let Some(i) = s.some(rng, register) else {
                return;
            };
            let (v, n) = (s.connected(rng), s.any_net(rng));
            let fresh = s.fresh();
            let more = rng.percent(40);
            let c = &mut s.cells[i].s;
            match number {
                30 => {
                    if c[CLK] == 0 {
                        c[CLK] = v;
                    }
                    c[REGOUT] = 0;
                }
                31 => {
                    c[CLK] = 0;
                    c[SCLR] = v;
                }
                32 => {
                    (c[CLK], c[SCLR]) = (0, 0);
                    c[SLOAD] = v;
                    if more {
                        c[SDATA] = 0;
                    }
                }
                33 => {
                    if c[CLK] == 0 {
                        c[CLK] = v;
                    }
                    if c[REGOUT] == 0 {
                        c[REGOUT] = fresh;
                    }
                    if c[SLOAD] == 0 {
                        c[SLOAD] = v;
                    }
                    c[SDATA] = 0;
                    if more {
                        c[DATAIN] = GND;
                    }
                }
                34 => {
                    (c[CLK], c[SCLR], c[SLOAD]) = (0, 0, 0);
                    c[ENA] = v;
                }
                _ => {
                    let port = rng.pick(&[DATAIN, SDATA]);
                    c[port] = if rng.percent(40) { GND } else { n | 1 };
                }
            }
        }
        40 => {
            let test = if rng.percent(50) { fed } else { combinational };
            let Some(i) = s.some(rng, test) else { return };
            let other = s.some(rng, any).unwrap_or(i);
            let loose = s.fresh();
            let v = match rng.below(6) {
                0 => GND,
                1 => VCC,
                2 => s.any_net(rng) | 1,
                3 => loose,
                4 => s.cells[other].s[s.cells[other].outputs()[0]],
                _ => s.cells[i].s[COUT],
            };
            let c = &mut s.cells[i];
            c.s[CIN] = if v == 0 { GND } else { v };
            if rng.percent(70) {
                c.flag = 1;
            }
        }
        41 => {
            for _ in 0..rng.range(1, 2) {
                if let Some(i) = s.some(rng, fed) {
                    s.cells[i].flag = 0;
                }
            }
        }
        42 => match rng.below(5) {
            0 => {
                // A cout that nobody reads.
                let Some(i) = s.some(rng, |c| combinational(c) && c.s[COUT] == 0) else {
                    return;
                };
                s.cells[i].s[COUT] = s.fresh();
            }
            1 => {
                if let Some(i) = s.some(rng, fed) {
                    s.cells[i].s[CIN] = 0;
                }
            }
            2 => {
                // One read, but not at a cin.
                let (Some(i), Some(k)) = (s.some(rng, fed), s.some(rng, any)) else {
                    return;
                };
                let v = s.cells[i].s[CIN];
                s.cells[i].s[CIN] = 0;
                let port = rng.below(s.cells[k].inputs().min(4));
                s.cells[k].s[port] = v;
            }
            3 => {
                // The one read is inverted: its reader breaks 40.
                if let Some(i) = s.some(rng, fed) {
                    s.cells[i].s[CIN] |= 1;
                }
            }
            _ => {
                // A second read, perhaps at the cell's own port.
                let (Some(i), Some(k)) = (s.some(rng, feeds), s.some(rng, any)) else {
                    return;
                };
                let v = s.cells[i].s[COUT] + rng.percent(30) as u16;
                let k = if rng.percent(30) { i } else { k };
                let port = rng.below(s.cells[k].inputs());
                s.cells[k].s[port] = v;
            }
        },
        43 => {
            let Some(i) = s.some(rng, |c| fed(c) || feeds(c)) else {
                return;
            };
            s.cells[i].s[DATAD] = s.connected(rng);
            if rng.percent(30) && fed(&s.cells[i]) {
                s.cells[i].s[DATAC] = GND;
            }
        }
        44 => {
            let Some(i) = s.some(rng, fed) else { return };
            s.cells[i].s[DATAC] = rng.pick(&[GND, VCC, 4, 5]);
        }
        50 => {
            for _ in 0..rng.range(1, 5) {
                let Some(i) = s.some(rng, any) else { return };
                let me = s.cells[i];
                let elsewhere = |c: &Cell| (c.x, c.y, c.le) != (me.x, me.y, me.le);
                let Some(k) = s.some(rng, |c| c.kind == me.kind && elsewhere(c)) else {
                    return;
                };
                let to = s.cells[k];
                s.cells[i].put_at(to);
            }
        }
        51 => {
            for _ in 0..rng.range(1, 2) {
                let test = if rng.percent(60) { fed } else { feeds };
                let Some(i) = s.some(rng, test) else { return };
                if rng.percent(50) {
                    let Some(k) = s.some(rng, combinational) else {
                        return;
                    };
                    let (a, b) = (s.cells[i], s.cells[k]);
                    s.cells[i].put_at(b);
                    s.cells[k].put_at(a);
                } else {
                    let c = &mut s.cells[i];
                    match rng.below(5) {
                        0 => c.x = (c.x + 1) % 32,
                        1 => c.y = (c.y + 1) % 32,
                        2 => c.y = (c.y + 31) % 32,
                        3 => c.le = (c.le + 1) % 16,
                        _ => c.le = rng.below(16) as u8,
                    }
                }
            }
        }
        _ => {}
    }
}

pub fn put_word(b: &mut [u8], at: usize, v: u16) {
    b[at..at + 2].copy_from_slice(&v.to_le_bytes());
}

fn get_word(b: &[u8], at: usize) -> u16 {
    u16::from_le_bytes([b[at], b[at + 1]])
}

/// Bends the head or length of a sheet so that one of 10 to 14 or 20 to 25 applies.
pub fn aim_head(rng: &mut Rng, number: u8, e: &mut Vec<u8>, a: &mut Vec<u8>) {
    let version = rng.pick(&[0, 2, 256, 257, 65535]);
    match number {
        10 => e.truncate(rng.below(9)),
        11 if e.len() >= 9 => e[rng.below(3)] ^= 1 << rng.below(8),
        12 if e.len() >= 9 => put_word(e, 3, version),
        13 if e.len() >= 9 => {
            let which = rng.below(3);
            if which != 1 {
                put_word(e, 5, rng.pick(&[1025, 1026, 2048, 65535]));
            }
            if which != 0 {
                let n = rng.pick(&[513, 514, 1024, 65535]);
                put_word(e, 7, n);
                if n < 520 && rng.percent(20) {
                    e.resize(9 + 24 * n as usize, 0);
                }
            }
        }
        14 if e.len() >= 9 => match rng.below(4) {
            0 => e.truncate(rng.range(9, e.len())),
            1 => e.extend((0..rng.range(1, 30)).map(|_| 0)),
            2 => {
                let n = get_word(e, 7);
                put_word(
                    e,
                    7,
                    if n == 0 || (n < 512 && rng.percent(50)) {
                        n + 1
                    } else {
                        n - 1
                    },
                );
            }
            _ => e.push(0),
        },
        20 => a.truncate(rng.below(11)),
        21 if a.len() >= 11 => a[rng.below(3)] ^= 1 << rng.below(8),
        22 if a.len() >= 11 => put_word(a, 3, version),
        23 if a.len() >= 11 => a[5..9].fill(0),
        24 if a.len() >= 11 => {
            let n = get_word(a, 9);
            let to = rng.pick(&[
                n.wrapping_add(1),
                n.wrapping_sub(1),
                n + 256,
                0,
                512,
                513,
                65535,
            ]);
            put_word(a, 9, to);
            if to < 520 && rng.percent(50) {
                a.resize(11 + 4 * to as usize, 0);
            }
        }
        25 if a.len() >= 11 => match rng.below(3) {
            0 => a.truncate(rng.range(11, a.len())),
            1 => a.extend((0..rng.range(1, 9)).map(|_| 0)),
            _ => {
                a.pop();
            }
        },
        _ => {}
    }
}

/// Changes one port or one place to something at random.
fn change_field(rng: &mut Rng, s: &mut Sheets) {
    if s.cells.is_empty() {
        return;
    }
    let i = rng.below(s.cells.len());
    let v = match rng.below(6) {
        0 => 0,
        1 => GND,
        2 => VCC,
        3 => {
            // A signal used elsewhere.
            let k = rng.below(s.cells.len());
            s.cells[k].s[rng.below(8)]
        }
        _ => s.any_net(rng),
    };
    let c = &mut s.cells[i];
    match rng.below(10) {
        0 => c.x = rng.below(33) as u8,
        1 => c.y = rng.below(33) as u8,
        2 => c.le = rng.below(17) as u8,
        3 if c.kind == COMBINATIONAL => c.flag ^= 1,
        _ => c.s[rng.below(c.inputs() + 1)] = v,
    }
}

pub fn change_byte(rng: &mut Rng, b: &mut [u8]) {
    if b.is_empty() {
        return;
    }
    let i = rng.below(b.len());
    b[i] = match rng.below(4) {
        0 => b[i] ^ (1 << rng.below(8)),
        1 => b[i].wrapping_add(1),
        2 => rng.pick(&[0, 1, 2, 3, 4, 5, 15, 16, 31, 32, 255]),
        _ => rng.byte(),
    };
}

pub fn random_bytes(rng: &mut Rng, mark: &[u8; 3], head: usize, record: usize) -> Vec<u8> {
    let long = rng.below(120);
    let mut b: Vec<u8> = (0..long).map(|_| rng.byte()).collect();
    if rng.percent(70) && b.len() >= head {
        b[..3].copy_from_slice(mark);
        if rng.percent(80) {
            put_word(&mut b, 3, 1);
        }
        if rng.percent(80) {
            let n = rng.below(4);
            put_word(&mut b, head - 2, n as u16);
            if head == 9 {
                put_word(&mut b, 5, rng.below(1030) as u16);
            }
            if rng.percent(80) {
                b.resize(head + record * n, 0);
            }
        }
    }
    b
}

fn sized(rng: &mut Rng, board: &[u8], chains: usize, want: u8) -> Sheets {
    let size = small_size(rng);
    let labs = rng.range(1, 1 + size.min(7));
    build(rng, board, size, labs, chains, want)
}

/// Exactly 512 cells, over 16 to 512 LABs.
fn largest(rng: &mut Rng, board: &[u8], want: u8) -> Sheets {
    let labs = rng.pick(&[16, 17, 20, 40, 100, 300, 512]);
    let chains = if labs < 40 { 0 } else { rng.below(20) };
    let mut s = build(rng, board, 900, labs, chains, want);
    // Cutting to 512 may leave a carry with one end; take it away.
    let driven: Vec<u16> = s
        .cells
        .iter()
        .filter(|c| c.kind == COMBINATIONAL)
        .map(|c| c.s[COUT])
        .collect();
    let read: Vec<u16> = s
        .cells
        .iter()
        .filter(|c| c.kind == COMBINATIONAL)
        .map(|c| c.s[CIN])
        .collect();
    for c in s.cells.iter_mut().filter(|c| c.kind == COMBINATIONAL) {
        if c.s[CIN] != 0 && !driven.contains(&c.s[CIN]) {
            c.s[CIN] = 0;
        }
        if c.s[COUT] != 0 && !read.contains(&c.s[COUT]) {
            c.s[COUT] = 0;
        }
    }
    s
}

/// A full LAB with a carry coming in over its border.
fn full_fed(rng: &mut Rng, board: &[u8]) -> Sheets {
    let mut b = Builder::new(rng);
    let lab = b.rng.below(992);
    let le = b.rng.range(12, 15);
    let length = 16 - le + b.rng.range(1, 8);
    b.chain(lab + 32, le, length);
    let pool = b.pool.clone();
    let c = control(b.rng, board, &pool, 0);
    for j in 0..b.rng.range(4, 16) {
        b.register(lab, &c, j);
    }
    for _ in 0..16 {
        b.combinational(lab);
    }
    b.finish()
}

/// Full LABs reading 37 to 40 nets from outside.
fn full(rng: &mut Rng, board: &[u8]) -> Sheets {
    let labs = rng.range(1, 3);
    let mut s = if rng.percent(35) {
        full_fed(rng, board)
    } else {
        build(rng, board, 32 * labs, labs, 0, 0)
    };
    for lab in s.labs() {
        if rng.percent(70) {
            let target = rng.pick(&[37, 38, 38, 38, 39, 39, 40]);
            read_nets(rng, &mut s, lab, target);
        }
    }
    s
}

/// Sheets and perhaps bytes bent towards one number.
fn aim(rng: &mut Rng, board: &[u8], number: u8) -> (Vec<u8>, Vec<u8>) {
    let chains = match number {
        40..=44 | 51 => rng.range(1, 3),
        _ => rng.percent(30) as usize,
    };
    let want = if (60..=65).contains(&number) {
        number
    } else {
        0
    };
    let mut s = sized(rng, board, chains, want);
    aim_cells(rng, number, &mut s);
    let (mut e, mut a) = (s.exercise(), s.answer());
    aim_head(rng, number, &mut e, &mut a);
    (e, a)
}

pub fn case(rng: &mut Rng) -> Case {
    let plain = |s: Sheets| (s.exercise(), s.answer());
    let (mut route, mut tries) = (8192, 1024);
    let (good, mut kind) = settings::board(rng);
    let board = &good.entries[..];
    let mut sheet = settings::sheet(&good);
    let (name, (exercise, answer)) = match rng.below(1000) {
        0..=39 => ("random bytes", {
            let e = random_bytes(rng, b"LXE", 9, 24);
            let a = random_bytes(rng, b"LXA", 11, 4);
            let s = sized(rng, board, 0, 0);
            match rng.below(3) {
                0 => (e, a),
                1 => (s.exercise(), a),
                _ => (e, s.answer()),
            }
        }),
        40..=69 => ("random records", plain(noise(rng))),
        70..=219 => ("valid", {
            let chains = rng.below(3);
            plain(sized(rng, board, chains, 0))
        }),
        220..=299 => ("one byte changed", {
            let chains = rng.below(2);
            let (mut e, mut a) = plain(sized(rng, board, chains, 0));
            let b = if rng.percent(60) { &mut e } else { &mut a };
            change_byte(rng, b);
            (e, a)
        }),
        300..=369 => ("one field changed", {
            let chains = rng.below(2);
            let mut s = sized(rng, board, chains, 0);
            change_field(rng, &mut s);
            plain(s)
        }),
        370..=409 => ("truncated or extended", {
            let (mut e, mut a) = plain(sized(rng, board, 0, 0));
            let b = if rng.percent(50) { &mut e } else { &mut a };
            if rng.percent(50) {
                b.truncate(rng.below(b.len() + 1));
            } else {
                b.extend((0..rng.range(1, 40)).map(|k| k as u8));
            }
            (e, a)
        }),
        410..=449 => ("carry over a LAB's border", plain(border(rng))),
        450..=464 => ("ring of carries", plain(ring(rng))),
        465..=579 => ("control signals", {
            let want = rng.pick(&[0, 0, 0, 65, 65, 60, 61, 62, 63]);
            let (size, labs) = (rng.range(2, 14), rng.range(1, 4));
            plain(build(rng, board, size, labs, 0, want))
        }),
        580..=609 => ("full LABs", plain(full(rng, board))),
        610..=621 => ("512 cells", {
            let want = rng.pick(&[0, 0, 0, 0, 0, 60, 61, 62, 63, 64, 65]);
            let mut s = largest(rng, board, want);
            if rng.percent(60) {
                let number = rng.range(15, 51) as u8;
                aim_cells(rng, number, &mut s);
            }
            plain(s)
        }),
        622..=639 => ("several bent", {
            let chains = rng.below(3);
            let want = if rng.percent(40) {
                rng.range(60, 65) as u8
            } else {
                0
            };
            let mut s = sized(rng, board, chains, want);
            for _ in 0..rng.range(2, 4) {
                let number = rng.pick(&NUMBERS);
                aim_cells(rng, number, &mut s);
            }
            let (mut e, mut a) = plain(s);
            if rng.percent(30) {
                for _ in 0..2 {
                    let number = rng.pick(&NUMBERS);
                    aim_head(rng, number, &mut e, &mut a);
                }
            }
            (e, a)
        }),
        _ => ("aimed", {
            let number = rng.pick(&NUMBERS);
            if number == 1 {
                route = rng.pick(&[0, 1, 8191, 8193, 8184, 8200, 16384]);
            }
            if number == 3 || number == 1 && rng.percent(20) {
                tries = rng.pick(&[0, 1, 1023, 1025, 1016, 1032, 2048]);
            }
            // A wrong buffer or list beside another fault.
            let number = if matches!(number, 1 | 3) && rng.percent(50) {
                rng.pick(&NUMBERS)
            } else {
                number
            };
            if number < 70 {
                aim(rng, board, number)
            } else {
                settings::aim(rng, number, &mut sheet);
                // Beside a fault of the two sheets, or none.
                let other = rng.pick(&NUMBERS);
                aim(rng, board, other)
            }
        }),
    };
    // Beside whatever else the pair has.
    if rng.percent(6) {
        sheet = settings::bent(rng, &sheet);
    }
    if sheet != settings::sheet(&good) {
        kind = settings::KINDS.len() - 1;
    }
    Case {
        name,
        settings: sheet,
        board: kind,
        exercise,
        answer,
        route,
        tries,
    }
}
