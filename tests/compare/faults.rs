//! Records, places and boards for the writers: good ones, ones with a fault of each
//! kind, with several, and fields at random.

use crate::generate::*;
use crate::plain::{CellRecord, Settings};
use crate::settings;
use std::ops::Range;

#[derive(Clone, Copy, PartialEq)]
pub enum Fault {
    Nets,
    Kind,
    CombinationalFlag,
    RegisterFlag,
    InputThree,
    InputBeyond,
    OutputConstant,
    OutputInverted,
    OutputBeyond,
    Rest,
    DrivenElsewhere,
    DrivenHere,
    Apprentice,
    X,
    Y,
    Element,
    Version,
    BoardOfFirst,
    Entries,
    Flags,
}

use Fault::*;

/// Every fault, with the number that it alone gives.
pub const FAULTS: [(Fault, u8); 20] = [
    (Nets, 13),
    (Kind, 15),
    (CombinationalFlag, 15),
    (RegisterFlag, 15),
    (InputThree, 15),
    (InputBeyond, 15),
    (OutputConstant, 15),
    (OutputInverted, 15),
    (OutputBeyond, 15),
    (Rest, 15),
    (DrivenElsewhere, 16),
    (DrivenHere, 16),
    (Apprentice, 23),
    (X, 26),
    (Y, 26),
    (Element, 26),
    (Version, 72),
    (BoardOfFirst, 72),
    (Entries, 73),
    (Flags, 75),
];
const OF_EXERCISE: Range<usize> = 0..12;
const OF_ANSWER: Range<usize> = 12..16;
const OF_SETTINGS: Range<usize> = 16..20;

/// What is known of records, places or a board.
#[derive(Clone, Copy)]
pub enum Known {
    Good,
    /// One fault, by its place in FAULTS.
    Fault(usize),
    Nothing,
}

/// What the exercise writer takes.
#[derive(PartialEq)]
pub struct Netlist {
    pub nets: u16,
    pub cells: Vec<CellRecord>,
}

/// What the answer writer takes; a place is x, y and LE.
#[derive(PartialEq)]
pub struct Placing {
    pub apprentice: u32,
    pub places: Vec<[u16; 3]>,
}

/// Number of inputs of a kind, and where its outputs stand.
fn ports(kind: u8) -> (usize, Range<usize>) {
    if kind == REGISTER {
        (REGOUT, REGOUT..REGOUT + 1)
    } else {
        (COMBOUT, COMBOUT..COUT + 1)
    }
}

/// The first or the last rather often.
fn some(rng: &mut Rng, count: usize) -> usize {
    match rng.below(4) {
        0 => 0,
        1 => count - 1,
        _ => rng.below(count),
    }
}

pub fn some_count(rng: &mut Rng) -> usize {
    match rng.below(200) {
        0..=9 => 0,
        10..=19 => 1,
        20 => 511,
        21 => 512,
        22 => 513,
        23 => 600,
        24 => rng.range(24, 520),
        _ => rng.range(2, 24),
    }
}

/// Good as given, one fault planted, several, or another input.
fn bend<T>(
    rng: &mut Rng,
    faults: Range<usize>,
    good: T,
    plant: impl Fn(&mut T, &mut Rng, Fault) -> bool,
    any: impl Fn(&mut T, &mut Rng),
) -> (T, Known) {
    let mut input = good;
    let mut fault = || rng.range(faults.start, faults.end - 1);
    let (first, more) = (fault(), [fault(), fault()]);
    let known = match rng.below(10) {
        0..=3 => Known::Good,
        4..=7 if plant(&mut input, rng, FAULTS[first].0) => Known::Fault(first),
        4..=7 => Known::Good,
        8 => {
            for i in more {
                plant(&mut input, rng, FAULTS[i].0);
            }
            Known::Nothing
        }
        _ => {
            any(&mut input, rng);
            Known::Nothing
        }
    };
    (input, known)
}

impl Netlist {
    pub fn some(rng: &mut Rng, count: usize) -> (Netlist, Known) {
        let nets = match rng.below(16) {
            0 => 0,
            1 => 1024,
            2 => rng.below(1025),
            _ => rng.below(3 * count + 2).min(1024),
        };
        let good = Netlist::good(rng, count, nets as u16);
        bend(rng, OF_EXERCISE, good, Netlist::plant, Netlist::scatter)
    }

    /// Good records at so many nets; each output has a net of its own.
    pub fn good(rng: &mut Rng, count: usize, nets: u16) -> Netlist {
        let mut free: Vec<u16> = (0..nets).map(net).collect();
        rng.shuffle(&mut free);
        let mut cells = Vec::with_capacity(count);
        for _ in 0..count {
            let kind = rng.pick(&[COMBINATIONAL, REGISTER]);
            let flag = (kind == COMBINATIONAL && rng.percent(50)) as u8;
            let mut signals = [0; 11];
            let (inputs, outputs) = ports(kind);
            for v in &mut signals[..inputs] {
                *v = match rng.below(8) {
                    0 | 1 => 0,
                    2 => GND,
                    3 => VCC,
                    _ if nets == 0 => 0,
                    // The last good code.
                    4 => net(nets) - 1,
                    _ => net(0) + rng.below(2 * nets as usize) as u16,
                };
            }
            for v in &mut signals[outputs] {
                if rng.percent(85) {
                    *v = free.pop().unwrap_or(0);
                }
            }
            cells.push(CellRecord {
                kind,
                flag,
                signals,
            });
        }
        Netlist { nets, cells }
    }

    /// A cell of the kind.
    fn cell(&self, rng: &mut Rng, kind: u8) -> Option<usize> {
        let n = self.cells.len();
        let from = some(rng, n);
        (0..n)
            .map(|k| (from + k) % n)
            .find(|&i| self.cells[i].kind == kind)
    }

    /// Plants the fault in a good list; false where there is no room for it.
    fn plant(&mut self, rng: &mut Rng, fault: Fault) -> bool {
        if fault == Nets {
            self.nets = rng.pick(&[1025, 1026, 2048, 32768, 65535]);
            return true;
        }
        if self.cells.is_empty() {
            return false;
        }
        let found = match fault {
            CombinationalFlag | DrivenHere => self.cell(rng, COMBINATIONAL),
            RegisterFlag => self.cell(rng, REGISTER),
            _ => Some(some(rng, self.cells.len())),
        };
        let Some(i) = found else { return false };
        let other = some(rng, self.cells.len());
        let nets = self.nets.min(1024);
        let own = (nets > 0).then(|| net(some(rng, nets as usize) as u16));
        let beyond = rng.pick(&[net(nets), net(nets), net(nets) + 2, 32768, 65534]);
        let (inputs, outputs) = ports(self.cells[i].kind);
        let input = rng.below(inputs);
        let output = rng.range(outputs.start, outputs.end - 1);
        let c = &mut self.cells[i];
        let s = &mut c.signals;
        match (fault, own) {
            (Kind, _) => c.kind = rng.pick(&[0, 3, 4, 129, 130, 255]),
            (CombinationalFlag, _) => c.flag = rng.pick(&[2, 3, 128, 255]),
            (RegisterFlag, _) => c.flag = rng.pick(&[1, 2, 128, 255]),
            (InputThree, _) => s[input] = 3,
            (InputBeyond, _) => s[input] = beyond + rng.below(2) as u16,
            (OutputConstant, _) => s[output] = rng.pick(&[GND, VCC, 3]),
            (OutputInverted, Some(v)) => s[output] = v + 1,
            (OutputBeyond, _) => s[output] = beyond,
            (Rest, _) => s[rng.range(outputs.end, 10)] = rng.pick(&[GND, VCC, 3, 4, 256, 65535]),
            (DrivenHere, Some(v)) => (s[COMBOUT], s[COUT]) = (v, v),
            (DrivenElsewhere, Some(v)) if other != i => {
                s[output] = v;
                let (_, outputs) = ports(self.cells[other].kind);
                self.cells[other].signals[outputs.start] = v;
            }
            _ => return false,
        }
        true
    }

    /// Fields at random, all of them or some.
    fn scatter(&mut self, rng: &mut Rng) {
        let share = rng.pick(&[1, 10, 100]);
        if rng.percent(share) {
            self.nets = rng.next() as u16;
        }
        for c in &mut self.cells {
            if rng.percent(share) {
                (c.kind, c.flag) = (rng.byte(), rng.byte());
            }
            for v in &mut c.signals {
                if rng.percent(share) {
                    *v = rng.next() as u16;
                }
            }
        }
    }
}

impl Placing {
    pub fn some(rng: &mut Rng, count: usize) -> (Placing, Known) {
        let good = Placing::good(rng, count);
        bend(rng, OF_ANSWER, good, Placing::plant, Placing::scatter)
    }

    pub fn good(rng: &mut Rng, count: usize) -> Placing {
        let apprentice = match rng.below(4) {
            0 => rng.range(1, 9) as u32,
            1 => 1 << rng.below(32),
            2 => u32::MAX,
            _ => (rng.next() >> 32) as u32 | 1,
        };
        let mut place = || [32, 32, 16].map(|n| rng.below(n) as u16);
        let places = (0..count).map(|_| place()).collect();
        Placing { apprentice, places }
    }

    fn plant(&mut self, rng: &mut Rng, fault: Fault) -> bool {
        if fault == Apprentice {
            self.apprentice = 0;
            return true;
        }
        if self.places.is_empty() {
            return false;
        }
        let i = some(rng, self.places.len());
        let (field, first) = match fault {
            X => (0, 32),
            Y => (1, 32),
            _ => (2, 16),
        };
        // Some would be good by their low byte.
        let far = [
            first,
            first,
            first + 1,
            64,
            255,
            256,
            257,
            263,
            32768,
            65535,
        ];
        self.places[i][field] = rng.pick(&far);
        true
    }

    fn scatter(&mut self, rng: &mut Rng) {
        if rng.percent(20) {
            self.apprentice = rng.pick(&[0, 1, 1 << 16, 1 << 31]);
        }
        let most = rng.pick(&[17, 33, 256, 65536]);
        for v in self.places.as_flattened_mut() {
            *v = rng.below(most) as u16;
        }
    }
}

/// What the settings writer takes.
impl Settings {
    pub fn some(rng: &mut Rng) -> (Settings, Known) {
        let (good, _) = settings::board(rng);
        bend(rng, OF_SETTINGS, good, Settings::plant, Settings::scatter)
    }

    fn plant(&mut self, rng: &mut Rng, fault: Fault) -> bool {
        let n = self.entries.len();
        // Some would be good by a byte of theirs.
        match fault {
            Version => self.version = rng.pick(&[0, 3, 4, 255, 256, 257, 258, 512, 513, 65535]),
            BoardOfFirst => {
                self.version = 1;
                self.board = rng.pick(&[1, 2, 255, 256, 32768, 65535]);
            }
            Entries => {
                let n = rng.pick(&[9, 9, 10, 16, 255, 256, 257, 264, 300]);
                self.entries.resize_with(n, || rng.below(32) as u8);
            }
            _ if n == 0 => return false,
            _ => {
                let flags = &mut self.entries[some(rng, n)];
                *flags = match rng.below(3) {
                    0 => 32,
                    1 => *flags | rng.pick(&[32, 64, 128]),
                    _ => rng.range(32, 255) as u8,
                };
            }
        }
        true
    }

    fn scatter(&mut self, rng: &mut Rng) {
        self.version = rng.below(4) as u16;
        self.board = rng.pick(&[0, 0, 1, 65535]);
        let most = rng.pick(&[32, 34, 256]);
        let n = rng.below(12);
        self.entries = (0..n).map(|_| rng.below(most) as u8).collect();
    }
}
