//! Sheets for the search of a way: boards of 0 to 8 entries, LABs of 0 to 8 needs, and
//! perhaps one LAB that breaks one of 60 to 65, with others below and above it.

use crate::generate::*;
use crate::plain::Settings;
use crate::settings;
use crate::try_forms::{on_board, Needs};

pub struct Made {
    pub settings: Settings,
    pub sheets: Sheets,
    /// The verdict; the LAB where it is one of 60 to 65.
    pub number: u8,
    pub lab: Option<usize>,
    /// The LABs that are searched, rising.
    pub searched: Vec<(usize, Needs)>,
}

/// The flags of an entry that serves these roles.
fn flags(roles: [bool; 5]) -> u8 {
    (0..5).fold(0, |f, role| f | (roles[role] as u8) << role)
}

/// Entries of every sort, so many of them.
fn entries(rng: &mut Rng, count: usize) -> Vec<u8> {
    match rng.below(10) {
        // Each role has its own chance.
        0..=2 => {
            let chances = [0; 5].map(|_: usize| rng.pick(&[20, 40, 60, 80, 100]));
            let entry = |_| flags(chances.map(|c| rng.percent(c)));
            (0..count).map(entry).collect()
        }
        // The first entries serve more roles, so that the last needs lack them.
        3..=5 => {
            let mut most = || rng.range(count / 2, count);
            let [ena, aclr] = [most(), most()];
            let limits = [count, ena, aclr, rng.below(4), rng.below(3)];
            let entry = |entry| flags(limits.map(|limit| entry < limit));
            (0..count).map(entry).collect()
        }
        // The boards with the latest answers that are known, for different nets and for
        // two, or the first entries of them.
        6 => {
            let second = rng.pick(&[7, 15]);
            let all = [31, 15, second, second, second, second, second, second];
            all[..count].to_vec()
        }
        // All roles, or all but one.
        7..=8 => vec![31 & !(1 << rng.pick(&[0, 1, 2, 3, 4, 4, 4, 5])); count],
        // One role an entry.
        _ => (0..count).map(|_| 1 << rng.below(5)).collect(),
    }
}

/// 0 to 8, often 8.
fn up_to_eight(rng: &mut Rng) -> usize {
    match rng.below(4) {
        0 => 8,
        _ => rng.below(9),
    }
}

/// Needs of any roles, with nets of the pool: all different, one for most needs or for all
/// before sclr and sload, or any of a few.
fn needs(rng: &mut Rng, pool: &[u16]) -> Needs {
    let mut roles = ROLES;
    rng.shuffle(&mut roles);
    let mut nets = pool.to_vec();
    rng.shuffle(&mut nets);
    let (kind, few) = (rng.below(10), rng.pick(&[1, 1, 1, 2, 2, 3]));
    let mut list = Needs::new();
    for (k, &role) in roles[..up_to_eight(rng)].iter().enumerate() {
        let place = match kind {
            0..=2 => k,
            3 => rng.pick(&[0, 0, 0, 0, 0, 0, 1, 2]),
            4 => rng.below(3) * (role > 2) as usize,
            _ => rng.below(few),
        };
        let signal = nets[place] + rng.percent(30) as u16;
        // The inverse where the role has the signal already.
        let again = list.contains(&(role, signal));
        list.insert((role, signal ^ again as u16));
    }
    list
}

/// Needs that have a way on the board, or have none; nothing where no draw gives them.
fn needs_with(rng: &mut Rng, pool: &[u16], board: &[u8], way: bool) -> Option<Needs> {
    (0..30)
        .map(|_| needs(rng, pool))
        .find(|needs| settings::has_way(&on_board(needs, board)) == way)
}

/// The cells of LABs, all with the same few control nets.
struct Maker<'a> {
    rng: &'a mut Rng,
    sheets: Sheets,
    pool: Vec<u16>,
}

impl Maker<'_> {
    fn fresh(&mut self) -> u16 {
        self.sheets.nets += 1;
        net(self.sheets.nets - 1)
    }

    /// A register with these signals at clk, ena, aclr, sclr and sload.
    fn register(&mut self, lab: usize, le: usize, ports: [u16; 5]) {
        let mut c = Cell::new(REGISTER, lab, le);
        c.s[CLK..=SLOAD].copy_from_slice(&ports);
        if ports[4] != 0 {
            c.s[SDATA] = self.rng.pick(&self.pool);
        }
        c.s[REGOUT] = self.fresh();
        self.sheets.cells.push(c);
    }

    fn combinational(&mut self, lab: usize, le: usize, data: [u16; 4]) {
        let mut c = Cell::new(COMBINATIONAL, lab, le);
        c.s[DATAA..=DATAD].copy_from_slice(&data);
        c.s[COMBOUT] = self.fresh();
        self.sheets.cells.push(c);
    }

    /// Cells that have exactly these needs and keep 60 to 64.
    fn lab(&mut self, lab: usize, needs: &Needs) {
        let signals = [0, 1, 2, 3, 4].map(|role| {
            let own = needs.iter().filter(|need| need.0 == role);
            let mut own: Vec<u16> = own.map(|need| need.1).collect();
            self.rng.shuffle(&mut own);
            own
        });
        let counts = signals.each_ref().map(Vec::len);
        let [first, second] = self.two(&signals);
        // A second aclr may be on an unused register only.
        let apart = counts[2] == 2 && !counts[..2].contains(&2) && self.rng.percent(40);
        let whole = !apart && (counts.contains(&2) || self.rng.percent(50));
        if !needs.is_empty() || self.rng.percent(50) {
            self.register(lab, 0, first);
        }
        if whole {
            self.register(lab, 1, second);
        }
        for le in 2..2 + self.rng.below(3) {
            let again = whole && self.rng.percent(50);
            self.register(lab, le, if again { second } else { first });
        }
        match signals[2].last() {
            Some(&aclr) if apart || self.rng.percent(20) => self.unused(lab, aclr),
            _ => {}
        }
        for le in 0..1 + self.rng.below(2) {
            let data = [0; 4].map(|_: u16| self.rng.pick(&self.pool));
            self.combinational(lab, le, data);
        }
    }

    /// A register that has nothing but its aclr.
    fn unused(&mut self, lab: usize, aclr: u16) {
        let mut c = Cell::new(REGISTER, lab, 8);
        c.s[ACLR] = aclr;
        self.sheets.cells.push(c);
    }

    /// What two registers have at the control ports: all signals of each role, and
    /// constants, which need no entry.
    fn two(&mut self, signals: &[Vec<u16>; 5]) -> [[u16; 5]; 2] {
        let rng = &mut *self.rng;
        let mut both = [[0; 5]; 2];
        for (j, ports) in both.iter_mut().enumerate() {
            for (role, own) in signals.iter().enumerate() {
                let constants: &[u16] = match role {
                    0 => &[GND, VCC],
                    1 => &[0, GND, VCC],
                    _ => &[0, GND],
                };
                // One signal may be at both; sclr and sload go together.
                let again = if role < 3 && rng.percent(40) {
                    own.first()
                } else {
                    None
                };
                let constant = rng.pick(constants);
                ports[role] = *own.get(j).or(again).unwrap_or(&constant);
            }
        }
        for ports in &mut both {
            if may_be_open(ports) && rng.percent(50) {
                ports[0] = 0;
            }
        }
        if rng.percent(50) {
            let [first, second] = &mut both;
            second[3..].copy_from_slice(&first[3..]);
            second[0] = second[0].max(GND);
        }
        both
    }

    /// Cells of any LAB: with any needs, or breaking one of 60 to 64.
    fn any(&mut self, lab: usize) {
        if self.rng.percent(25) {
            let number = self.rng.range(60, 64) as u8;
            self.broken(lab, number);
        } else {
            let needs = needs(self.rng, &self.pool);
            self.lab(lab, &needs);
        }
    }

    /// Cells that break the rule, and none before it.
    fn broken(&mut self, lab: usize, number: u8) {
        let three = distinct(self.rng, &self.pool, 3, &[], 0);
        let clk = self.rng.pick(&self.pool);
        for (le, &signal) in three.iter().enumerate() {
            match number {
                60 => self.register(lab, le, [signal, 0, 0, 0, 0]),
                61 => self.register(lab, le, [clk, signal, 0, 0, 0]),
                62 => self.register(lab, le, [clk, 0, signal, 0, 0]),
                63 => self.register(lab, le, [clk, 0, 0, 0, signal]),
                _ => self.register(lab, le, [clk, 0, 0, 0, 0]),
            }
        }
        if number == 64 {
            for le in 0..10 {
                let data = [0; 4].map(|_: u16| self.fresh());
                self.combinational(lab, le, data);
            }
        }
    }
}

/// Whether clk may as well be unconnected.
fn may_be_open(ports: &[u16; 5]) -> bool {
    ports[0] == GND && ports[1] == 0 && ports[3..] == [0, 0]
}

/// The wanted verdict, with its share of a hundred.
fn wanted(rng: &mut Rng) -> u8 {
    match rng.below(100) {
        0..=34 => 0,
        35..=69 => 65,
        _ => rng.range(60, 64) as u8,
    }
}

pub fn some(rng: &mut Rng) -> Made {
    let count = up_to_eight(rng);
    let board = entries(rng, count);
    let labs = match rng.below(10) {
        0 => rng.range(20, 40),
        _ => rng.range(1, 6),
    };
    let labs = some_labs(rng, labs);
    let pool: Vec<u16> = (0..rng.range(8, 10) as u16).map(net).collect();
    let no_way = needs_with(rng, &pool, &board, false);
    let number = match wanted(rng) {
        65 if no_way.is_none() => 0,
        number => number,
    };
    // How many LABs are legal, from the lowest on.
    let legal = match number {
        0 => labs.len(),
        _ => rng.below(labs.len()),
    };
    let mut made = maker(rng, pool);
    let mut searched = Vec::new();
    for &lab in &labs[..legal] {
        let needs = needs_with(made.rng, &made.pool, &board, true).unwrap_or_default();
        made.lab(lab, &needs);
        searched.push((lab, needs));
    }
    let refused = labs.get(legal).copied();
    match (refused, no_way) {
        (Some(lab), Some(needs)) if number == 65 => {
            made.lab(lab, &needs);
            searched.push((lab, needs));
        }
        (Some(lab), _) => made.broken(lab, number),
        _ => {}
    }
    labs.iter().skip(legal + 1).for_each(|&lab| made.any(lab));
    let mut sheets = made.sheets;
    rng.shuffle(&mut sheets.cells);
    Made {
        settings: with_version(rng, board),
        sheets,
        number,
        lab: refused,
        searched,
    }
}

/// A board with these entries, of either version.
fn with_version(rng: &mut Rng, entries: Vec<u8>) -> Settings {
    let version = rng.range(1, 2) as u16;
    let number = settings::number(rng);
    Settings {
        version,
        board: if version == 1 { 0 } else { number },
        entries,
    }
}

fn maker(rng: &mut Rng, pool: Vec<u16>) -> Maker<'_> {
    let sheets = Sheets {
        nets: pool.len() as u16,
        cells: Vec::new(),
        apprentice: 1 + rng.below(1000) as u32,
    };
    Maker { rng, sheets, pool }
}
