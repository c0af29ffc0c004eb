//! The judge in Rust, written for speed: few passes over the cells, most without a branch,
//! then one over the occupied LABs, with tables by net and by LAB, all on the stack. The
//! search for a way is a plain one.
#![forbid(unsafe_code)]

use crate::judge::{labs_of, Labs, Verdict, NONE, ROUTE, TRIES};
use crate::lent::Parts;

const CELLS: usize = 512;
const LABS: usize = 1024;
const MOST_NETS: u16 = 1024;

const GND: u16 = 1;
const VCC: u16 = 2;
const FIRST_NET: u16 = 4;

/// Tables by net are read at code / 2, so that 0 stands for unconnected and GND, 1 for VCC.
const SLOTS: usize = 2 + MOST_NETS as usize;

type Record = [u8; 24];
type Place = [u8; 4];

/// A number of the papers and where it applies; in a LAB `cell` is its lowest one.
#[derive(Clone, Copy)]
struct Told {
    number: u8,
    cell: u16,
    lab: u16,
}

fn told(number: u8) -> Told {
    Told {
        number,
        cell: NONE,
        lab: NONE,
    }
}

fn at_cell(number: u8, cell: usize) -> Told {
    Told {
        cell: cell as u16,
        ..told(number)
    }
}

impl Told {
    fn verdict(self, exercise: &[u8], answer: &[u8]) -> Verdict {
        let cell = self.cell as u64;
        let (sheet, start, size) = match self.number {
            10..=14 => (0, 0, exercise.len().min(9) as u64),
            15 | 16 | 30..=44 => (0, 9 + 24 * cell, 24),
            20..=25 => (1, 0, answer.len().min(11) as u64),
            26 | 50..=65 => (1, 11 + 4 * cell, 4),
            _ => (1, answer.len() as u64, 0),
        };
        let apprentice = match self.number {
            1..=23 | 70..=75 => 0,
            _ => apprentice(answer),
        };
        Verdict {
            number: self.number,
            cell: if self.lab == NONE { self.cell } else { NONE },
            lab: self.lab,
            apprentice,
            sheet,
            start,
            size,
        }
    }
}

pub fn judge(settings: &[u8], exercise: &[u8], answer: &[u8], lent: Parts) -> Verdict {
    let refused = judged(settings, exercise, answer, lent).err();
    refused.unwrap_or(told(0)).verdict(exercise, answer)
}

fn judged(
    settings: &[u8],
    exercise: &[u8],
    answer: &[u8],
    (route, tries): Parts,
) -> Result<(), Told> {
    if route.len() != ROUTE {
        return Err(told(1));
    }
    if tries.len() != TRIES {
        return Err(told(3));
    }
    let serving = serving(settings).map_err(told)?;
    let (nets, records) = records(exercise).map_err(told)?;
    let mut netlist = Netlist::new(records);
    netlist.read(nets)?;
    let places = places(answer, records.len()).map_err(told)?;
    judge_places(serving, &netlist, places, (route, tries))
}

/// From 26 on.
#[inline(never)]
fn judge_places(
    serving: Serving,
    netlist: &Netlist,
    places: &[Place],
    lent: Parts,
) -> Result<(), Told> {
    let mut board = Board::new();
    let clash = board.read(netlist.records, places)?;
    let broken = netlist.registers();
    let (carry, misplaced) = netlist.carries(places);
    // The lower cell of the two.
    let first = [broken, carry].into_iter().flatten().min_by_key(|t| t.cell);
    match first.or(clash).or(misplaced) {
        Some(told) => Err(told),
        None => board.judge(serving, netlist.records, lent),
    }
}

#[inline(always)]
fn word(b: &[u8], at: usize) -> u16 {
    u16::from_le_bytes([b[at], b[at + 1]])
}

fn apprentice(answer: &[u8]) -> u32 {
    u32::from_le_bytes([answer[5], answer[6], answer[7], answer[8]])
}

/// The entries that serve clk, ena, aclr, sclr and sload, a bit an entry.
type Serving = [u8; 5];

/// The table, or the number of 70 to 75.
fn serving(settings: &[u8]) -> Result<Serving, u8> {
    if settings.len() < 6 {
        return Err(70);
    }
    if &settings[..3] != b"LXT" {
        return Err(71);
    }
    let head = match word(settings, 3) {
        1 => 6,
        2 => 8,
        _ => return Err(72),
    };
    let count = settings[5] as usize;
    if count > 8 {
        return Err(73);
    }
    if settings.len() != head + count {
        return Err(74);
    }
    let mut serving = [0; 5];
    for (entry, &flags) in settings[head..].iter().enumerate() {
        if flags > 31 {
            return Err(75);
        }
        for (role, entries) in serving.iter_mut().enumerate() {
            *entries |= (flags >> role & 1) << entry;
        }
    }
    Ok(serving)
}

/// A sheet's head and the rest, or a number: `short`, then those of mark and version.
fn head<const N: usize>(sheet: &[u8], letter: u8, short: u8) -> Result<(&[u8; N], &[u8]), u8> {
    let Some((head, rest)) = sheet.split_first_chunk::<N>() else {
        return Err(short);
    };
    if head[..3] != [b'L', b'X', letter] {
        return Err(short + 1);
    }
    if word(head, 3) != 1 {
        return Err(short + 2);
    }
    Ok((head, rest))
}

/// Net count and records, or the number of 10 to 14.
fn records(exercise: &[u8]) -> Result<(u16, &[Record]), u8> {
    let (head, rest) = head::<9>(exercise, b'E', 10)?;
    let (nets, cells) = (word(head, 5), word(head, 7) as usize);
    if nets > MOST_NETS || cells > CELLS {
        return Err(13);
    }
    if rest.len() != 24 * cells {
        return Err(14);
    }
    Ok((nets, rest.as_chunks().0))
}

/// The places, or the number of 20 to 25.
fn places(answer: &[u8], cells: usize) -> Result<&[Place], u8> {
    let (head, rest) = head::<11>(answer, b'A', 20)?;
    if apprentice(head) == 0 {
        return Err(23);
    }
    if word(head, 9) as usize != cells {
        return Err(24);
    }
    if rest.len() != 4 * cells {
        return Err(25);
    }
    Ok(rest.as_chunks().0)
}

/// A record as three words of four lanes. The first lane has kind and flag, with kind in
/// the low byte; the eleven signals follow.
#[inline(always)]
fn words(r: &Record) -> [u64; 3] {
    let w = r.as_chunks().0;
    [w[0], w[1], w[2]].map(u64::from_le_bytes)
}

/// A number in each lane.
const EACH: u64 = 0x0001_0001_0001_0001;

/// Whether some record has code 3 or a code from the limit on, which is below 0x8000.
#[inline(always)]
fn bad_codes(records: &[Record], limit: u16) -> bool {
    // Each sum reaches the top bit of its lane from the limit on, or from 1 on.
    let from_limit = (0x8000 - limit as u64) * EACH;
    let from_one = 0x7fff * EACH;
    let (mut high, mut other) = (0, u64::MAX);
    for r in records {
        let [w0, w1, w2] = words(r);
        // Kind and flag are no signal.
        for w in [w0 & !0xffff, w1, w2] {
            high |= w | w.wrapping_add(from_limit);
            other &= (w ^ (3 * EACH)).wrapping_add(from_one);
        }
    }
    (high | !other) & (0x8000 * EACH) != 0
}

/// A record whose codes are good, by its kind.
#[derive(Clone, Copy)]
struct Form {
    register: bool,
    combinational: bool,
    /// combout or regout, and cout above it.
    outputs: u32,
    /// What has to be 0.
    rest: u64,
    /// cin and cout, or 0.
    carry: u64,
}

#[inline(always)]
fn form(r: &Record) -> Form {
    let [w0, w1, w2] = words(r);
    let register = w0 as u16 == 2;
    // All ones at a register: a branch on the kind would often be guessed wrong.
    let mask = (register as u64).wrapping_neg();
    Form {
        register,
        combinational: w0 as u16 & !0x100 == 1,
        outputs: (w2 & mask | w1 >> 32 & !mask) as u32,
        rest: w2 >> (mask & 16),
        carry: w1 & 0xffff_0000_ffff_0000 & !mask,
    }
}

/// Whether some record breaks the layout, its codes aside.
struct Layout {
    kinds: bool,
    rest: u64,
    odd: u32,
    /// The top bit of a half goes out where an output is VCC.
    other: u32,
}

impl Layout {
    #[inline(always)]
    fn new() -> Layout {
        Layout {
            kinds: true,
            rest: 0,
            odd: 0,
            other: u32::MAX,
        }
    }

    #[inline(always)]
    fn add(&mut self, form: &Form) {
        self.kinds &= form.register | form.combinational;
        self.rest |= form.rest;
        self.odd |= form.outputs;
        self.other &= (form.outputs ^ 0x0002_0002).wrapping_add(0x7fff_7fff);
    }

    #[inline(always)]
    fn broken(&self) -> bool {
        let outputs = self.odd & 0x0001_0001 | !self.other & 0x8000_8000;
        !self.kinds | (self.rest != 0) | (outputs != 0)
    }
}

/// The first record that breaks the layout, where there is one.
#[cold]
fn first_bad(records: &[Record], limit: u16) -> usize {
    let bad = |r: &Record| {
        let mut layout = Layout::new();
        layout.add(&form(r));
        layout.broken() || bad_codes(std::slice::from_ref(r), limit)
    };
    records.iter().position(bad).unwrap_or(0)
}

/// The first cell with an output whose net is driven already, where there is one.
#[cold]
fn first_twice(records: &[Record]) -> usize {
    let mut driven = [false; SLOTS];
    let mut again = |v: u16| v != 0 && std::mem::replace(&mut driven[v as usize / 2], true);
    let twice = |r: &Record| {
        let outputs = form(r).outputs;
        again(outputs as u16) | again((outputs >> 16) as u16)
    };
    records.iter().position(twice).unwrap_or(0)
}

/// Some of the cells, rising.
struct List {
    count: usize,
    cells: [u16; CELLS],
}

impl List {
    #[inline(always)]
    fn new() -> List {
        List {
            count: 0,
            cells: [0; CELLS],
        }
    }

    #[inline(always)]
    fn iter(&self) -> impl Iterator<Item = usize> + '_ {
        self.cells[..self.count].iter().map(|&i| i as usize)
    }
}

/// On the driver of a net that a cout drives.
const BY_COUT: u16 = 0x8000;

/// What the exercise has.
struct Netlist<'a> {
    records: &'a [Record],
    registers: List,
    /// Combinational cells with cin or cout.
    carries: List,
    /// Driving cell + 1 of each net, or 0.
    driver: [u16; SLOTS],
}

impl<'a> Netlist<'a> {
    #[inline(always)]
    fn new(records: &'a [Record]) -> Netlist<'a> {
        Netlist {
            records,
            registers: List::new(),
            carries: List::new(),
            driver: [0; SLOTS],
        }
    }

    /// 15, then 16. Cells of both kinds take the same path, as their order is random, and
    /// which cell is bad is asked only where one is.
    #[inline(always)]
    fn read(&mut self, nets: u16) -> Result<(), Told> {
        let limit = FIRST_NET + 2 * nets;
        if bad_codes(self.records, limit) {
            return Err(at_cell(15, first_bad(self.records, limit)));
        }
        let mut layout = Layout::new();
        let [mut registers, mut carries] = [0; 2];
        let mut again = 0;
        for (i, r) in self.records.iter().enumerate() {
            let form = form(r);
            layout.add(&form);
            self.registers.cells[registers % CELLS] = i as u16;
            registers += form.register as usize;
            self.carries.cells[carries % CELLS] = i as u16;
            carries += (form.carry != 0) as usize;
            again |= self.drive(i as u16 + 1, form.outputs);
        }
        if layout.broken() {
            return Err(at_cell(15, first_bad(self.records, limit)));
        }
        if again != 0 {
            return Err(at_cell(16, first_twice(self.records)));
        }
        (self.registers.count, self.carries.count) = (registers, carries);
        Ok(())
    }

    /// Notes the outputs of a cell, its number + 1; gives what drove their nets already.
    #[inline(always)]
    fn drive(&mut self, me: u16, outputs: u32) -> u16 {
        let [first, cout] = [outputs, outputs >> 16].map(|v| v as u16 as usize / 2);
        let before = self.driver[first];
        self.driver[first] = me;
        // An unconnected output drives nothing.
        self.driver[0] = 0;
        let again = before | self.driver[cout];
        self.driver[cout] = me | BY_COUT;
        self.driver[0] = 0;
        again
    }

    /// The first register that breaks one of 30 to 35.
    #[inline(always)]
    fn registers(&self) -> Option<Told> {
        for i in self.registers.iter() {
            let number = register_rules(&Register::of(&self.records[i]));
            if number != 0 {
                return Some(at_cell(number, i));
            }
        }
        None
    }

    /// The first cell that breaks one of 40 to 44, and the first that breaks 51.
    #[inline(always)]
    fn carries(&self, places: &[Place]) -> (Option<Told>, Option<Told>) {
        if self.carries.count == 0 {
            return (None, None);
        }
        let mut reads = Reads::new();
        reads.mark(self);
        let mut misplaced = None;
        for i in self.carries.iter() {
            let number = self.carry_rules(i, &reads);
            if number != 0 {
                return (Some(at_cell(number, i)), None);
            }
            let from = self.driver[word(&self.records[i], CIN) as usize / 2] & !BY_COUT;
            if from != 0 && after(&places[from as usize - 1]) != spot(&places[i]) {
                misplaced = misplaced.or(Some(at_cell(51, i)));
            }
        }
        (None, misplaced)
    }

    /// The lowest of 40 to 44 that a cell with cin or cout breaks, or 0.
    #[inline(always)]
    fn carry_rules(&self, cell: usize, reads: &Reads) -> u8 {
        let r = &self.records[cell];
        let (cin, cout) = (word(r, CIN), word(r, COUT));
        let me = cell as u16 + 1;
        let from = self.driver[cin as usize / 2];
        let fed = (cin & 1 == 0) & (from & BY_COUT != 0) & (from != me | BY_COUT);
        let to = reads.at_cin[cout as usize / 2];
        let elsewhere = |code: u16| reads.elsewhere[code as usize % CODES];
        let once = (to != 0) & (to != MANY) & (to != me) & !elsewhere(cout) & !elsewhere(cout | 1);
        if (cin != 0) & !fed {
            40
        } else if (cin != 0) & (r[1] == 0) {
            41
        } else if (cout != 0) & !once {
            42
        } else if word(r, DATAD) != 0 {
            43
        } else if (cin != 0) & (word(r, DATAC) != 0) {
            44
        } else {
            0
        }
    }
}

// Where ports stand in the record: of a combinational cell, then of a register.
const DATAA: usize = 2;
const DATAB: usize = 4;
const DATAC: usize = 6;
const DATAD: usize = 8;
const CIN: usize = 10;
const COMBOUT: usize = 12;
const COUT: usize = 14;
const DATAIN: usize = 2;
const SDATA: usize = 14;
const REGOUT: usize = 16;

const MANY: u16 = u16::MAX;

/// All codes are below.
const CODES: usize = 4096;

/// Where nets are read.
struct Reads {
    /// Cell + 1 of the only read at a cin, MANY for more, 0 for none.
    at_cin: [u16; SLOTS],
    /// Whether it is read at another port, by its code.
    elsewhere: [bool; CODES],
}

impl Reads {
    #[inline(always)]
    fn new() -> Reads {
        Reads {
            at_cin: [0; SLOTS],
            elsewhere: [false; CODES],
        }
    }

    #[inline(always)]
    fn mark(&mut self, netlist: &Netlist) {
        for r in netlist.records {
            let [w0, w1, _] = words(r);
            // Four inputs at each kind, three more at a register.
            let more = if r[0] == 2 { w1 } else { w1 & 0xffff };
            for w in [
                w0 >> 16,
                w0 >> 32,
                w0 >> 48,
                more,
                more >> 16,
                more >> 32,
                more >> 48,
            ] {
                self.elsewhere[w as usize % CODES] = true;
            }
        }
        for i in netlist.carries.iter() {
            let reader = &mut self.at_cin[word(&netlist.records[i], CIN) as usize / 2];
            *reader = if *reader == 0 { i as u16 + 1 } else { MANY };
        }
    }
}

/// The ports of a register.
struct Register {
    datain: u16,
    clk: u16,
    ena: u16,
    aclr: u16,
    sclr: u16,
    sload: u16,
    sdata: u16,
    regout: u16,
}

impl Register {
    #[inline(always)]
    fn of(r: &Record) -> Register {
        let [w0, w1, w2] = words(r);
        Register {
            datain: (w0 >> 16) as u16,
            clk: (w0 >> 32) as u16,
            ena: (w0 >> 48) as u16,
            aclr: w1 as u16,
            sclr: (w1 >> 16) as u16,
            sload: (w1 >> 32) as u16,
            sdata: (w1 >> 48) as u16,
            regout: w2 as u16,
        }
    }
}

/// The lowest of 30 to 35 that the register breaks, or 0.
#[inline(always)]
fn register_rules(r: &Register) -> u8 {
    let open = r.clk == 0;
    // GND and the inverses have the odd codes.
    let odd = (r.datain | r.sdata) & 1 != 0;
    let unclocked = open & (r.ena | r.sclr | r.sload != 0);
    let no_data = (r.sload != 0) & (r.sdata == 0);
    let unused = !open & (r.regout == 0);
    if !(odd | unclocked | no_data | unused) {
        0
    } else if unused {
        30
    } else if open & (r.sclr != 0) {
        31
    } else if open & (r.sload != 0) {
        32
    } else if no_data {
        33
    } else if unclocked {
        34
    } else {
        35
    }
}

/// A place as LAB number * 16 + LE.
#[inline(always)]
fn spot(&[x, y, le, _]: &Place) -> u16 {
    (y as u16) << 9 | (x as u16) << 4 | le as u16
}

/// Where a carry from there goes on; NONE after LE 15 at y = 0.
#[inline(always)]
fn after(from: &Place) -> u16 {
    match from {
        [_, 0, 15, _] => NONE,
        [x, y, 15, _] => spot(&[*x, y - 1, 0, 0]),
        _ => spot(from) + 1,
    }
}

/// Keeps the first clash; a call, so that it is no part of the pass.
#[cold]
#[inline(never)]
fn keep(clash: &mut Option<Told>, cell: usize) {
    *clash = clash.or(Some(at_cell(50, cell)));
}

/// The LEs that are taken, combinational cells in the low half; and the last cell + 1 of
/// each kind.
#[derive(Clone, Copy)]
struct Lab {
    taken: u32,
    heads: [u16; 2],
}

/// What the answer has.
struct Board {
    labs: [Lab; LABS],
    /// A bit a LAB.
    occupied: [u64; LABS / 64],
    /// By cell + 1: the one of the same kind before it in its LAB, or 0.
    before: [u16; CELLS + 1],
}

impl Board {
    #[inline(always)]
    fn new() -> Board {
        let empty = Lab {
            taken: 0,
            heads: [0; 2],
        };
        Board {
            labs: [empty; LABS],
            occupied: [0; LABS / 64],
            before: [0; CELLS + 1],
        }
    }

    /// 26 refuses; gives the first cell that breaks 50.
    #[inline(always)]
    fn read(&mut self, records: &[Record], places: &[Place]) -> Result<Option<Told>, Told> {
        let mut clash = None;
        for (i, (r, p)) in records.iter().zip(places).enumerate() {
            let w = u32::from_le_bytes(*p);
            if w & 0xfff0_e0e0 != 0 {
                return Err(at_cell(26, i));
            }
            let lab = (w >> 3 & 0x3e0 | w & 31) as usize;
            // 0 for combinational, 1 for register.
            let kind = (r[0] >> 1 & 1) as usize;
            let bit = 1 << ((w >> 16) + 16 * kind as u32);
            let l = &mut self.labs[lab];
            if l.taken & bit != 0 {
                keep(&mut clash, i);
            }
            l.taken |= bit;
            self.before[i + 1] = l.heads[kind];
            l.heads[kind] = i as u16 + 1;
            self.occupied[lab / 64] |= 1 << (lab % 64);
        }
        Ok(clash)
    }

    /// 60 to 65; writes route and tries.
    #[inline(always)]
    fn judge(
        &self,
        serving: Serving,
        records: &[Record],
        (route, tries): Parts,
    ) -> Result<(), Told> {
        let mut ways = Ways::new(serving);
        let mut found = Found::new();
        let mut members = [Members::new(), Members::new()];
        let mut stamps = [0; SLOTS];
        for lab in self.occupied() {
            let needs = self.lab_rules(lab, records, &mut members, &mut stamps);
            let needs = needs.map_err(|number| self.at_lab(number, lab))?;
            let way = ways.of(&needs);
            found.push(way);
            if way.0 == NO_WAY {
                tries.fill(0);
                let all = self.occupied().zip(&found.tries[..found.count]);
                all.for_each(|(lab, &n)| tries[lab] = n);
                return Err(self.at_lab(65, lab));
            }
        }
        route.fill(255);
        tries.fill(0);
        let (bytes, _) = route.as_chunks_mut();
        for (k, lab) in self.occupied().enumerate() {
            (bytes[lab], tries[lab]) = (found.bytes[k], found.tries[k]);
        }
        Ok(())
    }

    #[inline(always)]
    fn occupied(&self) -> Labs<'_> {
        labs_of(&self.occupied)
    }

    /// The cells of a LAB by kind.
    #[inline(always)]
    fn gather(&self, lab: usize, members: &mut [Members; 2]) {
        for (m, head) in members.iter_mut().zip(self.labs[lab].heads) {
            m.count = 0;
            let mut next = head as usize;
            while next != 0 {
                m.cells[m.count % 16] = next as u16 - 1;
                m.count += 1;
                next = self.before[next] as usize;
            }
        }
    }

    fn at_lab(&self, number: u8, lab: usize) -> Told {
        let mut members = [Members::new(), Members::new()];
        self.gather(lab, &mut members);
        let lowest = members.iter().flat_map(|m| m.iter()).min();
        Told {
            lab: lab as u16,
            ..at_cell(number, lowest.unwrap_or(0))
        }
    }

    /// The needs of the LAB, or the lowest of 60 to 64 that it breaks.
    #[inline(always)]
    fn lab_rules(
        &self,
        lab: usize,
        records: &[Record],
        members: &mut [Members; 2],
        stamps: &mut [u16; SLOTS],
    ) -> Result<Needs, u8> {
        self.gather(lab, members);
        let [combinational, registers] = &*members;
        let mut controls = Controls::new();
        let mut needs = NO_NEEDS;
        if registers.count != 0 {
            for i in registers.iter() {
                controls.read(&records[i]);
            }
            needs = controls.needs()?;
        }
        // 64: so many nets can be read at most.
        let most = 4 * combinational.count + 2 * registers.count + 8;
        if most > 38 {
            stamp_outputs(lab as u16 + 1, members, records, stamps);
            if nets_in(lab as u16 + 1, members, records, &controls, stamps) > 38 {
                return Err(64);
            }
        }
        Ok(needs)
    }
}

/// Stamps what does not count as a net into the LAB: constants and its own outputs.
#[inline(always)]
fn stamp_outputs(
    stamp: u16,
    [combinational, registers]: &[Members; 2],
    records: &[Record],
    stamps: &mut [u16; SLOTS],
) {
    (stamps[0], stamps[1]) = (stamp, stamp);
    for i in combinational.iter() {
        for at in [COMBOUT, COUT] {
            stamps[word(&records[i], at) as usize / 2] = stamp;
        }
    }
    for i in registers.iter() {
        stamps[word(&records[i], REGOUT) as usize / 2] = stamp;
    }
}

/// The nets into the LAB, each counted where it gets its stamp.
#[inline(always)]
fn nets_in(
    stamp: u16,
    [combinational, registers]: &[Members; 2],
    records: &[Record],
    controls: &Controls,
    stamps: &mut [u16; SLOTS],
) -> u32 {
    let mut count = 0;
    let mut read = |code: u16| {
        let s = &mut stamps[code as usize / 2];
        count += (*s != stamp) as u32;
        *s = stamp;
    };
    for i in combinational.iter() {
        let r = &records[i];
        [DATAA, DATAB, DATAC, DATAD]
            .into_iter()
            .for_each(|at| read(word(r, at)));
    }
    for i in registers.iter() {
        let r = &records[i];
        read(word(r, DATAIN));
        read(word(r, SDATA));
    }
    controls.signals().into_iter().for_each(read);
    count
}

/// Cells of one kind in a LAB.
struct Members {
    count: usize,
    cells: [u16; 16],
}

impl Members {
    #[inline(always)]
    fn new() -> Members {
        Members {
            count: 0,
            cells: [0; 16],
        }
    }

    #[inline(always)]
    fn iter(&self) -> impl Iterator<Item = usize> + '_ {
        let cells = &self.cells[..self.count.min(16)];
        cells.iter().map(|&i| i as usize)
    }
}

/// The ways of the LABs, rising.
struct Found {
    count: usize,
    bytes: [[u8; 8]; CELLS],
    tries: [u32; CELLS],
}

impl Found {
    #[inline(always)]
    fn new() -> Found {
        Found {
            count: 0,
            bytes: [[0; 8]; CELLS],
            tries: [0; CELLS],
        }
    }

    #[inline(always)]
    fn push(&mut self, &(bytes, tries): &Way) {
        self.bytes[self.count % CELLS] = bytes;
        self.tries[self.count % CELLS] = tries;
        self.count += 1;
    }
}

/// Up to two distinct values other than 0, and whether there are more.
#[derive(Clone, Copy)]
struct Two {
    values: [u32; 2],
    more: bool,
}

impl Two {
    #[inline(always)]
    fn new() -> Two {
        Two {
            values: [0; 2],
            more: false,
        }
    }

    #[inline(always)]
    fn add(&mut self, value: u32) {
        let [first, second] = self.values;
        if (value != first) & (value != second) & (value != 0) {
            self.more |= second != 0;
            self.values = if first == 0 {
                [value, 0]
            } else {
                [first, value]
            };
        }
    }
}

/// What the registers of a LAB have at their control ports.
struct Controls {
    clk: Two,
    /// clk above ena.
    pairs: Two,
    aclr: Two,
    /// sload above sclr.
    sync: Two,
    /// The ports of two registers: most have the same as one before.
    seen: [[u64; 2]; 2],
}

impl Controls {
    #[inline(always)]
    fn new() -> Controls {
        let none = Two::new();
        Controls {
            clk: none,
            pairs: none,
            aclr: none,
            sync: none,
            seen: [[0; 2]; 2],
        }
    }

    #[inline(always)]
    fn read(&mut self, r: &Record) {
        let [w0, w1, w2] = words(r);
        // clk, ena, aclr and sclr; sload, and whether there is a regout.
        let used = w2 as u16 != 0;
        let ports = [w0 >> 32 | w1 << 32, w1 >> 32 & 0xffff | (used as u64) << 16];
        let [last, other] = self.seen;
        let from = |seen: [u64; 2]| (ports[0] ^ seen[0]) | (ports[1] ^ seen[1]);
        if from(last).min(from(other)) != 0 {
            self.seen = [ports, last];
            self.add(&Register::of(r));
        }
    }

    /// A register that keeps 30 to 35: without regout it has neither clk nor ena.
    #[inline(always)]
    fn add(&mut self, r: &Register) {
        let used = r.regout != 0;
        let open = |v: u16, value: u16| if (v == 0) & used { value } else { v } as u32;
        let clk = open(r.clk, GND);
        self.clk.add(clk);
        self.pairs.add(clk << 16 | open(r.ena, VCC));
        self.aclr.add(open(r.aclr, GND));
        // GND is not in use.
        let in_use = |v: u16| if v == GND { 0 } else { v } as u32;
        self.sync.add(in_use(r.sload) << 16 | in_use(r.sclr));
    }

    /// clk, ena, aclr, sclr and sload in the order of the route bytes.
    #[inline(always)]
    fn signals(&self) -> [u16; 8] {
        let [c0, c1] = self.clk.values.map(|v| v as u16);
        let [e0, e1] = self.pairs.values.map(|v| v as u16);
        let [a0, a1] = self.aclr.values.map(|v| v as u16);
        let sync = self.sync.values[0];
        [c0, c1, e0, e1, a0, a1, sync as u16, (sync >> 16) as u16]
    }

    /// The needs, or the lowest of 60 to 63 that is broken.
    #[inline(always)]
    fn needs(&self) -> Result<Needs, u8> {
        if self.clk.more {
            return Err(60);
        }
        if self.pairs.more {
            return Err(61);
        }
        if self.aclr.more {
            return Err(62);
        }
        if self.sync.values[1] != 0 {
            return Err(63);
        }
        let [c0, c1, mut e0, e1, a0, a1, sclr, sload] =
            self.signals()
                .map(|v| if v < FIRST_NET { NO_NEED } else { v });
        // Two pairs may have one ena.
        if e0 == e1 {
            e0 = NO_NEED;
        }
        let rising = |v: u16, w: u16| [v.min(w), v.max(w)];
        let [[c0, c1], [e0, e1], [a0, a1]] = [rising(c0, c1), rising(e0, e1), rising(a0, a1)];
        Ok([packed(c0, c1, e0, e1), packed(a0, a1, sclr, sload)])
    }
}

/// The signals that need an entry, in the order of the route bytes, four in a word: so
/// they are compared without going through memory.
type Needs = [u64; 2];
const NO_NEED: u16 = u16::MAX;
const NO_NEEDS: Needs = [u64::MAX; 2];

#[inline(always)]
fn packed(a: u16, b: u16, c: u16, d: u16) -> u64 {
    a as u64 | (b as u64) << 16 | (c as u64) << 32 | (d as u64) << 48
}

/// The role of each route byte.
const ROLES: [usize; 8] = [0, 0, 1, 1, 2, 2, 3, 4];

/// The route bytes and the tries.
type Way = ([u8; 8], u32);
const NO_ENTRIES: [u8; 8] = [255; 8];
const NO_WAY: [u8; 8] = [254; 8];

/// Ways that were searched: many LABs have the needs of one before. Where two needs have
/// the same place, the later are kept.
struct Ways {
    serving: Serving,
    needs: [Needs; 16],
    ways: [Way; 16],
}

impl Ways {
    #[inline(always)]
    fn new(serving: Serving) -> Ways {
        Ways {
            serving,
            needs: [NO_NEEDS; 16],
            ways: [(NO_ENTRIES, 0); 16],
        }
    }

    #[inline(always)]
    fn of(&mut self, needs: &Needs) -> &Way {
        if *needs == NO_NEEDS {
            return &(NO_ENTRIES, 0);
        }
        let mixed = (needs[0] ^ needs[1].rotate_left(8)).wrapping_mul(0x9e37_79b9_7f4a_7c15);
        let place = (mixed >> 60) as usize;
        if *needs != self.needs[place] {
            self.needs[place] = *needs;
            self.ways[place] = search(&self.serving, needs);
        }
        &self.ways[place]
    }
}

/// A need: the entries that serve it, and the place of its net's byte.
#[derive(Clone, Copy)]
struct Need {
    serving: u8,
    net: u32,
}

struct Search {
    needs: [Need; 8],
    count: usize,
    way: [u8; 8],
    tries: u32,
}

#[inline(never)]
fn search(serving: &Serving, needs: &Needs) -> Way {
    let mut search = Search {
        needs: [Need { serving: 0, net: 0 }; 8],
        count: 0,
        way: [0; 8],
        tries: 0,
    };
    let needs: [u16; 8] = std::array::from_fn(|k| (needs[k / 4] >> (16 * (k % 4))) as u16);
    let at = (0..8).filter(|&k| needs[k] != NO_NEED);
    for k in at.clone() {
        // The first need of the same net.
        let first = (0..k).find(|&j| needs[j] / 2 == needs[k] / 2).unwrap_or(k);
        search.needs[search.count] = Need {
            serving: serving[ROLES[k]],
            net: 8 * first as u32,
        };
        search.count += 1;
    }
    if !search.from(0, 255, 0) {
        return (NO_WAY, search.tries);
    }
    let mut bytes = NO_ENTRIES;
    at.zip(search.way).for_each(|(k, entry)| bytes[k] = entry);
    (bytes, search.tries)
}

impl Search {
    /// Whether the needs from k on have a way: `free` are the entries that no need has,
    /// `held` those that each net has, a byte a net.
    fn from(&mut self, k: usize, free: u8, held: u64) -> bool {
        if k == self.count {
            return true;
        }
        let Need { serving, net } = self.needs[k % 8];
        let mut left = serving & (free | (held >> net) as u8);
        while left != 0 {
            let entry = left & left.wrapping_neg();
            self.tries += 1;
            if self.from(k + 1, free & !entry, held | (entry as u64) << net) {
                self.way[k % 8] = entry.trailing_zeros() as u8;
                return true;
            }
            left ^= entry;
        }
        false
    }
}
