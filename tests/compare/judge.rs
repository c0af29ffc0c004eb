//! The judge in plain Rust: linear passes, tables by net, a list of cells per LAB, and
//! one search for all LABs whose needs are alike.

use crate::lent::Parts;
use crate::plain::Need;
use crate::tries;

#[derive(Clone, Copy, Debug, PartialEq, Eq)]
pub struct Verdict {
    pub number: u8,
    pub cell: u16,
    pub lab: u16,
    pub apprentice: u32,
    /// 0 exercise, 1 answer.
    pub sheet: u8,
    pub start: u64,
    pub size: u64,
}

pub const NONE: u16 = 65535;
pub const ROUTE: usize = 8192;
pub const TRIES: usize = 1024;
const MAX_NETS: usize = 1024;
const MAX_CELLS: usize = 512;
const LABS: usize = 1024;

const COMBINATIONAL: u8 = 1;
const REGISTER: u8 = 2;

// Ports of a combinational cell.
const DATAC: usize = 2;
const DATAD: usize = 3;
const CIN: usize = 4;
const COMBOUT: usize = 5;
const COUT: usize = 6;

// Ports of a register.
const DATAIN: usize = 0;
const CLK: usize = 1;
const ENA: usize = 2;
const ACLR: usize = 3;
const SCLR: usize = 4;
const SLOAD: usize = 5;
const SDATA: usize = 6;
const REGOUT: usize = 7;

const GND: u16 = 1;
const VCC: u16 = 2;
const FIRST_NET: u16 = 4;

// Tables by net are read at code / 2: slots 0 and 1 take the constants, net n
// has slot n + 2.
const SLOTS: usize = MAX_NETS + 2;

#[derive(Clone, Copy)]
struct Cell {
    kind: u8,
    flag: u8,
    s: [u16; 11],
}

/// The entries that serve each role, a bit an entry: clk, ena, aclr, sclr, sload.
type Table = [u8; 5];
const MAX_ENTRIES: usize = 8;

/// The table on a settings sheet, or the number of 70 to 75.
fn table_of(settings: &[u8]) -> Result<Table, u8> {
    if settings.len() < 6 {
        return Err(70);
    }
    if &settings[..3] != b"LXT" {
        return Err(71);
    }
    // A board number stands after the count in version 2.
    let head = match word(settings, 3) {
        1 => 6,
        2 => 8,
        _ => return Err(72),
    };
    let count = settings[5] as usize;
    if count > MAX_ENTRIES {
        return Err(73);
    }
    if settings.len() != head + count {
        return Err(74);
    }
    let mut flags = [0; MAX_ENTRIES];
    flags[..count].copy_from_slice(&settings[head..]);
    let all = u64::from_le_bytes(flags);
    let each = u64::from_le_bytes([1; MAX_ENTRIES]);
    if all & (0xe0 * each) != 0 {
        return Err(75);
    }
    // Takes the role's bit of each entry to the top byte, entry 0 lowest.
    let gathered = |role: u32| (all >> role & each).wrapping_mul(0x0102_0408_1020_4080);
    Ok([0, 1, 2, 3, 4].map(|role| (gathered(role) >> 56) as u8))
}

/// The signals that need an entry, each at its route byte.
type Needs = [u16; 8];
const NO_NEED: u16 = u16::MAX;
/// The role of each route byte.
const ROLES: [usize; 8] = [0, 0, 1, 1, 2, 2, 3, 4];

// Where all nets differ, the earliest way depends only on how many needs each role has:
// 108 cases.
const CASES: usize = 108;

fn way_case(clk: usize, ena: usize, aclr: usize, sclr: usize, sload: usize) -> usize {
    (((clk * 3 + ena) * 3 + aclr) * 2 + sclr) * 2 + sload
}

/// Needs of the case.
fn needs_of(case: usize) -> Needs {
    let counts = [
        case / 36,
        case / 12 % 3,
        case / 4 % 3,
        case / 2 % 2,
        case % 2,
    ];
    let first = [0, 2, 4, 6, 7];
    let mut needs = [NO_NEED; 8];
    for role in 0..5 {
        for k in first[role]..first[role] + counts[role] {
            needs[k] = FIRST_NET + 2 * k as u16;
        }
    }
    needs
}

/// Which needs there are, and which of them are of one net: for each the place of the
/// first one, four bits a need.
fn shared_nets(needs: &Needs) -> u32 {
    needs.iter().fold(0, |key, &v| {
        let first = needs.iter().position(|w| w / 2 == v / 2);
        key << 4 | first.filter(|_| v != NO_NEED).unwrap_or(8) as u32
    })
}

/// A case in which needs may be of one net.
struct Shared {
    nets: u32,
    bytes: [u8; 8],
    tries: u32,
}

/// The route bytes and the tries of each case, found when a LAB first asks for it. The
/// cases with shared nets stand after the others.
struct Ways {
    table: Table,
    bytes: [[u8; 8]; CASES],
    tries: [u32; CASES],
    shared: Vec<Shared>,
}

// In the first byte.
const NOT_ASKED: u8 = 253;
const NO_WAY: u8 = 254;

impl Ways {
    fn new(table: Table) -> Ways {
        Ways {
            table,
            bytes: [[NOT_ASKED; 8]; CASES],
            tries: [0; CASES],
            shared: Vec::new(),
        }
    }

    /// Whether the case has a way; then its bytes are there. Its tries are, either way.
    #[inline(always)]
    fn exists(&mut self, case: usize) -> bool {
        if self.bytes(case)[0] == NOT_ASKED {
            (self.bytes[case], self.tries[case]) = self.search(&needs_of(case));
        }
        self.bytes(case)[0] != NO_WAY
    }

    #[inline(never)]
    fn shared_case(&mut self, needs: &Needs) -> usize {
        let nets = shared_nets(needs);
        let known = self.shared.iter().position(|s| s.nets == nets);
        let place = known.unwrap_or_else(|| {
            let (bytes, tries) = self.search(needs);
            self.shared.push(Shared { nets, bytes, tries });
            self.shared.len() - 1
        });
        CASES + place
    }

    #[inline(always)]
    fn bytes(&self, case: usize) -> &[u8; 8] {
        match case.checked_sub(CASES) {
            Some(place) => &self.shared[place].bytes,
            None => &self.bytes[case],
        }
    }

    #[inline(always)]
    fn tries(&self, case: usize) -> u32 {
        match case.checked_sub(CASES) {
            Some(place) => self.shared[place].tries,
            None => self.tries[case],
        }
    }

    #[inline(never)]
    fn search(&self, needs: &Needs) -> ([u8; 8], u32) {
        let mut list = [Need { serving: 0, net: 0 }; 8];
        let places = (0..8).filter(|&k| needs[k] != NO_NEED);
        for (need, k) in list.iter_mut().zip(places.clone()) {
            (need.serving, need.net) = (self.table[ROLES[k]], needs[k] / 2);
        }
        let (tries, way) = tries::search(&list[..places.clone().count()]);
        let mut bytes = [255; 8];
        match way {
            Some(way) => places.zip(way).for_each(|(k, entry)| bytes[k] = entry),
            None => bytes[0] = NO_WAY,
        }
        (bytes, tries)
    }
}

/// The nets of a LAB's needs by their last bits, and those bits that came again.
struct Seen {
    nets: u64,
    again: u64,
}

impl Seen {
    /// Whether the value is a net, 1 or 0.
    #[inline(always)]
    fn add(&mut self, x: u32) -> usize {
        let net = (x != u32::MAX) & (x >= FIRST_NET as u32);
        let bit = (net as u64) << (x / 2 % 64);
        self.again |= self.nets & bit;
        self.nets |= bit;
        net as usize
    }
}

/// Up to two distinct values; `n` goes beyond two when there are more.
struct Two {
    n: usize,
    v: [u32; 2],
}

impl Two {
    #[inline(always)]
    fn new() -> Two {
        Two {
            n: 0,
            v: [u32::MAX; 2],
        }
    }

    #[inline(always)]
    fn add(&mut self, x: u32, counts: bool) {
        if counts & (x != self.v[0]) & (x != self.v[1]) {
            if self.n < 2 {
                self.v[self.n] = x;
            }
            self.n += 1;
        }
    }

    /// How many of the (at most two) values are nets.
    #[inline(always)]
    fn nets(&self, seen: &mut Seen) -> usize {
        seen.add(self.v[0]) + seen.add(self.v[1])
    }

    /// These, the smaller code first.
    fn needs(&self) -> [u16; 2] {
        let [v, w] = self.v.map(|x| need(x as u16));
        [v.min(w), v.max(w)]
    }
}

/// Constants need no entry.
fn need(v: u16) -> u16 {
    if v < FIRST_NET {
        NO_NEED
    } else {
        v
    }
}

#[inline(always)]
fn word(b: &[u8], at: usize) -> u16 {
    u16::from_le_bytes([b[at], b[at + 1]])
}

/// For a sound code: GND or an inverted net. These are the odd codes.
#[inline(always)]
fn odd(v: u16) -> bool {
    v & 1 == 1
}

/// sclr or sload as rule 63 sees it: GND is as good as unconnected.
#[inline(always)]
fn in_use(v: u16) -> u32 {
    (if v > GND { v } else { 0 }) as u32
}

fn at_exercise_head(number: u8, exercise: &[u8]) -> Verdict {
    let size = exercise.len().min(9) as u64;
    Verdict {
        number,
        cell: NONE,
        lab: NONE,
        apprentice: 0,
        sheet: 0,
        start: 0,
        size,
    }
}

fn at_answer_head(number: u8, apprentice: u32, answer: &[u8]) -> Verdict {
    let size = answer.len().min(11) as u64;
    Verdict {
        number,
        cell: NONE,
        lab: NONE,
        apprentice,
        sheet: 1,
        start: 0,
        size,
    }
}

fn at_exercise_record(number: u8, apprentice: u32, cell: usize) -> Verdict {
    let start = 9 + 24 * cell as u64;
    Verdict {
        number,
        cell: cell as u16,
        lab: NONE,
        apprentice,
        sheet: 0,
        start,
        size: 24,
    }
}

fn at_answer_record(number: u8, apprentice: u32, cell: usize) -> Verdict {
    let start = 11 + 4 * cell as u64;
    Verdict {
        number,
        cell: cell as u16,
        lab: NONE,
        apprentice,
        sheet: 1,
        start,
        size: 4,
    }
}

fn at_answer_end(number: u8, apprentice: u32, answer: &[u8]) -> Verdict {
    let start = answer.len() as u64;
    Verdict {
        number,
        cell: NONE,
        lab: NONE,
        apprentice,
        sheet: 1,
        start,
        size: 0,
    }
}

pub fn judge(settings: &[u8], exercise: &[u8], answer: &[u8], (route, tries): Parts) -> Verdict {
    if route.len() != ROUTE {
        return at_answer_end(1, 0, answer);
    }
    if tries.len() != TRIES {
        return at_answer_end(3, 0, answer);
    }
    let table = match table_of(settings) {
        Ok(table) => table,
        Err(number) => return at_answer_end(number, 0, answer),
    };
    if exercise.len() < 9 {
        return at_exercise_head(10, exercise);
    }
    if &exercise[..3] != b"LXE" {
        return at_exercise_head(11, exercise);
    }
    if word(exercise, 3) != 1 {
        return at_exercise_head(12, exercise);
    }
    let nets = word(exercise, 5) as usize;
    let count = word(exercise, 7) as usize;
    if nets > MAX_NETS || count > MAX_CELLS {
        return at_exercise_head(13, exercise);
    }
    if exercise.len() != 9 + 24 * count {
        return at_exercise_head(14, exercise);
    }
    judge_cells(table, exercise, nets, count, answer, (route, tries))
}

/// Everything from rule 15 on; the exercise's head is sound.
#[inline(never)]
fn judge_cells(
    table: Table,
    exercise: &[u8],
    nets: usize,
    count: usize,
    answer: &[u8],
    (route, tries): Parts,
) -> Verdict {
    // 15 and 16, decoding each record once. The passes avoid branches on the
    // kind, which alternates at random; later ones take each kind by itself.
    let mut store = [Cell {
        kind: 0,
        flag: 0,
        s: [0; 11],
    }; MAX_CELLS];
    let cells = &mut store[..count];
    // Driving cell + 1 by net, 0 for none, and whether by its cout.
    let mut driver = [0u16; SLOTS];
    let mut by_cout = [false; SLOTS];
    let mut registers = List::new();
    let mut combinational = List::new();
    let mut carries = 0;
    let limit = FIRST_NET + 2 * nets as u16;
    let mut twice = None;
    for (i, (r, c)) in exercise[9..]
        .chunks_exact(24)
        .zip(cells.iter_mut())
        .enumerate()
    {
        let mut bad = false;
        for (k, s) in c.s.iter_mut().enumerate() {
            let v = word(r, 2 + 2 * k);
            bad |= (v == 3) | (v >= limit);
            *s = v;
        }
        c.kind = r[0];
        c.flag = r[1];
        let s = &c.s;
        let is_register = c.kind == REGISTER;
        let is_combinational = c.kind == COMBINATIONAL;
        let first = if is_register { s[REGOUT] } else { s[COMBOUT] };
        let second = if is_register { 0 } else { s[COUT] };
        let rest = if is_register { 0 } else { s[7] } | s[8] | s[9] | s[10];
        bad |= !(is_register | is_combinational) | (c.flag > is_combinational as u8) | (rest != 0);
        bad |= odd(first) | (first == VCC) | odd(second) | (second == VCC);
        if bad {
            return at_exercise_record(15, 0, i);
        }
        registers.push_if(i, is_register);
        combinational.push_if(i, is_combinational);
        // An unconnected output goes to slot 0, which is never asked.
        let me = i as u16 + 1;
        let slot = first as usize / 2;
        let again = (first != 0) & (driver[slot] != 0);
        driver[slot] = me;
        let slot = second as usize / 2;
        let again = again | ((second != 0) & (driver[slot] != 0));
        driver[slot] = me;
        by_cout[slot] = second != 0;
        carries += (second != 0) as u32;
        if again && twice.is_none() {
            twice = Some(i);
        }
    }
    if let Some(i) = twice {
        return at_exercise_record(16, 0, i);
    }

    if answer.len() < 11 {
        return at_answer_head(20, 0, answer);
    }
    if &answer[..3] != b"LXA" {
        return at_answer_head(21, 0, answer);
    }
    if word(answer, 3) != 1 {
        return at_answer_head(22, 0, answer);
    }
    let apprentice = u32::from_le_bytes([answer[5], answer[6], answer[7], answer[8]]);
    if apprentice == 0 {
        return at_answer_head(23, 0, answer);
    }
    let placed = word(answer, 9) as usize;
    if placed != count {
        return at_answer_head(24, apprentice, answer);
    }
    if answer.len() != 11 + 4 * placed {
        return at_answer_head(25, apprentice, answer);
    }

    // 26; a place is LAB number * 16 + LE.
    let mut place = [0u16; MAX_CELLS];
    for (i, (r, p)) in answer[11..]
        .chunks_exact(4)
        .zip(place.iter_mut())
        .enumerate()
    {
        let [x, y, le, zero] = [r[0], r[1], r[2], r[3]];
        if (x > 31) | (y > 31) | (le > 15) | (zero != 0) {
            return at_answer_record(26, apprentice, i);
        }
        *p = (y as u16) << 9 | (x as u16) << 4 | le as u16;
    }

    // 30 to 44: the first broken cell of each kind, then the lower of the two.
    let mut broken = (MAX_CELLS, 0);
    for i in registers.cells() {
        let number = register_rules(&cells[i].s);
        if number != 0 {
            broken = (i, number);
            break;
        }
    }
    // Reads of the nets driven by a cout: how many, and the cell + 1 at whose cin.
    let mut reads = [0u16; SLOTS];
    let mut reader = [0u16; SLOTS];
    if carries != 0 {
        for i in combinational.cells() {
            let s = &cells[i].s;
            for &v in &s[..CIN] {
                if by_cout[v as usize / 2] {
                    reads[v as usize / 2] += 1;
                }
            }
            let slot = s[CIN] as usize / 2;
            reads[slot] += by_cout[slot] as u16;
            reader[slot] = i as u16 + 1;
        }
        for i in registers.cells() {
            for &v in &cells[i].s[..REGOUT] {
                if by_cout[v as usize / 2] {
                    reads[v as usize / 2] += 1;
                }
            }
        }
    }
    for i in combinational.cells() {
        let c = &cells[i];
        let me = i as u16 + 1;
        let (cin, cout) = (c.s[CIN] as usize / 2, c.s[COUT] as usize / 2);
        let fed = by_cout[cin] & (driver[cin] != me) & !odd(c.s[CIN]);
        let read = (reads[cout] == 1) & (reader[cout] != 0) & (reader[cout] != me);
        let number = combinational_rules(c, fed, read);
        if number != 0 {
            if i < broken.0 {
                broken = (i, number);
            }
            break;
        }
    }
    if broken.1 != 0 {
        return at_exercise_record(broken.1, apprentice, broken.0);
    }

    // 50 by marks, 16 bits of LE for each kind.
    let mut marks = [0u32; LABS];
    let mut occupied = [0u64; LABS / 64];
    for (i, (c, &p)) in cells.iter().zip(place.iter()).enumerate() {
        let lab = p as usize >> 4;
        let bit = 1u32 << ((p & 15) + 16 * (c.kind == REGISTER) as u16);
        let mark = &mut marks[lab % LABS];
        if *mark & bit != 0 {
            return at_answer_record(50, apprentice, i);
        }
        *mark |= bit;
        occupied[lab / 64 % 16] |= 1 << (lab % 64);
    }

    // 51; an unconnected cin finds some cell or other, and is not asked.
    if carries != 0 {
        for i in combinational.cells() {
            let cin = cells[i].s[CIN];
            let from = place[(driver[cin as usize / 2] as usize).wrapping_sub(1) % MAX_CELLS];
            // After LE 15 comes LE 0 one y lower; at y = 0 that is no place.
            let next = if from & 15 != 15 {
                from + 1
            } else {
                (from & !15).wrapping_sub(1 << 9)
            };
            if (cin != 0) & (next != place[i]) {
                return at_answer_record(51, apprentice, i);
            }
        }
    }

    // The cells of each LAB by kind, rising; cells are held + 1 and 0 ends a list.
    let mut next = [0u16; MAX_CELLS];
    let mut heads = [[0u16; 2]; LABS];
    for (i, c) in cells.iter().enumerate().rev() {
        let head = &mut heads[place[i] as usize >> 4][(c.kind == REGISTER) as usize];
        next[i] = *head;
        *head = i as u16 + 1;
    }

    let mut stamp = [0u16; SLOTS];
    let mut ways = Ways::new(table);
    let mut cases = [0u16; LABS];
    for lab in labs_of(&occupied) {
        let heads = heads[lab];
        let case = lab_rules(lab, marks[lab], heads, &next, cells, &mut stamp, &mut ways);
        let number = match case {
            Ok(case) => {
                cases[lab] = case as u16;
                if ways.exists(case) {
                    continue;
                }
                // All partial ways of this LAB, and the tries of the lower ones.
                tries.fill(0);
                for l in labs_of(&occupied).take_while(|&l| l <= lab) {
                    tries[l] = ways.tries(cases[l] as usize);
                }
                65
            }
            Err(number) => number,
        };
        let lowest = heads.into_iter().filter(|&h| h != 0).min().unwrap_or(1);
        let record = at_answer_record(number, apprentice, lowest as usize - 1);
        return Verdict {
            cell: NONE,
            lab: lab as u16,
            ..record
        };
    }

    route.fill(255);
    tries.fill(0);
    for lab in labs_of(&occupied) {
        let case = cases[lab] as usize;
        route[8 * lab..8 * lab + 8].copy_from_slice(ways.bytes(case));
        tries[lab] = ways.tries(case);
    }
    at_answer_end(0, apprentice, answer)
}

/// The LABs whose bits are set, rising.
pub struct Labs<'a> {
    occupied: &'a [u64; LABS / 64],
    group: usize,
    bits: u64,
}

pub fn labs_of(occupied: &[u64; LABS / 64]) -> Labs<'_> {
    Labs {
        occupied,
        group: 0,
        bits: occupied[0],
    }
}

impl Iterator for Labs<'_> {
    type Item = usize;

    #[inline(always)]
    fn next(&mut self) -> Option<usize> {
        while self.bits == 0 {
            self.group += 1;
            self.bits = *self.occupied.get(self.group)?;
        }
        let lab = 64 * self.group + self.bits.trailing_zeros() as usize;
        self.bits &= self.bits - 1;
        Some(lab)
    }
}

/// Cells of one kind, rising.
struct List {
    n: usize,
    cell: [u16; MAX_CELLS],
}

impl List {
    #[inline(always)]
    fn new() -> List {
        List {
            n: 0,
            cell: [0; MAX_CELLS],
        }
    }

    #[inline(always)]
    fn push_if(&mut self, i: usize, wanted: bool) {
        self.cell[self.n % MAX_CELLS] = i as u16;
        self.n += wanted as usize;
    }

    #[inline(always)]
    fn cells(&self) -> impl Iterator<Item = usize> + '_ {
        self.cell[..self.n].iter().map(|&i| i as usize)
    }
}

/// The lowest of 30 to 35 that the register breaks, or 0.
#[inline(always)]
fn register_rules(s: &[u16; 11]) -> u8 {
    let open = s[CLK] == 0;
    let broken = [
        !open & (s[REGOUT] == 0),
        open & (s[SCLR] != 0),
        open & (s[SLOAD] != 0),
        (s[SLOAD] != 0) & (s[SDATA] == 0),
        open & (s[ENA] != 0),
        odd(s[DATAIN]) | odd(s[SDATA]),
    ];
    lowest(30, &broken)
}

/// The lowest of 40 to 44 that the combinational cell breaks, or 0. `fed`: cin is
/// the uninverted net of another cell's cout; `read`: the one read of its cout is
/// at the cin of another cell.
#[inline(always)]
fn combinational_rules(c: &Cell, fed: bool, read: bool) -> u8 {
    let s = &c.s;
    let (cin, cout) = (s[CIN] != 0, s[COUT] != 0);
    let broken = [
        cin & !fed,
        cin & (c.flag == 0),
        cout & !read,
        (s[DATAD] != 0) & (cin | cout),
        (s[DATAC] != 0) & cin,
    ];
    lowest(40, &broken)
}

#[inline(always)]
fn lowest(first: u8, broken: &[bool]) -> u8 {
    let any = broken.iter().fold(false, |a, &b| a | b);
    if !any {
        return 0;
    }
    first + broken.iter().position(|&b| b).unwrap_or(0) as u8
}

/// The lowest of 60 to 64 that the LAB breaks, else the case of its needs.
#[inline(always)]
fn lab_rules(
    lab: usize,
    mark: u32,
    heads: [u16; 2],
    next: &[u16; MAX_CELLS],
    cells: &[Cell],
    stamp: &mut [u16; SLOTS],
    ways: &mut Ways,
) -> Result<usize, u8> {
    let list = |head: u16| {
        let mut at = head;
        std::iter::from_fn(move || {
            let i = (at as usize).checked_sub(1)?;
            at = next[i];
            Some(&cells[i].s)
        })
    };
    let [combinational, registers] = heads;

    let mut clk = Two::new();
    let mut pair = Two::new();
    let mut aclr = Two::new();
    // (sload, sclr) of the registers that use one of them, by or and by and.
    let (mut any, mut all) = (0, u32::MAX);
    for s in list(registers) {
        let used = s[REGOUT] != 0;
        let or = |v: u16, open: u16| (if (v == 0) & used { open } else { v }) as u32;
        let (k, e, a) = (or(s[CLK], GND), or(s[ENA], VCC), or(s[ACLR], GND));
        clk.add(k, k != 0);
        pair.add(k << 16 | e, k != 0);
        aclr.add(a, a != 0);
        let both = in_use(s[SLOAD]) << 16 | in_use(s[SCLR]);
        any |= both;
        all &= if both == 0 { u32::MAX } else { both };
    }
    if clk.n > 2 {
        return Err(60);
    }
    if pair.n > 2 {
        return Err(61);
    }
    if aclr.n > 2 {
        return Err(62);
    }
    // Both are the same only where all these pairs are.
    if (any != 0) & (any != all) {
        return Err(63);
    }
    let (sload, sclr) = ((any >> 16) as u16, any as u16);
    // After 34 each connected ena stands in a pair.
    let mut ena = Two::new();
    for &p in &pair.v[..pair.n] {
        ena.add(p & 0xffff, true);
    }

    // 64. After 60 to 63 at most eight nets are read at control ports, so only a
    // LAB with enough data ports can read 39.
    if 4 * (mark & 0xffff).count_ones() + 2 * (mark >> 16).count_ones() + 8 > 38 {
        // Constants and nets driven inside are stamped first, so that each first
        // read of another net is counted once.
        let tag = lab as u16 + 1;
        for s in list(combinational) {
            stamp[s[COMBOUT] as usize / 2] = tag;
            stamp[s[COUT] as usize / 2] = tag;
        }
        for s in list(registers) {
            stamp[s[REGOUT] as usize / 2] = tag;
        }
        stamp[0] = tag;
        stamp[1] = tag;
        let mut read = 0;
        let mut count = |v: u16| {
            let t = &mut stamp[v as usize / 2];
            read += (*t != tag) as u32;
            *t = tag;
        };
        for s in list(combinational) {
            s[..CIN].iter().for_each(|&v| count(v));
        }
        for s in list(registers) {
            count(s[DATAIN]);
            count(s[SDATA]);
        }
        for set in [&clk, &ena, &aclr] {
            set.v[..set.n].iter().for_each(|&v| count(v as u16));
        }
        count(sclr);
        count(sload);
        if read > 38 {
            return Err(64);
        }
    }

    let mut seen = Seen { nets: 0, again: 0 };
    let case = way_case(
        clk.nets(&mut seen),
        ena.nets(&mut seen),
        aclr.nets(&mut seen),
        seen.add(sclr as u32),
        seen.add(sload as u32),
    );
    if seen.again == 0 {
        return Ok(case);
    }
    let [[c0, c1], [e0, e1], [a0, a1]] = [clk, ena, aclr].map(|set| set.needs());
    let needs = [c0, c1, e0, e1, a0, a1, need(sclr), need(sload)];
    Ok(ways.shared_case(&needs))
}
