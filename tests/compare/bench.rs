//! Time per judgement of the proved judge, of the Rust judge and of the fast one on the
//! same sheets, also where the search for a way is long, how it grows with the number of
//! cells, how the count of nets into a LAB grows with the number of reads, and what
//! the least work takes in the same run; then the tries of long searches beside a plain
//! search, the list check, the readers and the writers beside plain ones, a class beside
//! as many single calls, and the minutes of a log beside a plain program and a fast one.

mod class;
mod fast;
mod generate;
mod judge;
mod lent;
mod minutes;
mod plain;
mod proved;
mod settings;
mod sweep;
mod tries;
mod try_forms;
mod writer;

use class::{Row, MOST};
use generate::*;
use lent::Lent;
use minutes::{Credit, Entry, APPRENTICES, ENTRIES, WEEK};
use plain::{CellRecord, Need, Settings, Step};
use settings::HOUSE;
use std::collections::HashSet;
use std::hint::black_box;
use std::time::{Duration, Instant};
use try_forms::{Needs, NOT_HELD};

const SIZES: [usize; 4] = [8, 32, 128, 512];
// As many different sheets in turn: no branch predictor learns them.
const VARIANTS: usize = 64;
const RUNS: usize = 151;
// Short runs, many of them: other work on the machine then spoils only a few.
const RUN_TIME: Duration = Duration::from_micros(200);

#[derive(Clone, Copy, PartialEq)]
enum Outcome {
    Legal,
    NoApprentice,
    Shared,
    Clocks,
    NoWay,
}

impl Outcome {
    fn number(self) -> u32 {
        match self {
            Outcome::Legal => 0,
            Outcome::NoApprentice => 23,
            Outcome::Shared => 50,
            Outcome::Clocks => 60,
            Outcome::NoWay => 65,
        }
    }

    fn name(self) -> &'static str {
        match self {
            Outcome::Legal => "legal",
            Outcome::NoApprentice => "refused early",
            Outcome::Shared => "refused in last cell",
            Outcome::Clocks | Outcome::NoWay => "refused in last LAB",
        }
    }
}

/// Full LABs, or one cell to a LAB with three in the last; the last LAB or the last
/// cell is broken as the outcome says.
fn sheets(rng: &mut Rng, size: usize, many: bool, outcome: Outcome) -> Sheets {
    let mut s = Sheets {
        nets: 0,
        cells: Vec::new(),
        apprentice: 1 + rng.below(1000) as u32,
    };
    let mut fresh = || {
        s.nets += 1;
        net(s.nets - 1)
    };
    // Control and data nets, the same for all LABs.
    let control: Vec<u16> = (0..12).map(|_| fresh()).collect();
    let data: Vec<u16> = (0..16).map(|_| fresh()).collect();
    let last_registers = if many { 3 } else { 4 };
    let labs = if many {
        size - last_registers + 1
    } else {
        size.div_ceil(32)
    };
    let step = 1024 / labs;
    let shift = rng.below(step);
    for k in 0..labs {
        let lab = k * step + shift;
        let last = k + 1 == labs;
        let (registers, combinational) = match (many, last) {
            (true, true) => (last_registers, 0),
            (true, false) => (k % 2, 1 - k % 2),
            _ => ((size / labs) / 2, (size / labs) / 2),
        };
        for j in 0..registers {
            let mut c = Cell::new(REGISTER, lab, j);
            let two = j % 2;
            c.s[DATAIN] = rng.pick(&data);
            c.s[CLK] = control[two];
            c.s[ENA] = control[2];
            c.s[ACLR] = control[4];
            if two == 0 {
                (c.s[SCLR], c.s[SLOAD], c.s[SDATA]) = (control[6], control[7], rng.pick(&data));
            }
            match outcome {
                Outcome::Clocks if last && j + 1 == registers => c.s[CLK] = control[8],
                // Two clk, two ena, two aclr: no way.
                Outcome::NoWay if last => {
                    (c.s[SCLR], c.s[SLOAD]) = (0, 0);
                    (c.s[ENA], c.s[ACLR]) = (control[2 + two], control[4 + two]);
                }
                _ => {}
            }
            c.s[REGOUT] = fresh();
            s.cells.push(c);
        }
        // Half of a LAB's combinational cells are a carry chain.
        let mut carry = 0;
        for j in 0..combinational {
            let mut c = Cell::new(COMBINATIONAL, lab, j);
            c.s[CIN] = carry;
            c.flag = (carry != 0) as u8;
            carry = if j + 1 < combinational / 2 {
                fresh()
            } else {
                0
            };
            c.s[COUT] = carry;
            c.s[COMBOUT] = fresh();
            c.s[DATAA] = rng.pick(&data);
            c.s[DATAB] = rng.pick(&data) + 1;
            if c.s[CIN] | c.s[COUT] == 0 {
                (c.s[DATAC], c.s[DATAD]) = (rng.pick(&data), rng.pick(&data));
            }
            s.cells.push(c);
        }
    }
    rng.shuffle(&mut s.cells);
    match outcome {
        Outcome::NoApprentice => s.apprentice = 0,
        // The last cell stands where a lower one of its kind does.
        Outcome::Shared => {
            let last = s.cells.len() - 1;
            let kind = s.cells[last].kind;
            let same: Vec<usize> = (0..last).filter(|&j| s.cells[j].kind == kind).collect();
            let other = s.cells[rng.pick(&same)];
            let c = &mut s.cells[last];
            (c.x, c.y, c.le) = (other.x, other.y, other.le);
        }
        _ => {}
    }
    s
}

/// Nanoseconds per input over one run.
fn run<T>(inputs: &[T], rounds: usize, mut work: impl FnMut(&T)) -> f64 {
    let start = Instant::now();
    for _ in 0..rounds {
        for x in inputs {
            work(black_box(x));
        }
    }
    start.elapsed().as_nanos() as f64 / (rounds * inputs.len()) as f64
}

/// Rounds that fill one run's time.
fn rounds<T>(inputs: &[T], mut work: impl FnMut(&T)) -> usize {
    let mut n = 1;
    loop {
        let took = run(inputs, n, &mut work) * (n * inputs.len()) as f64;
        if took * 4.0 >= RUN_TIME.as_nanos() as f64 || n >= 1 << 20 {
            let scale = RUN_TIME.as_nanos() as f64 / took.max(1.0);
            return ((n as f64 * scale) as usize).max(1);
        }
        n *= 2;
    }
}

/// Microseconds per input: the median of runs.
fn time<T>(inputs: &[T], mut work: impl FnMut(&T)) -> f64 {
    let n = rounds(inputs, &mut work);
    let each = (0..RUNS).map(|_| run(inputs, n, &mut work)).collect();
    median(each) / 1000.0
}

fn median(mut v: Vec<f64>) -> f64 {
    v.sort_by(f64::total_cmp);
    v[v.len() / 2]
}

/// The list check, the readers and the writers beside the plain ones, on LABs and
/// sheets of the legal kind.
fn forms(rng: &mut Rng) {
    println!();
    println!("list check, readers and writers, median of up to {RUNS} runs over {VARIANTS} inputs");
    println!(
        "{:<31}{:>6}{:>13}{:>13}{:>8}",
        "call", "cells", "proved us", "plain us", "ratio"
    );
    for size in SIZES {
        let mut inputs = Vec::new();
        for _ in 0..VARIANTS {
            let s = sheets(rng, size, false, Outcome::Legal);
            inputs.push((s.exercise(), s.answer()));
        }
        if size <= 32 {
            // One LAB: the whole exercise is its list.
            let list = |e: &[u8]| -> Vec<CellRecord> {
                e[9..].chunks_exact(24).map(plain::record).collect()
            };
            let lists: Vec<Vec<CellRecord>> = inputs.iter().map(|(e, _)| list(e)).collect();
            for l in &lists {
                assert_eq!(proved::check_lab(&HOUSE, l).0, 0);
            }
            compare(
                "check of one LAB",
                size,
                &lists,
                |l| {
                    black_box(proved::check_lab(&HOUSE, l));
                },
                |l| {
                    black_box(plain::check_list(&HOUSE, l));
                },
            );
        }
        let read = |next: fn(&[u8], u16) -> (Step<CellRecord>, u16), e: &[u8]| {
            let mut at = 0;
            while let (Step::Given(c), n) = next(e, at) {
                black_box(c);
                at = n;
            }
            assert_eq!(at as usize, size);
        };
        compare(
            "reader, all cells",
            size,
            &inputs,
            |(e, _)| read(proved::next_cell, e),
            |(e, _)| read(plain::next_cell, e),
        );
        if size == 8 || size == 512 {
            writers(size, &inputs);
        }
    }
}

/// Both writers on what stands in the sheets; at least they copy as many bytes.
fn writers(size: usize, sheets: &[(Vec<u8>, Vec<u8>)]) {
    // For the proved and for the Rust writer.
    let mut left = vec![0u8; 12_297];
    let mut right = left.clone();
    let mut inputs = Vec::new();
    for (e, a) in sheets {
        let nets = plain::word(e, 5);
        let cells: Vec<CellRecord> = e[9..].chunks_exact(24).map(plain::record).collect();
        let place = |r: &[u8]| [r[0], r[1], r[2]].map(u16::from);
        let places: Vec<[u16; 3]> = a[11..].chunks_exact(4).map(place).collect();
        let apprentice = plain::word(a, 5) as u32;
        assert_eq!(proved::write_exercise(nets, &cells, &mut left).0, 0);
        assert_eq!(writer::exercise(nets, &cells, &mut right).0, 0);
        assert!(left[..e.len()] == e[..] && right[..e.len()] == e[..]);
        assert_eq!(proved::write_answer(apprentice, &places, &mut left).0, 0);
        assert_eq!(writer::answer(apprentice, &places, &mut right).0, 0);
        assert!(left[..a.len()] == a[..] && right[..a.len()] == a[..]);
        inputs.push((nets, cells, apprentice, places));
    }
    let exercise = compare(
        "exercise writer",
        size,
        &inputs,
        |(nets, cells, ..)| {
            black_box(proved::write_exercise(*nets, cells, &mut left));
        },
        |(nets, cells, ..)| {
            black_box(writer::exercise(*nets, cells, &mut right));
        },
    );
    let answer = compare(
        "answer writer",
        size,
        &inputs,
        |(.., apprentice, places)| {
            black_box(proved::write_answer(*apprentice, places, &mut left));
        },
        |(.., apprentice, places)| {
            black_box(writer::answer(*apprentice, places, &mut right));
        },
    );
    let copy = |b: &mut [u8], from: &[u8]| black_box(&mut b[..from.len()]).copy_from_slice(from);
    let copied = time(sheets, |(e, _)| copy(&mut left, e));
    row("exercise writer beside a copy", size, exercise, copied);
    let copied = time(sheets, |(_, a)| copy(&mut left, a));
    row("answer writer beside a copy", size, answer, copied);
}

/// The first key that a lower one equals, by the pairwise scan.
fn first_equal(keys: &[u16]) -> usize {
    let mut i = 0;
    'keys: while i < keys.len() {
        let mut j = 0;
        while j < i {
            if keys[j] == keys[i] {
                break 'keys;
            }
            j += 1;
        }
        i += 1;
    }
    i
}

/// The least work at 512 cells, and the proved judge's times over it.
fn bounds(rng: &mut Rng, growth: &[(Outcome, &str, Vec<(f64, f64)>)]) {
    let mut inputs = Vec::new();
    let mut keys: Vec<Vec<u16>> = Vec::new();
    for _ in 0..VARIANTS {
        let s = sheets(rng, 512, false, Outcome::Shared);
        let key = |c: &Cell| ((c.kind as u16 - 1) << 14) + 16 * c.lab() as u16 + c.le as u16;
        keys.push(s.cells.iter().map(key).collect());
        inputs.push((s.exercise(), s.answer()));
    }
    let words = |b: &[u8]| {
        let word = |w: &[u8]| u64::from_le_bytes(w.try_into().unwrap());
        b.chunks_exact(8).fold(0, |x, w| x ^ word(w))
    };
    let mut lent = Lent::new();
    let read = time(&inputs, |(e, a)| {
        black_box(words(e) ^ words(a));
    });
    let write = time(&inputs, |_| {
        let (route, tries) = black_box(lent.parts());
        route.fill(black_box(255));
        tries.fill(black_box(0));
    });
    let scan = time(&keys, |k| assert_eq!(first_equal(k), 511));
    println!();
    println!("least work at 512 cells, in the same run");
    println!("{:<34}{:>9.3} us", "reading both sheets once", read);
    println!("{:<34}{:>9.3} us", "writing route and tries", write);
    println!("{:<34}{:>9.3} us", "pairwise scan of 512 keys", scan);
    for (outcome, spread, series) in growth {
        let (what, least) = match outcome {
            Outcome::Legal => ("reading and writing", read + write),
            Outcome::Shared => ("reading and the scan", read + scan),
            _ => continue,
        };
        println!(
            "{:<21}{:>4}  {:<10}proved over {what}: {:.2}",
            outcome.name(),
            outcome.number(),
            spread,
            series[3].0 / least
        );
    }
}

/// Microseconds per input, both on the same inputs, in turn.
fn both<T>(inputs: &[T], mut proved: impl FnMut(&T), mut plain: impl FnMut(&T)) -> (f64, f64) {
    let [n, m] = [rounds(inputs, &mut proved), rounds(inputs, &mut plain)];
    let (mut left, mut right) = (Vec::new(), Vec::new());
    // Fewer runs where a single round already fills the time.
    let runs = if n == 1 || m == 1 { RUNS / 3 } else { RUNS };
    for _ in 0..runs {
        left.push(run(inputs, n, &mut proved));
        right.push(run(inputs, m, &mut plain));
    }
    (median(left) / 1000.0, median(right) / 1000.0)
}

/// One line: both on the same inputs. Gives the proved one's time.
fn compare<T>(
    what: &str,
    size: usize,
    inputs: &[T],
    proved: impl FnMut(&T),
    plain: impl FnMut(&T),
) -> f64 {
    let (p, y) = both(inputs, proved, plain);
    row(what, size, p, y);
    p
}

fn row(what: &str, size: usize, proved: f64, plain: f64) {
    let ratio = proved / plain;
    println!("{what:<31}{size:>6}{proved:>13.3}{plain:>13.3}{ratio:>8.2}");
}

/// Microseconds per judgement by the proved, the Rust and the fast judge, in turn.
fn three_judges(settings: &[u8], inputs: &[(Vec<u8>, Vec<u8>)]) -> [f64; 3] {
    let mut lent = [Lent::new(), Lent::new(), Lent::new()];
    let [l0, l1, l2] = &mut lent;
    let mut proved = |(e, a): &(Vec<u8>, Vec<u8>)| {
        black_box(proved::judge(settings, e, a, l0.parts()));
    };
    let mut rust = |(e, a): &(Vec<u8>, Vec<u8>)| {
        black_box(judge::judge(settings, e, a, l1.parts()));
    };
    let mut fast = |(e, a): &(Vec<u8>, Vec<u8>)| {
        black_box(fast::judge(settings, e, a, l2.parts()));
    };
    in_turn(inputs, [&mut proved, &mut rust, &mut fast])
}

/// The fast judge says and writes what the Rust judge does on each of the inputs, and no
/// two of these are the same.
fn assert_fast(settings: &[u8], inputs: &[(Vec<u8>, Vec<u8>)]) {
    let mut lent = [Lent::new(), Lent::new()];
    let [left, right] = &mut lent;
    for (e, a) in inputs {
        let v = judge::judge(settings, e, a, left.parts());
        assert_eq!(fast::judge(settings, e, a, right.parts()), v);
        assert!(left == right);
    }
    let different: HashSet<&(Vec<u8>, Vec<u8>)> = inputs.iter().collect();
    assert_eq!(different.len(), VARIANTS);
}

/// Microseconds per judgement by the proved and by the Rust judge, in turn.
fn judges(settings: &[u8], inputs: &[(Vec<u8>, Vec<u8>)]) -> (f64, f64) {
    let mut lent = [Lent::new(), Lent::new()];
    let [left, right] = &mut lent;
    let mut proved = |(e, a): &(Vec<u8>, Vec<u8>)| {
        black_box(proved::judge(settings, e, a, left.parts()));
    };
    let n = rounds(inputs, &mut proved);
    let mut rust = |(e, a): &(Vec<u8>, Vec<u8>)| {
        black_box(judge::judge(settings, e, a, right.parts()));
    };
    let m = rounds(inputs, &mut rust);
    let (mut left, mut right) = (Vec::new(), Vec::new());
    // Fewer runs where a single round already fills the time.
    let runs = if n == 1 { RUNS / 3 } else { RUNS };
    for _ in 0..runs {
        left.push(run(inputs, n, &mut proved));
        right.push(run(inputs, m, &mut rust));
    }
    (median(left) / 1000.0, median(right) / 1000.0)
}

fn judged(
    name: &str,
    number: u32,
    spread: &str,
    [size, labs]: [usize; 2],
    [proved, rust, fast]: [f64; 3],
) {
    let shape = format!("{name:<21}{number:>4}  {spread:<10}{size:>6}{labs:>6}");
    let [to_rust, to_fast] = [proved / rust, proved / fast];
    println!("{shape}{proved:>13.3}{rust:>13.3}{to_rust:>8.2}{fast:>13.3}{to_fast:>8.2}");
}

/// 10,245 partial ways stand at or before the earliest way for eight needs of different
/// nets, the most that a search over boards of eight entries found.
const LATE_WAY: [u8; 8] = [31, 15, 7, 7, 7, 7, 7, 7];
const LATE_ROUTE: [u8; 8] = [2, 3, 4, 5, 6, 7, 1, 0];
/// 342,399 stand there for seven needs of one net before sload of another.
const LATE_SHARED: [u8; 8] = [31, 15, 15, 15, 15, 15, 15, 15];
const LATE_SHARED_ROUTE: [u8; 8] = [1, 1, 1, 1, 1, 1, 1, 0];
/// Nothing serves sload, the last need: seven needs have 69,280 partial ways where their
/// nets differ, and 2,396,744 where they have one net, the most that there can be without
/// a way.
const NO_WAY: [u8; 8] = [15; 8];

/// The boards with the longest searches that climbing over boards and nets found for
/// TURNS and LONG_NEEDS: no two entries serve the same of what is left.
const LONG: [u8; 8] = [5, 7, 3, 15, 13, 7, 15, 11];
const LONG_LATE: [u8; 8] = [31, 6, 15, 11, 14, 7, 13, 3];

/// Eight needs by the letters of their signals, at their route bytes: of different nets;
/// of one; of one up to aclr, then of another; the last of another; of two that take turns.
const EIGHT_NEEDS: &str = "ABCDEFGH";
const ONE_NET: &str = "AaAaAaAA";
const TWO_NETS: &str = "AaAaAaBB";
const LAST_OTHER: &str = "AaAaAaAB";
const TURNS: &str = "ABABABAB";
const LONG_NEEDS: &str = "AaADADCB";

/// Needs that take over 1,000 tries each on the board of LATE_WAY.
const LATE_NEEDS: [&str; 8] = [
    EIGHT_NEEDS,
    "ABCDEF-H",
    "ABCDE-GH",
    "ABC-EFGH",
    "A-CDEFGH",
    "ABCDE--H",
    "ABC-EF-H",
    "A-CDEF-H",
];

/// Needs with shared nets that take over 40,000 each on the board of LATE_SHARED.
const LATE_SHARED_NEEDS: [&str; 8] = [
    LAST_OTHER, "AaAaAa-B", "AaAaA-AB", "AaA-AaAB", "A-AaAaAB", "AaAaAaBC", "AaAaABAC", "AaABAaAC",
];

/// LABs of two registers, on boards of eight entries that make the search for a way long.
fn search(rng: &mut Rng) {
    let late = LATE_SHARED_NEEDS.repeat(2);
    for (name, entries, list, way) in [
        (
            "search, late way",
            LATE_WAY,
            &[EIGHT_NEEDS][..],
            Some(LATE_ROUTE),
        ),
        ("search, no way", NO_WAY, &[EIGHT_NEEDS], None),
        ("one net, no way", NO_WAY, &[ONE_NET], None),
        ("two nets, no way", NO_WAY, &[TWO_NETS], None),
        ("longest, no way", LONG, &[TURNS], None),
        (
            "two nets, late way",
            LATE_SHARED,
            &[LAST_OTHER],
            Some(LATE_SHARED_ROUTE),
        ),
        (
            "shared, late ways",
            LATE_SHARED,
            &late,
            Some(LATE_SHARED_ROUTE),
        ),
    ] {
        let settings = settings::sheet(&Settings {
            version: 1,
            board: 0,
            entries: entries.to_vec(),
        });
        let mut inputs = Vec::new();
        let mut lent = [Lent::new(), Lent::new()];
        for _ in 0..VARIANTS {
            let s = with_needs(rng, list);
            let lab = s.cells[0].lab();
            let (e, a) = (s.exercise(), s.answer());
            let [left, right] = &mut lent;
            let v = proved::numbers(&judge::judge(&settings, &e, &a, left.parts()));
            let bytes = &left.route()[8 * lab..8 * lab + 8];
            match way {
                Some(wanted) => assert_eq!((v[0], bytes), (0, &wanted[..])),
                None => assert_eq!((v[0], v[2]), (65, lab as u64)),
            }
            assert_eq!(proved::judge(&settings, &e, &a, right.parts()), v);
            assert!(left == right);
            inputs.push((e, a));
        }
        let number = if way.is_some() { 0 } else { 65 };
        assert_fast(&settings, &inputs);
        let each = three_judges(&settings, &inputs);
        let labs = list.len();
        let spread = if labs == 1 { "one LAB" } else { "few LABs" };
        judged(name, number, spread, [2 * labs, labs], each);
    }
}

/// A LAB of two registers for the letters of each list of needs, with nets of its own.
fn with_needs(rng: &mut Rng, list: &[&str]) -> Sheets {
    let mut firsts: Vec<u16> = (0..list.len() as u16).map(|k| 1 + 10 * k).collect();
    rng.shuffle(&mut firsts);
    let mut labs: Vec<usize> = (0..1024).collect();
    rng.shuffle(&mut labs);
    let mut cells = Vec::new();
    for (k, letters) in list.iter().enumerate() {
        let signals: Vec<u16> = letters.bytes().map(|b| signal(b, firsts[k])).collect();
        for j in 0..2 {
            let mut c = Cell::new(REGISTER, labs[k], j);
            for (&role, &v) in ROLES.iter().zip(&signals) {
                // The second signal where there are two.
                if v != 0 && (j == 1 || c.s[CLK + role] == 0) {
                    c.s[CLK + role] = v;
                }
            }
            (c.s[SDATA], c.s[REGOUT]) = (net(0), net(firsts[k] + 8 + j as u16));
            cells.push(c);
        }
    }
    Sheets {
        nets: 1 + 10 * list.len() as u16,
        cells,
        apprentice: 1 + rng.below(1000) as u32,
    }
}

// As many different sheets in turn where a judgement takes long.
const SEARCHES: usize = 8;

/// Judgements that take many tries beside a plain search of the same needs.
fn searches(rng: &mut Rng) {
    println!();
    println!(
        "tries: judgements beside a plain search of the same needs, median of up to {RUNS} runs"
    );
    println!(
        "{:<21}{:>4}{:>6}{:>9}{:>13}{:>13}{:>12}{:>9}{:>8}",
        "outcome",
        "no.",
        "LABs",
        "tries",
        "proved us",
        "search us",
        "ns per try",
        "search",
        "ratio"
    );
    let late = LATE_NEEDS.repeat(2);
    let late_shared = LATE_SHARED_NEEDS.repeat(2);
    for (name, number, entries, list) in [
        ("most tries, refused", 65, NO_WAY, &[EIGHT_NEEDS][..]),
        ("late answer, legal", 0, LATE_WAY, &[EIGHT_NEEDS]),
        ("late answers, legal", 0, LATE_WAY, &late),
        ("one net, refused", 65, NO_WAY, &[ONE_NET]),
        ("two nets, refused", 65, NO_WAY, &[TWO_NETS]),
        ("two nets, legal", 0, LATE_SHARED, &[LAST_OTHER]),
        ("shared nets, legal", 0, LATE_SHARED, &late_shared),
        ("longest, refused", 65, LONG, &[TURNS]),
        ("longest, legal", 0, LONG_LATE, &[LONG_NEEDS]),
    ] {
        let settings = settings::sheet(&Settings {
            version: 1,
            board: 0,
            entries: entries.to_vec(),
        });
        let needs = |letters: &&str| {
            let signals = letters.bytes().map(|b| signal(b, 0));
            let needs: Needs = ROLES.into_iter().zip(signals).collect();
            try_forms::on_board(needs.iter().filter(|need| need.1 != 0), &entries)
        };
        let needs: Vec<Vec<Need>> = list.iter().map(needs).collect();
        let tries: u32 = needs.iter().map(|n| try_forms::searched(n).0).sum();
        let mut lent = Lent::new();
        let mut inputs = Vec::new();
        for _ in 0..SEARCHES {
            let s = with_needs(rng, list);
            let (e, a) = (s.exercise(), s.answer());
            assert_eq!(proved::judge(&settings, &e, &a, lent.parts())[0], number);
            assert_eq!(lent.tries().iter().sum::<u32>(), tries);
            inputs.push((e, a, needs.clone()));
        }
        let (proved, search) = both(
            &inputs,
            |(e, a, _)| {
                black_box(proved::judge(&settings, e, a, lent.parts()));
            },
            |(_, _, list)| {
                for needs in list {
                    let (mut held, mut way, mut tries) = (NOT_HELD, [0; 8], 0);
                    black_box(try_forms::search(needs, &mut held, &mut way, &mut tries));
                    black_box((way, tries));
                }
            },
        );
        let each = |us: f64| us * 1000.0 / tries as f64;
        println!(
            "{name:<21}{number:>4}{:>6}{tries:>9}{proved:>13.3}{search:>13.3}{:>12.2}{:>9.2}{:>8.2}",
            list.len(),
            each(proved),
            each(search),
            proved / search
        );
    }
}

/// Reads by a LAB of 32 cells: none, at the data ports of its combinational cells,
/// at datain, clk, ena and aclr of its registers too, and at all ports. A cell with
/// a read at datad has no carry.
const READS: [usize; 4] = [0, 64, 128, 176];

/// LABs with as many registers as combinational cells, each cell with an output. What
/// is connected reads one of 38 nets from outside the LAB, six of which are for the
/// control ports, or a net that is driven inside, about as often.
fn connected(rng: &mut Rng, labs: usize, pairs: usize, reads: usize) -> Sheets {
    const OUTSIDE: u16 = 38;
    let mut s = Sheets {
        nets: OUTSIDE,
        cells: Vec::new(),
        apprentice: 1 + rng.below(1000) as u32,
    };
    let step = 1024 / labs;
    let shift = rng.below(step);
    for k in 0..labs {
        let lab = k * step + shift;
        let inside = s.nets;
        s.nets += 2 * pairs as u16;
        let mut data: Vec<u16> = (6..OUTSIDE).map(net).collect();
        data.extend((0..32).map(|j| net(inside + j % (2 * pairs as u16))));
        rng.shuffle(&mut data);
        let mut next = data.iter().cycle();
        let mut datum = || *next.next().unwrap();
        for j in 0..pairs {
            let mut c = Cell::new(COMBINATIONAL, lab, j);
            if reads >= READS[1] {
                for port in [DATAA, DATAB, DATAC, DATAD] {
                    c.s[port] = datum();
                }
            }
            c.s[COMBOUT] = net(inside + j as u16);
            s.cells.push(c);
            let mut r = Cell::new(REGISTER, lab, j);
            if reads >= READS[2] {
                r.s[DATAIN] = datum();
                (r.s[CLK], r.s[ENA], r.s[ACLR]) = (net(j as u16 % 2), net(2), net(3));
            }
            if reads >= READS[3] {
                (r.s[SCLR], r.s[SLOAD], r.s[SDATA]) = (net(4), net(5), datum());
            }
            r.s[REGOUT] = net(inside + (pairs + j) as u16);
            s.cells.push(r);
        }
    }
    rng.shuffle(&mut s.cells);
    s
}

/// The count of nets into a LAB: full LABs by the number of reads, LABs of six cells,
/// which are the smallest whose nets are counted, and the check of one full LAB.
fn nets(rng: &mut Rng) {
    println!();
    println!(
        "nets into a LAB: legal LABs by their cells and their reads, median of up to {RUNS} runs"
    );
    println!(
        "{:<19}{:>6}{:>6}{:>8}{:>13}{:>13}{:>8}{:>13}{:>10}",
        "call", "cells", "LABs", "reads", "proved us", "Rust us", "ratio", "ns per read", "Rust"
    );
    let line =
        |call: &str, [cells, labs, reads]: [usize; 3], (p, r): (f64, f64), none: (f64, f64)| {
            let ratio = p / r;
            let each = |t: f64, t0: f64| {
                if reads == 0 || t0 == 0.0 {
                    "-".to_string()
                } else {
                    format!("{:.2}", (t - t0) * 1000.0 / (reads * labs) as f64)
                }
            };
            println!(
                "{call:<19}{cells:>6}{labs:>6}{reads:>8}{p:>13.3}{r:>13.3}{ratio:>8.2}{:>13}{:>10}",
                each(p, none.0),
                each(r, none.1)
            );
        };
    for (labs, pairs) in [(1, 16), (16, 16), (85, 3)] {
        let mut none = (0.0, 0.0);
        for reads in READS {
            let mut inputs = Vec::new();
            let mut lent = Lent::new();
            for _ in 0..VARIANTS {
                let s = connected(rng, labs, pairs, reads);
                let (e, a) = (s.exercise(), s.answer());
                let v = proved::numbers(&judge::judge(&HOUSE, &e, &a, lent.parts()));
                assert_eq!((v[0], s.cells.len()), (0, 2 * labs * pairs));
                assert_eq!(proved::judge(&HOUSE, &e, &a, lent.parts()), v);
                inputs.push((e, a));
            }
            let each = judges(&HOUSE, &inputs);
            let shape = [2 * pairs * labs, labs, reads * pairs / 16];
            line("judgement", shape, each, none);
            if reads == 0 {
                none = each;
            }
            if labs > 1 {
                continue;
            }
            let lists: Vec<Vec<CellRecord>> = inputs
                .iter()
                .map(|(e, _)| e[9..].chunks_exact(24).map(plain::record).collect())
                .collect();
            for l in &lists {
                assert_eq!(proved::check_lab(&HOUSE, l).0, 0);
            }
            let (p, r) = both(
                &lists,
                |l| {
                    black_box(proved::check_lab(&HOUSE, l));
                },
                |l| {
                    black_box(plain::check_list(&HOUSE, l));
                },
            );
            line("check of one LAB", shape, (p, r), (0.0, 0.0));
        }
    }
}

/// An exercise, answers to it, and the class sheet of these.
struct Class {
    exercise: Vec<u8>,
    answers: Vec<Vec<u8>>,
    sheet: Vec<u8>,
}

impl Class {
    fn new(exercise: Vec<u8>, answers: Vec<Vec<u8>>) -> Class {
        Class {
            sheet: class::sheet(&answers),
            exercise,
            answers,
        }
    }

    /// Legal answers that have the same cells together, in other LABs each time.
    fn legal(rng: &mut Rng, size: usize, many: bool, count: usize) -> Class {
        let mut s = sheets(rng, size, many, Outcome::Legal);
        let exercise = s.exercise();
        let mut labs: Vec<usize> = (0..1024).collect();
        let mut answer = || {
            rng.shuffle(&mut labs);
            for c in &mut s.cells {
                let lab = labs[c.lab()];
                (c.x, c.y) = ((lab % 32) as u8, (lab / 32) as u8);
            }
            s.apprentice += 1;
            s.answer()
        };
        let answers = (0..count).map(|_| answer()).collect();
        Class::new(exercise, answers)
    }

    /// The sample class in any order; the first ones again where more are wanted.
    fn sample(rng: &mut Rng, count: usize) -> Class {
        let mut answers = SAMPLE_ANSWERS.map(|a| a.to_vec());
        rng.shuffle(&mut answers);
        let answers = answers.into_iter().cycle().take(count).collect();
        Class::new(SAMPLE_EXERCISE.to_vec(), answers)
    }
}

macro_rules! sample_answers {
    ($($number:literal)*) => {
        [$(include_bytes!(concat!("../../samples/class/answer-", $number, ".lxa"))),*]
    };
}

const SAMPLE_EXERCISE: &[u8] = include_bytes!("../../samples/class/exercise.lxe");
const SAMPLE_ANSWERS: [&[u8]; 18] = sample_answers!(
    "01" "02" "03" "04" "05" "06" "07" "08" "09" "10" "11" "12" "13" "14" "15" "16" "17" "18"
);

const NO_ROW: Row = Row {
    number: 0,
    cell: 0,
    lab: 0,
    apprentice: 0,
};

// As many different classes in turn.
const CLASSES: usize = 8;

// Nanoseconds; a work whose single round takes longer has only so many runs.
const LONG_ROUND: f64 = 50e6;
const LONG_RUNS: usize = 3;

/// Microseconds per input of three works on the same inputs, in turn.
fn in_turn<T>(inputs: &[T], mut works: [&mut dyn FnMut(&T); 3]) -> [f64; 3] {
    let n = works.each_mut().map(|work| rounds(inputs, work));
    let mut each = [Vec::new(), Vec::new(), Vec::new()];
    // Fewer runs where a single round already fills the time.
    let runs = if n[0] == 1 { RUNS / 3 } else { RUNS };
    for k in 0..runs {
        for i in 0..3 {
            if k < LONG_RUNS || each[i][0] * (inputs.len() as f64) < LONG_ROUND {
                each[i].push(run(inputs, n[i], &mut works[i]));
            }
        }
    }
    each.map(|times| median(times) / 1000.0)
}

/// Microseconds for a class in one call, in single calls, and by the Rust judge, in
/// turn.
fn mark_times(classes: &[Class]) -> [f64; 3] {
    let mut rows = [NO_ROW; MOST];
    let mut lent = [Lent::new(), Lent::new()];
    let [left, right] = &mut lent;
    let mut whole = |c: &Class| {
        black_box(proved::mark_class(&HOUSE, &c.exercise, &c.sheet, &mut rows));
    };
    let mut singles = |c: &Class| {
        for a in &c.answers {
            black_box(proved::judge(&HOUSE, &c.exercise, a, left.parts()));
        }
    };
    let mut rust = |c: &Class| {
        for a in &c.answers {
            black_box(judge::judge(&HOUSE, &c.exercise, a, right.parts()));
        }
    };
    in_turn(classes, [&mut whole, &mut singles, &mut rust])
}

/// All three say the same of the class.
fn assert_rows(c: &Class) {
    let mut rows = [NO_ROW; MOST];
    let mut lent = Lent::new();
    let told = proved::mark_class(&HOUSE, &c.exercise, &c.sheet, &mut rows);
    assert_eq!(told, (0, c.answers.len()));
    for (a, row) in c.answers.iter().zip(&rows) {
        assert_eq!(*row, proved::row(&HOUSE, &c.exercise, a, lent.parts()));
        assert_eq!(*row, class::row_of(&HOUSE, &c.exercise, a, lent.parts()));
    }
}

/// A class of eighteen and one of 32 beside as many single calls.
fn classes(rng: &mut Rng) {
    println!();
    println!("time per class, median of up to {RUNS} runs over {CLASSES} classes");
    println!(
        "{:<18}{:>6}{:>8}{:>13}{:>13}{:>13}{:>9}{:>9}",
        "class", "cells", "answers", "class us", "singles us", "Rust us", "/singles", "/Rust"
    );
    type Make = fn(&mut Rng, usize) -> Class;
    let kinds: [(&str, Make); 4] = [
        ("legal, one LAB", |r, n| Class::legal(r, 8, false, n)),
        ("legal, few LABs", |r, n| Class::legal(r, 512, false, n)),
        ("legal, many LABs", |r, n| Class::legal(r, 512, true, n)),
        ("sample class", Class::sample),
    ];
    for (what, make) in kinds {
        for count in [18, MOST] {
            let list: Vec<Class> = (0..CLASSES).map(|_| make(rng, count)).collect();
            list.iter().for_each(assert_rows);
            let cells = plain::word(&list[0].exercise, 7);
            let [whole, singles, rust] = mark_times(&list);
            println!(
                "{what:<18}{cells:>6}{count:>8}{whole:>13.3}{singles:>13.3}{rust:>13.3}{:>9.2}{:>9.2}",
                whole / singles,
                whole / rust
            );
        }
    }
}

const NO_CREDIT: Credit = Credit {
    apprentice: 0,
    minutes: 0,
};

/// So many entries by eighteen apprentices, in the order of their openings: each up to
/// four hours in the day time, at one of three logins.
fn class_week(rng: &mut Rng, count: usize) -> Vec<Entry> {
    let mut list = Vec::with_capacity(count);
    for _ in 0..count {
        let opening = (1440 * rng.below(7) + rng.range(420, 1080)) as u16;
        // A few are closed as soon as they are opened.
        let long = rng.range(0, 240) * (rng.below(50) != 0) as usize;
        list.push(Entry {
            apprentice: rng.range(101, 118) as u32,
            verdict: rng.pick(&[0, 0, 0, 60, 61, 64]),
            opening,
            closing: opening + long as u16,
            login: rng.range(1, 3) as u32,
        });
    }
    list.sort_by_key(|e| e.opening);
    list
}

/// So many entries by 64 apprentices with any numbers, as many by each, in any order.
fn by_all(rng: &mut Rng, count: usize, minutes: fn(&mut Rng) -> [u16; 2]) -> Vec<Entry> {
    let numbers: Vec<u32> = (0..APPRENTICES).map(|_| rng.next() as u32 | 1).collect();
    let mut list = Vec::with_capacity(count);
    for i in 0..count {
        let [opening, closing] = minutes(rng);
        list.push(Entry {
            apprentice: numbers[i % APPRENTICES],
            verdict: 0,
            opening,
            closing,
            login: rng.pick(&numbers),
        });
    }
    rng.shuffle(&mut list);
    list
}

fn any_minutes(rng: &mut Rng) -> [u16; 2] {
    let last = WEEK as usize;
    let opening = rng.below(last);
    [opening, rng.range(opening + 1, last)].map(|minute| minute as u16)
}

/// Microseconds for a log by the library, by the plain program and by the fast one.
fn log_times(logs: &[Vec<u8>]) -> [f64; 3] {
    let mut rows = [[NO_CREDIT; APPRENTICES]; 3];
    let mut numbers = [[0u16; ENTRIES]; 3];
    for log in logs {
        let proved = proved::minutes(log, &mut rows[0], &mut numbers[0]);
        assert_eq!(proved.0, 0);
        assert_eq!(minutes::fill(log, &mut rows[1], &mut numbers[1]), proved);
        assert_eq!(sweep::fill(log, &mut rows[2], &mut numbers[2]), proved);
        assert!(rows[1] == rows[0] && rows[2] == rows[0]);
        assert!(numbers[1] == numbers[0] && numbers[2] == numbers[0]);
    }
    let [r0, r1, r2] = &mut rows;
    let [n0, n1, n2] = &mut numbers;
    let mut proved = |log: &Vec<u8>| {
        black_box(proved::minutes(log, r0, n0));
    };
    let mut plain = |log: &Vec<u8>| {
        black_box(minutes::fill(log, r1, n1));
    };
    let mut fast = |log: &Vec<u8>| {
        black_box(sweep::fill(log, r2, n2));
    };
    in_turn(logs, [&mut proved, &mut plain, &mut fast])
}

/// The minutes of a log beside a plain program, which marks every minute, and one that
/// sorts, and how they grow with the number of entries.
fn logs(rng: &mut Rng) {
    println!();
    println!("time per log, median of up to {RUNS} runs over {VARIANTS} logs");
    println!(
        "{:<18}{:>8}{:>13}{:>12}{:>12}{:>12}{:>9}{:>9}",
        "log", "entries", "apprentices", "proved us", "plain us", "fast us", "/plain", "/fast"
    );
    type Make = fn(&mut Rng, usize) -> Vec<Entry>;
    let random: Make = |r, n| by_all(r, n, any_minutes);
    let kinds: [(&str, usize, usize, Make); 6] = [
        ("class, one week", 300, 18, class_week),
        ("whole weeks", ENTRIES, APPRENTICES, |r, n| {
            by_all(r, n, |_| [0, WEEK])
        }),
        ("random", 128, APPRENTICES, random),
        ("random", 256, APPRENTICES, random),
        ("random", 512, APPRENTICES, random),
        ("random", ENTRIES, APPRENTICES, random),
    ];
    let mut series = Vec::new();
    for (what, count, people, make) in kinds {
        let lists: Vec<Vec<Entry>> = (0..VARIANTS).map(|_| make(rng, count)).collect();
        for list in &lists {
            assert_eq!(minutes::apprentices(list).len(), people);
        }
        let logs: Vec<Vec<u8>> = lists.iter().map(|list| minutes::log(list)).collect();
        let [proved, plain, fast] = log_times(&logs);
        println!(
            "{what:<18}{count:>8}{people:>13}{proved:>12.3}{plain:>12.3}{fast:>12.3}{:>9.2}{:>9.2}",
            proved / plain,
            proved / fast
        );
        series.push([proved, plain, fast]);
    }
    println!();
    println!("growth: time at twice the entries over time before (2 is linear, 4 is square)");
    println!(
        "{:<18}{:>11}{:>12}{:>14}{:>19}",
        "random", "128 to 256", "256 to 512", "512 to 1,024", "ns/entry at 1,024"
    );
    for (i, who) in ["proved", "plain", "fast"].into_iter().enumerate() {
        let t: Vec<f64> = series[2..].iter().map(|times| times[i]).collect();
        println!(
            "{who:<18}{:>11.2}{:>12.2}{:>14.2}{:>19.1}",
            t[1] / t[0],
            t[2] / t[1],
            t[3] / t[2],
            t[3] * 1000.0 / ENTRIES as f64
        );
    }
}

fn main() {
    let mut rng = Rng::new(1);
    let mut lent = Lent::new();
    let mut growth = Vec::new();
    println!("time per judgement, median of up to {RUNS} runs over {VARIANTS} pairs of sheets");
    println!(
        "{:<21}{:>4}  {:<10}{:>6}{:>6}{:>13}{:>13}{:>8}{:>13}{:>8}",
        "outcome",
        "no.",
        "spread",
        "cells",
        "LABs",
        "proved us",
        "Rust us",
        "ratio",
        "fast us",
        "ratio"
    );
    for outcome in [
        Outcome::Legal,
        Outcome::NoApprentice,
        Outcome::Shared,
        Outcome::Clocks,
        Outcome::NoWay,
    ] {
        for many in [false, true] {
            let spread = if many { "many LABs" } else { "few LABs" };
            let mut series = Vec::new();
            for size in SIZES {
                let mut inputs = Vec::new();
                let mut labs = 0;
                for _ in 0..VARIANTS {
                    let s = sheets(&mut rng, size, many, outcome);
                    let mut l: Vec<usize> = s.cells.iter().map(|c| c.lab()).collect();
                    l.sort_unstable();
                    l.dedup();
                    labs = l.len();
                    let (e, a) = (s.exercise(), s.answer());
                    let v = proved::numbers(&judge::judge(&HOUSE, &e, &a, lent.parts()));
                    let highest = if v[0] >= 60 {
                        *l.last().unwrap() as u32
                    } else {
                        65535
                    };
                    assert_eq!(s.cells.len(), size);
                    assert_eq!((v[0], v[2]), (outcome.number() as u64, highest as u64));
                    if outcome == Outcome::Shared {
                        assert_eq!(v[1], size as u64 - 1);
                    }
                    assert_eq!(proved::judge(&HOUSE, &e, &a, lent.parts()), v);
                    inputs.push((e, a));
                }
                assert_fast(&HOUSE, &inputs);
                let each = three_judges(&HOUSE, &inputs);
                judged(outcome.name(), outcome.number(), spread, [size, labs], each);
                series.push((each[0], each[1]));
            }
            growth.push((outcome, spread, series));
        }
    }
    search(&mut rng);

    println!();
    println!("growth: time at four times the cells over time before (4 is linear, 16 is square)");
    println!(
        "{:<21}{:>4}  {:<10}{:<11}{:>9}{:>11}{:>12}{:>16}",
        "outcome", "no.", "spread", "judge", "8 to 32", "32 to 128", "128 to 512", "ns/cell at 512"
    );
    for (outcome, spread, series) in &growth {
        let proved: Vec<f64> = series.iter().map(|s| s.0).collect();
        let rust: Vec<f64> = series.iter().map(|s| s.1).collect();
        for (who, t) in [("proved", proved), ("Rust", rust)] {
            println!(
                "{:<21}{:>4}  {:<10}{:<11}{:>9.2}{:>11.2}{:>12.2}{:>16.1}",
                outcome.name(),
                outcome.number(),
                spread,
                who,
                t[1] / t[0],
                t[2] / t[1],
                t[3] / t[2],
                t[3] * 1000.0 / 512.0
            );
        }
    }
    searches(&mut rng);
    nets(&mut rng);
    bounds(&mut rng, &growth);
    forms(&mut rng);
    classes(&mut rng);
    logs(&mut rng);
}
