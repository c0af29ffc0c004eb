//! Judges seeded pairs of sheets, each on a board, by the proved judge, by the Rust
//! judge and by the fast one, reads them by the readers, checks the list of every LAB,
//! writes them and others by the writers, marks classes, credits the minutes of logs,
//! counts the tries of the search, and stops at the first difference.
//! Arguments: number of pairs (200000), seed (1).

mod boards;
mod both;
mod class;
mod class_examples;
mod class_sheets;
mod crediting;
mod fast;
mod faults;
mod forms;
mod generate;
mod judge;
mod lent;
mod log_cases;
mod log_examples;
mod logs;
mod marking;
mod minutes;
mod nets;
mod plain;
mod proved;
mod settings;
mod sync;
mod tries;
mod try_cases;
mod try_examples;
mod try_forms;
mod try_sheets;
mod trying;
mod writer;
mod writes;

use both::{describe, Both, Call};
use generate::*;
use lent::{Lent, GUARD};
use settings::HOUSE;
use std::collections::HashSet;
use std::fmt::Write;
use std::process::exit;

/// One pair of so many gets a class.
const PAIRS_TO_A_CLASS: usize = 2;
/// And one of so many comes with a log.
const PAIRS_TO_A_LOG: usize = 2;
/// And one of so many with sheets for the search, a table, and a list of another length.
const PAIRS_TO_A_SEARCH: usize = 4;
const NO_NEEDS: [u8; 8] = [255; 8];

fn hex(title: &str, b: &[u8]) -> String {
    let mut t = format!("{title}, {} bytes\n", b.len());
    for (i, row) in b.chunks(16).enumerate() {
        let _ = write!(t, "  {:05x} ", 16 * i);
        for v in row {
            let _ = write!(t, " {v:02x}");
        }
        t.push('\n');
    }
    t
}

/// What a settled example has to give.
enum Expect {
    /// Legal, with the route bytes of these LABs; all others have eight 255s.
    Legal(Vec<(usize, [u8; 8])>),
    /// Number, cell, LAB, and the culprit's sheet, start and size.
    Refused(u64, u64, u64, [u64; 3]),
}

struct Example {
    name: String,
    settings: Vec<u8>,
    sheets: Sheets,
    expect: Expect,
}

const NO: u64 = 65535;

/// Distinct registers in one LAB, each with its own regout net after `nets`.
fn registers(nets: u16, lab: usize, ports: &[&[(usize, u16)]]) -> Sheets {
    let mut s = Sheets {
        nets: nets + ports.len() as u16,
        cells: Vec::new(),
        apprentice: 7,
    };
    for (i, list) in ports.iter().enumerate() {
        let mut c = Cell::new(REGISTER, lab, i);
        for &(port, v) in *list {
            c.s[port] = v;
        }
        c.s[REGOUT] = net(nets + i as u16);
        s.cells.push(c);
    }
    s
}

/// (sload, sclr) of two registers, and the entries of sclr and sload where they keep
/// 63: the six lines of table 4 of source 000 with "unconnected or GND" in every mix,
/// then what else M-101 says. All have nets 0 to 2.
fn sync_pairs() -> Vec<((u16, u16), (u16, u16), Option<[u8; 2]>)> {
    let (a, b, c) = (net(0), net(1), net(2));
    let free = [0, GND];
    let whole = Some([4, 3]);
    let mut list = vec![
        ((a, b), (a, b), whole),
        ((a, b), (a, c), None),
        ((a, b), (b, a), None),
    ];
    list.extend([(0, 0), (0, GND), (GND, 0), (GND, GND)].map(|p| ((a, b), p, whole)));
    list.extend(free.map(|v| ((a, b), (a, v), None)));
    list.extend(free.map(|v| ((a, b), (v, b), None)));
    // Unconnected and GND are one value; VCC and an inverse are others.
    list.extend([
        ((a, 0), (a, GND), Some([255, 3])),
        ((0, b), (GND, b), Some([4, 255])),
        ((VCC, 0), (VCC, GND), Some([255, 255])),
        ((0, VCC), (GND, GND), Some([255, 255])),
        ((a, VCC), (a, VCC), Some([255, 3])),
        ((a, 0), (0, b), None),
        ((VCC, 0), (0, VCC), None),
        ((a, b), (a + 1, b), None),
        ((a, b), (a, b + 1), None),
    ]);
    list.extend(free.map(|v| ((VCC, b), (v, b), None)));
    list.extend(free.map(|v| ((a, VCC), (a, v), None)));
    list
}

fn examples() -> Vec<Example> {
    let mut list = Vec::new();
    let mut add = |name: &str, sheets: Sheets, expect: Expect| {
        list.push(Example {
            name: name.to_string(),
            settings: HOUSE.to_vec(),
            sheets,
            expect,
        })
    };
    // The LAB rule in the LAB of cell 0.
    let lab_rule = |number: u64, lab: u64| Expect::Refused(number, NO, lab, [1, 11, 4]);

    // The listing in full.
    let mut r = Cell::new(REGISTER, 34, 0);
    (r.s[DATAIN], r.s[CLK], r.s[ACLR], r.s[REGOUT]) = (net(0), net(1), net(2), net(3));
    let mut c = Cell::new(COMBINATIONAL, 34, 0);
    (c.s[DATAA], c.s[COMBOUT]) = (net(3), net(0));
    let listing = Sheets {
        nets: 4,
        cells: vec![r, c],
        apprentice: 7,
    };
    add(
        "listing",
        listing,
        Expect::Legal(vec![(34, [0, 255, 255, 255, 1, 255, 255, 255])]),
    );

    add(
        "no cells",
        Sheets {
            nets: 0,
            cells: vec![],
            apprentice: 7,
        },
        Expect::Legal(vec![]),
    );

    // P1 to P8: two pairs leave room for none, one pair for one more.
    let (a, b, c, d, e, f) = (net(0), net(1), net(2), net(3), net(4), net(5));
    let pairs: [[(u16, u16); 2]; 8] = [
        [(a, b), (c, d)],
        [(a, b), (a, c)],
        [(a, c), (b, c)],
        [(a, b), (a, b)],
        [(a, 0), (b, 0)],
        [(a, 0), (a, 0)],
        [(a, 0), (a, b)],
        [(a, b), (0, 0)],
    ];
    let counts = [2, 2, 2, 1, 2, 1, 2, 2];
    // With two clk and two ena the entries are 0, 1 and 2, 3; fewer take the first.
    let routes: [[u8; 8]; 8] = [
        [0, 1, 2, 3, 255, 255, 255, 255],
        [0, 255, 2, 3, 255, 255, 255, 255],
        [0, 1, 2, 255, 255, 255, 255, 255],
        [0, 255, 2, 255, 255, 255, 255, 255],
        [0, 1, 255, 255, 255, 255, 255, 255],
        [0, 255, 255, 255, 255, 255, 255, 255],
        [0, 255, 2, 255, 255, 255, 255, 255],
        [0, 255, 2, 255, 255, 255, 255, 255],
    ];
    for (k, p) in pairs.iter().enumerate() {
        let lab = 100 + k;
        let port = |&(clk, ena): &(u16, u16)| [(CLK, clk), (ENA, ena)];
        let own: Vec<[(usize, u16); 2]> = p.iter().map(port).collect();
        let more = [[(CLK, a), (ENA, e)], [(CLK, a), (ENA, f)]];
        let with = |n: usize| {
            let all: Vec<&[(usize, u16)]> = own.iter().chain(&more[..n]).map(|x| &x[..]).collect();
            registers(6, lab, &all)
        };
        add(
            &format!("P{}", k + 1),
            with(0),
            Expect::Legal(vec![(lab, routes[k])]),
        );
        let room = 2 - counts[k];
        if room == 1 {
            let ena = if k == 3 { 3 } else { 255 };
            let route = [0, 255, 2, ena, 255, 255, 255, 255];
            add(
                &format!("P{} and one pair", k + 1),
                with(1),
                Expect::Legal(vec![(lab, route)]),
            );
        }
        add(
            &format!("P{} and a pair too many", k + 1),
            with(room + 1),
            lab_rule(61, lab as u64),
        );
    }
    let slip = registers(
        4,
        5,
        &[
            &[(CLK, a), (ENA, b)],
            &[(CLK, a), (ENA, c)],
            &[(CLK, d), (ENA, b)],
        ],
    );
    add(
        "two clocks, two enables, three pairs",
        slip,
        lab_rule(61, 5),
    );

    // P9 to P12.
    let n = net;
    let p9 = registers(3, 0, &[&[(CLK, n(0)), (ENA, n(1)), (ACLR, n(2))]]);
    add(
        "P9",
        p9,
        Expect::Legal(vec![(0, [0, 255, 2, 255, 1, 255, 255, 255])]),
    );
    let p10 = registers(
        4,
        1023,
        &[&[(CLK, n(0)), (ACLR, n(2))], &[(CLK, n(1)), (ACLR, n(3))]],
    );
    add(
        "P10",
        p10,
        Expect::Legal(vec![(1023, [0, 2, 255, 255, 1, 4, 255, 255])]),
    );
    let p11 = registers(
        6,
        31,
        &[
            &[(CLK, n(0)), (ENA, n(2)), (ACLR, n(4))],
            &[(CLK, n(1)), (ENA, n(3)), (ACLR, n(5))],
        ],
    );
    add("P11", p11, lab_rule(65, 31));
    let p12 = registers(
        7,
        992,
        &[
            &[
                (CLK, n(0)),
                (ACLR, n(2)),
                (SCLR, n(4)),
                (SLOAD, n(5)),
                (SDATA, n(6)),
            ],
            &[(CLK, n(1)), (ACLR, n(3))],
        ],
    );
    add(
        "P12",
        p12,
        Expect::Legal(vec![(992, [0, 2, 255, 255, 1, 4, 5, 3])]),
    );
    let apart = registers(
        7,
        992,
        &[
            &[(CLK, n(0)), (ACLR, n(2)), (SCLR, n(4))],
            &[(CLK, n(1)), (ACLR, n(3)), (SLOAD, n(5)), (SDATA, n(6))],
        ],
    );
    add(
        "P12 but for sclr and sload on two registers",
        apart,
        lab_rule(63, 992),
    );

    for (k, (first, second, entries)) in sync_pairs().into_iter().enumerate() {
        let port = |(sload, sclr)| [(CLK, n(3)), (SLOAD, sload), (SCLR, sclr), (SDATA, n(4))];
        let lab = 200 + k;
        let expect = match entries {
            Some([sclr, sload]) => {
                Expect::Legal(vec![(lab, [0, 255, 255, 255, 255, 255, sclr, sload])])
            }
            None => lab_rule(63, lab as u64),
        };
        add(
            &format!("(sload, sclr) {first:?} beside {second:?}"),
            registers(5, lab, &[&port(first), &port(second)]),
            expect,
        );
    }

    let three = registers(1, 40, &[&[(CLK, net(0))], &[(CLK, net(0) + 1)], &[]]);
    add("clocks A, inverse of A and GND", three, lab_rule(60, 40));

    // 38 and 39 nets in, spread over combinational cells of one LAB.
    for reads in [38, 39] {
        let mut cells = Vec::new();
        for i in 0..10 {
            let mut c = Cell::new(COMBINATIONAL, 77, i);
            for port in DATAA..=DATAD {
                let k = 4 * i + port;
                if k < reads {
                    c.s[port] = net(k as u16) + (k % 2) as u16;
                }
            }
            cells.push(c);
        }
        let s = Sheets {
            nets: 39,
            cells,
            apprentice: 7,
        };
        let expect = if reads == 38 {
            Expect::Legal(vec![(77, NO_NEEDS)])
        } else {
            lab_rule(64, 77)
        };
        add(&format!("{reads} nets in"), s, expect);
    }

    for le in [15, 16] {
        let mut cells = vec![
            Cell::new(COMBINATIONAL, 3, 0),
            Cell::new(COMBINATIONAL, 3, 1),
        ];
        cells[1].le = le;
        let s = Sheets {
            nets: 0,
            cells,
            apprentice: 7,
        };
        let expect = match le {
            15 => Expect::Legal(vec![(3, NO_NEEDS)]),
            _ => Expect::Refused(26, 1, NO, [1, 15, 4]),
        };
        add(&format!("LE {le}"), s, expect);
    }

    for n in [512, 513] {
        let cells = (0..n)
            .map(|i| Cell::new(COMBINATIONAL, i / 16, i % 16))
            .collect();
        let s = Sheets {
            nets: 1024,
            cells,
            apprentice: 7,
        };
        let expect = match n {
            512 => Expect::Legal(vec![]),
            _ => Expect::Refused(13, NO, NO, [0, 0, 9]),
        };
        add(&format!("{n} cells"), s, expect);
    }
    list.extend([38, 39].map(nets_at_registers));
    list.extend(boards::examples());
    list
}

/// Sixteen registers and no other cell with so many nets in, 38 or 39: each has two data
/// nets of its own, and the needs of P12 and an ena are the rest.
fn nets_at_registers(reads: u16) -> Example {
    let one = |i: u16| {
        let ena = if reads == 39 { net(38) } else { 0 };
        let (clk, aclr) = (net(32 + i % 2), net(34 + i % 2));
        [
            (DATAIN, net(i)),
            (SDATA, net(16 + i)),
            (CLK, clk),
            (ENA, ena),
            (ACLR, aclr),
            (SCLR, net(36)),
            (SLOAD, net(37)),
        ]
    };
    let ports: Vec<[(usize, u16); 7]> = (0..16).map(one).collect();
    let ports: Vec<&[(usize, u16)]> = ports.iter().map(|p| &p[..]).collect();
    Example {
        name: format!("{reads} nets in at registers"),
        settings: HOUSE.to_vec(),
        sheets: registers(39, 78, &ports),
        expect: match reads {
            38 => Expect::Legal(vec![(78, [0, 2, 255, 255, 1, 4, 5, 3])]),
            _ => Expect::Refused(64, NO, 78, [1, 11, 4]),
        },
    }
}

fn run_examples(both: &mut Both, rng: &mut Rng, pattern: &[u8]) {
    let all = examples();
    let mut seen = forms::Counts::new();
    for x in &all {
        let (e, a) = (x.sheets.exercise(), x.sheets.answer());
        let got = both
            .run(&Call::right(&x.settings, &e, &a), pattern)
            .unwrap_or_else(|wrong| {
                print!("example {}: {wrong}", x.name);
                exit(1);
            });
        let end = a.len() as u64;
        let (want, routes) = match &x.expect {
            Expect::Legal(routes) => (
                [0, NO, NO, x.sheets.apprentice as u64, 1, end, 0],
                Some(routes),
            ),
            Expect::Refused(number, cell, lab, [sheet, start, size]) => {
                let apprentice = match number {
                    1..=23 | 70..=75 => 0,
                    _ => x.sheets.apprentice,
                };
                (
                    [
                        *number,
                        *cell,
                        *lab,
                        apprentice as u64,
                        *sheet,
                        *start,
                        *size,
                    ],
                    None,
                )
            }
        };
        let mut bytes = pattern[GUARD..GUARD + judge::ROUTE].to_vec();
        if let Some(routes) = routes {
            bytes.fill(255);
            for (lab, r) in routes {
                bytes[8 * lab..8 * lab + 8].copy_from_slice(r);
            }
        }
        if got != want || both.route() != bytes {
            println!(
                "example {}\nwanted:    {}\nboth gave: {}",
                x.name,
                describe(&want),
                describe(&got)
            );
            if let Some(i) = (0..bytes.len()).find(|&i| both.route()[i] != bytes[i]) {
                println!(
                    "route byte {i}: wanted {}, got {}",
                    bytes[i],
                    both.route()[i]
                );
            }
            exit(1);
        }
        let said = said_of(&got);
        if let Err(wrong) = forms::labs(&mut seen, rng, &x.settings, &e, &a, both.route(), &said) {
            print!("example {}, list check: {wrong}", x.name);
            exit(1);
        }
    }
    let house = proved::house_settings();
    if house != HOUSE {
        print!("{}", hex("other house settings", &house));
        exit(1);
    }
    println!(
        "{} settled examples agree, and the lists of {} of their LABs",
        all.len(),
        seen.judged
    );
}

fn said_of(n: &[u64; 7]) -> forms::Said {
    forms::Said {
        number: n[0] as u8,
        cell: n[1] as u16,
        lab: n[2] as u16,
    }
}

/// The readers on both sheets, the list of each LAB, and a list of no LAB on the
/// same board and often on another. `alone` is said of the two sheets alone.
fn compare_forms(
    seen: &mut forms::Counts,
    rng: &mut Rng,
    case: &Case,
    [n, alone]: [&[u64; 7]; 2],
    route: &[u8],
) -> Result<(), String> {
    let (exercise, answer) = (&case.exercise, &case.answer);
    forms::readers(seen, rng, exercise, answer, &said_of(alone))?;
    let said = said_of(n);
    forms::labs(seen, rng, &case.settings, exercise, answer, route, &said)?;
    let list = forms::any_list(rng, exercise);
    forms::list(seen, &case.settings, &list)?;
    if rng.percent(50) {
        return Ok(());
    }
    let mut other = settings::sheet(&settings::board(rng).0);
    if rng.percent(20) {
        other = settings::bent(rng, &other);
    }
    forms::list(seen, &other, &list)?;
    forms::read_settings(seen, &other).map(|_| ())
}

/// The settings sheet by its readers, beside the verdict; then the pair again under
/// another board number, now and then.
fn compare_boards(
    boards: &mut settings::Counts,
    seen: &mut forms::Counts,
    rng: &mut Rng,
    both: &mut Both,
    case: &Case,
    [n, alone]: [&[u64; 7]; 2],
) -> Result<(), String> {
    let number = n[0] as u8;
    let read = forms::read_settings(seen, &case.settings)?;
    let refused = match number {
        70..=75 => number,
        _ => 0,
    };
    match read {
        Err(_) if number == 1 => boards.buffer += 1,
        Err(_) if number == 3 => boards.list += 1,
        Err(told) => {
            forms::same("the judge on the settings", told, refused)?;
            boards.beside += (alone[0] != 0) as u64;
        }
        Ok(board) => {
            forms::same("the judge on the settings", 0, refused)?;
            boards.note(&board, case.board, number);
            if rng.percent(10) {
                let sheet = settings::sheet(&settings::renumbered(rng, &board));
                both.renumbered(&sheet, &Call::of(case), n)?;
                boards.renumbered += 1;
            }
        }
    }
    Ok(())
}

/// One line; gives whether some number did not occur.
fn by_number(title: &str, counts: &[u64; 256], numbers: &[usize]) -> bool {
    let each: Vec<String> = numbers
        .iter()
        .map(|&n| format!("{n}: {}", counts[n]))
        .collect();
    println!("{title}: {}", each.join(", "));
    numbers.iter().any(|&n| counts[n] == 0)
}

/// What the readers and the list check gave, and whether some case did not occur.
fn report_forms(seen: &forms::Counts) -> bool {
    let openings = [0, 10, 11, 12, 13, 14, 20, 21, 22, 23, 25];
    let mut missing = by_number("sheets opened, by number", &seen.openings, &openings);
    for (what, n) in [
        ("cells", &seen.cells),
        ("records", &seen.records),
        ("places", &seen.places),
    ] {
        println!("{what} read: {}, broken: {}, end: {}", n[0], n[1], n[2]);
        missing |= n.contains(&0);
    }
    missing |= by_number(
        "settings sheets read, by number",
        &seen.settings,
        &[0, 70, 71, 72, 73, 74, 75],
    );
    missing |= by_number(
        "lists, by number",
        &seen.lists,
        &[0, 18, 70, 71, 72, 73, 74, 75, 60, 61, 62, 63, 64, 65],
    );
    println!(
        "lists of a LAB of which the judge says the same: {}",
        seen.judged
    );
    missing |= rising("LABs of legal answers, by needs", &seen.needs);
    missing |= rising("by the most needs at one entry", &seen.shared);
    missing |= rising("their needs, by entry", &seen.entries);
    missing |= report_sync("judge", &seen.lab_sync);
    missing |= report_sync("list check", &seen.list_sync);
    missing |= report_nets("judge", &seen.lab_nets, nets::CASES.len());
    missing |= report_nets("list check", &seen.list_nets, nets::OF_LISTS);
    missing || seen.judged == 0
}

/// Rule 63 by one of the two.
fn report_sync(who: &str, seen: &sync::Counts) -> bool {
    println!(
        "63 by the {who}: {}, as pairs only: {}",
        seen.broken, seen.pairs_only
    );
    let breaks = by_name("  refused", &sync::BREAKS.map(|b| b.0), &seen.breaks);
    let kept = by_name("  legal", &sync::KEPT.map(|k| k.0), &seen.kept);
    breaks || kept || seen.pairs_only == 0
}

/// Rule 64 at its limit by one of the two, with the cases that it has.
fn report_nets(who: &str, seen: &nets::Counts, cases: usize) -> bool {
    println!("64 by the {who}, at the limit");
    let names = nets::CASES.map(|c| c.0);
    let line = |title, counts: &[u64]| by_name(title, &names[..cases], &counts[..cases]);
    let refused = line("  39, refused", &seen.refused);
    let legal = line("  38, legal", &seen.legal);
    refused || legal
}

/// One line; gives whether one of the names did not occur.
fn by_name(title: &str, names: &[&str], counts: &[u64]) -> bool {
    let pairs = names.iter().zip(counts);
    let each: Vec<String> = pairs.map(|(name, n)| format!("{name}: {n}")).collect();
    println!("{title}: {}", each.join(", "));
    counts.contains(&0)
}

/// One line, from 0 on; gives whether one did not occur.
fn rising(title: &str, counts: &[u64]) -> bool {
    let names: Vec<String> = (0..counts.len()).map(|n| n.to_string()).collect();
    let names: Vec<&str> = names.iter().map(|n| &n[..]).collect();
    by_name(title, &names, counts)
}

/// The same for the boards.
fn report_boards(seen: &settings::Counts) -> bool {
    let kinds = settings::KINDS.map(|k| k.1);
    let mut missing = by_name("boards judged on", &kinds, &seen.kinds);
    missing |= by_name("  by version", &["1", "2"], &seen.versions);
    missing |= rising("  by entries", &seen.entries);
    missing |= rising("  legal, by entries", &seen.legal);
    missing |= rising("  65, by entries", &seen.no_way);
    for (what, n) in [
        ("judged again under another board number", seen.renumbered),
        ("70 to 75 beside another fault", seen.beside),
        ("1 beside a settings sheet that is none", seen.buffer),
        ("3 beside a settings sheet that is none", seen.list),
    ] {
        println!("{what}: {n}");
        missing |= n == 0;
    }
    missing
}

/// The same for the writers.
fn report_writes(seen: &writes::Counts) -> bool {
    let mut missing = by_number(
        "calls of the exercise writer, by number",
        &seen.exercises,
        &[0, 2, 13, 15, 16],
    );
    println!("13 for the nets and not for the records: {}", seen.nets);
    missing |= by_number(
        "calls of the answer writer, by number",
        &seen.answers,
        &[0, 2, 13, 23, 26],
    );
    missing |= by_number(
        "calls of the settings writer, by number",
        &seen.settings,
        &[0, 72, 73, 75, 2],
    );
    println!("72 for the board and not for the version: {}", seen.boards);
    println!(
        "faults planted alone, refused with their number: {} of {} kinds",
        seen.faults.iter().sum::<u64>(),
        seen.faults.len()
    );
    for (what, [exercises, answers, settings]) in [
        (
            "sheets written, read, judged and written again",
            seen.circles,
        ),
        (
            "sheets that pass, written again to the same bytes",
            seen.kept,
        ),
    ] {
        println!("{what}: {exercises} exercises, {answers} answers, {settings} settings");
        missing |= exercises == 0 || answers == 0 || settings == 0;
    }
    missing || seen.nets == 0 || seen.boards == 0 || seen.faults.contains(&0)
}

/// The same for the classes: those that are marked, then the refusals.
fn report_classes(seen: &marking::Counts) -> bool {
    let mut missing = rising("class sheets, by answers", &seen.answers);
    let numbers = |wanted: fn(&usize) -> bool| -> Vec<usize> {
        let all = NUMBERS.iter().map(|&n| n as usize);
        all.filter(wanted).collect()
    };
    let rows = numbers(|&n| !matches!(n, 1 | 3));
    missing |= by_number("  rows, by number", &seen.rows, &rows);
    // What depends on the answer, and what does not.
    let own = numbers(|n| matches!(n, 0 | 20..=26 | 50..=65));
    missing |= by_number("  right before a legal row", &seen.legal_next, &own);
    missing |= by_number("  right after a legal row", &seen.legal_before, &own);
    let others = numbers(|n| matches!(n, 10..=16 | 70..=75));
    missing |= by_number("  two rows or more, all with", &seen.every, &others);
    missing |= by_name("  classes with", &marking::CASES.map(|c| c.0), &seen.cases);
    let lent = ["as many", "more", "32 for fewer"];
    missing |= by_name("  rows lent", &lent, &seen.marked);
    let grouped = ["border moved", "two answers joined"];
    missing |= by_name("  grouped otherwise", &grouped, &seen.regrouped);
    missing |= by_name("    with other rows", &grouped, &seen.changed);
    report_refused_classes(seen) || missing
}

fn report_refused_classes(seen: &marking::Counts) -> bool {
    let few = ["no row", "one too few", "beside other bad sheets"];
    let mut missing = by_name("77", &few, &seen.too_few);
    let causes = class::CAUSES.map(|c| c.1);
    missing |= by_name("76", &causes, &seen.causes);
    missing |= by_name("  with too few rows as well", &causes, &seen.both);
    missing |= rising("  under 7 bytes, by length", &seen.short);
    let faults = class_sheets::FAULTS.map(|f| f.1);
    missing |= by_name("  planted alone", &faults, &seen.faults);
    println!("  beside other bad sheets: {}", seen.beside);
    println!("sheets changed and still good: {}", seen.still_good);
    missing || seen.beside == 0 || seen.still_good == 0
}

/// The same for the logs: those that are credited, then the refusals.
fn report_logs(seen: &log_cases::Counts) -> bool {
    let mut missing = by_number("logs, by number", &seen.numbers, &log_cases::LOG_NUMBERS);
    let entries = ["0", "1", "2 to 63", "64 to 1,022", "1,023", "1,024"];
    missing |= by_name("  credited, by entries", &entries, &seen.entries);
    missing |= by_name("  with", &log_cases::CASES.map(|c| c.0), &seen.cases);
    let either = ["credited", "refused"];
    missing |= by_name("  with other logins and verdicts", &either, &seen.logins);
    missing |= by_name("  in another order", &either, &seen.orders);
    for (what, n) in [
        ("  other entries listed then", seen.listed),
        ("  lists as the call before left them", seen.left),
        ("  changed and still good", seen.still_good),
    ] {
        println!("{what}: {n}");
        missing |= n == 0;
    }
    report_refused_logs(seen) || missing
}

fn report_refused_logs(seen: &log_cases::Counts) -> bool {
    let mut missing = rising("80, by length", &seen.short);
    missing |= by_name("logs of 7 bytes", &["credited", "refused"], &seen.heads);
    missing |= by_name("83, by count", &["1,025", "more", "65,535"], &seen.over);
    missing |= by_name(
        "85 in one entry",
        &log_cases::BAD_ENTRIES,
        &seen.bad_entries,
    );
    missing |= by_name(
        "  beside 65 apprentices",
        &log_cases::BESIDE_86,
        &seen.beside_86,
    );
    missing |= by_name("86", &log_cases::TOO_MANY.map(|t| t.0), &seen.too_many);
    let faults = logs::FAULTS.map(|f| f.2);
    missing |= by_name("80 to 86 planted alone", &faults, &seen.faults);
    let two = log_cases::BOTH.map(|[first, second]| format!("{first} and {second}"));
    missing |= by_name("two of them", &two.each_ref().map(|t| &t[..]), &seen.both);
    let lists = log_cases::OTHER_LISTS.map(|l| l.0);
    missing |= by_name("87 for", &lists, &seen.other_lists);
    by_number("  before", &seen.before, &log_cases::LOG_NUMBERS) || missing
}

/// The same for the tries.
fn report_tries(seen: &try_cases::Counts) -> bool {
    let cases = try_cases::CASES.map(|c| c.0);
    let mut missing = by_name("tries compared", &cases, &seen.cases);
    missing |= rising("  legal, by entries", &seen.legal);
    missing |= rising("  65, by entries", &seen.no_way);
    missing |= rising("  LABs with a way, by needs", &seen.found);
    let from_1 = ["1", "2", "3", "4", "5", "6", "7", "8"];
    missing |= by_name("  without a way, by needs", &from_1, &seen.not_found[1..]);
    missing |= by_name("  made sheets, by version", &["1", "2"], &seen.versions);
    let rules = ["60", "61", "62", "63", "64"];
    missing |= by_name("  list stays, tries below", &rules, &seen.stays);
    let [way, no_way] = seen.rarest_tables();
    println!(
        "  least for a number of entries and of needs: {way} tables with a way, {no_way} without"
    );
    println!("  tables by all partial ways: {}", seen.listed);
    println!("  tables by all lists of entries: {}", seen.defined);
    let [way, no_way, table] = seen.most;
    println!("  most tries: {way} with a way, {no_way} without, {table} of a table");
    missing |= seen.rarest_tables().contains(&0) || seen.listed == 0 || seen.defined == 0;
    report_other_lengths(seen) || missing
}

fn report_other_lengths(seen: &try_cases::Counts) -> bool {
    let lengths = try_cases::LENGTHS.map(|l| l.0);
    let missing = by_name("3, by numbers lent", &lengths, &seen.lengths);
    println!("  1 before it: {}", seen.after_1);
    let others = NUMBERS.iter().filter(|n| !matches!(n, 1 | 3));
    let others: Vec<usize> = others.map(|&n| n as usize).collect();
    by_number("  before", &seen.before, &others) || missing || seen.after_1 == 0
}

fn main() {
    let mut args = std::env::args().skip(1);
    let mut number = |default: u64| match args.next() {
        None => default,
        Some(t) => t.parse().unwrap_or_else(|_| {
            println!("usage: compare [pairs [seed]]");
            exit(2);
        }),
    };
    let pairs = number(200_000);
    let seed = number(1);

    let mut rng = Rng::new(seed);
    let longest = 16384 + 2 * GUARD;
    let pattern: Vec<u8> = (0..longest + 4096).map(|_| rng.byte()).collect();
    let mut both = Both::new();
    // The forms, the writes, the classes and the logs take nothing from the numbers
    // that the pairs are made of.
    let mut other = Rng::new(!seed);
    run_examples(&mut both, &mut other, &pattern);

    let mut counts = [0u64; 256];
    let mut places = HashSet::new();
    let mut seen = forms::Counts::new();
    let mut boards = settings::Counts::new();
    let mut spare = Lent::new();
    let mut third = Rng::new(seed ^ 0x5555_5555);
    let mut writes = writes::Writes::new();
    match writes.settled(&mut third) {
        Ok(calls) => println!("{calls} settled calls of the writers agree"),
        Err(wrong) => {
            print!("settled calls of the writers: {wrong}");
            exit(1);
        }
    }
    let mut fourth = Rng::new(seed ^ 0xaaaa_aaaa);
    let mut marking = marking::Marking::new();
    match marking.settled(&mut fourth) {
        Ok(calls) => println!("{calls} settled calls for a class agree"),
        Err(wrong) => {
            print!("settled calls for a class: {wrong}");
            exit(1);
        }
    }
    let mut fifth = Rng::new(seed ^ 0x3333_3333);
    let mut crediting = crediting::Crediting::new();
    match crediting.settled(&mut fifth) {
        Ok(calls) => println!("{calls} settled calls for a log agree"),
        Err(wrong) => {
            print!("settled calls for a log: {wrong}");
            exit(1);
        }
    }
    let mut sixth = Rng::new(seed ^ 0xcccc_cccc);
    let mut trying = trying::Trying::new();
    match trying.settled(&mut both, &pattern) {
        Ok(calls) => println!("{calls} settled calls for tries agree"),
        Err(wrong) => {
            print!("settled calls for tries: {wrong}");
            exit(1);
        }
    }
    let started = std::time::Instant::now();
    for i in 0..pairs {
        let case = generate::case(&mut rng);
        // A pattern of its own for each pair; now and then plain 255s or zeros.
        let from = rng.below(4096);
        let plain;
        let fill = match rng.below(32) {
            0 => {
                plain = vec![255; longest];
                &plain[..]
            }
            1 => {
                plain = vec![0; longest];
                &plain[..]
            }
            _ => &pattern[from..from + longest],
        };
        let fail = |wrong: String| -> ! {
            println!("pair {i} of seed {seed} ({}): {wrong}", case.name);
            exit(1);
        };
        let (exercise, answer) = (&case.exercise, &case.answer);
        let n = both
            .run(&Call::of(&case), fill)
            .unwrap_or_else(|wrong| fail(wrong));
        counts[n[0] as usize] += 1;
        let place = if n[0] >= 60 { n[2] } else { n[1] };
        if place != NO {
            places.insert((n[0], place));
        }
        // What the Rust judge says of the two sheets where it did not come to them.
        let alone = match n[0] {
            1 | 3 | 70..=75 => {
                let verdict = judge::judge(&HOUSE, exercise, answer, spare.parts());
                proved::numbers(&verdict)
            }
            _ => n,
        };
        let said = [&n, &alone];
        let compared = compare_forms(&mut seen, &mut other, &case, said, both.route())
            .and_then(|()| {
                compare_boards(&mut boards, &mut seen, &mut other, &mut both, &case, said)
            })
            .and_then(|()| writes.sheets(&mut third, fill, &case, alone[0] as u8))
            .and_then(|()| trying.judged(&Call::of(&case), &n, &both));
        if let Err(wrong) = compared {
            let sheets = hex("settings", &case.settings)
                + &hex("exercise", exercise)
                + &hex("answer", answer);
            fail(wrong + &sheets);
        }
        if let Err(wrong) = writes.made(&mut third, fill) {
            fail(wrong);
        }
        if fourth.below(PAIRS_TO_A_CLASS) == 0 {
            if let Err(wrong) = marking.class(&mut fourth, fill, &case) {
                fail(wrong);
            }
        }
        if fifth.below(PAIRS_TO_A_LOG) == 0 {
            if let Err(wrong) = crediting.log(&mut fifth, fill) {
                fail(wrong);
            }
        }
        if sixth.below(PAIRS_TO_A_SEARCH) == 0 {
            let compared = trying
                .lengths(&mut both, &mut sixth, fill, &Call::of(&case), &n)
                .and_then(|()| trying.sheets(&mut both, &mut sixth, fill))
                .and_then(|()| trying.table(&mut sixth));
            if let Err(wrong) = compared {
                fail(wrong);
            }
        }
    }

    println!(
        "{pairs} pairs of seed {seed} agree ({:.1} s)",
        started.elapsed().as_secs_f64()
    );
    println!("number    pairs  different cells or LABs");
    let mut missing = false;
    for n in NUMBERS {
        let seen = places.iter().filter(|p| p.0 == n as u64).count();
        println!("{n:>6} {:>8}  {seen:>8}", counts[n as usize]);
        missing |= counts[n as usize] == 0;
    }
    missing |= report_boards(&boards);
    missing |= report_forms(&seen);
    missing |= report_writes(&writes.counts);
    missing |= report_classes(&marking.counts);
    missing |= report_logs(&crediting.counts);
    missing |= report_tries(&trying.counts);
    if missing {
        println!("a number did not occur");
        exit(1);
    }
}
