//! Settled examples of M-102 and M-107: boards other than document 01's, needs that share
//! a net, and settings sheets that are none.

use crate::generate::*;
use crate::plain::Settings;
use crate::settings::{self, HOUSE_ENTRIES};
use crate::{registers, Example, Expect, NO};

/// Document 01's entries in falling order.
const FALLING: [u8; 6] = [24, 12, 18, 3, 5, 1];

/// How many needs of clk, ena, aclr, sclr and sload, the entries, and the LAB's
/// bytes, nothing where there is no way.
const WAYS: [(&str, &[u8], &str); 20] = [
    // P9 to P12.
    ("11100", &FALLING, "3-2-1---"),
    ("20200", &FALLING, "35--14--"),
    ("22200", &FALLING, ""),
    ("20211", &FALLING, "35--1402"),
    // P11 with a seventh entry.
    ("22200", &[1, 5, 3, 18, 12, 24, 1], "062314--"),
    // No entry, with a need and without.
    ("00000", &[], "--------"),
    ("10000", &[], ""),
    ("00001", &[], ""),
    // Entries that serve nothing are passed over.
    ("10000", &[0, 0, 0, 0, 0, 0, 0, 1], "7-------"),
    ("10100", &[0, 4, 0, 1], "3---1---"),
    // An entry is for one net.
    ("10100", &[31], ""),
    ("10100", &[31, 31], "0---1---"),
    ("20000", &[1, 30], ""),
    ("20000", &[1, 30, 1], "02------"),
    // Eight needs.
    ("22211", &[31; 8], "01234567"),
    ("22211", &[16, 8, 4, 4, 2, 2, 1, 1], "67452310"),
    ("22211", &[16, 15, 15, 15, 15, 15, 15, 15], "12345670"),
    ("22211", &[31; 7], ""),
    ("22211", &[15; 8], ""),
    ("22211", &[31, 1, 3, 7, 15, 15, 16, 0], ""),
];

/// The same for needs that share a net: for each route byte a letter, a net or, small, its
/// inverse.
const SHARED: [(&str, &[u8], &str); 32] = [
    // A net and its inverse come in once.
    ("Aa------", &HOUSE_ENTRIES, "00------"),
    ("--Aa----", &HOUSE_ENTRIES, "--22----"),
    ("----Aa--", &HOUSE_ENTRIES, "----11--"),
    // One net in two roles: the earliest way need not share.
    ("A---A---", &HOUSE_ENTRIES, "0---1---"),
    ("A---a---", &HOUSE_ENTRIES, "0---1---"),
    ("A-A-----", &HOUSE_ENTRIES, "0-2-----"),
    ("------AA", &HOUSE_ENTRIES, "------43"),
    ("--A----A", &HOUSE_ENTRIES, "--2----3"),
    ("A---A---", &[5, 1], "0---0---"),
    ("A---A---", &[1, 5], "0---1---"),
    ("A---A---", &[5], "0---0---"),
    ("A---a---", &[5], "0---0---"),
    // Different nets may not.
    ("A---B---", &[5], ""),
    ("AB------", &[5], ""),
    ("AB--A---", &[5], ""),
    ("AB--A---", &[5, 1], "01--0---"),
    ("AB--B---", &[5, 1], "10--0---"),
    // P11 with one net less: the second clk, ena or aclr is the inverse.
    ("AaBCDE--", &HOUSE_ENTRIES, "002314--"),
    ("ABCcDE--", &HOUSE_ENTRIES, "023314--"),
    ("ABCDEe--", &HOUSE_ENTRIES, "012344--"),
    // And with a clk that is an aclr too, which comes in at 1 for both.
    ("ABCDAE--", &HOUSE_ENTRIES, "102314--"),
    ("ABCDBE--", &HOUSE_ENTRIES, "012314--"),
    // With a clk that is an ena, as one entry serves both, and with an ena that is an aclr,
    // as none does.
    ("ABACDE--", &HOUSE_ENTRIES, "202314--"),
    ("ABCDCE--", &HOUSE_ENTRIES, ""),
    // Three needs or more at one entry.
    ("Aa--A---", &[5], "00--0---"),
    ("AaAaAaAA", &[31], "00000000"),
    ("AaAaAaAA", &[1, 2, 4, 8, 16], "00112234"),
    ("AaAaAaAA", &[15; 8], ""),
    // Two nets, four needs each.
    ("ABABABAB", &[31, 31], "01010101"),
    ("ABABABAB", &[31], ""),
    ("aBaBaBaB", &[31, 31], "01010101"),
    ("AaAaAaAB", &[31, 15, 15, 15, 15, 15, 15, 15], "11111110"),
];

/// Settings sheets with their numbers.
const REFUSED: [(u64, &[u8]); 27] = [
    (70, b""),
    (70, b"LXT\x01\x00"),
    (70, b"LXU\x03\x00"),
    (71, b"LXU\x01\x00\x00"),
    (71, b"LXE\x03\x00\x09"),
    (71, b"lxt\x01\x00\x01\x01"),
    (72, b"LXT\x00\x00\x00"),
    (72, b"LXT\x03\x00\x00"),
    (72, b"LXT\x03\x00\x09\x00"),
    (72, b"LXT\x00\x01\x00"),
    (72, b"LXT\x01\x01\x00"),
    (72, b"LXT\x02\x01\x00\x00\x00"),
    (73, b"LXT\x01\x00\x09"),
    (73, b"LXT\x01\x00\x09\x01\x01\x01\x01\x01\x01\x01\x01\x01"),
    (73, b"LXT\x01\x00\xff\x20"),
    (73, b"LXT\x02\x00\x09"),
    (73, b"LXT\x02\x00\x09\x00"),
    (74, b"LXT\x02\x00\x00"),
    (74, b"LXT\x02\x00\x00\x00"),
    (74, b"LXT\x02\x00\x01\x01"),
    (74, b"LXT\x01\x00\x01"),
    (74, b"LXT\x01\x00\x00\x00"),
    (74, b"LXT\x01\x00\x01\x20\x20"),
    (
        74,
        b"LXT\x02\x00\x08\x00\x00\x01\x01\x01\x01\x01\x01\x01\x01\x01",
    ),
    (75, b"LXT\x01\x00\x01\x20"),
    (75, b"LXT\x01\x00\x02\x01\xff"),
    (75, b"LXT\x02\x00\x03\x00\x00\x80\x01\x01"),
];

/// A version 2 sheet.
pub fn board(number: u16, entries: &[u8]) -> Vec<u8> {
    settings::sheet(&Settings {
        version: 2,
        board: number,
        entries: entries.to_vec(),
    })
}

/// One or two registers in one LAB with so many signals of each role, all of different
/// nets.
pub fn needs(lab: usize, counts: &str) -> Sheets {
    let letter = |k: usize| {
        let role = ROLES[k];
        let before = ROLES[..k].iter().filter(|&&r| r == role).count();
        if counts.as_bytes()[role] - b'0' > before as u8 {
            (b'A' + k as u8) as char
        } else {
            '-'
        }
    };
    signals(lab, &(0..8).map(letter).collect::<String>())
}

/// One or two registers in one LAB with the signals of these letters; a clock that needs
/// no entry is VCC.
pub fn signals(lab: usize, letters: &str) -> Sheets {
    let at = |k: usize| signal(letters.as_bytes()[k], 0);
    let or = |v: u16, other: u16| if v == 0 { other } else { v };
    let sdata = if at(7) == 0 { 0 } else { net(8) };
    let first = [(SCLR, at(6)), (SLOAD, at(7)), (SDATA, sdata)];
    let register = |j: usize| {
        let own = [(CLK, or(at(j), VCC)), (ENA, at(2 + j)), (ACLR, at(4 + j))];
        [&own[..], if j == 0 { &first } else { &[] }].concat()
    };
    let two = [1, 3, 5].iter().any(|&k| at(k) != 0);
    let both = [register(0), register(1)];
    let lists: Vec<&[(usize, u16)]> = both[..1 + two as usize].iter().map(|r| &r[..]).collect();
    registers(9, lab, &lists)
}

fn route(bytes: &str) -> [u8; 8] {
    let mut route = [255; 8];
    for (r, b) in route.iter_mut().zip(bytes.bytes()) {
        if b != b'-' {
            *r = b - b'0';
        }
    }
    route
}

pub fn examples() -> Vec<Example> {
    let mut list = Vec::new();
    let mut add = |name: String, settings: Vec<u8>, sheets: Sheets, expect: Expect| {
        list.push(Example {
            name,
            settings,
            sheets,
            expect,
        })
    };
    for (k, (text, entries, bytes)) in WAYS.into_iter().chain(SHARED).enumerate() {
        let lab = 300 + k;
        let make = if k < WAYS.len() { needs } else { signals };
        let expect = match bytes {
            "" => Expect::Refused(65, NO, lab as u64, [1, 11, 4]),
            _ => Expect::Legal(vec![(lab, route(bytes))]),
        };
        add(
            format!("needs {text} of entries {entries:?}"),
            board(7 + k as u16, entries),
            make(lab, text),
            expect,
        );
    }
    for number in [0, 1, 0x1f1f, 0x2020, 65535] {
        add(
            format!("document 01's entries as board {number}"),
            board(number, &HOUSE_ENTRIES),
            needs(1, "21111"),
            Expect::Legal(vec![(1, route("012-4-53"))]),
        );
    }
    // Beside a good exercise and beside one that gives 13.
    for (number, sheet) in REFUSED {
        for cells in [2, 600] {
            let mut sheets = needs(1, "21111");
            let first = sheets.cells[0];
            sheets.cells.resize(cells, first);
            let end = sheets.answer().len() as u64;
            add(
                format!("settings {sheet:02x?}"),
                sheet.to_vec(),
                sheets,
                Expect::Refused(number, NO, NO, [1, end, 0]),
            );
        }
    }
    list
}
