//! Settled examples of M-106 and M-107: the tries of LABs, worked out by hand, and lists
//! of other lengths.

use crate::boards::{board, needs, signals};
use crate::generate::*;
use crate::judge::{ROUTE, TRIES};
use crate::settings::HOUSE_ENTRIES;
use crate::NO;

pub struct Example {
    pub name: String,
    pub settings: Vec<u8>,
    pub sheets: Sheets,
    /// Bytes and numbers lent.
    pub lent: [usize; 2],
    pub number: u64,
    pub lab: u64,
    /// The LABs with tries; all others have 0. Nothing where the list stays.
    pub tries: Option<Vec<(usize, u32)>>,
}

/// Needs of clk, ena, aclr, sclr and sload, the entries, and the tries of the LAB.
type Line = (&'static str, &'static [u8], u32);

const LEGAL: [Line; 19] = [
    // No needs, with entries and without.
    ("00000", &HOUSE_ENTRIES, 0),
    ("00000", &[], 0),
    // One need: its first suitable entry is the answer, wherever it stands.
    ("10000", &HOUSE_ENTRIES, 1),
    ("00001", &HOUSE_ENTRIES, 1),
    ("10000", &[0, 0, 0, 0, 0, 0, 0, 1], 1),
    ("10000", &[31; 8], 1),
    // P9: 0; 0 2; 0 2 1.
    ("11100", &HOUSE_ENTRIES, 3),
    // P10: 0; 0 1; 0 1 4; 0 2; 0 2 1; 0 2 1 4.
    ("20200", &HOUSE_ENTRIES, 6),
    // P12: the same, then 0 2 1 4 5; 0 2 1 4 5 3.
    ("20211", &HOUSE_ENTRIES, 8),
    // P11 with a seventh entry, for clk. With 0 and 1 or 0 and 2 at clk it fails:
    // 0; 0 1 with ena 2 3 and 3 2, each with aclr 4: 0 1, 0 1 2, 0 1 2 3, 0 1 2 3 4,
    // 0 1 3, 0 1 3 2, 0 1 3 2 4; 0 2, 0 2 3. Then the answer, 0 6 2 3 1 4: 0 6 and four
    // more.
    ("22200", &[1, 5, 3, 18, 12, 24, 1], 1 + 7 + 2 + 5),
    // Both entries serve both needs: 0; 0 1.
    ("10100", &[31, 31], 2),
    // 0; then 1; 1 0.
    ("10100", &[5, 1], 3),
    // 0; 0 2.
    ("20000", &[1, 30, 1], 2),
    // The only entry for aclr is the first for clk: 0; 1; 1 0. Then 1 0 2 for sload.
    ("10101", &[5, 1, 16], 4),
    // Eight needs, found at once.
    ("22211", &[31; 8], 8),
    ("22211", &[16, 8, 4, 4, 2, 2, 1, 1], 8),
    ("22211", &[16, 15, 15, 15, 15, 15, 15, 15], 8),
    // sload has entry 0 only, and sclr 0 and 1, so a clk on either of them fails. With 0 at
    // the first clk, 5 needs take others of 7 entries, then sclr 1 where it is free:
    // 1 + 7 + 42 + 210 + 840 + 2,520 + 720 = 4,340, and as many with 1. So too at the
    // next needs: 637 = 1 + 6 + 30 + 120 + 360 + 120, 110 = 1 + 5 + 20 + 60 + 24,
    // 23 = 1 + 4 + 12 + 6, 6 = 1 + 3 + 2, 2 = 1 + 1, each twice. sclr on 0 is one more, the
    // answer, 2 3 4 5 6 7 1 0, has eight.
    (
        "22211",
        &[31, 15, 7, 7, 7, 7, 7, 7],
        2 * (4340 + 637 + 110 + 23 + 6 + 2) + 1 + 8,
    ),
    // clk has entry 0 only: 0; 0 1; 0 1 2.
    ("10101", &[31, 4, 16], 3),
];

const NO_WAY: [Line; 13] = [
    // P11. clk 0, 1 or 2: 3. Two of these: 6. With 0 and 1, ena is 2 or 3; with 2 among
    // them, 3: 2 * 2 + 4 = 8. The second ena where the first two are 0 and 1: 2 * 2 = 4.
    // Then aclr is 4: 4 more. There is none for the second aclr.
    ("22200", &HOUSE_ENTRIES, 3 + 6 + 8 + 4 + 4),
    // No entry, or none that serves the first need.
    ("10000", &[], 0),
    ("00001", &[], 0),
    ("22211", &[], 0),
    ("10000", &[30; 8], 0),
    ("22211", &[30; 8], 0),
    // An entry is for one net.
    ("10100", &[31], 1),
    ("20000", &[1, 30], 1),
    // The second need has none: each clk is a try.
    ("10001", &[15; 8], 8),
    // Three entries, four needs: 3 + 3 * 2 + 3 * 2 * 1.
    ("20200", &[31; 3], 3 + 6 + 6),
    // Seven entries, eight needs.
    ("22211", &[31; 7], 7 + 42 + 210 + 840 + 2520 + 5040 + 5040),
    // Nothing serves the eighth need: all partial ways of seven needs.
    (
        "22211",
        &[15; 8],
        8 + 56 + 336 + 1680 + 6720 + 20_160 + 40_320,
    ),
    // Nothing serves the seventh: all partial ways of six.
    ("22211", &[23; 8], 8 + 56 + 336 + 1680 + 6720 + 20_160),
];

/// The signals by letters, the entries, and the tries of the LAB.
const SHARED: [Line; 11] = [
    // 0; 0 0. A net and its inverse need one entry.
    ("Aa------", &HOUSE_ENTRIES, 2),
    // 0; 0 1, which stands before 1 1.
    ("A---A---", &HOUSE_ENTRIES, 2),
    // All signals but sclr and sload in both polarities: found at once.
    ("AaBbCcDE", &HOUSE_ENTRIES, 8),
    ("AaAaAaAA", &[31], 8),
    ("AaAaAaAA", &[31; 8], 8),
    ("AaBb----", &[3, 3], 4),
    // 0; 0 1; 0 1 0.
    ("AB--A---", &[5, 1], 3),
    // 0; 0 1 leaves no entry for aclr, which is of the other net. 1; 1 0; 1 0 0.
    ("AB--B---", &[5, 1], 5),
    // P11, but the first aclr is of the first clk's net. With 0 at that clk: 0; 0 1 with
    // ena 2 3 and 3 2, each with aclr 4; 0 2, 0 2 3. Then the answer, 1 0 2 3 1 4.
    ("ABCDAE--", &HOUSE_ENTRIES, 1 + 7 + 2 + 6),
    // sload has entry 0 only, so a need of the other net on it fails. With 0 at the first
    // clk, the other six may have any of eight entries: 1 + 8 + 64 + 512 + 4,096 + 32,768
    // + 262,144 = 299,593. So too at the next needs. The answer, 1 1 1 1 1 1 1 0, has
    // eight.
    (
        "AaAaAaAB",
        &[31, 15, 15, 15, 15, 15, 15, 15],
        299_593 + 37_449 + 4_681 + 585 + 73 + 9 + 1 + 8,
    ),
    // ena, of the other net, has entry 0 only: 0; 0 0; 0 1; 1; 1 0; 1 1; 1 1 0.
    ("AaB-----", &[3, 1], 7),
];

/// The same without a way.
const SHARED_NO_WAY: [Line; 8] = [
    // An entry is for one net.
    ("A---B---", &[5], 1),
    ("ABAB----", &[3], 1),
    // P11, but one net is at ena and at aclr, which no entry serves.
    ("ABCDCE--", &HOUSE_ENTRIES, 3 + 6 + 8 + 4 + 4),
    // The last need has none: each clk with each clk.
    ("Aa-----B", &[1; 3], 3 + 9),
    ("Aa-----A", &[1; 3], 3 + 9),
    ("AB-----A", &[1; 3], 3 + 6),
    // Nothing serves the eighth need of one net.
    (
        "AaAaAaAA",
        &[15; 8],
        8 + 64 + 512 + 4096 + 32_768 + 262_144 + 2_097_152,
    ),
    // The seventh is of another net: any of the entries that the six others leave, of
    // which there are 8 * 7 * 7 * 7 * 7 * 7 * 7 in all.
    (
        "AaAaAaBC",
        &[15; 8],
        8 + 64 + 512 + 4096 + 32_768 + 262_144 + 941_192,
    ),
];

/// Several LABs with needs, rising, and one with a combinational cell only.
fn labs(list: &[(usize, &str)], plain: usize) -> Sheets {
    let mut all = Sheets {
        nets: 20,
        cells: vec![Cell::new(COMBINATIONAL, plain, 3)],
        apprentice: 7,
    };
    for &(lab, counts) in list {
        for mut c in needs(lab, counts).cells {
            c.s[REGOUT] = net(all.nets);
            all.nets += 1;
            all.cells.push(c);
        }
    }
    all
}

/// P9 in LAB 0, P10 in LAB 5, a LAB without needs, then the needs in LAB 40, and P9 in
/// LAB 41 and LAB 1,023.
fn six_labs(counts: &str) -> Sheets {
    let list = [
        (0, "11100"),
        (5, "20200"),
        (40, counts),
        (41, "11100"),
        (1023, "11100"),
    ];
    labs(&list, 7)
}

pub fn all() -> Vec<Example> {
    let mut list = Vec::new();
    let house = board(3, &HOUSE_ENTRIES);
    type Make = fn(usize, &str) -> Sheets;
    let sorts: [(&[Line], bool, Make); 4] = [
        (&LEGAL, true, needs),
        (&NO_WAY, false, needs),
        (&SHARED, true, signals),
        (&SHARED_NO_WAY, false, signals),
    ];
    let lines = sorts.iter().flat_map(|&(lines, legal, make)| {
        let each = lines.iter();
        each.map(move |&line| (line, legal, make))
    });
    for (k, ((text, entries, tries), legal, make)) in lines.enumerate() {
        for lab in [0, 500 + k, 1023] {
            list.push(Example {
                name: format!("needs {text} of entries {entries:?}"),
                settings: board(k as u16, entries),
                sheets: make(lab, text),
                lent: [ROUTE, TRIES],
                number: if legal { 0 } else { 65 },
                lab: if legal { NO } else { lab as u64 },
                tries: Some(vec![(lab, tries)]),
            });
        }
    }
    // The third aclr, on an unused register.
    let mut broken = six_labs("20200");
    let mut c = Cell::new(REGISTER, 40, 9);
    c.s[ACLR] = net(19);
    broken.cells.push(c);
    let below = [(0, 3), (5, 6)];
    let legal = [&below[..], &[(40, 8), (41, 3), (1023, 3)]].concat();
    let refused = [&below[..], &[(40, 25)]].concat();
    for (name, sheets, number, lab, tries) in [
        ("six LABs, legal", six_labs("20211"), 0, NO, Some(legal)),
        (
            "P11 among six LABs",
            six_labs("22200"),
            65,
            40,
            Some(refused),
        ),
        ("62 above searched LABs", broken, 62, 40, None),
    ] {
        list.push(Example {
            name: name.to_string(),
            settings: house.clone(),
            sheets,
            lent: [ROUTE, TRIES],
            number,
            lab,
            tries,
        });
    }
    list.extend(other_lengths(&house));
    list
}

/// 3 comes after 1 and before 70.
fn other_lengths(house: &[u8]) -> Vec<Example> {
    let mut list = Vec::new();
    for settings in [house, b""] {
        let right = if settings.is_empty() { 70 } else { 0 };
        for route in [ROUTE, ROUTE - 1] {
            for tries in [0, 1, 1023, 1024, 1025, 4096, 66_560] {
                let number = match (route, tries) {
                    (ROUTE, TRIES) => right,
                    (ROUTE, _) => 3,
                    _ => 1,
                };
                list.push(Example {
                    name: format!("{route} bytes and {tries} numbers lent"),
                    settings: settings.to_vec(),
                    sheets: six_labs("00000"),
                    lent: [route, tries],
                    number,
                    lab: NO,
                    tries: (number == 0).then(|| vec![(0, 3), (5, 6), (41, 3), (1023, 3)]),
                });
            }
        }
    }
    list
}
