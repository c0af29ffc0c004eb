//! Settled examples of M-104: class sheets with how many answers they have, and the
//! rows of a class.

use crate::class::{self, Row, MOST};
use crate::generate::*;
use crate::judge::NONE;
use crate::registers;

/// Class sheets with their answers; none where 76 refuses the sheet.
const SHEETS: [(&[u8], Option<usize>); 28] = [
    (b"", None),
    (b"LXC", None),
    (b"LXC\x01\x00\x00", None),
    (b"LXC\x01\x00\x01", None),
    (b"LXC\x01\x00\x00\x00", Some(0)),
    (b"LXC\x01\x00\x00\x00\x00", None),
    (b"LXC\x01\x00\x00\x00\x00\x00", None),
    (b"LXA\x01\x00\x00\x00", None),
    (b"LYC\x01\x00\x00\x00", None),
    (b"lXC\x01\x00\x00\x00", None),
    (b"LXC\x00\x00\x00\x00", None),
    (b"LXC\x02\x00\x00\x00", None),
    (b"LXC\x00\x01\x00\x00", None),
    (b"LXC\x01\x01\x00\x00", None),
    (b"LXC\x01\x00\x01\x00", None),
    (b"LXC\x01\x00\x01\x00\x00", None),
    (b"LXC\x01\x00\x01\x00\x00\x00", Some(1)),
    (b"LXC\x01\x00\x01\x00\x00\x00\x00", None),
    (b"LXC\x01\x00\x01\x00\x01\x00", None),
    (b"LXC\x01\x00\x01\x00\x01\x00\x00", Some(1)),
    (b"LXC\x01\x00\x01\x00\x00\x01\x00", None),
    (b"LXC\x01\x00\x01\x00\x02\x00\x00\x00", Some(1)),
    (b"LXC\x01\x00\x02\x00\x02\x00\x00\x00", None),
    (b"LXC\x01\x00\x02\x00\x00\x00\x00\x00", Some(2)),
    (b"LXC\x01\x00\x02\x00\x00\x00\x00", None),
    (b"LXC\x01\x00\x00\x01", None),
    (b"LXC\x01\x00\x01\x01\x00\x00", None),
    (b"LXC\x01\x00\xff\xff", None),
];

/// A sheet with this count and so many equal answers.
fn equal(count: u16, answers: usize, length: usize) -> Vec<u8> {
    let mut b = class::sheet(&vec![vec![b'L'; length]; answers]);
    put_word(&mut b, 5, count);
    b
}

/// The sheets above, then some around 32 answers, and the longest one.
pub fn sheets() -> Vec<(Vec<u8>, Option<usize>)> {
    let mut list: Vec<_> = SHEETS.map(|(b, n)| (b.to_vec(), n)).to_vec();
    list.extend([
        (equal(31, 31, 3), Some(31)),
        (equal(32, 32, 0), Some(MOST)),
        (equal(32, 32, 300), Some(MOST)),
        (equal(33, 33, 0), None),
        (equal(33, 33, 300), None),
        (equal(33, 32, 0), None),
        (equal(32, 33, 0), None),
        (equal(256, 256, 0), None),
    ]);
    let longest = equal(32, 32, 65_535);
    list.push((longest[..longest.len() - 1].to_vec(), None));
    list.push(([&longest[..], b"L"].concat(), None));
    list.push((longest, Some(MOST)));
    list
}

/// Three registers on three clocks, not all in one LAB and each at its own place.
fn three_clocks() -> Sheets {
    let clock = |n: u16| [(CLK, net(n))];
    let mut s = registers(3, 5, &[&clock(0), &clock(1), &clock(2)]);
    (s.cells[1].x, s.cells[2].y) = (6, 1);
    s
}

/// An exercise, and answers to it with their rows.
pub fn class() -> (Vec<u8>, Vec<(Vec<u8>, Row)>) {
    let good = three_clocks();
    let mut list = Vec::new();
    let mut add = |answer: Vec<u8>, number: u32, place: [u16; 2], apprentice: u32| {
        let [cell, lab] = place.map(u32::from);
        let row = Row {
            number,
            cell,
            lab,
            apprentice,
        };
        list.push((answer, row));
    };
    let nowhere = [NONE; 2];
    // The good answer of an apprentice with one change.
    let changed = |apprentice: u32, change: fn(&mut Sheets)| {
        let mut s = good.clone();
        s.apprentice = apprentice;
        change(&mut s);
        s.answer()
    };
    let byte = |apprentice: u32, at: usize, to: u8| {
        let mut b = changed(apprentice, |_| {});
        b[at] = to;
        b
    };
    add(changed(7, |_| {}), 0, nowhere, 7);
    add(changed(8, |s| in_one_lab(s, 5)), 60, [NONE, 5], 8);
    add(vec![], 20, nowhere, 0);
    add(changed(8, |_| {})[..10].to_vec(), 20, nowhere, 0);
    add(byte(8, 2, b'E'), 21, nowhere, 0);
    add(byte(8, 3, 2), 22, nowhere, 0);
    add(changed(0, |_| {}), 23, nowhere, 0);
    add(byte(9, 9, 2), 24, nowhere, 9);
    add([&changed(10, |_| {})[..], b"\0"].concat(), 25, nowhere, 10);
    add(changed(11, |s| s.cells[2].le = 16), 26, [2, NONE], 11);
    add(changed(12, |s| s.cells[1] = s.cells[0]), 50, [1, NONE], 12);
    add(
        changed(u32::MAX, |s| in_one_lab(s, 1023)),
        60,
        [NONE, 1023],
        u32::MAX,
    );
    add(changed(1 << 31, |_| {}), 0, nowhere, 1 << 31);
    add(changed(7, |s| in_one_lab(s, 0)), 60, [NONE, 0], 7);
    (good.exercise(), list)
}

/// All cells, each at its own LE.
fn in_one_lab(s: &mut Sheets, lab: usize) {
    for (le, c) in s.cells.iter_mut().enumerate() {
        (c.x, c.y, c.le) = ((lab % 32) as u8, (lab / 32) as u8, le as u8);
    }
}
