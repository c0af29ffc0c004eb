//! The writers of the three sheets in plain Rust, from document 01's sheets and the
//! refusals of M-100 and M-102. Their tests are their own, neither judge's.
#![allow(dead_code)]

use crate::plain::CellRecord;

const MAX_NETS: u16 = 1024;
const MAX_RECORDS: usize = 512;
const MAX_ENTRIES: usize = 8;

/// Number and length; a refusal has length 0 and writes nothing.
pub fn exercise(nets: u16, cells: &[CellRecord], sheet: &mut [u8]) -> (u8, usize) {
    let length = 9 + 24 * cells.len();
    if sheet.len() < length {
        return (2, 0);
    }
    if cells.len() > MAX_RECORDS || nets > MAX_NETS {
        return (13, 0);
    }
    if cells.iter().any(|c| breaks_layout(c, nets)) {
        return (15, 0);
    }
    if driven_twice(cells) {
        return (16, 0);
    }
    sheet[..5].copy_from_slice(b"LXE\x01\x00");
    put(&mut sheet[5..7], nets);
    put(&mut sheet[7..9], cells.len() as u16);
    for (c, r) in cells.iter().zip(sheet[9..length].chunks_exact_mut(24)) {
        (r[0], r[1]) = (c.kind, c.flag);
        for (&v, two) in c.signals.iter().zip(r[2..].chunks_exact_mut(2)) {
            put(two, v);
        }
    }
    (0, length)
}

/// The same for an answer; a place is x, y and LE.
pub fn answer(apprentice: u32, places: &[[u16; 3]], sheet: &mut [u8]) -> (u8, usize) {
    let length = 11 + 4 * places.len();
    if sheet.len() < length {
        return (2, 0);
    }
    if places.len() > MAX_RECORDS {
        return (13, 0);
    }
    if apprentice == 0 {
        return (23, 0);
    }
    let outside = |&[x, y, le]: &[u16; 3]| x > 31 || y > 31 || le > 15;
    if places.iter().any(outside) {
        return (26, 0);
    }
    sheet[..5].copy_from_slice(b"LXA\x01\x00");
    sheet[5..9].copy_from_slice(&apprentice.to_le_bytes());
    put(&mut sheet[9..11], places.len() as u16);
    for (p, r) in places.iter().zip(sheet[11..length].chunks_exact_mut(4)) {
        r.copy_from_slice(&[p[0] as u8, p[1] as u8, p[2] as u8, 0]);
    }
    (0, length)
}

/// The same for a settings sheet; an entry is its flags. Here 2 comes last.
pub fn settings(version: u16, board: u16, entries: &[u8], sheet: &mut [u8]) -> (u8, usize) {
    let head = match (version, board) {
        (1, 0) => 6,
        (2, _) => 8,
        _ => return (72, 0),
    };
    if entries.len() > MAX_ENTRIES {
        return (73, 0);
    }
    if entries.iter().fold(0, |all, flags| all | flags) >= 32 {
        return (75, 0);
    }
    let length = head + entries.len();
    if sheet.len() < length {
        return (2, 0);
    }
    sheet[..3].copy_from_slice(b"LXT");
    put(&mut sheet[3..5], version);
    sheet[5] = entries.len() as u8;
    if version == 2 {
        put(&mut sheet[6..8], board);
    }
    sheet[head..length].copy_from_slice(entries);
    (0, length)
}

/// Low byte first.
fn put(two: &mut [u8], v: u16) {
    two.copy_from_slice(&v.to_le_bytes());
}

/// Whether the record breaks the layout at so many nets. No branch asks for the
/// kind, which alternates at random.
fn breaks_layout(c: &CellRecord, nets: u16) -> bool {
    let s = &c.signals;
    let (combinational, register) = (c.kind == 1, c.kind == 2);
    let mut breaks = !(combinational | register) | (c.flag > combinational as u8);
    // The zeros after the ports are good signals as well.
    let beyond = 4 + 2 * nets;
    for &v in s {
        breaks |= (v == 3) | (v >= beyond);
    }
    let no_output = |v: u16| (v == 2) | (v % 2 == 1);
    breaks |= combinational & (no_output(s[5]) | no_output(s[6]) | (s[7] != 0));
    breaks |= register & no_output(s[7]);
    breaks | (s[8] | s[9] | s[10] != 0)
}

/// Whether some output's net is already driven; the records keep the layout.
fn driven_twice(cells: &[CellRecord]) -> bool {
    // By code / 2; unconnected outputs are marked at 0, and not asked.
    let mut driven = [false; MAX_NETS as usize + 2];
    let mut twice = false;
    for c in cells {
        // combout and cout, or regout and the zero after it.
        let at = 7 - 2 * (c.kind == 1) as usize;
        for v in [c.signals[at], c.signals[at + 1]] {
            twice |= std::mem::replace(&mut driven[v as usize / 2], true) & (v != 0);
        }
    }
    twice
}
