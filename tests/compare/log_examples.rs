//! Settled examples of M-105: logs with the number that refuses them, or with their rows
//! and the entries that cover no minute.

use crate::generate::put_word;
use crate::minutes::{self, Credit, Entry, Report, APPRENTICES, ENTRIES, WEEK};

/// Logs without a whole entry, by their number.
const HEADS: [(&[u8], u8); 29] = [
    (b"", 80),
    (b"L", 80),
    (b"LX", 80),
    (b"LXL", 80),
    (b"LXL\x01", 80),
    (b"LXL\x01\x00", 80),
    (b"LXL\x01\x00\x00", 80),
    (b"LXC\x02\x00\x00", 80),
    (b"LXL\x01\x00\x00\x00", 0),
    (b"LXL\x01\x00\x00\x00\x00", 84),
    (b"lXL\x01\x00\x00\x00", 81),
    (b"LYL\x01\x00\x00\x00", 81),
    (b"LXC\x01\x00\x00\x00", 81),
    (b"LXC\x02\x00\x01\x04", 81),
    (b"LXL\x00\x00\x00\x00", 82),
    (b"LXL\x02\x00\x00\x00", 82),
    (b"LXL\x00\x01\x00\x00", 82),
    (b"LXL\x01\x01\x00\x00", 82),
    (b"LXL\x02\x00\x01\x04", 82),
    (b"LXL\x02\x00\x00\x00\x00", 82),
    (b"LXL\x01\x00\x01\x04", 83),
    (b"LXL\x01\x00\x00\x08", 83),
    (b"LXL\x01\x00\xff\xff", 83),
    (b"LXL\x01\x00\x01\x04\x00", 83),
    (b"LXL\x01\x00\x00\x04", 84),
    (b"LXL\x01\x00\xff\x03", 84),
    (b"LXL\x01\x00\x01\x00", 84),
    (b"LXL\x01\x00\x00\x01", 84),
    (
        b"LXL\x01\x00\x01\x00\x00\x00\x00\x00\x00\x00\x00\x00\x00\x00\x00\x00\x00",
        84,
    ),
];

/// Apprentice, opening and closing.
type Line = (u32, u16, u16);

const HIGH: u32 = 1 << 31;

/// Entries with the rows and the entries that cover none.
const CREDITED: [(&[Line], &[(u32, u32)], &[u16]); 20] = [
    (&[(7, 0, 10_080)], &[(7, 10_080)], &[]),
    (&[(7, 0, 1)], &[(7, 1)], &[]),
    (&[(7, 10_079, 10_080)], &[(7, 1)], &[]),
    (&[(7, 10_080, 10_080)], &[(7, 0)], &[0]),
    (&[(7, 10_080, 0)], &[(7, 0)], &[0]),
    (&[(7, 0, 0)], &[(7, 0)], &[0]),
    // Overlapping, nested, equal, touching, a minute apart; each also in the other order.
    (&[(7, 10, 20), (7, 15, 25)], &[(7, 15)], &[]),
    (&[(7, 15, 25), (7, 10, 20)], &[(7, 15)], &[]),
    (&[(7, 10, 20), (7, 12, 15)], &[(7, 10)], &[]),
    (&[(7, 12, 15), (7, 10, 20), (7, 18, 22)], &[(7, 12)], &[]),
    (&[(7, 10, 20), (7, 10, 20)], &[(7, 10)], &[]),
    (&[(7, 10, 20), (7, 20, 30)], &[(7, 20)], &[]),
    (&[(7, 20, 30), (7, 10, 20)], &[(7, 20)], &[]),
    (&[(7, 10, 20), (7, 21, 30)], &[(7, 19)], &[]),
    // An entry that covers none takes nothing from others.
    (
        &[(7, 10, 20), (8, 20, 10), (7, 15, 15), (9, 5, 5)],
        &[(7, 10), (8, 0), (9, 0)],
        &[1, 2, 3],
    ),
    (&[(7, 10, 20), (8, 10, 20)], &[(7, 10), (8, 10)], &[]),
    (
        &[
            (HIGH, 0, 2),
            (u32::MAX, 0, 5),
            (1, 0, 1),
            (9, 0, 4),
            (HIGH - 1, 0, 3),
        ],
        &[(1, 1), (9, 4), (HIGH - 1, 3), (HIGH, 2), (u32::MAX, 5)],
        &[],
    ),
    (
        &[(0x20001, 0, 1), (0x10001, 0, 2), (1, 0, 4), (0x10001, 1, 4)],
        &[(1, 4), (0x10001, 4), (0x20001, 1)],
        &[],
    ),
    // Four hundred hours by ten entries of the same forty.
    (&[(7, 480, 2880); 10], &[(7, 2400)], &[]),
    (
        &[
            (7, 0, 60),
            (8, 0, 60),
            (7, 30, 90),
            (8, 120, 60),
            (7, 90, 120),
        ],
        &[(7, 120), (8, 60)],
        &[3],
    ),
];

/// Entries that are refused.
const REFUSED: [(&[Line], u8); 12] = [
    (&[(7, 10_081, 10_080)], 85),
    (&[(7, 10_080, 10_081)], 85),
    (&[(7, 0, 10_081)], 85),
    (&[(7, 10_081, 0)], 85),
    (&[(7, 65_535, 65_535)], 85),
    (&[(0, 0, 1)], 85),
    (&[(0, 5, 5)], 85),
    (&[(7, 0, 1), (8, 0, 1), (0, 1, 0)], 85),
    (&[(7, 0, 1), (8, 0, 1), (9, 10_081, 0)], 85),
    (&[(7, 0, 1), (8, 0, 1), (9, 0, 10_081)], 85),
    (&[(7, 32_768, 0), (8, 0, 1)], 85),
    (&[(7, 0, 32_768), (8, 0, 1)], 85),
];

/// The login is the next apprentice's number.
fn entry(&(apprentice, opening, closing): &Line) -> Entry {
    Entry {
        apprentice,
        verdict: 60,
        opening,
        closing,
        login: apprentice.wrapping_add(1),
    }
}

fn log(lines: &[Line]) -> Vec<u8> {
    let list: Vec<Entry> = lines.iter().map(entry).collect();
    minutes::log(&list)
}

fn report(rows: &[(u32, u32)], listed: &[u16]) -> Report {
    let row = |&(apprentice, minutes): &(u32, u32)| Credit {
        apprentice,
        minutes,
    };
    Report {
        rows: rows.iter().map(row).collect(),
        listed: listed.to_vec(),
    }
}

/// So many entries, by so many apprentices in turn, falling, with the same minutes.
fn by_turns(count: usize, people: usize, opening: u16, closing: u16) -> Vec<Line> {
    let number = |i: usize| (people - i % people) as u32;
    (0..count).map(|i| (number(i), opening, closing)).collect()
}

/// Logs with what they give, or the number that refuses them.
pub fn logs() -> Vec<(Vec<u8>, Result<Report, u8>)> {
    let mut list = Vec::new();
    for (bytes, number) in HEADS {
        let told = match number {
            0 => Ok(report(&[], &[])),
            _ => Err(number),
        };
        list.push((bytes.to_vec(), told));
    }
    for (lines, rows, listed) in CREDITED {
        list.push((log(lines), Ok(report(rows, listed))));
    }
    list.extend(REFUSED.map(|(lines, number)| (log(lines), Err(number))));
    list.extend(around_limits());
    list.extend(of_lengths());
    list
}

/// Around 64 apprentices and 1,024 entries.
fn around_limits() -> Vec<(Vec<u8>, Result<Report, u8>)> {
    let all = |people: u32, minutes: u32| -> Vec<(u32, u32)> {
        (1..=people).map(|n| (n, minutes)).collect()
    };
    let numbers: Vec<u16> = (0..ENTRIES as u16).collect();
    let (most, week) = (APPRENTICES as u32, WEEK as u32);
    let mut list = vec![
        (by_turns(64, 64, 3, 5), Ok(report(&all(most, 2), &[]))),
        (
            by_turns(64, 64, 5, 5),
            Ok(report(&all(most, 0), &numbers[..64])),
        ),
        (by_turns(65, 65, 3, 5), Err(86)),
        (by_turns(65, 65, 5, 5), Err(86)),
        (
            by_turns(1024, 64, 0, WEEK),
            Ok(report(&all(most, week), &[])),
        ),
        (
            by_turns(1024, 64, 9, 9),
            Ok(report(&all(most, 0), &numbers)),
        ),
        (
            by_turns(1023, 1, 9, 8),
            Ok(report(&all(1, 0), &numbers[..1023])),
        ),
        (by_turns(1024, 65, 0, WEEK), Err(86)),
        (by_turns(1024, 1024, 0, 1), Err(86)),
        (by_turns(1025, 1, 0, 1), Err(83)),
        (by_turns(1025, 65, 0, WEEK + 1), Err(83)),
        (by_turns(65_535, 64, 0, 1), Err(83)),
    ];
    // The 65th apprentice, in the last entry, covers none; then 85 there or before.
    let mut lines = by_turns(64, 64, 3, 5);
    lines.push((65, 5, 5));
    list.push((lines.clone(), Err(86)));
    lines[64] = (0, 5, 5);
    list.push((lines.clone(), Err(85)));
    lines[64] = (65, 5, WEEK + 1);
    list.push((lines.clone(), Err(85)));
    lines[64] = (64, 5, 5);
    let mut rows = all(most, 2);
    list.push((lines.clone(), Ok(report(&rows, &[64]))));
    lines[0] = (64, 9, 3);
    rows[63].1 = 0;
    list.push((lines, Ok(report(&rows, &[0, 64]))));
    let each = |(lines, told): (Vec<Line>, _)| (log(&lines), told);
    list.into_iter().map(each).collect()
}

/// A count or a length that is another's, also with a fault in an entry.
fn of_lengths() -> Vec<(Vec<u8>, Result<Report, u8>)> {
    let good = log(&[(7, 0, 1), (8, 0, 1)]);
    let bad = log(&[(7, 0, 1), (0, 0, 1)]);
    let mut list = Vec::new();
    for b in [&good, &bad] {
        for count in [0, 1, 3, 258, 1024] {
            let mut other = b.clone();
            put_word(&mut other, 5, count);
            list.push((other, Err(84)));
        }
        for length in [8, 20, 21, 34, 36, 49, b.len() + 65_536] {
            let mut other = b.clone();
            other.resize(length, 1);
            list.push((other, Err(84)));
        }
    }
    list
}
