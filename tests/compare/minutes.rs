//! Minutes from the tablet log in plain Rust, straight from M-105: for each apprentice
//! a flag for every minute of the week.
#![allow(dead_code)]

use crate::plain::word;
use std::collections::BTreeSet;

/// A log has at most so many apprentices and entries.
pub const APPRENTICES: usize = 64;
pub const ENTRIES: usize = 1024;

/// Rows and entry numbers that are to be lent.
pub const LENT: [usize; 2] = [APPRENTICES, ENTRIES];

/// Mark, version and count.
pub const HEAD: usize = 7;

/// Bytes of an entry.
pub const ENTRY: usize = 14;

/// Minutes of a week.
pub const WEEK: u16 = 10_080;

/// An apprentice's minutes, laid out as in the library.
#[repr(C)]
#[derive(Clone, Copy, Debug, PartialEq, Eq)]
pub struct Credit {
    pub apprentice: u32,
    pub minutes: u32,
}

#[derive(Clone, Copy, Debug, PartialEq, Eq)]
pub struct Entry {
    pub apprentice: u32,
    pub verdict: u16,
    pub opening: u16,
    pub closing: u16,
    pub login: u32,
}

impl Entry {
    pub fn read(b: &[u8]) -> Entry {
        let double = |at: usize| word(b, at) as u32 + 65_536 * word(b, at + 2) as u32;
        Entry {
            apprentice: double(0),
            verdict: word(b, 4),
            opening: word(b, 6),
            closing: word(b, 8),
            login: double(10),
        }
    }

    /// Closes at or before its opening.
    pub fn covers_none(&self) -> bool {
        self.closing <= self.opening
    }

    /// What 85 refuses.
    pub fn bad(&self) -> bool {
        self.opening > WEEK || self.closing > WEEK || self.apprentice == 0
    }
}

/// The log of these entries.
pub fn log(entries: &[Entry]) -> Vec<u8> {
    let mut b = Vec::with_capacity(HEAD + ENTRY * entries.len());
    b.extend(b"LXL\x01\x00");
    b.extend((entries.len() as u16).to_le_bytes());
    for e in entries {
        b.extend(e.apprentice.to_le_bytes());
        b.extend(
            [e.verdict, e.opening, e.closing]
                .map(u16::to_le_bytes)
                .as_flattened(),
        );
        b.extend(e.login.to_le_bytes());
    }
    b
}

/// The entries that stand whole on a log, whatever its count.
pub fn entries(log: &[u8]) -> Vec<Entry> {
    let all = log.get(HEAD..).unwrap_or(&[]);
    all.chunks_exact(ENTRY).map(Entry::read).collect()
}

/// The different apprentices, rising.
pub fn apprentices(entries: &[Entry]) -> BTreeSet<u32> {
    entries.iter().map(|e| e.apprentice).collect()
}

/// What a log that is not refused gives.
#[derive(Debug, PartialEq, Eq)]
pub struct Report {
    /// By apprentice, rising.
    pub rows: Vec<Credit>,
    /// Numbers of the entries that cover no minute, rising.
    pub listed: Vec<u16>,
}

/// The report of a log, or the number that refuses it, with so many rows and entry
/// numbers lent.
pub fn replay(log: &[u8], lent: [usize; 2]) -> Result<Report, u8> {
    if lent != LENT {
        return Err(87);
    }
    if log.len() < HEAD {
        return Err(80);
    }
    if !log.starts_with(b"LXL") {
        return Err(81);
    }
    if word(log, 3) != 1 {
        return Err(82);
    }
    let count = word(log, 5) as usize;
    if count > ENTRIES {
        return Err(83);
    }
    if log.len() != HEAD + ENTRY * count {
        return Err(84);
    }
    let list = entries(log);
    if list.iter().any(Entry::bad) {
        return Err(85);
    }
    if apprentices(&list).len() > APPRENTICES {
        return Err(86);
    }
    Ok(report(&list))
}

fn report(list: &[Entry]) -> Report {
    let row = |apprentice: u32| Credit {
        apprentice,
        minutes: minutes_of(apprentice, list),
    };
    let numbers = 0..list.len() as u16;
    Report {
        rows: apprentices(list).into_iter().map(row).collect(),
        listed: numbers
            .filter(|&i| list[i as usize].covers_none())
            .collect(),
    }
}

/// How many minutes the apprentice's own entries cover.
fn minutes_of(apprentice: u32, list: &[Entry]) -> u32 {
    let mut week = [false; WEEK as usize];
    for e in list.iter().filter(|e| e.apprentice == apprentice) {
        if !e.covers_none() {
            week[e.opening as usize..e.closing as usize].fill(true);
        }
    }
    week.iter().filter(|&&covered| covered).count() as u32
}

/// Fills the lists that are lent; gives the number and how many rows and entry numbers
/// are filled, none by a refusal.
pub fn fill(log: &[u8], rows: &mut [Credit], numbers: &mut [u16]) -> (u8, [usize; 2]) {
    match replay(log, [rows.len(), numbers.len()]) {
        Err(number) => (number, [0; 2]),
        Ok(told) => {
            rows[..told.rows.len()].copy_from_slice(&told.rows);
            numbers[..told.listed.len()].copy_from_slice(&told.listed);
            (0, [told.rows.len(), told.listed.len()])
        }
    }
}

/// The number of different (apprentice, minute) pairs, time by time: from one opening
/// or closing to the next the same apprentices are there.
pub fn pairs(list: &[Entry]) -> u64 {
    let mut times: Vec<u16> = list.iter().flat_map(|e| [e.opening, e.closing]).collect();
    times.sort_unstable();
    times.dedup();
    let mut list = list.to_vec();
    list.sort_by_key(|e| e.apprentice);
    let there = |at: u16| {
        let mut last = 0;
        let mut count = 0;
        for e in &list {
            if e.opening <= at && at < e.closing && e.apprentice != last {
                (last, count) = (e.apprentice, count + 1);
            }
        }
        count
    };
    let stretch = |t: &[u16]| (t[1] - t[0]) as u64 * there(t[0]);
    times.windows(2).map(stretch).sum()
}
