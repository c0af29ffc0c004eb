//! Marking a class in plain Rust, straight from M-104: the answers on a class sheet,
//! and the row of each by the Rust judge.
#![allow(dead_code)]

use crate::judge;
use crate::lent::{Lent, Parts};
use crate::plain::word;

/// A class sheet has at most so many answers.
pub const MOST: usize = 32;

/// Mark, version and count.
pub const HEAD: usize = 7;

/// A verdict without its culprit, laid out as in the library.
#[repr(C)]
#[derive(Clone, Copy, Debug, PartialEq, Eq)]
pub struct Row {
    pub number: u32,
    pub cell: u32,
    pub lab: u32,
    pub apprentice: u32,
}

/// What a class sheet that is refused with 76 has wrong, the first of them.
#[derive(Clone, Copy, Debug, PartialEq)]
pub enum Cause {
    Short,
    Mark,
    Version,
    Count,
    NoLength,
    HalfLength,
    Answer,
    LeftOver,
}

use Cause::*;

pub const CAUSES: [(Cause, &str); 8] = [
    (Short, "under 7 bytes"),
    (Mark, "mark"),
    (Version, "version"),
    (Count, "count over 32"),
    (NoLength, "no length"),
    (HalfLength, "half a length"),
    (Answer, "answer over the end"),
    (LeftOver, "bytes left over"),
];

/// The class sheet of these answers.
pub fn sheet(answers: &[Vec<u8>]) -> Vec<u8> {
    let mut b = b"LXC\x01\x00".to_vec();
    b.extend((answers.len() as u16).to_le_bytes());
    for a in answers {
        b.extend((a.len() as u16).to_le_bytes());
        b.extend(a);
    }
    b
}

/// The answers on a class sheet, in order.
pub fn answers(sheet: &[u8]) -> Result<Vec<&[u8]>, Cause> {
    if sheet.len() < HEAD {
        return Err(Short);
    }
    if !sheet.starts_with(b"LXC") {
        return Err(Mark);
    }
    if word(sheet, 3) != 1 {
        return Err(Version);
    }
    let count = word(sheet, 5) as usize;
    if count > MOST {
        return Err(Count);
    }
    let mut rest = &sheet[HEAD..];
    let mut list = Vec::with_capacity(count);
    while list.len() < count {
        let (answer, after) = first_answer(rest)?;
        list.push(answer);
        rest = after;
    }
    match rest {
        [] => Ok(list),
        _ => Err(LeftOver),
    }
}

/// The answer after the length that stands first, and what comes after it.
fn first_answer(rest: &[u8]) -> Result<(&[u8], &[u8]), Cause> {
    match rest {
        [] => Err(NoLength),
        [_] => Err(HalfLength),
        [_, _, after @ ..] => after.split_at_checked(word(rest, 0) as usize).ok_or(Answer),
    }
}

/// Number and rows filled; a refusal fills none.
pub fn mark(settings: &[u8], exercise: &[u8], sheet: &[u8], rows: &mut [Row]) -> (u8, usize) {
    let Ok(list) = answers(sheet) else {
        return (76, 0);
    };
    if rows.len() < list.len() {
        return (77, 0);
    }
    let mut lent = Lent::new();
    for (row, answer) in rows.iter_mut().zip(&list) {
        *row = row_of(settings, exercise, answer, lent.parts());
    }
    (0, list.len())
}

/// What a single call says, with a route buffer and a list of tries of the right sizes.
pub fn row_of(settings: &[u8], exercise: &[u8], answer: &[u8], lent: Parts) -> Row {
    let v = judge::judge(settings, exercise, answer, lent);
    Row {
        number: v.number as u32,
        cell: v.cell as u32,
        lab: v.lab as u32,
        apprentice: v.apprentice,
    }
}
