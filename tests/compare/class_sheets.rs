//! Class sheets: answers of every sort to the exercise of a generated pair, and
//! sheets with each fault of 76, alone, with others, and at random.

use crate::class::{self, HEAD, MOST};
use crate::faults::Known;
use crate::forms;
use crate::generate::*;

/// The longest answer that a class sheet can hold.
const LONGEST: usize = 65_535;

/// Bytes after the end of a good sheet.
const SPARE: usize = 80;

#[derive(Clone, Copy, PartialEq)]
pub enum Fault {
    Answers,
    Short,
    Mark,
    Version,
    CountOver,
    CountHighByte,
    CountMore,
    CountFewer,
    LengthMore,
    LengthLess,
    LengthHighByte,
    LengthFar,
    NoLength,
    HalfLength,
    Cut,
    ByteLeftOver,
    LeftOver,
}

use Fault::*;

/// Every fault; each alone gives 76.
pub const FAULTS: [(Fault, &str); 17] = [
    (Answers, "33 answers or more"),
    (Short, "under 7 bytes"),
    (Mark, "mark"),
    (Version, "version"),
    (CountOver, "count over 32"),
    (CountHighByte, "high byte of the count"),
    (CountMore, "count one more"),
    (CountFewer, "count one fewer"),
    (LengthMore, "last length one more"),
    (LengthLess, "last length one less"),
    (LengthHighByte, "high byte of the last length"),
    (LengthFar, "length over the end"),
    (NoLength, "cut before a length"),
    (HalfLength, "cut in a length"),
    (Cut, "cut anywhere"),
    (ByteLeftOver, "one byte left over"),
    (LeftOver, "bytes left over"),
];

/// A class sheet, with other bytes before it and after its end.
pub struct Class {
    /// What it was made of, before a fault.
    pub answers: Vec<Vec<u8>>,
    pub known: Known,
    store: Vec<u8>,
    start: usize,
    end: usize,
}

/// What answers a class has.
#[derive(Clone, Copy)]
enum Sort {
    Any,
    /// As generated, in these LABs or others.
    Kept,
    Empty,
}

/// A class for the exercise of a pair, with answers of other pairs among its own.
pub fn some(rng: &mut Rng, case: &Case, others: &[Vec<u8>]) -> Class {
    let (sort, count) = some_answers(rng, case);
    let answer = |rng: &mut Rng| match sort {
        Sort::Any => some_answer(rng, case, others),
        Sort::Kept => kept_answer(rng, case),
        Sort::Empty => Vec::new(),
    };
    let answers = (0..count).map(|_| answer(rng)).collect();
    let mut class = Class::good(rng, answers);
    if count > MOST {
        class.known = Known::Fault(0);
        return class;
    }
    match rng.below(20) {
        0..=10 => {}
        11..=17 => {
            let i = rng.range(1, FAULTS.len() - 1);
            if class.plant(rng, FAULTS[i].0) {
                class.known = Known::Fault(i);
            }
        }
        _ => {
            class.scatter(rng);
            class.known = Known::Nothing;
        }
    }
    class
}

/// The sort of the answers, and how many; 32 rather often where the exercise is large.
fn some_answers(rng: &mut Rng, case: &Case) -> (Sort, usize) {
    if case.exercise.len() > 9 + 24 * 500 && rng.percent(30) {
        return (Sort::Kept, MOST);
    }
    let sort = match rng.below(100) {
        0..=1 => Sort::Empty,
        2..=6 => Sort::Kept,
        _ => Sort::Any,
    };
    let count = match rng.below(100) {
        0..=4 => 0,
        5..=14 => 1,
        15..=79 => rng.range(2, 6),
        80..=90 => rng.range(7, 31),
        91 => 18,
        92..=95 => 32,
        96..=98 => 33,
        _ => rng.range(34, 40),
    };
    (sort, count)
}

impl Class {
    pub fn good(rng: &mut Rng, answers: Vec<Vec<u8>>) -> Class {
        // The sheet starts at any remainder by 8.
        let start = rng.below(8);
        let mut store = vec![0; start];
        store.extend(class::sheet(&answers));
        let end = store.len();
        store.extend((0..SPARE).map(|_| rng.byte()));
        Class {
            answers,
            known: Known::Good,
            store,
            start,
            end,
        }
    }

    pub fn sheet(&self) -> &[u8] {
        &self.store[self.start..self.end]
    }

    /// Where the length of the answer stands.
    fn length_at(&self, answer: usize) -> usize {
        let before = &self.answers[..answer];
        self.start + HEAD + before.iter().map(|a| 2 + a.len()).sum::<usize>()
    }

    /// Adds to a length, in 16 bits.
    fn lengthen(&mut self, answer: usize, by: u16) {
        let to = (self.answers[answer].len() as u16).wrapping_add(by);
        let at = self.length_at(answer);
        put_word(&mut self.store, at, to);
    }

    fn set_count(&mut self, to: usize) {
        put_word(&mut self.store, self.start + 5, to as u16);
    }

    /// Plants the fault in a good sheet; false where there is no room for it.
    fn plant(&mut self, rng: &mut Rng, fault: Fault) -> bool {
        let count = self.answers.len();
        let start = self.start;
        match fault {
            Short => self.end = start + rng.below(HEAD),
            Mark if rng.percent(30) => self.store[start + 2] = rng.pick(b"EATLXc"),
            Mark => self.store[start + rng.below(3)] ^= 1 << rng.below(8),
            // Some are good by one of their bytes.
            Version => {
                let version = rng.pick(&[0, 2, 3, 255, 256, 257, 512, 65535]);
                put_word(&mut self.store, start + 3, version);
            }
            CountOver => self.set_count(rng.pick(&[33, 33, 34, 64, 255, 32768, 65535])),
            CountHighByte => self.set_count(count + 256 * rng.range(1, 255)),
            CountMore => self.set_count(count + 1),
            ByteLeftOver => self.end += 1,
            LeftOver => self.end += rng.range(2, SPARE / 2),
            Answers => return false,
            _ if count == 0 => return false,
            CountFewer => self.set_count(count - 1),
            _ => return self.plant_in_answers(rng, fault),
        }
        true
    }

    /// The faults of a sheet with answers.
    fn plant_in_answers(&mut self, rng: &mut Rng, fault: Fault) -> bool {
        let last = self.answers.len() - 1;
        let some = match rng.below(3) {
            0 => 0,
            1 => last,
            _ => rng.below(last + 1),
        };
        let at = self.length_at(some);
        match fault {
            LengthMore => self.lengthen(last, 1),
            LengthLess => self.lengthen(last, 65535),
            LengthHighByte => self.lengthen(last, 256 * rng.range(1, 255) as u16),
            LengthFar => {
                let left = self.end.saturating_sub(at + 2);
                if left >= LONGEST {
                    return false;
                }
                let any = rng.range(left + 1, LONGEST);
                let to = rng.pick(&[left + 1, LONGEST, any]);
                put_word(&mut self.store, at, to as u16);
            }
            NoLength => self.end = at,
            HalfLength => self.end = at + 1,
            _ if self.end <= self.start + HEAD => return false,
            _ => self.end = rng.range(self.start + HEAD, self.end - 1),
        }
        true
    }

    /// Two faults, some length or byte changed, or random bytes; the sheet may still
    /// be good.
    fn scatter(&mut self, rng: &mut Rng) {
        let count = self.answers.len();
        match rng.below(6) {
            0 | 1 => {
                for _ in 0..2 {
                    let fault = rng.pick(&FAULTS).0;
                    self.plant(rng, fault);
                }
            }
            2 | 3 if count > 0 => {
                let any = rng.next() as u16;
                let by = rng.pick(&[1, 2, 256, 65534, 65535, any]);
                self.lengthen(rng.below(count), by);
            }
            4 => change_byte(rng, &mut self.store[self.start..self.end]),
            _ => {
                self.store = random_bytes(rng, b"LXC", HEAD, 2);
                (self.start, self.end) = (0, self.store.len());
            }
        }
    }
}

/// The same bytes with the border between two answers elsewhere, so that two lengths
/// differ and still add up; nothing where no border can be moved.
pub fn border_moved(rng: &mut Rng, answers: &[Vec<u8>]) -> Option<Vec<Vec<u8>>> {
    let first = rng.below(answers.len().checked_sub(1)?.max(1));
    let [left, right] = answers.get(first..first + 2)? else {
        return None;
    };
    let both = [&left[..], right].concat();
    let most = both.len().min(LONGEST);
    let border = rng.range(both.len() - most, most);
    if border == left.len() {
        return None;
    }
    let mut moved = answers.to_vec();
    moved[first] = both[..border].to_vec();
    moved[first + 1] = both[border..].to_vec();
    Some(moved)
}

/// The same bytes with an answer fewer, whose length and bytes belong to the one
/// before it; nothing where that would be too long.
pub fn joined(rng: &mut Rng, answers: &[Vec<u8>]) -> Option<Vec<Vec<u8>>> {
    let first = rng.below(answers.len().checked_sub(1)?.max(1));
    let mut list = answers.to_vec();
    let right = (first + 1 < list.len()).then(|| list.remove(first + 1))?;
    list[first].extend((right.len() as u16).to_le_bytes());
    list[first].extend(&right);
    (list[first].len() <= LONGEST).then_some(list)
}

/// The answer of the pair, in these LABs or others.
fn kept_answer(rng: &mut Rng, case: &Case) -> Vec<u8> {
    let mut a = case.answer.clone();
    if rng.percent(50) {
        shift(rng, &mut a);
    }
    a.truncate(LONGEST);
    other_apprentice(rng, &mut a);
    a
}

/// An answer to the exercise of the pair, made from the one it has, or any bytes.
fn some_answer(rng: &mut Rng, case: &Case, others: &[Vec<u8>]) -> Vec<u8> {
    let mut a = case.answer.clone();
    match rng.below(100) {
        0..=15 => {}
        16..=29 => shift(rng, &mut a),
        30..=46 => crowd(rng, &case.exercise, &mut a),
        47..=56 => displace(rng, &mut a),
        57..=61 => change_byte(rng, &mut a),
        62..=76 => {
            let number = rng.range(20, 25) as u8;
            aim_head(rng, number, &mut Vec::new(), &mut a);
        }
        77..=81 => misplace(rng, &mut a),
        82..=87 => a.clear(),
        88..=92 if !others.is_empty() => a = others[rng.below(others.len())].clone(),
        88..=95 => a = random_bytes(rng, b"LXA", 11, 4),
        96 => a = case.exercise.clone(),
        97 => a = case.settings.clone(),
        _ => a.resize(some_length(rng), rng.byte()),
    }
    a.truncate(LONGEST);
    other_apprentice(rng, &mut a);
    a
}

/// Often another apprentice, where there is one.
fn other_apprentice(rng: &mut Rng, a: &mut [u8]) {
    if a.len() < 9 || a[5..9] == [0; 4] || rng.percent(30) {
        return;
    }
    let apprentice = match rng.below(3) {
        0 => rng.range(1, 4) as u32,
        1 => 1 << rng.below(32),
        _ => (rng.next() >> 32) as u32 | 1,
    };
    a[5..9].copy_from_slice(&apprentice.to_le_bytes());
}

/// A length around the limits of its bytes and of an answer, or any.
fn some_length(rng: &mut Rng) -> usize {
    match rng.below(6) {
        0 | 1 => rng.pick(&[1, 10, 11, 255, 256, 257, 511, 512, 513]),
        2 => rng.pick(&[2058, 2059, 2060, 4096]),
        3 => rng.pick(&[32767, 32768, 65279, 65280, LONGEST - 1, LONGEST, LONGEST]),
        4 => rng.range(1, 3000),
        _ => rng.below(LONGEST + 1),
    }
}

/// The records that the answer has whole.
fn records(a: &mut [u8]) -> Vec<&mut [u8]> {
    a.get_mut(11..)
        .unwrap_or(&mut [])
        .chunks_exact_mut(4)
        .collect()
}

/// All cells in other LABs of the same rows; nothing else about them changes.
fn shift(rng: &mut Rng, a: &mut [u8]) {
    let by = rng.range(1, 31) as u8;
    for r in records(a) {
        if r[0] < 32 {
            r[0] = (r[0] + by) % 32;
        }
    }
}

/// Some cells without a carry into the LAB of another, at LEs that are free there.
fn crowd(rng: &mut Rng, exercise: &[u8], a: &mut [u8]) {
    let cells = forms::records(exercise);
    let mut places = records(a);
    let count = cells.len().min(places.len());
    if count == 0 {
        return;
    }
    let to = rng.below(count);
    let (x, y) = (places[to][0], places[to][1]);
    let mut taken = [[false; 16]; 256];
    for (c, p) in cells.iter().zip(&places) {
        if (p[0], p[1]) == (x, y) {
            taken[c.kind as usize][p[2] as usize % 16] = true;
        }
    }
    let most = rng.pick(&[3, 12, 40]);
    for _ in 0..rng.range(1, most) {
        let i = rng.below(count);
        let (c, p) = (&cells[i], &mut places[i]);
        let carry = c.kind == COMBINATIONAL && c.signals[CIN] | c.signals[COUT] != 0;
        let own = &mut taken[c.kind as usize];
        let Some(le) = own.iter().position(|t| !t) else {
            continue;
        };
        if !carry && (p[0], p[1]) != (x, y) {
            own[le] = true;
            (p[0], p[1], p[2]) = (x, y, le as u8);
        }
    }
}

/// One or two cells elsewhere: at any place, at another cell's, or both exchanged.
fn displace(rng: &mut Rng, a: &mut [u8]) {
    let mut places = records(a);
    if places.is_empty() {
        return;
    }
    let (i, k) = (rng.below(places.len()), rng.below(places.len()));
    let other: [u8; 3] = [places[k][0], places[k][1], places[k][2]];
    let own: [u8; 3] = [places[i][0], places[i][1], places[i][2]];
    match rng.below(4) {
        0 => places[i][..3].copy_from_slice(&other),
        1 => {
            places[i][..3].copy_from_slice(&other);
            places[k][..3].copy_from_slice(&own);
        }
        2 => places[i][2] = rng.below(16) as u8,
        _ => places[i][..3].copy_from_slice(&[32, 32, 16].map(|n| rng.below(n) as u8)),
    }
}

/// A byte of some record out of its range.
fn misplace(rng: &mut Rng, a: &mut [u8]) {
    let mut places = records(a);
    if places.is_empty() {
        return;
    }
    let i = rng.below(places.len());
    let field = rng.below(4);
    places[i][field] = rng.pick(&[32, 33, 128, 255]);
}
