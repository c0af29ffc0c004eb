//! The proved judge of a class beside the Rust one, with rows lent in several numbers
//! between guard rows, and each row beside a single call of the proved judge.

use crate::class::{self, Cause, Row, CAUSES, MOST};
use crate::class_examples;
use crate::class_sheets::{self, Class, FAULTS};
use crate::faults::Known;
use crate::forms::same;
use crate::generate::*;
use crate::hex;
use crate::judge;
use crate::lent::Lent;
use crate::proved;
use crate::settings::HOUSE;
use std::fmt::Write;

/// Guard rows at each end of the rows lent.
const GUARDS: usize = 4;

/// How many answers of other pairs are kept.
const KEPT: usize = 16;

/// A class that was marked. `empty` is the number of an empty answer to the same
/// exercise on the same board: 20 where both are good.
pub struct Marked<'a> {
    sheet: &'a [u8],
    answers: &'a [&'a [u8]],
    rows: &'a [Row],
    empty: u32,
}

type Test = fn(&Marked) -> bool;

/// What a class that was marked shows.
pub const CASES: [(&str, Test); 20] = [
    ("two verdicts", |m| m.numbers().len() > 1),
    ("five verdicts", |m| m.numbers().len() > 4),
    ("legal before refused", |m| {
        m.row_then(|n| n == 0, |n| n != 0)
    }),
    ("refused before legal", |m| {
        m.row_then(|n| n != 0, |n| n == 0)
    }),
    ("all legal", |m| m.rows.len() > 1 && m.numbers() == [0]),
    ("32 legal", |m| m.rows.len() == MOST && m.numbers() == [0]),
    ("32 legal of 512 cells", |m| {
        let large = m.answers.iter().all(|a| a.len() == 11 + 4 * 512);
        m.rows.len() == MOST && m.numbers() == [0] && large
    }),
    ("one number at two cells or LABs", |m| {
        m.pair(|(_, p), (_, q)| p.number == q.number && (p.cell, p.lab) != (q.cell, q.lab))
    }),
    ("one answer twice, legal", |m| {
        m.pair(|(a, p), (b, _)| a.get(9..) == b.get(9..) && p.number == 0)
    }),
    ("one apprentice, two verdicts", |m| {
        m.pair(|(_, p), (_, q)| {
            p.apprentice == q.apprentice && p.apprentice != 0 && p.number != q.number
        })
    }),
    ("empty answer", |m| m.empty_answer() && m.empty == 20),
    ("empty answer between others", |m| {
        let mut three = m.answers.windows(3);
        three.any(|w| [0, 1, 2].map(|i| w[i].is_empty()) == [false, true, false])
    }),
    ("empty answers only", |m| {
        m.rows.len() > 1 && m.answers.iter().all(|a| a.is_empty())
    }),
    ("empty answer to no exercise", |m| {
        m.empty_answer() && (10..=16).contains(&m.empty)
    }),
    ("answer over 255 bytes", |m| m.longest() > 255),
    ("legal answer over 255 bytes", |m| {
        let mut each = m.answers.iter().zip(m.rows);
        each.any(|(a, r)| a.len() > 255 && r.number == 0)
    }),
    ("answer of 65,535 bytes", |m| m.longest() == 65_535),
    ("sheet over 65,535 bytes", |m| m.sheet.len() > 65_535),
    ("no answers, no settings", |m| {
        m.rows.is_empty() && m.empty >= 70
    }),
    ("no answers, no exercise", |m| {
        m.rows.is_empty() && m.empty < 20
    }),
];

impl Marked<'_> {
    /// The different numbers, rising.
    fn numbers(&self) -> Vec<u32> {
        let mut list: Vec<u32> = self.rows.iter().map(|r| r.number).collect();
        list.sort_unstable();
        list.dedup();
        list
    }

    /// Whether a row with one number stands before a row with the other.
    fn row_then(&self, first: fn(u32) -> bool, second: fn(u32) -> bool) -> bool {
        let at = self.rows.iter().position(|r| first(r.number));
        at.is_some_and(|i| self.rows[i..].iter().any(|r| second(r.number)))
    }

    /// Whether two answers with their rows pass the test.
    fn pair(&self, test: fn((&[u8], &Row), (&[u8], &Row)) -> bool) -> bool {
        let each = |i: usize| (self.answers[i], &self.rows[i]);
        (0..self.rows.len()).any(|i| (0..i).any(|k| test(each(k), each(i))))
    }

    fn empty_answer(&self) -> bool {
        self.answers.iter().any(|a| a.is_empty())
    }

    fn longest(&self) -> usize {
        self.answers.iter().map(|a| a.len()).max().unwrap_or(0)
    }
}

/// How often each thing was compared.
pub struct Counts {
    /// Class sheets that are marked, by their answers; the last are sheets of 33.
    pub answers: [u64; MOST + 2],
    /// Their rows by number.
    pub rows: [u64; 256],
    /// Those with two rows or more that all show the settings or the exercise.
    pub every: [u64; 256],
    pub cases: [u64; CASES.len()],
    /// Rows right before a legal one and right after one, by number.
    pub legal_next: [u64; 256],
    pub legal_before: [u64; 256],
    /// Calls that mark: with as many rows as answers, more, and 32 for fewer.
    pub marked: [u64; 3],
    /// 77 with no row, with one too few, and beside settings or an exercise that is
    /// none.
    pub too_few: [u64; 3],
    /// 76 by cause, with rows enough, and with too few as well.
    pub causes: [u64; CAUSES.len()],
    pub both: [u64; CAUSES.len()],
    /// 76 beside settings or an exercise that is none.
    pub beside: u64,
    /// Sheets under 7 bytes by their length.
    pub short: [u64; class::HEAD],
    /// Faults planted alone.
    pub faults: [u64; FAULTS.len()],
    /// Sheets changed at random that are marked all the same.
    pub still_good: u64,
    /// Borders moved and answers joined, and how often that changed rows.
    pub regrouped: [u64; 2],
    pub changed: [u64; 2],
}

impl Counts {
    fn new() -> Counts {
        Counts {
            answers: [0; MOST + 2],
            rows: [0; 256],
            every: [0; 256],
            cases: [0; CASES.len()],
            legal_next: [0; 256],
            legal_before: [0; 256],
            marked: [0; 3],
            too_few: [0; 3],
            causes: [0; CAUSES.len()],
            both: [0; CAUSES.len()],
            beside: 0,
            short: [0; class::HEAD],
            faults: [0; FAULTS.len()],
            still_good: 0,
            regrouped: [0; 2],
            changed: [0; 2],
        }
    }

    /// A class by its rows.
    fn note_marked(&mut self, m: &Marked) {
        self.answers[m.rows.len()] += 1;
        for r in m.rows {
            self.rows[r.number as usize] += 1;
        }
        for two in m.rows.windows(2) {
            let [first, second] = [two[0], two[1]].map(|r| r.number as usize);
            self.legal_next[first] += (second == 0) as u64;
            self.legal_before[second] += (first == 0) as u64;
        }
        if m.rows.len() > 1 && m.empty != 20 {
            self.every[m.empty as usize] += 1;
        }
        for (n, (_, test)) in self.cases.iter_mut().zip(CASES) {
            *n += test(m) as u64;
        }
    }

    /// A call for a sheet of so many answers, or made of so many, with rows lent;
    /// gives the number that it has to have.
    fn note_call(&mut self, read: &Read, answers: usize, lent: usize, empty: u32) -> u8 {
        match read {
            Err(cause) => {
                self.note_refused(*cause, answers, lent, empty);
                76
            }
            Ok(_) if lent < answers => {
                self.note_too_few(answers, lent, empty);
                77
            }
            Ok(_) => {
                self.note_lent(answers, lent);
                0
            }
        }
    }

    fn note_lent(&mut self, answers: usize, lent: usize) {
        self.marked[0] += (lent == answers) as u64;
        self.marked[1] += (lent > answers) as u64;
        self.marked[2] += (lent == MOST && answers < MOST) as u64;
    }

    fn note_too_few(&mut self, answers: usize, lent: usize, empty: u32) {
        self.too_few[0] += (lent == 0) as u64;
        self.too_few[1] += (lent + 1 == answers) as u64;
        self.too_few[2] += (empty != 20) as u64;
    }

    fn note_refused(&mut self, cause: Cause, answers: usize, lent: usize, empty: u32) {
        let i = CAUSES.iter().position(|c| c.0 == cause).unwrap_or(0);
        if lent < answers {
            self.both[i] += 1;
        } else {
            self.causes[i] += 1;
        }
        self.beside += (empty != 20) as u64;
    }
}

/// The answers on a class sheet, or why there are none.
type Read<'a> = Result<Vec<&'a [u8]>, Cause>;

/// Settings, exercise and class sheet of a call.
type ThreeSheets<'a> = [&'a [u8]; 3];

/// None, one too few, and rows enough, in one number or in several.
fn rows_lent(rng: &mut Rng, answers: usize, several: bool) -> Vec<usize> {
    let more = answers + rng.range(2, 6);
    let enough = [answers, answers + 1, more, MOST.max(answers), 100];
    let mut list = vec![0, answers.saturating_sub(1)];
    if several {
        list.extend(enough);
    } else {
        list.push(rng.pick(&enough));
    }
    list
}

pub struct Marking {
    pub counts: Counts,
    // The rows before the call, for the library and for the Rust judge.
    before: Vec<Row>,
    left: Vec<Row>,
    right: Vec<Row>,
    lent: Lent,
    others: Vec<Vec<u8>>,
}

impl Marking {
    pub fn new() -> Marking {
        Marking {
            counts: Counts::new(),
            before: Vec::new(),
            left: Vec::new(),
            right: Vec::new(),
            lent: Lent::new(),
            others: Vec::new(),
        }
    }

    /// Both on copies of the same rows, guarded at both ends; the number and the rows
    /// filled on which they agree, or an account of the difference.
    fn call(
        &mut self,
        fill: &[u8],
        [settings, exercise, sheet]: ThreeSheets,
        lent: usize,
    ) -> Result<(u8, &[Row]), String> {
        let rows = fill.chunks_exact(16).take(lent + 2 * GUARDS);
        self.before.clear();
        self.before.extend(rows.map(any_row));
        self.left.clone_from(&self.before);
        self.right.clone_from(&self.before);
        let part = GUARDS..GUARDS + lent;
        let a = proved::mark_class(settings, exercise, sheet, &mut self.left[part.clone()]);
        let b = class::mark(settings, exercise, sheet, &mut self.right[part]);
        let mut wrong = self.first_difference();
        if a != b {
            wrong.push_str("the classes differ\n");
        }
        for (who, told, rows) in [("proved", a, &self.left), ("Rust", b, &self.right)] {
            let end = GUARDS + told.1.min(lent);
            if rows[..GUARDS] != self.before[..GUARDS] || rows[end..] != self.before[end..] {
                let _ = writeln!(wrong, "{who}: a row that is not filled changed");
            }
        }
        if wrong.is_empty() {
            return Ok((a.0, &self.left[GUARDS..GUARDS + a.1]));
        }
        for (who, told) in [("proved:", a), ("Rust:", b)] {
            let _ = writeln!(wrong, "{who:<8}number {} filled {}", told.0, told.1);
        }
        let _ = writeln!(wrong, "{lent} rows lent");
        Err(wrong)
    }

    /// The first row that differs after the two calls; nothing where none does.
    fn first_difference(&self) -> String {
        let Some(i) = (0..self.left.len()).find(|&i| self.left[i] != self.right[i]) else {
            return String::new();
        };
        let [left, right, before] = [&self.left, &self.right, &self.before].map(|rows| rows[i]);
        format!(
            "row {} differs\nproved: {left:?}\nRust:   {right:?}\nbefore: {before:?}\n",
            i as i64 - GUARDS as i64
        )
    }

    /// A class for the exercise of a pair; where it is marked, now and then once more
    /// with its bytes grouped otherwise.
    pub fn class(&mut self, rng: &mut Rng, fill: &[u8], case: &Case) -> Result<(), String> {
        let class = class_sheets::some(rng, case, &self.others);
        match self.others.len() {
            KEPT => self.others[rng.below(KEPT)].clone_from(&case.answer),
            _ => self.others.push(case.answer.clone()),
        }
        let rows = self.compare(rng, fill, case, &class)?;
        if rows.len() < 2 || !matches!(class.known, Known::Good) || rng.percent(80) {
            return Ok(());
        }
        for (i, list) in [
            class_sheets::border_moved(rng, &class.answers),
            class_sheets::joined(rng, &class.answers),
        ]
        .into_iter()
        .enumerate()
        {
            let Some(answers) = list else { continue };
            let other = Class::good(rng, answers);
            let told = self.compare(rng, fill, case, &other)?;
            self.counts.regrouped[i] += 1;
            self.counts.changed[i] += (told[..] != rows[..told.len()]) as u64;
        }
        Ok(())
    }

    /// A class with each number of rows; gives its rows, none where it is refused.
    fn compare(
        &mut self,
        rng: &mut Rng,
        fill: &[u8],
        case: &Case,
        class: &Class,
    ) -> Result<Vec<Row>, String> {
        let sheets = [&case.settings[..], &case.exercise, class.sheet()];
        self.marked(rng, fill, sheets, class).map_err(|wrong| {
            // The first bytes will do: the seed gives them all.
            let first = &sheets[2][..sheets[2].len().min(8192)];
            let class = format!("class sheet of {} bytes, begins", sheets[2].len());
            wrong + &hex("settings", sheets[0]) + &hex("exercise", sheets[1]) + &hex(&class, first)
        })
    }

    fn marked(
        &mut self,
        rng: &mut Rng,
        fill: &[u8],
        sheets: ThreeSheets,
        class: &Class,
    ) -> Result<Vec<Row>, String> {
        let [settings, exercise, sheet] = sheets;
        let read = class::answers(sheet);
        self.expect(class, &read)?;
        let alone = class::row_of(settings, exercise, &[], self.lent.parts());
        let empty = alone.number;
        let made = read.as_ref().map_or(class.answers.len(), |list| list.len());
        let mut marked = Vec::new();
        let several = read.is_err() || rng.percent(5);
        for lent in rows_lent(rng, made, several) {
            let (number, rows) = self.call(fill, sheets, lent)?;
            if number == 0 {
                marked = rows.to_vec();
            }
            let wanted = self.counts.note_call(&read, made, lent, empty);
            same("the number of the class", number, wanted)?;
        }
        let Ok(answers) = &read else {
            return Ok(Vec::new());
        };
        same("rows filled", marked.len(), answers.len())?;
        self.beside_singles(sheets, answers, &marked)?;
        if empty != 20 {
            same("a row that shows no answer", &marked, &vec![alone; made])?;
        }
        self.counts.note_marked(&Marked {
            sheet,
            answers,
            rows: &marked,
            empty,
        });
        Ok(marked)
    }

    /// What is known of the sheet, beside what was read from it.
    fn expect(&mut self, class: &Class, read: &Read) -> Result<(), String> {
        let sheet = class.sheet();
        if sheet.len() < class::HEAD {
            self.counts.short[sheet.len()] += 1;
        }
        match (class.known, read) {
            (Known::Good, Ok(list)) if *list == class.answers => {}
            (Known::Nothing, _) => self.counts.still_good += read.is_ok() as u64,
            (Known::Fault(i), Err(_)) => {
                self.counts.faults[i] += 1;
                self.counts.answers[MOST + 1] += (class.answers.len() == MOST + 1) as u64;
            }
            (Known::Fault(i), Ok(_)) => {
                return Err(format!("read in spite of: {}\n", FAULTS[i].1));
            }
            (Known::Good, _) => return Err("a good sheet was not read\n".to_string()),
        }
        Ok(())
    }

    /// Settled sheets with several numbers of rows, then a settled class with its rows;
    /// each also on settings and with an exercise that is none. Gives how many calls
    /// there were.
    pub fn settled(&mut self, rng: &mut Rng) -> Result<usize, String> {
        let fill: Vec<u8> = (0..16 * 200).map(|_| rng.byte()).collect();
        let (exercise, list) = class_examples::class();
        let cut = &exercise[..exercise.len() - 1];
        let (answers, rows): (Vec<_>, Vec<_>) = list.into_iter().unzip();
        let class = Class::good(rng, answers);
        let all = |number: u32| vec![none_with(number); rows.len()];
        let mut calls = 0;
        for (settings, exercise, rows) in [
            (&HOUSE[..], &exercise[..], rows.clone()),
            (b"", &exercise, all(70)),
            (&HOUSE, cut, all(14)),
        ] {
            for (sheet, answers) in class_examples::sheets() {
                calls += self.settled_sheet(&fill, [settings, exercise, &sheet], answers)?;
            }
            let sheets = [settings, exercise, class.sheet()];
            let told = self.call(&fill, sheets, rows.len() + 2)?;
            same("a settled class", told, (0, &rows))?;
            calls += 1;
        }
        Ok(calls)
    }

    fn settled_sheet(
        &mut self,
        fill: &[u8],
        sheets: ThreeSheets,
        answers: Option<usize>,
    ) -> Result<usize, String> {
        let lent = [0, 1, 2, 30, 31, 32, 33, 34, 100];
        for lent in lent {
            let wanted = match answers {
                None => (76, 0),
                Some(n) if lent < n => (77, 0),
                Some(n) => (0, n),
            };
            let (number, rows) = self.call(fill, sheets, lent)?;
            same("a settled class sheet", (number, rows.len()), wanted)?;
        }
        Ok(lent.len())
    }

    /// Each row is what a single call of the proved judge says.
    fn beside_singles(
        &mut self,
        [settings, exercise, _]: ThreeSheets,
        answers: &[&[u8]],
        rows: &[Row],
    ) -> Result<(), String> {
        for (i, (answer, row)) in answers.iter().zip(rows).enumerate() {
            let single = proved::row(settings, exercise, answer, self.lent.parts());
            same(&format!("row {i} beside a single call"), *row, single)?;
        }
        Ok(())
    }
}

/// A row that names nothing but its number.
fn none_with(number: u32) -> Row {
    Row {
        number,
        cell: judge::NONE as u32,
        lab: judge::NONE as u32,
        apprentice: 0,
    }
}

/// Sixteen bytes as a row.
fn any_row(b: &[u8]) -> Row {
    let word = |i: usize| u32::from_le_bytes([b[i], b[i + 1], b[i + 2], b[i + 3]]);
    Row {
        number: word(0),
        cell: word(4),
        lab: word(8),
        apprentice: word(12),
    }
}
