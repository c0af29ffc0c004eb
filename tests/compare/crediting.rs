//! The proved minutes from a log beside those in Rust, with rows and entry numbers lent in
//! the right lengths and in others between guards; then the same log with other logins and
//! verdicts, and in another order.

use crate::faults::Known;
use crate::forms::same;
use crate::generate::*;
use crate::hex;
use crate::log_cases::{failing, Counts, Credited, OTHER_LISTS};
use crate::log_examples;
use crate::logs::{self, Log, FAULTS};
use crate::minutes::{self, Credit, APPRENTICES, ENTRIES, ENTRY, HEAD, LENT};
use crate::proved;
use std::fmt::Write;

/// Guards at each end of a list lent.
const GUARDS: usize = 4;

/// Rows and entry numbers, with guards at both ends of each.
#[derive(Clone, PartialEq)]
struct Lists {
    rows: Vec<Credit>,
    numbers: Vec<u16>,
}

impl Lists {
    fn new() -> Lists {
        Lists {
            rows: Vec::new(),
            numbers: Vec::new(),
        }
    }

    /// So many of each, of these bytes.
    fn set(&mut self, fill: &[u8], [rows, numbers]: [usize; 2]) {
        let double = |b: &[u8]| u32::from_le_bytes([b[0], b[1], b[2], b[3]]);
        let row = |b: &[u8]| Credit {
            apprentice: double(b),
            minutes: double(&b[4..]),
        };
        let all = fill.chunks_exact(8).map(row);
        self.rows.clear();
        self.rows.extend(all.take(rows + 2 * GUARDS));
        let all = fill
            .chunks_exact(2)
            .map(|b| u16::from_le_bytes([b[0], b[1]]));
        self.numbers.clear();
        self.numbers.extend(all.take(numbers + 2 * GUARDS));
    }

    fn copy(&mut self, other: &Lists) {
        self.rows.clone_from(&other.rows);
        self.numbers.clone_from(&other.numbers);
    }

    /// The parts that are lent.
    fn lent(&mut self) -> (&mut [Credit], &mut [u16]) {
        let (rows, numbers) = (self.rows.len(), self.numbers.len());
        (
            &mut self.rows[GUARDS..rows - GUARDS],
            &mut self.numbers[GUARDS..numbers - GUARDS],
        )
    }

    /// What is filled.
    fn filled(&self, [rows, numbers]: [usize; 2]) -> (&[Credit], &[u16]) {
        (
            &self.rows[GUARDS..GUARDS + rows],
            &self.numbers[GUARDS..GUARDS + numbers],
        )
    }

    /// Whether all but what is filled is as before.
    fn rest_stays(&self, before: &Lists, filled: [usize; 2]) -> bool {
        let [rows, numbers] = filled.map(|n| GUARDS + n);
        self.rows[..GUARDS] == before.rows[..GUARDS]
            && self.rows[rows..] == before.rows[rows..]
            && self.numbers[..GUARDS] == before.numbers[..GUARDS]
            && self.numbers[numbers..] == before.numbers[numbers..]
    }
}

/// Number, and rows and entry numbers filled.
type Told = (u8, [usize; 2]);

pub struct Crediting {
    pub counts: Counts,
    // The lists before the call, for the library and for the program in Rust.
    before: Lists,
    left: Lists,
    right: Lists,
}

impl Crediting {
    pub fn new() -> Crediting {
        Crediting {
            counts: Counts::new(),
            before: Lists::new(),
            left: Lists::new(),
            right: Lists::new(),
        }
    }

    /// Both on copies of the same lists; what they agree on, or an account of the
    /// difference.
    fn call(&mut self, log: &[u8]) -> Result<Told, String> {
        self.left.copy(&self.before);
        self.right.copy(&self.before);
        let (rows, numbers) = self.left.lent();
        let lent = [rows.len(), numbers.len()];
        let a = proved::minutes(log, rows, numbers);
        let (rows, numbers) = self.right.lent();
        let b = minutes::fill(log, rows, numbers);
        let mut wrong = self.first_difference();
        if a != b {
            wrong.push_str("the minutes differ\n");
        }
        for (who, told, lists) in [("proved", a, &self.left), ("Rust", b, &self.right)] {
            let [rows, numbers] = told.1;
            let filled = [rows.min(lent[0]), numbers.min(lent[1])];
            if !lists.rest_stays(&self.before, filled) {
                let _ = writeln!(wrong, "{who}: a place that is not filled changed");
            }
        }
        if wrong.is_empty() {
            return Ok(a);
        }
        for (who, (number, filled)) in [("proved:", a), ("Rust:", b)] {
            let [rows, numbers] = filled;
            let _ = writeln!(
                wrong,
                "{who:<8}number {number} rows {rows} entry numbers {numbers}"
            );
        }
        let [rows, numbers] = lent;
        let _ = writeln!(wrong, "{rows} rows and {numbers} entry numbers lent");
        Err(wrong)
    }

    /// The first row and the first entry number that differ after the two calls.
    fn first_difference(&self) -> String {
        let lists = [&self.left, &self.right, &self.before];
        let rows = lists.map(|l| &l.rows[..]);
        let numbers = lists.map(|l| &l.numbers[..]);
        difference("row", rows) + &difference("entry number", numbers)
    }

    /// A log with the right lists and with others; now and then once more with other
    /// logins and verdicts, and in another order.
    pub fn log(&mut self, rng: &mut Rng, fill: &[u8]) -> Result<(), String> {
        let log = logs::some(rng);
        let compared = self.compare(rng, fill, &log);
        compared.map_err(|wrong| wrong + &hex("log", log.bytes()))
    }

    fn compare(&mut self, rng: &mut Rng, fill: &[u8], log: &Log) -> Result<(), String> {
        let bytes = log.bytes();
        // Now and then the lists are lent as the call before left them.
        if self.left.rows.is_empty() || rng.percent(75) {
            self.before.set(fill, LENT);
        } else {
            std::mem::swap(&mut self.before, &mut self.left);
            self.counts.left += 1;
        }
        let told = self.call(bytes)?;
        self.counts.numbers[told.0 as usize] += 1;
        self.expect(log, told.0)?;
        self.note(log, told)?;
        if rng.percent(25) {
            self.other_logins(rng, bytes, told)?;
        }
        if rng.percent(25) {
            self.other_order(rng, bytes, told)?;
        }
        if rng.percent(50) {
            self.other_lists(rng, fill, bytes, told)?;
        }
        Ok(())
    }

    /// What is known of the log, beside its number.
    fn expect(&mut self, log: &Log, number: u8) -> Result<(), String> {
        let bytes = log.bytes();
        match bytes.len() {
            n @ 0..HEAD => self.counts.short[n] += 1,
            HEAD => self.counts.heads[(number != 0) as usize] += 1,
            _ => {}
        }
        match log.known {
            Known::Good => same("a good log", number, 0),
            Known::Fault(i) => {
                self.counts.faults[i] += 1;
                same(FAULTS[i].2, number, FAULTS[i].1)
            }
            Known::Nothing => {
                self.counts.still_good += (number == 0) as u64;
                Ok(())
            }
        }
    }

    /// The number is that of the first check that fails; where none does, the credits
    /// add up to the number of different pairs.
    fn note(&mut self, log: &Log, (number, filled): Told) -> Result<(), String> {
        let bytes = log.bytes();
        let entries = minutes::entries(bytes);
        let failing = failing(bytes, &entries);
        let first = failing.iter().position(|&f| f);
        same(
            "the first check that fails",
            number,
            first.map_or(0, |i| 80 + i as u8),
        )?;
        if number != 0 {
            self.counts.note_refused(number, bytes, &failing, &entries);
            return Ok(());
        }
        let (rows, listed) = self.left.filled(filled);
        let credited = Credited {
            entries: &entries,
            rows,
            listed,
        };
        same("minutes in all", credited.sum(), minutes::pairs(&entries))?;
        self.counts.note_credited(&credited);
        Ok(())
    }

    /// Both on the log that was just compared, with lists of other lengths.
    fn other_lists(
        &mut self,
        rng: &mut Rng,
        fill: &[u8],
        log: &[u8],
        told: Told,
    ) -> Result<(), String> {
        let first = self.left.clone();
        let i = rng.below(OTHER_LISTS.len());
        self.before.set(fill, OTHER_LISTS[i].1);
        let now = self.call(log)?;
        same("other lists", now, (87, [0; 2]))?;
        self.counts.other_lists[i] += 1;
        self.counts.before[told.0 as usize] += 1;
        self.left = first;
        Ok(())
    }

    /// The library on the log that was just compared, with other logins and verdicts:
    /// nothing may change.
    fn other_logins(&mut self, rng: &mut Rng, log: &[u8], told: Told) -> Result<(), String> {
        let mut other = log.to_vec();
        for entry in records(&mut other) {
            for i in [4, 5, 10, 11, 12, 13] {
                entry[i] = rng.byte();
            }
        }
        self.right.copy(&self.before);
        let (rows, numbers) = self.right.lent();
        let now = proved::minutes(&other, rows, numbers);
        same("other logins and verdicts", now, told)?;
        if self.right != self.left {
            return Err("other logins and verdicts changed a list\n".to_string());
        }
        self.counts.logins[(told.0 != 0) as usize] += 1;
        Ok(())
    }

    /// Both on the entries of the log in another order: no row may change, and as many
    /// entries are listed.
    fn other_order(&mut self, rng: &mut Rng, log: &[u8], told: Told) -> Result<(), String> {
        let mut entries: Vec<&[u8]> = match log.get(HEAD..) {
            Some(all) => all.chunks_exact(ENTRY).collect(),
            None => return Ok(()),
        };
        rng.shuffle(&mut entries);
        let mut other = log.to_vec();
        for (entry, from) in records(&mut other).zip(entries) {
            entry.copy_from_slice(from);
        }
        let first = self.left.clone();
        let now = self.call(&other)?;
        same("another order", now, told)?;
        if self.left.rows != first.rows {
            return Err("another order changed a row\n".to_string());
        }
        self.counts.orders[(told.0 != 0) as usize] += 1;
        self.counts.listed += (self.left.numbers != first.numbers) as u64;
        Ok(())
    }

    /// Settled logs, each with lists of several lengths. Gives how many calls there
    /// were.
    pub fn settled(&mut self, rng: &mut Rng) -> Result<usize, String> {
        let lists = [LENT].into_iter().chain(OTHER_LISTS.map(|l| l.1));
        // The low half of a length is right.
        let far = [
            [65_536 + APPRENTICES, ENTRIES],
            [APPRENTICES, 65_536 + ENTRIES],
        ];
        let lists: Vec<[usize; 2]> = lists.chain(far).collect();
        let most = 8 * (65_536 + APPRENTICES + 2 * GUARDS);
        let fill: Vec<u8> = (0..most).map(|_| rng.byte()).collect();
        let logs = log_examples::logs();
        for (log, wanted) in &logs {
            for &lent in &lists {
                self.before.set(&fill, lent);
                let (number, filled) = self.call(log)?;
                let (rows, listed) = self.left.filled(filled);
                match wanted {
                    _ if lent != LENT => same("other lists", number, 87)?,
                    Err(refusal) => same("a settled log", number, *refusal)?,
                    Ok(report) => {
                        let all = (number, rows, listed);
                        same("a settled log", all, (0, &report.rows, &report.listed))?;
                    }
                }
            }
        }
        self.left = Lists::new();
        Ok(logs.len() * lists.len())
    }
}

/// The whole entries on a log.
fn records(log: &mut [u8]) -> impl Iterator<Item = &mut [u8]> {
    let head = log.len().min(HEAD);
    log[head..].chunks_exact_mut(ENTRY)
}

/// The first place where the library's list differs from the one in Rust; nothing where
/// none does.
fn difference<T: PartialEq + std::fmt::Debug>(
    what: &str,
    [left, right, before]: [&[T]; 3],
) -> String {
    if left == right {
        return String::new();
    }
    let same = left.iter().zip(right).take_while(|(x, y)| x == y);
    let i = same.count();
    format!(
        "{what} {} differs\nproved: {:?}\nRust:   {:?}\nbefore: {:?}\n",
        i as i64 - GUARDS as i64,
        left[i],
        right[i],
        before[i]
    )
}
