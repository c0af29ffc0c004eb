//! Tablet logs: entries of every sort, and logs with each fault of 80 to 86, alone, with
//! others, and at random.

use crate::faults::Known;
use crate::generate::*;
use crate::minutes::{self, Entry, APPRENTICES, ENTRIES, ENTRY, HEAD, WEEK};

/// Bytes after the end of a good log, more than an entry.
const SPARE: usize = 80;

#[derive(Clone, Copy, PartialEq)]
pub enum Fault {
    Short,
    FirstLetter,
    SecondLetter,
    ThirdLetter,
    VersionZero,
    VersionTwo,
    VersionHighByte,
    AnyVersion,
    Entries,
    CountOver,
    CountMore,
    CountFewer,
    CountHighByte,
    ByteShort,
    EntryShort,
    Cut,
    ByteLeftOver,
    EntryLeftOver,
    LeftOver,
    Opening,
    Closing,
    BothMinutes,
    Apprentice,
    Apprentices,
    LastCoversNone,
}

use Fault::*;

/// Every fault, with the number that it alone gives.
pub const FAULTS: [(Fault, u8, &str); 25] = [
    (Short, 80, "under 7 bytes"),
    (FirstLetter, 81, "first letter"),
    (SecondLetter, 81, "second letter"),
    (ThirdLetter, 81, "third letter"),
    (VersionZero, 82, "version 0"),
    (VersionTwo, 82, "version 2"),
    (VersionHighByte, 82, "version 256"),
    (AnyVersion, 82, "other version"),
    (Entries, 83, "1,025 entries or more"),
    (CountOver, 83, "count over 1,024"),
    (CountMore, 84, "count one more"),
    (CountFewer, 84, "count one fewer"),
    (CountHighByte, 84, "high byte of the count"),
    (ByteShort, 84, "one byte short"),
    (EntryShort, 84, "one entry short"),
    (Cut, 84, "cut anywhere"),
    (ByteLeftOver, 84, "one byte left over"),
    (EntryLeftOver, 84, "one entry left over"),
    (LeftOver, 84, "bytes left over"),
    (Opening, 85, "opening"),
    (Closing, 85, "closing"),
    (BothMinutes, 85, "opening and closing"),
    (Apprentice, 85, "apprentice 0"),
    (Apprentices, 86, "65 apprentices or more"),
    (LastCoversNone, 86, "the 65th with no minutes"),
];

fn fault(fault: Fault) -> Known {
    Known::Fault(FAULTS.iter().position(|f| f.0 == fault).unwrap_or(0))
}

/// A log, with other bytes before it and after its end.
pub struct Log {
    /// What it was made of, before a fault.
    entries: Vec<Entry>,
    pub known: Known,
    store: Vec<u8>,
    start: usize,
    end: usize,
}

/// A good log, one with a fault, with several, or changed at random.
pub fn some(rng: &mut Rng) -> Log {
    let (people, count) = some_counts(rng);
    let mut entries = some_entries(rng, people, count);
    let mut known = Known::Good;
    if count > ENTRIES {
        known = fault(Entries);
    } else if people > APPRENTICES {
        known = fault(Apprentices);
        if people == APPRENTICES + 1 && rng.percent(40) {
            last_covers_none(rng, &mut entries);
            known = fault(LastCoversNone);
        }
    }
    let mut log = Log::good(rng, entries);
    log.known = known;
    match (rng.below(20), known) {
        (0..=10, _) => {}
        (11..=17, Known::Fault(_)) => {
            // Another check fails too.
            let entry = rng.pick(&[Opening, Closing, BothMinutes, Apprentice]);
            let other = rng.pick(&[ThirdLetter, VersionTwo, ByteLeftOver]);
            let fault = rng.pick(&[entry, entry, entry, other]);
            log.plant(rng, fault);
            log.known = Known::Nothing;
        }
        (11..=17, _) => {
            let i = rng.below(FAULTS.len());
            if log.plant(rng, FAULTS[i].0) {
                log.known = Known::Fault(i);
            }
        }
        _ => {
            log.scatter(rng);
            log.known = Known::Nothing;
        }
    }
    log
}

/// Apprentices and entries.
fn some_counts(rng: &mut Rng) -> (usize, usize) {
    let limit = APPRENTICES;
    match rng.below(1000) {
        0..=19 => (0, 0),
        20..=69 => (1, 1),
        70..=169 => (1, rng.range(2, 8)),
        170..=779 => (rng.range(2, 5), rng.range(5, 14)),
        780..=879 => (rng.range(2, 20), rng.range(20, 40)),
        880..=889 => (rng.range(21, limit - 1), rng.range(limit, 200)),
        890..=899 => (limit - 1, limit + rng.below(20)),
        900..=924 => (limit, limit + rng.below(20)),
        925..=949 => (limit + 1, limit + 1 + rng.below(20)),
        950..=979 => (rng.range(limit + 1, 100), rng.range(100, 200)),
        980..=983 => (rng.range(1, limit), rng.range(200, ENTRIES - 2)),
        984..=985 => (rng.range(1, limit), ENTRIES - 1),
        986..=988 => (rng.range(1, 8), ENTRIES),
        989..=990 => (limit, ENTRIES),
        991 => (rng.pick(&[limit + 1, 500]), ENTRIES),
        992..=993 => (ENTRIES, ENTRIES),
        994..=997 => (rng.pick(&[1, limit, limit + 1, ENTRIES]), ENTRIES + 1),
        _ => (limit, rng.range(ENTRIES + 1, ENTRIES + 300)),
    }
}

/// Different numbers other than 0, in any order: in a row, or apart in the high half
/// only, or anywhere; from 1, around 2^31, up to the last, or from any.
fn some_apprentices(rng: &mut Rng, count: usize) -> Vec<u32> {
    let any = rng.next() as u32;
    let step = rng.pick(&[1, 1, 2, 64, 256, 4096, 65_536, 1 << 20, any | 1]);
    let steps = |k: usize| step.wrapping_mul(k as u32);
    let first = match rng.below(6) {
        0 | 1 => 1,
        2 => (1u32 << 31).wrapping_sub(steps(rng.below(count + 1))),
        3 => u32::MAX.wrapping_sub(steps(count.saturating_sub(1))),
        4 => any << 16,
        _ => any,
    };
    let numbers = (0..=count).map(|k| first.wrapping_add(steps(k)));
    let mut list: Vec<u32> = numbers.filter(|&n| n != 0).take(count).collect();
    if rng.percent(30) && count > 1 {
        // One elsewhere, in its high half or in its low half.
        let other = list[0] ^ rng.pick(&[1 << 31, 1 << 30, 1 << 16, 1 << 15, 1 << 8, 1]);
        if other != 0 && !list.contains(&other) {
            list[count - 1] = other;
        }
    }
    rng.shuffle(&mut list);
    list
}

/// From where to where the minutes of a log mostly are: few minutes at the beginning, at
/// the end or anywhere, so that entries meet, or the week.
fn some_times(rng: &mut Rng) -> [u16; 2] {
    let few = rng.range(2, 40) as u16;
    match rng.below(8) {
        0 | 1 => [0, few],
        2 | 3 => [WEEK - few, WEEK],
        4 | 5 => {
            let from = rng.below((WEEK - few) as usize) as u16;
            [from, from + few]
        }
        _ => [0, WEEK],
    }
}

/// So many entries of so many apprentices.
fn some_entries(rng: &mut Rng, people: usize, count: usize) -> Vec<Entry> {
    let people = some_apprentices(rng, people);
    let times = some_times(rng);
    let none = match count {
        ENTRIES => rng.pick(&[0, 20, 100]),
        _ => rng.pick(&[0, 0, 10, 20, 40, 100]),
    };
    let whole = rng.percent(if people.len() == APPRENTICES { 10 } else { 2 });
    let mut list: Vec<Entry> = Vec::with_capacity(count);
    for i in 0..count {
        let apprentice = match people.get(i) {
            Some(&own) => own,
            None => rng.pick(&people),
        };
        let [opening, closing] = if whole {
            [0, WEEK]
        } else if rng.percent(none) {
            covering_none(rng, times)
        } else {
            covering(rng, &list, apprentice, times)
        };
        list.push(Entry {
            apprentice,
            verdict: rng.pick(&[0, 0, 1, 60, 255, 65_535]),
            opening,
            closing,
            login: 0,
        });
    }
    set_logins(rng, &mut list, &people);
    rng.shuffle(&mut list);
    list
}

/// One login for all, each apprentice's own number, or any: none, one's own, another's.
fn set_logins(rng: &mut Rng, list: &mut [Entry], people: &[u32]) {
    let one = rng.next() as u32;
    let sort = rng.below(4);
    for e in list {
        e.login = match (sort, rng.below(6)) {
            (0, _) => one,
            (1, _) | (_, 0) => e.apprentice,
            (_, 1) => 0,
            (_, 2 | 3) => rng.pick(people),
            _ => rng.next() as u32,
        };
    }
}

/// Minutes of an entry that covers some, often beside those of an earlier entry.
fn covering(rng: &mut Rng, earlier: &[Entry], apprentice: u32, [from, to]: [u16; 2]) -> [u16; 2] {
    let minute = |rng: &mut Rng| rng.range(from as usize, to as usize - 1) as u16;
    let opening = minute(rng);
    let closing = rng.range(opening as usize + 1, to as usize) as u16;
    match rng.below(10) {
        0 => [opening, opening + 1],
        1 => [opening, WEEK],
        2 => [0, closing],
        3..=5 if !earlier.is_empty() => beside(rng, earlier, apprentice),
        6 if rng.percent(10) => [0, WEEK],
        6 => at_words(rng),
        _ => [opening, closing],
    }
}

/// Minutes at or beside the borders of bytes and words of a table of minutes.
fn at_words(rng: &mut Rng) -> [u16; 2] {
    let unit = rng.pick(&[8, 16, 32, 64, 128, 256]);
    let last = WEEK as usize / unit;
    let first = rng.below(last);
    let second = match rng.below(3) {
        0 => first + 1,
        _ => rng.range(first, last),
    };
    let mut near = |word: usize| match rng.below(4) {
        0 => (word * unit).saturating_sub(1),
        1 => word * unit + 1,
        _ => word * unit,
    };
    let [opening, closing] = [near(first), near(second)].map(|minute| minute as u16);
    let closing = closing.clamp(1, WEEK);
    [opening.min(closing - 1), closing]
}

/// The same minutes as an entry's before, more, fewer, or those right before or after,
/// of the same apprentice where there is one.
fn beside(rng: &mut Rng, earlier: &[Entry], apprentice: u32) -> [u16; 2] {
    let from = rng.below(earlier.len());
    let turned = (0..earlier.len()).map(|k| earlier[(from + k) % earlier.len()]);
    let own = turned.take(40).find(|e| e.apprentice == apprentice);
    let e = own.unwrap_or(earlier[from]);
    let (o, c) = (e.opening.min(e.closing), e.closing.max(e.opening));
    let some = rng.range(1, 6) as u16;
    let [opening, closing] = match rng.below(9) {
        0 => [o, c],
        1 => [c, c + some],
        2 => [o.saturating_sub(some), o],
        3 => [o + 1, c.saturating_sub(1)],
        4 => [o.saturating_sub(some), c + some],
        5 => [o, c + some],
        6 => [c.saturating_sub(1), c + some],
        7 => [o.saturating_sub(some), o + 1],
        _ => [c + 1, c + 1 + some],
    };
    let closing = closing.clamp(1, WEEK);
    [opening.min(closing - 1), closing]
}

/// Minutes of an entry that covers none.
fn covering_none(rng: &mut Rng, [from, to]: [u16; 2]) -> [u16; 2] {
    let minute = |rng: &mut Rng| rng.range(from as usize, to as usize) as u16;
    let opening = minute(rng);
    let before = rng.range(from as usize, opening as usize) as u16;
    match rng.below(10) {
        0..=2 => [opening, opening],
        3..=5 => [opening, before],
        6 => [WEEK, rng.pick(&[WEEK, WEEK - 1, 0, opening])],
        7 => [opening, 0],
        8 => [0, 0],
        _ => [rng.range(1, WEEK as usize) as u16, 0],
    }
}

/// One apprentice has no minutes: the one that stands last, or that is met last.
fn last_covers_none(rng: &mut Rng, entries: &mut [Entry]) {
    let mut met = Vec::new();
    for e in entries.iter() {
        if !met.contains(&e.apprentice) {
            met.push(e.apprentice);
        }
    }
    let apprentice = rng.pick(&[met[met.len() - 1], met.iter().copied().max().unwrap_or(1)]);
    for e in entries.iter_mut().filter(|e| e.apprentice == apprentice) {
        e.closing = rng.pick(&[e.opening, 0, e.opening / 2]);
    }
}

/// Something over the last minute; some would be good by a byte or by 14 bits.
fn over(rng: &mut Rng) -> u16 {
    let any = rng.range(WEEK as usize + 1, 65_535) as u16;
    rng.pick(&[
        WEEK + 1,
        WEEK + 1,
        WEEK + 2,
        10_240,
        16_384,
        2 * WEEK,
        32_768,
        65_535,
        any,
    ])
}

impl Log {
    pub fn good(rng: &mut Rng, entries: Vec<Entry>) -> Log {
        // The log starts at any remainder by 8.
        let start = rng.below(8);
        let mut store = vec![0; start];
        store.extend(minutes::log(&entries));
        let end = store.len();
        store.extend((0..SPARE).map(|_| rng.byte()));
        Log {
            entries,
            known: Known::Good,
            store,
            start,
            end,
        }
    }

    pub fn bytes(&self) -> &[u8] {
        &self.store[self.start..self.end]
    }

    fn set_version(&mut self, to: u16) {
        put_word(&mut self.store, self.start + 3, to);
    }

    fn set_count(&mut self, to: usize) {
        put_word(&mut self.store, self.start + 5, to as u16);
    }

    /// Plants the fault in a good log; false where there is no room for it.
    fn plant(&mut self, rng: &mut Rng, fault: Fault) -> bool {
        let count = self.entries.len();
        let start = self.start;
        match fault {
            Short if rng.percent(30) => self.end = start + HEAD - 1,
            Short => self.end = start + rng.below(HEAD),
            FirstLetter => self.store[start] ^= 1 << rng.below(8),
            SecondLetter => self.store[start + 1] ^= 1 << rng.below(8),
            ThirdLetter if rng.percent(50) => self.store[start + 2] = rng.pick(b"EATCXl"),
            ThirdLetter => self.store[start + 2] ^= 1 << rng.below(8),
            VersionZero => self.set_version(0),
            VersionTwo => self.set_version(2),
            VersionHighByte => self.set_version(256),
            // Some are good by one of their bytes.
            AnyVersion => self.set_version(rng.pick(&[3, 255, 257, 512, 513, 32_769, 65_535])),
            CountOver => self.set_count(rng.pick(&[1025, 1025, 1026, 2048, 32_768, 65_535])),
            CountMore if count < ENTRIES => self.set_count(count + 1),
            CountHighByte if count <= ENTRIES - 256 => {
                let most = (ENTRIES - count) / 256;
                self.set_count(count + 256 * rng.range(1, most));
            }
            ByteShort if self.end > start + HEAD => self.end -= 1,
            ByteLeftOver => self.end += 1,
            EntryLeftOver => self.end += ENTRY,
            LeftOver => self.end += rng.range(2, SPARE / 4),
            CountFewer if count > 0 => self.set_count(count - 1),
            EntryShort if self.end >= start + HEAD + ENTRY => self.end -= ENTRY,
            Cut if self.end > start + HEAD => self.end = rng.range(start + HEAD, self.end - 1),
            _ => return self.plant_in_entry(rng, fault),
        }
        true
    }

    /// The faults of one entry, often the first or the last.
    fn plant_in_entry(&mut self, rng: &mut Rng, fault: Fault) -> bool {
        let count = self.entries.len();
        if count == 0 {
            return false;
        }
        let i = match rng.below(4) {
            0 => 0,
            1 => count - 1,
            _ => rng.below(count),
        };
        let at = self.start + HEAD + ENTRY * i;
        match fault {
            Opening => put_word(&mut self.store, at + 6, over(rng)),
            Closing => put_word(&mut self.store, at + 8, over(rng)),
            BothMinutes => {
                put_word(&mut self.store, at + 6, over(rng));
                put_word(&mut self.store, at + 8, over(rng));
            }
            Apprentice => self.store[at..at + 4].fill(0),
            _ => return false,
        }
        true
    }

    /// Several faults, some byte changed, or random bytes; the log may still be good.
    fn scatter(&mut self, rng: &mut Rng) {
        match rng.below(6) {
            0..=3 => {
                for _ in 0..rng.range(2, 3) {
                    let fault = rng.pick(&FAULTS).0;
                    self.plant(rng, fault);
                }
            }
            4 => change_byte(rng, &mut self.store[self.start..self.end]),
            _ => {
                self.store = random_bytes(rng, b"LXL", HEAD, ENTRY);
                (self.start, self.end) = (0, self.store.len());
            }
        }
    }
}
