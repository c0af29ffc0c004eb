//! What tablet logs show that are credited or refused, and how often it was compared.

use crate::logs::FAULTS;
use crate::minutes::{self, Credit, Entry, APPRENTICES, ENTRIES, ENTRY, HEAD, WEEK};
use crate::plain::word;
use std::collections::BTreeSet;

/// Two entries are looked for among so many.
const LOOKED_AT: usize = 24;

/// A log that was credited.
pub struct Credited<'a> {
    pub entries: &'a [Entry],
    pub rows: &'a [Credit],
    pub listed: &'a [u16],
}

type Test = fn(&Credited) -> bool;

/// What a log that was credited shows.
pub const CASES: [(&str, Test); 39] = [
    ("63 apprentices", |c| c.rows.len() == APPRENTICES - 1),
    ("64 apprentices", |c| c.rows.len() == APPRENTICES),
    ("64, one with no minutes", |c| {
        c.rows.len() == APPRENTICES && c.row(|r| r.minutes == 0)
    }),
    ("64 whole weeks", |c| {
        c.rows.len() == APPRENTICES && !c.row(|r| r.minutes != WEEK as u32)
    }),
    ("a whole week", |c| c.row(|r| r.minutes == WEEK as u32)),
    ("over 65,535 minutes", |c| c.sum() > 65_535),
    ("an apprentice with no minutes", |c| {
        c.row(|r| r.minutes == 0)
    }),
    ("no minutes at all", |c| {
        c.rows.len() > 1 && !c.row(|r| r.minutes != 0)
    }),
    ("some entries of one cover none", |c| {
        c.two(|e, f| e.covers_none() && !f.covers_none())
    }),
    ("none listed", |c| {
        c.entries.len() > 1 && c.listed.is_empty()
    }),
    ("all listed", |c| {
        c.entries.len() > 1 && c.listed.len() == c.entries.len()
    }),
    ("1,024 listed", |c| c.listed.len() == ENTRIES),
    ("the first listed", |c| c.listed.first() == Some(&0)),
    ("the last listed", |c| {
        c.listed.last().map(|&i| i as usize + 1) == Some(c.entries.len())
    }),
    ("one over 255 listed", |c| c.listed.iter().any(|&i| i > 255)),
    ("closing at the opening", |c| {
        c.entry(|e| e.closing == e.opening)
    }),
    ("closing before the opening", |c| {
        c.entry(|e| e.closing < e.opening)
    }),
    ("0 to 0", |c| c.entry(|e| (e.opening, e.closing) == (0, 0))),
    ("opening 10,080", |c| c.entry(|e| e.opening == WEEK)),
    ("closing 10,080", |c| {
        c.entry(|e| e.closing == WEEK && !e.covers_none())
    }),
    ("both 10,080", |c| {
        c.entry(|e| (e.opening, e.closing) == (WEEK, WEEK))
    }),
    ("one minute", |c| c.entry(|e| e.closing == e.opening + 1)),
    ("overlapping", |c| {
        c.covering(|e, f| e.opening < f.opening && f.opening < e.closing && e.closing < f.closing)
    }),
    ("nested", |c| {
        c.covering(|e, f| e.opening < f.opening && f.closing < e.closing)
    }),
    ("equal", |c| {
        c.covering(|e, f| (e.opening, e.closing) == (f.opening, f.closing))
    }),
    ("same opening", |c| {
        c.covering(|e, f| e.opening == f.opening && e.closing != f.closing)
    }),
    ("touching", |c| c.covering(|e, f| e.closing == f.opening)),
    ("a minute apart", |c| {
        c.covering(|e, f| e.closing + 1 == f.opening)
    }),
    ("same minute, two apprentices", |c| {
        c.others(|e, f| e.opening.max(f.opening) < e.closing.min(f.closing))
    }),
    ("one login, two apprentices", |c| {
        c.others(|e, f| e.login == f.login)
    }),
    ("two logins, one apprentice", |c| {
        c.two(|e, f| e.login != f.login)
    }),
    ("login of another", |c| {
        c.others(|e, f| e.login == f.apprentice)
    }),
    ("login 0", |c| c.entry(|e| e.login == 0)),
    ("verdict 0", |c| c.entry(|e| e.verdict == 0)),
    ("one above 2^31", |c| {
        c.rows.len() > 1 && c.rows[0].apprentice < 1 << 31 && c.row(|r| r.apprentice > 1 << 31)
    }),
    ("high halves differ", |c| {
        c.others(|e, f| (e.apprentice ^ f.apprentice) & 65_535 == 0)
    }),
    ("low halves differ", |c| {
        c.others(|e, f| (e.apprentice ^ f.apprentice) >> 16 == 0)
    }),
    ("the highest met first", |c| {
        c.rows.len() > 1 && c.rows.last().map(|r| r.apprentice) == Some(c.entries[0].apprentice)
    }),
    ("entries of others between", |c| {
        let mut three = c.entries.windows(3);
        let turn = |w: &[Entry]| [0, 1, 2].map(|i| w[i].apprentice);
        three.any(|w| matches!(turn(w), [a, b, d] if a == d && a != b))
    }),
];

impl Credited<'_> {
    /// The credits together.
    pub fn sum(&self) -> u64 {
        self.rows.iter().map(|r| r.minutes as u64).sum()
    }

    fn row(&self, test: fn(&Credit) -> bool) -> bool {
        self.rows.iter().any(test)
    }

    fn entry(&self, test: fn(&Entry) -> bool) -> bool {
        self.entries.iter().any(test)
    }

    /// Whether two different entries pass the test, in either order.
    fn pair(&self, test: impl Fn(&Entry, &Entry) -> bool) -> bool {
        let list = &self.entries[..self.entries.len().min(LOOKED_AT)];
        let earlier = |i: usize| &list[..i];
        (0..list.len()).any(|i| {
            let e = &list[i];
            earlier(i).iter().any(|f| test(e, f) || test(f, e))
        })
    }

    /// Two entries of one apprentice.
    fn two(&self, test: fn(&Entry, &Entry) -> bool) -> bool {
        self.pair(|e, f| e.apprentice == f.apprentice && test(e, f))
    }

    /// Two entries of one apprentice that both cover minutes.
    fn covering(&self, test: fn(&Entry, &Entry) -> bool) -> bool {
        self.pair(|e, f| {
            let one = e.apprentice == f.apprentice;
            one && !e.covers_none() && !f.covers_none() && test(e, f)
        })
    }

    /// Entries of two apprentices.
    fn others(&self, test: fn(&Entry, &Entry) -> bool) -> bool {
        self.pair(|e, f| e.apprentice != f.apprentice && test(e, f))
    }
}

/// Where one entry alone gives 85: the first, the last or another; and, where that is
/// not settled by the cause, whether it would cover a minute.
pub const BAD_ENTRIES: [&str; 13] = [
    "opening in the first",
    "in the last",
    "between",
    "closing in the first",
    "in the last",
    "between",
    "apprentice 0 in the first",
    "in the last",
    "between",
    "both minutes, covers some",
    "covers none",
    "apprentice 0, covers some",
    "covers none",
];

/// Where the first entry that gives 85 stands in a log of 65 apprentices or more.
pub const BESIDE_86: [&str; 2] = ["before the 65th is met", "after that"];

type LogTest = fn(&[Entry], &BTreeSet<u32>) -> bool;

/// What a log shows that is refused with 86.
pub const TOO_MANY: [(&str, LogTest); 6] = [
    ("65 apprentices", |_, people| people.len() == 65),
    ("66 or more", |_, people| people.len() > 65),
    ("1,024", |_, people| people.len() == ENTRIES),
    ("the 65th in the last entry", |list, people| {
        people.len() == 65 && minutes::apprentices(&list[..list.len() - 1]).len() == 64
    }),
    ("64 with minutes", |list, people| {
        people.len() == 65 && with_minutes(list) == 64
    }),
    ("none with minutes", |list, _| with_minutes(list) == 0),
];

/// Apprentices with minutes.
fn with_minutes(list: &[Entry]) -> usize {
    let covering = list.iter().filter(|e| !e.covers_none());
    let people: BTreeSet<u32> = covering.map(|e| e.apprentice).collect();
    people.len()
}

/// Two numbers of which both checks fail.
pub const BOTH: [[u8; 2]; 17] = [
    [80, 81],
    [80, 82],
    [81, 82],
    [81, 83],
    [81, 84],
    [81, 85],
    [81, 86],
    [82, 83],
    [82, 84],
    [82, 85],
    [82, 86],
    [83, 84],
    [83, 85],
    [83, 86],
    [84, 85],
    [84, 86],
    [85, 86],
];

/// Numbers of a log with the right lists.
pub const LOG_NUMBERS: [usize; 8] = [0, 80, 81, 82, 83, 84, 85, 86];

/// Lists of other lengths: rows, entry numbers, or both.
pub const OTHER_LISTS: [(&str, [usize; 2]); 20] = [
    ("0 rows", [0, ENTRIES]),
    ("1", [1, ENTRIES]),
    ("63", [63, ENTRIES]),
    ("65", [65, ENTRIES]),
    ("128", [128, ENTRIES]),
    ("320", [320, ENTRIES]),
    ("1,024", [1024, ENTRIES]),
    ("0 entry numbers", [APPRENTICES, 0]),
    ("1", [APPRENTICES, 1]),
    ("64", [APPRENTICES, 64]),
    ("1,023", [APPRENTICES, 1023]),
    ("1,025", [APPRENTICES, 1025]),
    ("1,280", [APPRENTICES, 1280]),
    ("2,048", [APPRENTICES, 2048]),
    ("neither", [0, 0]),
    ("one fewer of both", [63, 1023]),
    ("one more of both", [65, 1025]),
    ("65 and 1,023", [65, 1023]),
    ("63 and 1,025", [63, 1025]),
    ("exchanged", [ENTRIES, APPRENTICES]),
];

/// The checks that fail, each by itself, where the log is long enough for them.
pub fn failing(log: &[u8], list: &[Entry]) -> [bool; 7] {
    let count = word(log, 5) as usize;
    [
        log.len() < HEAD,
        log.len() >= 3 && !log.starts_with(b"LXL"),
        log.len() >= 5 && word(log, 3) != 1,
        log.len() >= HEAD && count > ENTRIES,
        log.len() >= HEAD && log.len() != HEAD + ENTRY * count,
        list.iter().any(Entry::bad),
        list.len() > APPRENTICES && minutes::apprentices(list).len() > APPRENTICES,
    ]
}

/// How often each thing was compared.
pub struct Counts {
    /// Logs by number.
    pub numbers: [u64; 256],
    /// Logs that are credited: no entries, one, up to 63, up to 1,022, 1,023 and 1,024.
    pub entries: [u64; 6],
    pub cases: [u64; CASES.len()],
    pub both: [u64; BOTH.len()],
    pub bad_entries: [u64; BAD_ENTRIES.len()],
    pub beside_86: [u64; BESIDE_86.len()],
    pub too_many: [u64; TOO_MANY.len()],
    /// 83 by the count: 1,025, more, 65,535.
    pub over: [u64; 3],
    /// Logs under 7 bytes by their length, and those of 7 bytes: credited and not.
    pub short: [u64; HEAD],
    pub heads: [u64; 2],
    /// Faults planted alone.
    pub faults: [u64; FAULTS.len()],
    /// Logs changed at random that are credited all the same.
    pub still_good: u64,
    /// 87 by the lists, and by the number that the log has with the right ones.
    pub other_lists: [u64; OTHER_LISTS.len()],
    pub before: [u64; 256],
    /// Lists that stand as the call before left them.
    pub left: u64,
    /// Other logins and verdicts, and another order: credited and refused.
    pub logins: [u64; 2],
    pub orders: [u64; 2],
    /// Another order that lists other numbers.
    pub listed: u64,
}

impl Counts {
    pub fn new() -> Counts {
        Counts {
            numbers: [0; 256],
            entries: [0; 6],
            cases: [0; CASES.len()],
            both: [0; BOTH.len()],
            bad_entries: [0; BAD_ENTRIES.len()],
            beside_86: [0; BESIDE_86.len()],
            too_many: [0; TOO_MANY.len()],
            over: [0; 3],
            short: [0; HEAD],
            heads: [0; 2],
            faults: [0; FAULTS.len()],
            still_good: 0,
            other_lists: [0; OTHER_LISTS.len()],
            before: [0; 256],
            left: 0,
            logins: [0; 2],
            orders: [0; 2],
            listed: 0,
        }
    }

    pub fn note_credited(&mut self, c: &Credited) {
        let sort = match c.entries.len() {
            n @ 0..=1 => n,
            2..=63 => 2,
            64..=1022 => 3,
            1023 => 4,
            _ => 5,
        };
        self.entries[sort] += 1;
        for (n, (_, test)) in self.cases.iter_mut().zip(CASES) {
            *n += test(c) as u64;
        }
    }

    /// A refusal, by what else fails and where.
    pub fn note_refused(&mut self, number: u8, log: &[u8], failing: &[bool; 7], list: &[Entry]) {
        for (n, two) in self.both.iter_mut().zip(BOTH) {
            *n += two.iter().all(|&k| failing[k as usize - 80]) as u64;
        }
        match number {
            83 => match word(log, 5) {
                1025 => self.over[0] += 1,
                65_535 => self.over[2] += 1,
                _ => self.over[1] += 1,
            },
            85 => {
                self.note_bad_entry(list);
                if failing[6] {
                    let met = list.iter().take_while(|e| !e.bad());
                    let met: BTreeSet<u32> = met.map(|e| e.apprentice).collect();
                    self.beside_86[(met.len() > APPRENTICES) as usize] += 1;
                }
            }
            86 => {
                let people = minutes::apprentices(list);
                for (n, (_, test)) in self.too_many.iter_mut().zip(TOO_MANY) {
                    *n += test(list, &people) as u64;
                }
            }
            _ => {}
        }
    }

    /// Where one entry alone gives 85.
    fn note_bad_entry(&mut self, list: &[Entry]) {
        let mut all = (0..list.len()).filter(|&i| list[i].bad());
        let (Some(i), None) = (all.next(), all.next()) else {
            return;
        };
        let e = &list[i];
        let place = match i {
            _ if list.len() < 3 => return,
            0 => 0,
            _ if i + 1 == list.len() => 1,
            _ => 2,
        };
        let none = e.covers_none() as usize;
        match [e.opening > WEEK, e.closing > WEEK, e.apprentice == 0] {
            [true, false, false] => self.bad_entries[place] += 1,
            [false, true, false] => self.bad_entries[3 + place] += 1,
            [true, true, false] => self.bad_entries[9 + none] += 1,
            [false, false, true] => {
                self.bad_entries[6 + place] += 1;
                self.bad_entries[11 + none] += 1;
            }
            _ => {}
        }
    }
}
