//! What judgements show of the search, and how often the tries were compared.

use crate::generate::ROLES;
use crate::plain::Need;
use crate::settings::has_way;

/// A LAB that was searched.
pub struct Lab {
    pub number: usize,
    /// Role and signal, in their order.
    pub needs: Vec<(usize, u16)>,
    /// The same on the board.
    pub on_board: Vec<Need>,
    pub tries: u32,
    pub way: Option<Vec<u8>>,
}

/// A judgement that came as far as the LABs.
pub struct Judged<'a> {
    pub number: u8,
    pub entries: usize,
    /// The LABs that were searched, rising; the last is the refused one where the
    /// verdict is 65.
    pub searched: &'a [Lab],
    /// What the LABs above a refused one would have by themselves.
    pub above: &'a [u8],
}

type Test = fn(&Judged) -> bool;
type TestTwo = fn((usize, u16), (usize, u16)) -> bool;

/// What a judgement shows that writes the list.
pub const CASES: [(&str, Test); 39] = [
    ("legal with tries", |j| j.number == 0 && j.tries() > 0),
    ("legal, some LABs without needs", |j| {
        let without = j.searched.iter().any(|l| l.needs.is_empty());
        j.number == 0 && j.tries() > 0 && without
    }),
    ("legal, all without needs", |j| {
        j.number == 0 && !j.searched.is_empty() && j.tries() == 0
    }),
    ("no cells", |j| j.number == 0 && j.searched.is_empty()),
    ("an answer at once", |j| {
        j.answer(|l| !l.needs.is_empty() && !l.failed())
    }),
    ("after failed tries", |j| j.answer(Lab::failed)),
    ("after 256 or more", |j| j.answer(|l| l.tries > 255)),
    ("after 10,245 for different nets", |j| {
        j.answer(|l| l.tries == 10_245 && l.nets_with_several() == 0)
    }),
    ("failed tries in two LABs", |j| {
        let failed = j.searched.iter().filter(|l| l.failed());
        j.number == 0 && failed.count() > 1
    }),
    ("different tries in two LABs", |j| {
        let tries = || j.searched.iter().map(|l| l.tries).filter(|&n| n > 0);
        j.number == 0 && tries().min() != tries().max()
    }),
    ("tries in LAB 0", |j| {
        j.lab(|l| l.number == 0 && l.tries > 0)
    }),
    ("in LAB 1,023", |j| {
        j.lab(|l| l.number == 1023 && l.tries > 0)
    }),
    ("a net and its inverse", |j| {
        j.lab(|l| l.two_needs(|p, q| p.0 == q.0 && p.1 ^ 1 == q.1))
    }),
    ("one net in two roles", |j| {
        j.lab(|l| l.two_needs(|p, q| p.0 != q.0 && p.1 == q.1))
    }),
    ("65 in the lowest LAB", |j| {
        j.number == 65 && j.searched.len() == 1
    }),
    ("65, tries below", |j| j.below() > 0),
    ("and LABs above", |j| j.below() > 0 && !j.above.is_empty()),
    ("one of these has a way", |j| {
        j.below() > 0 && j.above.contains(&0)
    }),
    ("has none", |j| j.below() > 0 && j.above.contains(&65)),
    ("breaks 60 to 64", |j| {
        j.below() > 0 && j.above.iter().any(|n| (60..=64).contains(n))
    }),
    ("65 with no try", |j| j.refused(|l| l.tries == 0)),
    ("65 with 256 or more", |j| j.refused(|l| l.tries > 255)),
    ("65 with 69,280 for different nets", |j| {
        j.refused(|l| l.tries == 69_280 && l.nets_with_several() == 0)
    }),
    ("two needs share an entry", |j| {
        j.answer(|l| l.share(|_, _| true))
    }),
    ("two roles do", |j| j.answer(|l| l.share(|p, q| p.0 != q.0))),
    ("both polarities do", |j| {
        j.answer(|l| l.share(|p, q| p.1 ^ 1 == q.1))
    }),
    ("three needs or more do", |j| j.answer(|l| l.sharing() > 2)),
    ("all eight do", |j| j.answer(|l| l.sharing() == 8)),
    ("needs of each of two nets do", |j| {
        j.answer(|l| l.two_places(|a, b| l.shares(a) && l.shares(b) && !l.one_net(a, b)))
    }),
    ("legal only by sharing", |j| {
        j.answer(|l| l.sharing() > 1 && !l.has_way_apart())
    }),
    ("shared, though another way is not", |j| {
        j.answer(|l| l.sharing() > 1 && l.has_way_apart())
    }),
    ("not shared, though another way is", |j| {
        j.answer(Lab::could_share)
    }),
    ("shared after failed tries", |j| {
        j.answer(|l| l.sharing() > 1 && l.failed())
    }),
    ("after more than 69,280", |j| j.answer(|l| l.tries > 69_280)),
    ("65, needs of one net", |j| {
        j.refused(|l| l.nets_with_several() > 0)
    }),
    ("65, of two nets", |j| {
        j.refused(|l| l.nets_with_several() > 1)
    }),
    ("65, different nets would have to share", |j| {
        j.refused(|l| l.on_board.iter().all(|n| n.serving != 0))
    }),
    ("65 with more than 69,280", |j| {
        j.refused(|l| l.tries > 69_280)
    }),
    ("65 with 2,396,744", |j| j.refused(|l| l.tries == 2_396_744)),
];

impl Lab {
    pub fn found(&self) -> bool {
        self.way.is_some()
    }

    /// What stands in the route buffer where the answer is legal.
    pub fn bytes(&self) -> [u8; 8] {
        let mut bytes = [255; 8];
        let entries = self.way.iter().flatten();
        for (&(role, _), &entry) in self.needs.iter().zip(entries) {
            let mut free = (0..8).filter(|&k| ROLES[k] == role && bytes[k] == 255);
            if let Some(k) = free.next() {
                bytes[k] = entry;
            }
        }
        bytes
    }

    /// Whether some entry was given and taken back before the answer was found.
    fn failed(&self) -> bool {
        self.found() && self.tries > self.needs.len() as u32
    }

    /// Whether two needs, by their places, pass the test.
    fn two_places(&self, test: impl Fn(usize, usize) -> bool) -> bool {
        let places = 0..self.needs.len();
        let others = |i: usize| places.clone().filter(move |&j| j != i);
        places.clone().any(|i| others(i).any(|j| test(i, j)))
    }

    fn two_needs(&self, test: TestTwo) -> bool {
        self.two_places(|i, j| test(self.needs[i], self.needs[j]))
    }

    fn one_net(&self, i: usize, j: usize) -> bool {
        self.on_board[i].net == self.on_board[j].net
    }

    fn one_entry(&self, i: usize, j: usize) -> bool {
        self.way.as_ref().is_some_and(|way| way[i] == way[j])
    }

    /// Whether two needs that pass the test have one entry.
    fn share(&self, test: TestTwo) -> bool {
        self.two_places(|i, j| self.one_entry(i, j) && test(self.needs[i], self.needs[j]))
    }

    /// Whether the need has its entry with another one.
    fn shares(&self, i: usize) -> bool {
        (0..self.needs.len()).any(|j| j != i && self.one_entry(i, j))
    }

    /// The most needs that have one entry.
    fn sharing(&self) -> usize {
        let places = 0..self.needs.len();
        let with = |i: usize| places.clone().filter(|&j| self.one_entry(i, j)).count();
        places.clone().map(with).max().unwrap_or(0)
    }

    /// Whether a need could have the entry of another one of its net and has not.
    fn could_share(&self) -> bool {
        let serves = |i: usize, entry: u8| self.on_board[i].serving >> entry & 1 == 1;
        let could = |i, j: usize| self.way.as_ref().is_some_and(|way| serves(i, way[j]));
        self.two_places(|i, j| self.one_net(i, j) && !self.one_entry(i, j) && could(i, j))
    }

    /// Whether there is a way that gives no entry to two needs.
    fn has_way_apart(&self) -> bool {
        let apart = |(net, need): (u16, &Need)| Need { net, ..*need };
        let needs: Vec<Need> = (0..).zip(&self.on_board).map(apart).collect();
        has_way(&needs)
    }

    fn nets_with_several(&self) -> usize {
        let needs = |net: u16| self.on_board.iter().filter(|n| n.net == net).count();
        (0..8).filter(|&net| needs(net) > 1).count()
    }
}

impl Judged<'_> {
    /// In all LABs.
    pub fn tries(&self) -> u64 {
        self.searched.iter().map(|l| l.tries as u64).sum()
    }

    /// Below a LAB refused with 65.
    fn below(&self) -> u64 {
        match self.searched.last() {
            Some(last) if !last.found() => self.tries() - last.tries as u64,
            _ => 0,
        }
    }

    fn lab(&self, test: fn(&Lab) -> bool) -> bool {
        self.searched.iter().any(test)
    }

    /// A LAB of a legal answer.
    fn answer(&self, test: fn(&Lab) -> bool) -> bool {
        self.number == 0 && self.lab(test)
    }

    fn refused(&self, test: fn(&Lab) -> bool) -> bool {
        self.number == 65 && self.searched.last().is_some_and(test)
    }
}

/// Lists that are refused with 3, by their length.
pub const LENGTHS: [(&str, usize); 10] = [
    ("0", 0),
    ("1", 1),
    ("255", 255),
    ("256", 256),
    ("1,023", 1023),
    ("1,025", 1025),
    ("2,048", 2048),
    ("4,096", 4096),
    ("8,192", 8192),
    ("66,560", 66_560),
];

/// How often each thing was compared.
pub struct Counts {
    pub cases: [u64; CASES.len()],
    /// Legal answers and refusals with 65, by the entries of the board.
    pub legal: [u64; 9],
    pub no_way: [u64; 9],
    /// LABs with a way and without one, by needs.
    pub found: [u64; 9],
    pub not_found: [u64; 9],
    /// Sheets made for the search, by the version of the settings.
    pub versions: [u64; 2],
    /// 60 to 64 above a LAB with tries: the list stays.
    pub stays: [u64; 5],
    /// 3 by length, and by what a right list gives; 1 with a wrong list.
    pub lengths: [u64; LENGTHS.len()],
    pub before: [u64; 256],
    pub after_1: u64,
    /// Tables by entries and by needs: with a way, without one.
    pub tables: [[[u64; 9]; 9]; 2],
    /// Those with all partial ways in a list, and with all lists of entries looked at.
    pub listed: u64,
    pub defined: u64,
    /// The most tries of a LAB with an answer, without one; and of a table.
    pub most: [u32; 3],
}

impl Counts {
    pub fn new() -> Counts {
        Counts {
            cases: [0; CASES.len()],
            legal: [0; 9],
            no_way: [0; 9],
            found: [0; 9],
            not_found: [0; 9],
            versions: [0; 2],
            stays: [0; 5],
            lengths: [0; LENGTHS.len()],
            before: [0; 256],
            after_1: 0,
            tables: [[[0; 9]; 9]; 2],
            listed: 0,
            defined: 0,
            most: [0; 3],
        }
    }

    pub fn note(&mut self, j: &Judged) {
        match j.number {
            0 => self.legal[j.entries] += 1,
            65 => self.no_way[j.entries] += 1,
            number => {
                self.stays[number as usize - 60] += (j.tries() > 0) as u64;
                return;
            }
        }
        for lab in j.searched {
            let (counts, most) = if lab.found() {
                (&mut self.found, &mut self.most[0])
            } else {
                (&mut self.not_found, &mut self.most[1])
            };
            counts[lab.needs.len()] += 1;
            *most = lab.tries.max(*most);
        }
        for (n, (_, test)) in self.cases.iter_mut().zip(CASES) {
            *n += test(j) as u64;
        }
    }

    pub fn note_table(&mut self, entries: usize, needs: usize, tries: u32, found: bool) {
        self.tables[!found as usize][entries][needs] += 1;
        self.most[2] = tries.max(self.most[2]);
    }

    /// How often the tables occurred that occurred least: with a way, where there can be
    /// one, and without.
    pub fn rarest_tables(&self) -> [u64; 2] {
        let all = |without: usize, can: fn(usize, usize) -> bool| {
            let pairs = (0..9).flat_map(|entries| (0..9).map(move |needs| (entries, needs)));
            let own = pairs.filter(|&(entries, needs)| can(entries, needs));
            own.map(|(entries, needs)| self.tables[without][entries][needs])
                .min()
                .unwrap_or(0)
        };
        [
            all(0, |entries, needs| needs == 0 || entries > 0),
            all(1, |_, needs| needs > 0),
        ]
    }
}
