//! The tries of a LAB straight from M-106 and M-107: lists of entries, each tested by
//! itself and compared with the answer by document 01's order; and a plain search that
//! counts.
#![allow(dead_code)]

use crate::plain::{word, List, Need};
use std::collections::{BTreeMap, BTreeSet, HashMap};

/// The tries, and the answer, which is the earliest way.
pub type Tried = (u32, Option<Vec<u8>>);

/// The first one or more needs given suitable entries, the same only for the same net.
fn is_partial_way(list: &[u8], needs: &[Need]) -> bool {
    let suitable = list
        .iter()
        .zip(needs)
        .all(|(entry, need)| need.serving >> entry & 1 == 1);
    let may = |i: usize, j: usize| list[i] != list[j] || needs[i].net == needs[j].net;
    let rightly_shared = || (0..list.len()).all(|i| (0..i).all(|j| may(i, j)));
    (1..=needs.len()).contains(&list.len()) && suitable && rightly_shared()
}

/// The earlier has the smaller entry at the first need where they differ; a shorter one
/// stands before those that extend it.
fn stands_before(first: &[u8], second: &[u8]) -> bool {
    match first.iter().zip(second).find(|(a, b)| a != b) {
        Some((a, b)) => a < b,
        None => first.len() < second.len(),
    }
}

/// Among lists that hold all partial ways.
fn among(lists: impl Iterator<Item = List>, needs: &[Need]) -> Tried {
    let partial: Vec<List> = lists.filter(|l| is_partial_way(l, needs)).collect();
    let list = || partial.iter().map(|l| &l[..]);
    // A LAB without needs has the empty way.
    let empty: &[u8] = &[];
    let ways = list().chain([empty]).filter(|l| l.len() == needs.len());
    let answer = ways.reduce(|a, b| if stands_before(b, a) { b } else { a });
    let counts = |l: &&[u8]| answer.is_none_or(|a| !stands_before(a, l));
    let tries = list().filter(counts).count() as u32;
    (tries, answer.map(|a| a.to_vec()))
}

/// How many lists `defined` looks at.
pub fn lists_defined(needs: &[Need], entries: usize) -> usize {
    (1..=needs.len())
        .map(|length| entries.pow(length as u32))
        .sum()
}

/// By the definition: all lists of entries.
pub fn defined(needs: &[Need], entries: usize) -> Tried {
    let digits = |mut number: usize, length: usize| {
        let mut digit = || {
            let last = number % entries;
            number /= entries;
            last as u8
        };
        (0..length).fold(List::default(), |list, _| list.with(digit()))
    };
    let of_length = |length: usize| {
        let each = 0..entries.pow(length as u32);
        each.map(move |number| digits(number, length))
    };
    among((1..=needs.len()).flat_map(of_length), needs)
}

/// More lists are not looked at where needs share a net; of different entries there are
/// at most 109,600.
const MANY_LISTS: usize = 20_000;

/// The same among the lists that grow by one entry at a time; nothing where there are
/// too many of them.
pub fn listed(needs: &[Need]) -> Option<Tried> {
    let nets: BTreeSet<u16> = needs.iter().map(|need| need.net).collect();
    let shared = nets.len() < needs.len();
    if shared && at_least(needs) > MANY_LISTS {
        return None;
    }
    let mut all = vec![List::default()];
    let mut grown = 0;
    for _ in needs {
        let longer = all[grown..].iter().flat_map(|list| list.longer(needs));
        let longer: Vec<List> = longer.collect();
        grown = all.len();
        all.extend(longer);
        if shared && all.len() > MANY_LISTS {
            return None;
        }
    }
    Some(among(all.into_iter(), needs))
}

/// There are at least so many: a need takes no more than one entry from a later one of
/// another net.
fn at_least(needs: &[Need]) -> usize {
    let mut last = 1;
    let longer = |(k, need): (usize, &Need)| {
        let others = needs[..k].iter().filter(|n| n.net != need.net);
        let open = need.serving.count_ones() as usize;
        last *= open.saturating_sub(others.count());
        last
    };
    needs.iter().enumerate().map(longer).sum()
}

/// The same by a plain search.
pub fn searched(needs: &[Need]) -> Tried {
    let mut way = vec![0; needs.len()];
    let mut tries = 0;
    let found = search(needs, &mut NOT_HELD.clone(), &mut way, &mut tries);
    (tries, found.then_some(way))
}

/// The net that holds each entry.
pub type Held = [Option<u16>; 8];
pub const NOT_HELD: Held = [None; 8];

/// Gives the first need each entry that serves it and is free or held by its net, the
/// lowest first.
pub fn search(needs: &[Need], held: &mut Held, way: &mut [u8], tries: &mut u32) -> bool {
    let Some((need, others)) = needs.split_first() else {
        return true;
    };
    for entry in 0..8 {
        let before = held[entry];
        if need.serving >> entry & 1 == 1 && before.is_none_or(|net| net == need.net) {
            *tries += 1;
            way[0] = entry as u8;
            held[entry] = Some(need.net);
            if search(others, held, &mut way[1..], tries) {
                return true;
            }
            held[entry] = before;
        }
    }
    false
}

/// The (role, signal) pairs of a LAB that need an entry.
pub type Needs = BTreeSet<(usize, u16)>;

/// The needs of each occupied LAB.
pub fn needs_by_lab(exercise: &[u8], answer: &[u8]) -> BTreeMap<usize, Needs> {
    let mut labs: BTreeMap<usize, Needs> = BTreeMap::new();
    let cells = exercise[9..].chunks_exact(24);
    for (cell, place) in cells.zip(answer[11..].chunks_exact(4)) {
        let [x, y] = [place[0], place[1]].map(usize::from);
        let own = labs.entry(32 * y + x).or_default();
        if cell[0] == 2 {
            // The five ports stand after datain.
            let ports = (0..5).map(|role| (role, word(cell, 4 + 2 * role)));
            own.extend(ports.filter(|&(_, signal)| signal >= 4));
        }
    }
    labs
}

/// Needs on a board with these entries, their nets numbered as they come.
pub fn on_board<'a>(
    needs: impl IntoIterator<Item = &'a (usize, u16)>,
    entries: &[u8],
) -> Vec<Need> {
    let mut nets = Vec::new();
    let numbered = |&(role, signal): &(usize, u16)| {
        let need = Need::new(role, signal, entries);
        let known = nets.iter().position(|&n| n == need.net);
        let number = known.unwrap_or_else(|| {
            nets.push(need.net);
            nets.len() - 1
        });
        Need {
            net: number as u16,
            ..need
        }
    };
    needs.into_iter().map(numbered).collect()
}

/// What `listed` gives, or `searched` where it gives nothing, found once for the same
/// needs.
pub struct Known {
    found: HashMap<Vec<Need>, Tried>,
}

impl Known {
    pub fn new() -> Known {
        Known {
            found: HashMap::new(),
        }
    }

    pub fn tried(&mut self, needs: &[Need]) -> Tried {
        if self.found.len() > 1 << 16 {
            self.found.clear();
        }
        let found = self.found.entry(needs.to_vec());
        found
            .or_insert_with(|| listed(needs).unwrap_or_else(|| searched(needs)))
            .clone()
    }
}
