//! The earliest way and the tries of a LAB (M-106, M-107) in the Rust judge: a search that
//! knows a partial way only by the entries that it leaves open to each later need, and
//! where it has failed, how many it counted there.
#![allow(dead_code)]

use crate::plain::Need;
use std::collections::HashMap;
use std::hash::{BuildHasherDefault, Hasher};

/// No LAB has more, with eight needs and eight entries.
pub const MOST: u32 = 19_173_960;

/// So many are sooner made again than looked up.
const FEW: u32 = 16;

/// The entries that are open to each net, a byte a net, at the first need that it has.
/// Only those are in it that serve a later need of the net.
type Open = u64;

/// One entry at all nets.
const ENTRY: Open = 0x0101_0101_0101_0101;

#[derive(Default)]
struct Mixed(u64);

impl Hasher for Mixed {
    fn write(&mut self, bytes: &[u8]) {
        bytes.iter().for_each(|&b| self.write_u64(b as u64));
    }

    fn write_u64(&mut self, word: u64) {
        let product = (self.0 ^ word).wrapping_mul(0x9e37_79b9_7f4a_7c15);
        self.0 = product ^ product >> 32;
    }

    fn finish(&self) -> u64 {
        self.0
    }
}

struct Search<'a> {
    needs: &'a [Need],
    /// Where the byte of each need's net begins.
    places: [u32; 8],
    /// The entries that serve a need of each net, from each need on.
    later: [Open; 9],
    /// All partial ways from a need on, where there is no way and they are not few.
    failed: HashMap<(u64, Open), u32, BuildHasherDefault<Mixed>>,
    way: [u8; 8],
}

/// The tries, and the earliest way of the needs where there is one.
pub fn search(needs: &[Need]) -> (u32, Option<[u8; 8]>) {
    let mut places = [0; 8];
    let mut later = [0; 9];
    for (k, need) in needs.iter().enumerate().rev() {
        let first = needs.iter().position(|n| n.net == need.net).unwrap_or(k);
        places[k] = 8 * first as u32;
        later[k] = later[k + 1] | (need.serving as Open) << places[k];
    }
    let mut search = Search {
        needs,
        places,
        later,
        failed: HashMap::default(),
        way: [0; 8],
    };
    let (tries, found) = search.from(0, later[0]);
    (tries, found.then_some(search.way))
}

impl Search<'_> {
    /// The tries from the need on, and whether they end in a way.
    fn from(&mut self, k: usize, open: Open) -> (u32, bool) {
        let Some(need) = self.needs.get(k) else {
            return (0, true);
        };
        // The last need has few tries.
        if k + 1 < self.needs.len() {
            if let Some(&tries) = self.failed.get(&(k as u64, open)) {
                return (tries, false);
            }
        }
        let own = 0xff << self.places[k];
        let mut left = need.serving & (open >> self.places[k]) as u8;
        let mut tries = 0;
        while left != 0 {
            let entry = left.trailing_zeros();
            let next = open & (own | !(ENTRY << entry)) & self.later[k + 1];
            let (more, found) = self.from(k + 1, next);
            tries += 1 + more;
            if found {
                self.way[k] = entry as u8;
                return (tries, true);
            }
            left &= left - 1;
        }
        if tries > FEW {
            self.failed.insert((k as u64, open), tries);
        }
        (tries, false)
    }
}
