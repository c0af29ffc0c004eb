//! What a caller lends to the judge: a route buffer and a list of tries, each with guards
//! at both ends.
#![allow(dead_code)]

use crate::judge::{ROUTE, TRIES};

/// Bytes and numbers at each end.
pub const GUARD: usize = 64;

/// The route buffer and the list of tries.
pub type Parts<'a> = (&'a mut [u8], &'a mut [u32]);

#[derive(Clone, PartialEq)]
pub struct Lent {
    route: Vec<u8>,
    tries: Vec<u32>,
}

impl Lent {
    /// Of the right sizes.
    pub fn new() -> Lent {
        Lent {
            route: vec![0; ROUTE + 2 * GUARD],
            tries: vec![0; TRIES + 2 * GUARD],
        }
    }

    /// So many bytes and so many numbers, of these bytes.
    pub fn set(&mut self, fill: &[u8], [route, tries]: [usize; 2]) {
        self.route.clear();
        self.route.extend_from_slice(&fill[..route + 2 * GUARD]);
        let number = |b: &[u8]| u32::from_le_bytes([b[0], b[1], b[2], b[3]]);
        let wanted = tries + 2 * GUARD;
        self.tries.clear();
        while self.tries.len() < wanted {
            let left = wanted - self.tries.len();
            let more = fill.chunks_exact(4).take(left).map(number);
            self.tries.extend(more);
        }
    }

    pub fn copy(&mut self, other: &Lent) {
        self.route.clone_from(&other.route);
        self.tries.clone_from(&other.tries);
    }

    /// Without the guards.
    pub fn parts(&mut self) -> Parts<'_> {
        let (route, tries) = (self.route.len(), self.tries.len());
        (
            &mut self.route[GUARD..route - GUARD],
            &mut self.tries[GUARD..tries - GUARD],
        )
    }

    pub fn route(&self) -> &[u8] {
        &self.route[GUARD..self.route.len() - GUARD]
    }

    pub fn tries(&self) -> &[u32] {
        &self.tries[GUARD..self.tries.len() - GUARD]
    }

    /// The first bytes that differ, counted from the part lent; nothing where none do.
    pub fn route_difference(&self, other: &Lent) -> Option<(i64, [u8; 2])> {
        first_difference(&self.route, &other.route)
    }

    pub fn tries_difference(&self, other: &Lent) -> Option<(i64, [u32; 2])> {
        first_difference(&self.tries, &other.tries)
    }
}

fn first_difference<T: Copy + PartialEq>(a: &[T], b: &[T]) -> Option<(i64, [T; 2])> {
    if a == b {
        return None;
    }
    let i = a.iter().zip(b).position(|(x, y)| x != y)?;
    Some((i as i64 - GUARD as i64, [a[i], b[i]]))
}
