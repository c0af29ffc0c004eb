//! The proved judge, the Rust judge and the fast one on the same sheets, each with its own
//! copy of what is lent.

use crate::fast;
use crate::generate::Case;
use crate::hex;
use crate::judge::{self, Verdict};
use crate::lent::Lent;
use crate::proved;
use std::fmt::Write;

/// A call of the judge: the sheets, and how many bytes and numbers are lent.
#[derive(Clone, Copy)]
pub struct Call<'a> {
    pub settings: &'a [u8],
    pub exercise: &'a [u8],
    pub answer: &'a [u8],
    pub route: usize,
    pub tries: usize,
}

impl<'a> Call<'a> {
    /// With a route buffer and a list of the right sizes.
    pub fn right(settings: &'a [u8], exercise: &'a [u8], answer: &'a [u8]) -> Call<'a> {
        Call {
            settings,
            exercise,
            answer,
            route: judge::ROUTE,
            tries: judge::TRIES,
        }
    }

    pub fn of(case: &'a Case) -> Call<'a> {
        Call {
            settings: &case.settings,
            exercise: &case.exercise,
            answer: &case.answer,
            route: case.route,
            tries: case.tries,
        }
    }

    pub fn describe(&self) -> String {
        let lent = format!("{} bytes and {} numbers lent\n", self.route, self.tries);
        hex("settings", self.settings)
            + &hex("exercise", self.exercise)
            + &hex("answer", self.answer)
            + &lent
    }
}

pub fn describe(n: &[u64; 7]) -> String {
    format!(
        "number {} cell {} lab {} apprentice {} sheet {} start {} size {}",
        n[0], n[1], n[2], n[3], n[4], n[5], n[6]
    )
}

pub struct Both {
    before: Lent,
    left: Lent,
    right: Lent,
    fast: Lent,
}

impl Both {
    pub fn new() -> Both {
        Both {
            before: Lent::new(),
            left: Lent::new(),
            right: Lent::new(),
            fast: Lent::new(),
        }
    }

    /// The agreed answer, or an account of the difference.
    pub fn run(&mut self, call: &Call, pattern: &[u8]) -> Result<[u64; 7], String> {
        self.before.set(pattern, [call.route, call.tries]);
        self.left.copy(&self.before);
        self.right.copy(&self.before);
        let [s, e, a] = [call.settings, call.exercise, call.answer];
        let p = proved::judge(s, e, a, self.left.parts());
        let verdict = judge::judge(s, e, a, self.right.parts());
        let r = proved::numbers(&verdict);
        let mut wrong = differences(["proved", "Rust"], [&self.left, &self.right]);
        if p != r {
            wrong.push_str("the answers differ\n");
        }
        for (who, n, lent) in [("proved", &p, &self.left), ("Rust", &r, &self.right)] {
            if n[0] != 0 && lent.route_difference(&self.before).is_some() {
                let _ = writeln!(wrong, "{who}: a refusal changed the route buffer");
            }
            if n[0] != 0 && n[0] != 65 && lent.tries_difference(&self.before).is_some() {
                let _ = writeln!(wrong, "{who}: {} changed the list of tries", n[0]);
            }
        }
        if !wrong.is_empty() {
            let _ = writeln!(wrong, "proved: {}\nRust:   {}", describe(&p), describe(&r));
        }
        wrong += &self.beside_fast(call, &verdict);
        if wrong.is_empty() {
            return Ok(p);
        }
        Err(wrong + &call.describe())
    }

    /// The fast judge on the call that the Rust judge has just had; empty where it says
    /// and writes the same.
    fn beside_fast(&mut self, call: &Call, verdict: &Verdict) -> String {
        self.fast.copy(&self.before);
        let [s, e, a] = [call.settings, call.exercise, call.answer];
        let told = fast::judge(s, e, a, self.fast.parts());
        let mut wrong = differences(["Rust", "fast"], [&self.right, &self.fast]);
        if told != *verdict {
            wrong.push_str("the answers of the Rust judge and of the fast one differ\n");
        }
        if !wrong.is_empty() {
            let [r, f] = [verdict, &told].map(|v| describe(&proved::numbers(v)));
            let _ = writeln!(wrong, "Rust:   {r}\nfast:   {f}");
        }
        wrong
    }

    /// The proved judge on the pair that was just run, under the number of another
    /// board with the same entries: nothing may change.
    pub fn renumbered(
        &mut self,
        settings: &[u8],
        call: &Call,
        agreed: &[u64; 7],
    ) -> Result<(), String> {
        self.right.copy(&self.before);
        let n = proved::judge(settings, call.exercise, call.answer, self.right.parts());
        if n == *agreed && self.right == self.left {
            return Ok(());
        }
        let (was, is) = (describe(agreed), describe(&n));
        let sheets = hex("settings", call.settings) + &hex("renumbered", settings);
        Err(format!(
            "another board number changed the answer\nbefore: {was}\nafter:  {is}\n{sheets}"
        ))
    }

    /// What both left in the route buffer and in the list of tries.
    pub fn route(&self) -> &[u8] {
        self.left.route()
    }

    pub fn tries(&self) -> &[u32] {
        self.left.tries()
    }

    /// The list of tries as it was lent.
    pub fn tries_before(&self) -> &[u32] {
        self.before.tries()
    }
}

/// The first byte and the first number that differ after two calls.
fn differences([one, other]: [&str; 2], [left, right]: [&Lent; 2]) -> String {
    let mut wrong = String::new();
    if let Some((at, [l, r])) = left.route_difference(right) {
        let lab = at.div_euclid(8);
        let _ = writeln!(
            wrong,
            "route byte {at} (lab {lab}) differs: {one} {l}, {other} {r}"
        );
    }
    if let Some((lab, [l, r])) = left.tries_difference(right) {
        let _ = writeln!(wrong, "tries of lab {lab} differ: {one} {l}, {other} {r}");
    }
    wrong
}
