//! The tries that both judges report beside those of the definition in M-106 and M-107;
//! sheets made for the search; lists of other lengths; and the forms of the tries beside
//! each other.

use crate::both::{Both, Call};
use crate::forms::same;
use crate::generate::*;
use crate::judge;
use crate::plain::{self, CellRecord, Need};
use crate::settings;
use crate::tries;
use crate::try_cases::{Counts, Judged, Lab, LENGTHS};
use crate::try_examples;
use crate::try_forms::{self, Known, Needs};
use crate::try_sheets;
use crate::NO;
use std::collections::BTreeMap;

/// All lists of entries are looked at where there are no more than so many.
const FEW_LISTS: usize = 5_000;

pub struct Trying {
    pub counts: Counts,
    known: Known,
}

impl Trying {
    pub fn new() -> Trying {
        Trying {
            counts: Counts::new(),
            known: Known::new(),
        }
    }

    /// The list that both left after a call, and the route, beside those by definition.
    pub fn judged(&mut self, call: &Call, n: &[u64; 7], both: &Both) -> Result<(), String> {
        let number = n[0] as u8;
        let mut list = both.tries_before().to_vec();
        if matches!(number, 0 | 60..=65) {
            let board = plain::read_settings(call.settings);
            let entries = board.map_err(|n| format!("settings {n}\n"))?.entries;
            let labs = try_forms::needs_by_lab(call.exercise, call.answer);
            let above = labs.range(n[2] as usize + 1..);
            let above: Vec<u8> = above.map(|(&lab, _)| by_itself(call, lab)).collect();
            let searched = self.searched(number, n[2] as usize, labs, &entries)?;
            if matches!(number, 0 | 65) {
                list.fill(0);
                searched.iter().for_each(|l| list[l.number] = l.tries);
                within_limit(&list)?;
            }
            for lab in searched.iter().filter(|_| number == 0) {
                let own = &both.route()[8 * lab.number..][..8];
                same("route bytes", own, &lab.bytes()[..])?;
            }
            self.counts.note(&Judged {
                number,
                entries: entries.len(),
                searched: &searched,
                above: &above,
            });
        }
        same_lists(both.tries(), &list)
    }

    /// The LABs below the refused one, and that one too where the number is 65.
    fn searched(
        &mut self,
        number: u8,
        refused: usize,
        labs: BTreeMap<usize, Needs>,
        entries: &[u8],
    ) -> Result<Vec<Lab>, String> {
        let mut searched = Vec::new();
        for (lab, needs) in labs {
            let no_way = number == 65 && lab == refused;
            if lab >= refused && !no_way {
                break;
            }
            let on_board = try_forms::on_board(&needs, entries);
            let (tries, way) = self.known.tried(&on_board);
            same("a way", way.is_some(), !no_way)?;
            searched.push(Lab {
                number: lab,
                needs: needs.into_iter().collect(),
                on_board,
                tries,
                way,
            });
        }
        Ok(searched)
    }

    /// The same call with a list of another length; `n` is said of the call.
    pub fn lengths(
        &mut self,
        both: &mut Both,
        rng: &mut Rng,
        fill: &[u8],
        call: &Call,
        n: &[u64; 7],
    ) -> Result<(), String> {
        // The longest seldom.
        let longest = rng.below(20) == 0;
        let i = rng.below(LENGTHS.len() - !longest as usize);
        let other = Call {
            tries: LENGTHS[i].1,
            ..*call
        };
        let got = both.run(&other, fill)?;
        if n[0] == 1 {
            self.counts.after_1 += 1;
            return same("1 beside a wrong list", got, *n);
        }
        self.counts.lengths[i] += 1;
        self.counts.before[n[0] as usize] += 1;
        let end = call.answer.len() as u64;
        same("a wrong list", got, [3, NO, NO, 0, 1, end, 0])
    }

    /// Sheets made for the search, beside what is known of them.
    pub fn sheets(&mut self, both: &mut Both, rng: &mut Rng, fill: &[u8]) -> Result<(), String> {
        let made = try_sheets::some(rng);
        let settings = settings::sheet(&made.settings);
        let (exercise, answer) = (made.sheets.exercise(), made.sheets.answer());
        let call = Call::right(&settings, &exercise, &answer);
        let n = both.run(&call, fill);
        n.and_then(|n| {
            let compared = self.beside_made(&made, &n, both);
            let compared = compared.and_then(|()| self.judged(&call, &n, both));
            compared.map_err(|wrong| wrong + &call.describe())
        })
        .map_err(|wrong| format!("sheets for the search: {wrong}"))
    }

    fn beside_made(
        &mut self,
        made: &try_sheets::Made,
        n: &[u64; 7],
        both: &Both,
    ) -> Result<(), String> {
        self.counts.versions[made.settings.version as usize - 1] += 1;
        let lab = made.lab.map_or(NO, |lab| lab as u64);
        same("number and LAB", [n[0], n[2]], [made.number as u64, lab])?;
        if !matches!(made.number, 0 | 65) {
            return Ok(());
        }
        let mut list = [0; judge::TRIES];
        for (lab, needs) in &made.searched {
            let on_board = try_forms::on_board(needs, &made.settings.entries);
            list[*lab] = self.known.tried(&on_board).0;
        }
        same_lists(both.tries(), &list)
    }

    /// A table by all forms: needs of any nets with any entries, of no board.
    pub fn table(&mut self, rng: &mut Rng) -> Result<(), String> {
        let (entries, count) = (rng.below(9), rng.below(9));
        let chance = rng.pick(&[20, 50, 70, 85, 100]);
        // All nets different, one net, or a few.
        let few = rng.pick(&[0, 0, 1, 1, 2, 3]);
        let mut need = |k: usize| Need {
            serving: (0..entries).fold(0, |n, e| n | (rng.percent(chance) as u8) << e),
            net: if few == 0 { k } else { rng.below(few) } as u16,
        };
        let mut needs: Vec<Need> = (0..count).map(&mut need).collect();
        // The last need alone may lack an entry.
        if rng.percent(30) && count > 0 {
            needs[count - 1].serving = 0;
        }
        self.forms(&needs, entries)
            .map_err(|wrong| format!("table of {entries} entries, needs {needs:?}: {wrong}"))
    }

    /// All forms say the same.
    fn forms(&mut self, needs: &[Need], entries: usize) -> Result<(), String> {
        let told = try_forms::searched(needs);
        if let Some(listed) = try_forms::listed(needs) {
            same("lists", &listed, &told)?;
            self.counts.listed += 1;
        }
        if try_forms::lists_defined(needs, entries) <= FEW_LISTS {
            same("definition", &try_forms::defined(needs, entries), &told)?;
            self.counts.defined += 1;
        }
        let (tries, way) = tries::search(needs);
        let way = way.map(|way| way[..needs.len()].to_vec());
        same("the judge's search", &(tries, way), &told)?;
        within_limit(&[tries])?;
        let found = told.1.is_some();
        same("a way", settings::has_way(needs), found)?;
        self.counts.note_table(entries, needs.len(), tries, found);
        Ok(())
    }

    /// Settled examples; gives how many there are.
    pub fn settled(&mut self, both: &mut Both, fill: &[u8]) -> Result<usize, String> {
        let all = try_examples::all();
        for x in &all {
            example(both, x, fill).map_err(|wrong| format!("{}: {wrong}", x.name))?;
        }
        Ok(all.len())
    }
}

fn example(both: &mut Both, x: &try_examples::Example, fill: &[u8]) -> Result<(), String> {
    let (exercise, answer) = (x.sheets.exercise(), x.sheets.answer());
    let call = Call {
        settings: &x.settings,
        exercise: &exercise,
        answer: &answer,
        route: x.lent[0],
        tries: x.lent[1],
    };
    let n = both.run(&call, fill)?;
    same("number and LAB", [n[0], n[2]], [x.number, x.lab])?;
    if matches!(n[0], 1 | 3 | 70..=75) {
        let end = answer.len() as u64;
        same("the whole answer", n, [x.number, NO, NO, 0, 1, end, 0])?;
    }
    let mut list = both.tries_before().to_vec();
    if let Some(tries) = &x.tries {
        list.fill(0);
        tries.iter().for_each(|&(lab, n)| list[lab] = n);
    }
    same_lists(both.tries(), &list)
}

/// The first LAB where they differ.
fn same_lists(got: &[u32], want: &[u32]) -> Result<(), String> {
    same("numbers in the list of tries", got.len(), want.len())?;
    match (0..got.len()).find(|&lab| got[lab] != want[lab]) {
        Some(lab) => same(&format!("tries of lab {lab}"), got[lab], want[lab]),
        None => Ok(()),
    }
}

fn within_limit(list: &[u32]) -> Result<(), String> {
    match list.iter().find(|&&n| n > tries::MOST) {
        Some(n) => Err(format!("{n} tries are over the limit\n")),
        None => Ok(()),
    }
}

/// The number of the LAB's cells as a list.
fn by_itself(call: &Call, lab: usize) -> u8 {
    let cells = call.exercise[9..].chunks_exact(24);
    let places = call.answer[11..].chunks_exact(4);
    let in_lab = |place: &[u8]| 32 * place[1] as usize + place[0] as usize == lab;
    let own = cells.zip(places).filter(|(_, place)| in_lab(place));
    let list: Vec<CellRecord> = own.map(|(cell, _)| plain::record(cell)).collect();
    plain::check_list(call.settings, &list).0
}
