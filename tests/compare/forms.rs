//! The proved readers and the proved list check beside plain ones, and beside what
//! the Rust judge says of the same sheets.

use crate::generate::*;
use crate::nets;
use crate::plain::{self, CellRecord, Settings, Step};
use crate::proved;
use crate::settings;
use crate::sync;

/// Number, cell and LAB of a verdict.
pub struct Said {
    pub number: u8,
    pub cell: u16,
    pub lab: u16,
}

/// How often each thing was compared.
pub struct Counts {
    pub openings: [u64; 256],
    pub cells: [u64; 3],
    pub records: [u64; 3],
    pub places: [u64; 3],
    /// Settings sheets read, 0 for good ones.
    pub settings: [u64; 256],
    pub lists: [u64; 256],
    /// Lists of a LAB of which the Rust judge says the same.
    pub judged: u64,
    /// LABs of legal answers by their needs, by the most needs at one entry, and their
    /// needs by entry.
    pub needs: [u64; 9],
    pub shared: [u64; 9],
    pub entries: [u64; settings::MOST],
    /// Rule 63 in all lists, and in the LABs of which the Rust judge says the same.
    pub list_sync: sync::Counts,
    pub lab_sync: sync::Counts,
    /// Rule 64 in all lists, and in the LABs of legal answers and those that it
    /// refuses.
    pub list_nets: nets::Counts,
    pub lab_nets: nets::Counts,
}

impl Counts {
    pub fn new() -> Counts {
        Counts {
            openings: [0; 256],
            cells: [0; 3],
            records: [0; 3],
            places: [0; 3],
            settings: [0; 256],
            lists: [0; 256],
            judged: 0,
            needs: [0; 9],
            shared: [0; 9],
            entries: [0; settings::MOST],
            list_sync: sync::Counts::new(),
            lab_sync: sync::Counts::new(),
            list_nets: nets::Counts::new(),
            lab_nets: nets::Counts::new(),
        }
    }

    fn routed(&mut self, bytes: &[u8; 8]) {
        let given = || bytes.iter().filter(|&&b| b != 255);
        let with = |b: u8| given().filter(|&&other| other == b).count();
        self.needs[given().count()] += 1;
        self.shared[given().map(|&b| with(b)).max().unwrap_or(0)] += 1;
        given().for_each(|&b| self.entries[b as usize] += 1);
    }
}

fn place_of<T>(s: &Step<T>) -> usize {
    match s {
        Step::Given(_) => 0,
        Step::Broken => 1,
        Step::End => 2,
    }
}

/// Reads a sheet to its end by both readers; gives the number of records given,
/// and whether a broken one stopped them.
fn read_both<T: Copy + PartialEq + std::fmt::Debug>(
    counts: &mut [u64; 3],
    proved: impl Fn(u16) -> (Step<T>, u16),
    plain: impl Fn(u16) -> (Step<T>, u16),
    start: u16,
) -> Result<(u16, bool), String> {
    let mut at = start;
    loop {
        let (a, b) = (proved(at), plain(at));
        if a != b {
            return Err(format!(
                "the readers differ at {at}: proved {a:?}, plain {b:?}\n"
            ));
        }
        counts[place_of(&a.0)] += 1;
        let (step, next) = a;
        let stays = !matches!(step, Step::Given(_));
        if stays != (next == at) {
            return Err(format!(
                "the reader at {at} goes on at {next} after {step:?}\n"
            ));
        }
        if stays {
            return Ok((at, matches!(step, Step::Broken)));
        }
        at = next;
    }
}

pub fn same<T: PartialEq + std::fmt::Debug>(what: &str, got: T, want: T) -> Result<(), String> {
    if got == want {
        return Ok(());
    }
    Err(format!("{what}: got {got:?}, wanted {want:?}\n"))
}

/// Both readers of a settings sheet; gives what they read, or the number.
pub fn read_settings(counts: &mut Counts, sheet: &[u8]) -> Result<Result<Settings, u8>, String> {
    let read = proved::read_settings(sheet);
    same("reading the settings", &read, &plain::read_settings(sheet))?;
    counts.settings[read.as_ref().err().map_or(0, |&n| n as usize)] += 1;
    Ok(read)
}

/// Both readers on both sheets, beside what the Rust judge says of them on a board
/// and with a route buffer.
pub fn readers(
    counts: &mut Counts,
    rng: &mut Rng,
    exercise: &[u8],
    answer: &[u8],
    verdict: &Said,
) -> Result<(), String> {
    let number = verdict.number;
    let opened = [proved::open_exercise(exercise), proved::open_answer(answer)];
    same(
        "opening the exercise",
        opened[0],
        plain::open_exercise(exercise),
    )?;
    same("opening the answer", opened[1], plain::open_answer(answer))?;
    for n in opened {
        counts.openings[n as usize] += 1;
    }
    match number {
        10..=14 => same("the judge on the exercise", opened[0], number)?,
        20..=23 | 25 => same("the judge on the answer", opened[1], number)?,
        _ => {
            same("the judge on the exercise", opened[0], 0)?;
            if number == 0 || number > 25 {
                same("the judge on the answer", opened[1], 0)?;
            }
        }
    }

    let (records, broken) = read_both(
        &mut counts.cells,
        |at| proved::next_cell(exercise, at),
        |at| plain::next_cell(exercise, at),
        0,
    )?;
    read_both(
        &mut counts.records,
        |at| proved::next_record(exercise, at),
        |at| plain::next_cell(exercise, at),
        0,
    )?;
    let (places, misplaced) = read_both(
        &mut counts.places,
        |at| proved::next_place(answer, at),
        |at| plain::next_place(answer, at),
        0,
    )?;
    if number == 15 {
        same(
            "records before the judge's cell",
            (records, broken),
            (verdict.cell, true),
        )?;
    } else if number == 0 || number > 15 {
        same("a record breaks the layout", broken, false)?;
    }
    if number == 26 {
        same(
            "places before the judge's cell",
            (places, misplaced),
            (verdict.cell, true),
        )?;
    } else if number == 0 || number > 26 {
        same("a place is out of range", misplaced, false)?;
        same("places beside cells", places, records)?;
    }

    // From somewhere else too, past the end included.
    let start = match rng.below(3) {
        0 => rng.below(65536) as u16,
        _ => rng.below(520) as u16,
    };
    read_both(
        &mut counts.cells,
        |at| proved::next_cell(exercise, at),
        |at| plain::next_cell(exercise, at),
        start,
    )?;
    read_both(
        &mut counts.records,
        |at| proved::next_record(exercise, at),
        |at| plain::next_cell(exercise, at),
        start,
    )?;
    read_both(
        &mut counts.places,
        |at| proved::next_place(answer, at),
        |at| plain::next_place(answer, at),
        start,
    )?;
    Ok(())
}

/// One list by both checks.
pub fn list(
    counts: &mut Counts,
    settings: &[u8],
    list: &[CellRecord],
) -> Result<(u8, [u8; 8]), String> {
    let a = proved::check_lab(settings, list);
    let b = plain::check_list(settings, list);
    if a != b {
        let mut text = format!("the list checks differ: proved {a:?}, plain {b:?}\n");
        text.push_str(&format!("  settings {settings:02x?}\n"));
        for c in list {
            text.push_str(&format!("  {c:?}\n"));
        }
        return Err(text);
    }
    counts.lists[a.0 as usize] += 1;
    counts.list_sync.note(a.0, list);
    counts.list_nets.note(a.0, list, &[]);
    Ok(a)
}

/// All whole records of an exercise, as they stand.
pub fn records(exercise: &[u8]) -> Vec<CellRecord> {
    let all = exercise.get(9..).unwrap_or(&[]);
    all.chunks_exact(24).map(plain::record).collect()
}

/// The list of every LAB: where the Rust judge came as far as the LABs, each LAB
/// up to the one it names has the judge's number, and on a legal answer its bytes.
/// Now and then also under a bent settings sheet.
pub fn labs(
    counts: &mut Counts,
    rng: &mut Rng,
    settings: &[u8],
    exercise: &[u8],
    answer: &[u8],
    route: &[u8],
    verdict: &Said,
) -> Result<(), String> {
    let number = verdict.number;
    if number != 0 && !(60..=65).contains(&number) {
        return Ok(());
    }
    let cells = records(exercise);
    let lab_of = |i: usize| 32 * answer[12 + 4 * i] as usize + answer[11 + 4 * i] as usize;
    let mut labs: Vec<usize> = (0..cells.len()).map(lab_of).collect();
    labs.sort_unstable();
    labs.dedup();
    let mut lower = Vec::new();
    for lab in labs {
        let own: Vec<CellRecord> = (0..cells.len())
            .filter(|&i| lab_of(i) == lab)
            .map(|i| cells[i])
            .collect();
        if rng.percent(10) {
            let bent = settings::bent(rng, settings);
            let (found, _) = list(counts, &bent, &own)?;
            if let Err(refused) = read_settings(counts, &bent)? {
                same("the list under these settings", found, refused)?;
            }
        }
        let (found, bytes) = list(counts, settings, &own)?;
        let broken = verdict.lab as usize;
        if number == 0 {
            same("the list of a legal LAB", found, 0)?;
            same("its bytes", &bytes[..], &route[8 * lab..8 * lab + 8])?;
            counts.routed(&bytes);
        } else if lab < broken {
            same("the list of a lower LAB", found, 0)?;
        } else if lab == broken {
            same("the list of the judge's LAB", found, number)?;
        } else {
            continue;
        }
        counts.judged += 1;
        counts.lab_sync.note(found, &own);
        if number == 0 || found == 64 {
            counts.lab_nets.note(found, &own, &lower);
        }
        lower.extend(own);
    }
    Ok(())
}

/// A list that need be no LAB's: cells of any place in any order, bent or doubled,
/// too many of them, or random bytes.
pub fn any_list(rng: &mut Rng, exercise: &[u8]) -> Vec<CellRecord> {
    let mut cells = records(exercise);
    rng.shuffle(&mut cells);
    let most = match rng.below(8) {
        0 => 40,
        1 => 33,
        2 => 32,
        _ => 1 + rng.below(32),
    };
    while cells.len() < most && !cells.is_empty() && rng.percent(90) {
        let c = rng.pick(&cells);
        cells.push(c);
    }
    cells.truncate(most);
    for c in cells.iter_mut() {
        match rng.below(200) {
            0 => c.kind = rng.byte(),
            1 => c.flag = rng.pick(&[0, 1, 2, 255]),
            2 => c.signals[rng.below(11)] = rng.pick(&[0, 1, 2, 3, 2050, 2051, 2052, 2053, 65535]),
            3 => c.signals[rng.below(11)] = rng.next() as u16,
            4 => c.signals[rng.below(8)] = 4 + rng.below(2048) as u16,
            _ => {}
        }
    }
    cells
}
