//! The proved writers beside the ones in Rust, on the generated sheets and on
//! records, places and boards of their own; what was written is read, judged and
//! written again.

use crate::both::{describe, Both, Call};
use crate::faults::*;
use crate::forms::{self, same};
use crate::generate::*;
use crate::hex;
use crate::judge;
use crate::lent::{Lent, GUARD};
use crate::plain::{self, Settings, Step};
use crate::proved;
use crate::settings::HOUSE;
use crate::writer;
use std::fmt::Write;

/// How often each thing was compared; three are exercises, answers and settings.
pub struct Counts {
    /// Calls of the exercise writer by number, 13 for the records.
    pub exercises: [u64; 256],
    /// 13 for the nets.
    pub nets: u64,
    pub answers: [u64; 256],
    /// Calls of the settings writer by number, 72 for the version.
    pub settings: [u64; 256],
    /// 72 for the board of a version 1 sheet.
    pub boards: u64,
    /// Faults planted alone.
    pub faults: [u64; FAULTS.len()],
    /// Written, read, judged and written again.
    pub circles: [u64; 3],
    /// Generated sheets that pass, written again to the same bytes.
    pub kept: [u64; 3],
}

/// Number and length.
type Told = (u8, usize);

/// What a writer takes.
trait Input: PartialEq + Sized {
    /// The length of its sheet.
    fn need(&self) -> usize;
    fn by_proved(&self, sheet: &mut [u8]) -> Told;
    fn by_rust(&self, sheet: &mut [u8]) -> Told;
    /// By the proved readers; the nets and the apprentice stand in the head.
    fn read(sheet: &[u8]) -> Result<Self, String>;
    /// The number in too little room, beside the one in enough.
    fn short(_number: u8) -> u8 {
        2
    }
    fn note(&self, counts: &mut Counts, number: u8);
    fn describe(&self) -> String;
}

impl Input for Netlist {
    fn need(&self) -> usize {
        9 + 24 * self.cells.len()
    }

    fn by_proved(&self, sheet: &mut [u8]) -> Told {
        proved::write_exercise(self.nets, &self.cells, sheet)
    }

    fn by_rust(&self, sheet: &mut [u8]) -> Told {
        writer::exercise(self.nets, &self.cells, sheet)
    }

    fn read(sheet: &[u8]) -> Result<Netlist, String> {
        same("opening an exercise", proved::open_exercise(sheet), 0)?;
        Ok(Netlist {
            nets: plain::word(sheet, 5),
            cells: read_all(|at| proved::next_record(sheet, at))?,
        })
    }

    fn note(&self, counts: &mut Counts, number: u8) {
        if number == 13 && self.cells.len() <= 512 {
            counts.nets += 1;
        } else {
            counts.exercises[number as usize] += 1;
        }
    }

    fn describe(&self) -> String {
        let title = format!("{} nets, {} cells", self.nets, self.cells.len());
        lines(title, &self.cells)
    }
}

impl Input for Placing {
    fn need(&self) -> usize {
        11 + 4 * self.places.len()
    }

    fn by_proved(&self, sheet: &mut [u8]) -> Told {
        proved::write_answer(self.apprentice, &self.places, sheet)
    }

    fn by_rust(&self, sheet: &mut [u8]) -> Told {
        writer::answer(self.apprentice, &self.places, sheet)
    }

    fn read(sheet: &[u8]) -> Result<Placing, String> {
        same("opening an answer", proved::open_answer(sheet), 0)?;
        Ok(Placing {
            apprentice: apprentice_of(sheet),
            places: read_all(|at| proved::next_place(sheet, at))?,
        })
    }

    fn note(&self, counts: &mut Counts, number: u8) {
        counts.answers[number as usize] += 1;
    }

    fn describe(&self) -> String {
        let title = format!(
            "apprentice {}, {} places",
            self.apprentice,
            self.places.len()
        );
        lines(title, &self.places)
    }
}

impl Input for Settings {
    fn need(&self) -> usize {
        let head = if self.version == 2 { 8 } else { 6 };
        head + self.entries.len()
    }

    fn by_proved(&self, sheet: &mut [u8]) -> Told {
        proved::write_settings(self.version, self.board, &self.entries, sheet)
    }

    fn by_rust(&self, sheet: &mut [u8]) -> Told {
        writer::settings(self.version, self.board, &self.entries, sheet)
    }

    fn read(sheet: &[u8]) -> Result<Settings, String> {
        proved::read_settings(sheet).map_err(|n| format!("reading settings: got {n}, wanted 0\n"))
    }

    /// 2 comes last.
    fn short(number: u8) -> u8 {
        if number == 0 {
            2
        } else {
            number
        }
    }

    fn note(&self, counts: &mut Counts, number: u8) {
        if number == 72 && self.version == 1 {
            counts.boards += 1;
        } else {
            counts.settings[number as usize] += 1;
        }
    }

    fn describe(&self) -> String {
        format!("{self:?}\n")
    }
}

/// The first records will do: the seed gives them all.
fn lines<T: std::fmt::Debug>(title: String, records: &[T]) -> String {
    let mut text = title + "\n";
    for r in records.iter().take(40) {
        let _ = writeln!(text, "  {r:?}");
    }
    text
}

fn read_all<T>(next: impl Fn(u16) -> (Step<T>, u16)) -> Result<Vec<T>, String> {
    let mut all = Vec::new();
    loop {
        let at = all.len() as u16;
        match next(at) {
            (Step::Given(x), n) if n == at + 1 => all.push(x),
            (Step::End, n) if n == at => return Ok(all),
            _ => return Err(format!("the reader goes wrong at record {at}\n")),
        }
    }
}

fn apprentice_of(answer: &[u8]) -> u32 {
    plain::word(answer, 5) as u32 + ((plain::word(answer, 7) as u32) << 16)
}

/// Plain sheets of so many cells, to stand beside one that was written.
fn beside(count: usize) -> Sheets {
    Sheets {
        nets: 0,
        cells: vec![Cell::new(COMBINATIONAL, 0, 0); count],
        apprentice: 7,
    }
}

/// Too little room, one byte less than the sheet needs, and enough.
fn rooms(rng: &mut Rng, need: usize) -> [usize; 3] {
    let little = if rng.percent(10) { 0 } else { rng.below(need) };
    let more = match rng.below(4) {
        0 => 1,
        1 => rng.range(2, 1500),
        _ => 0,
    };
    [little, need - 1, need + more]
}

/// Good, but for too many nets, a bad signal in the last cell and a net that the
/// first cell drives twice; with the number in enough room.
fn limit_netlist(rng: &mut Rng, count: usize, [nets, layout, driven]: [bool; 3]) -> (Netlist, u8) {
    let mut list = Netlist::good(rng, count, 1024);
    if nets {
        list.nets = 1025;
    }
    if driven {
        let c = &mut list.cells[0];
        (c.kind, c.flag, c.signals) = (COMBINATIONAL, 0, [0; 11]);
        (c.signals[COMBOUT], c.signals[COUT]) = (net(1023), net(1023));
    }
    if layout {
        list.cells[count - 1].signals[0] = 3;
    }
    let order = [(count > 512, 13), (nets, 13), (layout, 15), (driven, 16)];
    (list, first(&order))
}

/// Good, but for the apprentice and the last place.
fn limit_placing(rng: &mut Rng, count: usize, [apprentice, place, _]: [bool; 3]) -> (Placing, u8) {
    let mut placing = Placing::good(rng, count);
    if apprentice {
        placing.apprentice = 0;
    }
    if place {
        placing.places[count - 1][2] = 16;
    }
    let order = [(count > 512, 13), (apprentice, 23), (place, 26)];
    (placing, first(&order))
}

/// Good entries, but for one.
fn limit_settings(
    version: u16,
    board: u16,
    count: usize,
    bad: Option<(usize, u8)>,
) -> (Settings, u8) {
    let mut entries: Vec<u8> = (0..count).map(|e| 31 - e as u8 % 32).collect();
    let found = bad.and_then(|(at, flags)| Some(std::mem::replace(entries.get_mut(at)?, flags)));
    let order = [
        (version != 1 && version != 2, 72),
        (version == 1 && board != 0, 72),
        (count > 8, 73),
        (found.is_some(), 75),
    ];
    let input = Settings {
        version,
        board,
        entries,
    };
    (input, first(&order))
}

/// The first number that applies, or 0.
fn first(order: &[(bool, u8)]) -> u8 {
    order.iter().find(|o| o.0).map_or(0, |o| o.1)
}

pub struct Writes {
    pub counts: Counts,
    // The lent buffer before the call, for the proved and for the Rust writer.
    before: Vec<u8>,
    left: Vec<u8>,
    right: Vec<u8>,
    judges: Both,
    lent: Lent,
}

impl Writes {
    pub fn new() -> Writes {
        Writes {
            counts: Counts {
                exercises: [0; 256],
                nets: 0,
                answers: [0; 256],
                settings: [0; 256],
                boards: 0,
                faults: [0; FAULTS.len()],
                circles: [0; 3],
                kept: [0; 3],
            },
            before: Vec::new(),
            left: Vec::new(),
            right: Vec::new(),
            judges: Both::new(),
            lent: Lent::new(),
        }
    }

    /// Both writers on copies of one buffer, guarded at both ends; the number and
    /// the sheet on which they agree, or an account of the difference.
    fn call<T: Input>(
        &mut self,
        fill: &[u8],
        input: &T,
        room: usize,
    ) -> Result<(u8, &[u8]), String> {
        // The buffer starts at any remainder by 8.
        let start = GUARD + fill[0] as usize % 8;
        let lent = start..start + room;
        for b in [&mut self.before, &mut self.left, &mut self.right] {
            b.clear();
            b.extend_from_slice(&fill[..lent.end + GUARD]);
        }
        let a = input.by_proved(&mut self.left[lent.clone()]);
        let b = input.by_rust(&mut self.right[lent]);
        let mut wrong = String::new();
        if a != b {
            wrong.push_str("the writers differ\n");
        }
        if self.left != self.right {
            let pairs = self.left.iter().zip(&self.right);
            let i = pairs.take_while(|(x, y)| x == y).count();
            let _ = writeln!(
                wrong,
                "byte {} of the buffer differs: proved {}, Rust {}, before {}",
                i as i64 - start as i64,
                self.left[i],
                self.right[i],
                self.before[i]
            );
        }
        for (who, told, buffer) in [("proved", a, &self.left), ("Rust", b, &self.right)] {
            if told.1 != if told.0 == 0 { input.need() } else { 0 } {
                let _ = writeln!(wrong, "{who}: the length is wrong");
            }
            let end = start + told.1.min(room);
            if buffer[..start] != self.before[..start] || buffer[end..] != self.before[end..] {
                let _ = writeln!(wrong, "{who}: a byte outside the sheet changed");
            }
        }
        if wrong.is_empty() {
            return Ok((a.0, &self.left[start..start + a.1]));
        }
        for (who, told) in [("proved:", a), ("Rust:", b)] {
            let _ = writeln!(wrong, "{who:<8}number {} length {}", told.0, told.1);
        }
        let _ = writeln!(wrong, "buffer of {room} bytes, {}", input.describe());
        Err(wrong)
    }

    /// In three rooms; what it comes to in the one that is enough.
    fn write<T: Input>(
        &mut self,
        rng: &mut Rng,
        fill: &[u8],
        input: &T,
    ) -> Result<(u8, Vec<u8>), String> {
        let [little, less, enough] = rooms(rng, input.need());
        let (number, sheet) = self.call(fill, input, enough)?;
        let sheet = sheet.to_vec();
        input.note(&mut self.counts, number);
        for room in [little, less] {
            let (short, _) = self.call(fill, input, room)?;
            same("the number in too little room", short, T::short(number))?;
            input.note(&mut self.counts, short);
        }
        Ok((number, sheet))
    }

    /// The sheet reads back as the input, and is written again to the same bytes.
    fn keeps<T: Input>(&mut self, fill: &[u8], input: &T, sheet: &[u8]) -> Result<(), String> {
        let read = T::read(sheet)?;
        if read != *input {
            let both = read.describe() + &input.describe();
            return Err(format!("other records were read than written\n{both}"));
        }
        let (number, again) = self.call(fill, &read, sheet.len())?;
        if (number, again) != (0, sheet) {
            let both = hex("before", sheet) + &hex("again", again);
            return Err(format!("written again with number {number}\n{both}"));
        }
        Ok(())
    }

    /// The writers on what stands in a generated pair of sheets and on its settings
    /// sheet, beside the number that the Rust judge gives the two.
    pub fn sheets(
        &mut self,
        rng: &mut Rng,
        fill: &[u8],
        case: &Case,
        number: u8,
    ) -> Result<(), String> {
        self.settings(rng, fill, &case.settings)?;
        self.exercise(rng, fill, &case.exercise, number)?;
        // An answer that was not judged for its exercise's sake has another one.
        let answer = &case.answer;
        let number = match number {
            10..=16 | 24 => {
                let other = beside(plain::word(answer, 9).min(512) as usize).exercise();
                judge::judge(&HOUSE, &other, answer, self.lent.parts()).number
            }
            n => n,
        };
        self.answer(rng, fill, answer, number)
    }

    fn settings(&mut self, rng: &mut Rng, fill: &[u8], sheet: &[u8]) -> Result<(), String> {
        let version = plain::word(sheet, 3);
        let (head, board) = match version {
            2 => (8, plain::word(sheet, 6)),
            _ => (6, 0),
        };
        let input = Settings {
            version,
            board,
            entries: sheet.get(head..).unwrap_or(&[]).to_vec(),
        };
        let (told, _) = self.write(rng, fill, &input)?;
        match plain::read_settings(sheet) {
            Ok(_) => self.keeps(fill, &input, sheet)?,
            Err(n @ (72 | 75)) => return same("the settings writer beside the reader", told, n),
            Err(_) => return Ok(()),
        }
        self.counts.kept[2] += 1;
        Ok(())
    }

    fn exercise(
        &mut self,
        rng: &mut Rng,
        fill: &[u8],
        sheet: &[u8],
        number: u8,
    ) -> Result<(), String> {
        let list = Netlist {
            nets: plain::word(sheet, 5),
            cells: forms::records(sheet),
        };
        let (told, _) = self.write(rng, fill, &list)?;
        let count = plain::word(sheet, 7) as usize;
        match number {
            10..=12 | 14 => return Ok(()),
            // The judge gives 13 whatever else the sheet has.
            13 if (count, sheet.len()) != (list.cells.len(), list.need()) => return Ok(()),
            13 | 15 | 16 => return same("the exercise writer beside the judge", told, number),
            _ => self.keeps(fill, &list, sheet)?,
        }
        self.counts.kept[0] += 1;
        Ok(())
    }

    fn answer(
        &mut self,
        rng: &mut Rng,
        fill: &[u8],
        sheet: &[u8],
        number: u8,
    ) -> Result<(), String> {
        let records = sheet.get(11..).unwrap_or(&[]).chunks_exact(4);
        let zeros = records.clone().all(|r| r[3] == 0);
        let placing = Placing {
            apprentice: apprentice_of(sheet),
            places: records.map(|r| [r[0], r[1], r[2]].map(u16::from)).collect(),
        };
        let (told, _) = self.write(rng, fill, &placing)?;
        match number {
            20..=22 | 24 | 25 => return Ok(()),
            23 if placing.places.len() > 512 => return Ok(()),
            // The fourth byte is no part of a place.
            26 if !zeros => return Ok(()),
            23 | 26 => return same("the answer writer beside the judge", told, number),
            _ => self.keeps(fill, &placing, sheet)?,
        }
        self.counts.kept[1] += 1;
        Ok(())
    }

    /// The writers on records, places and boards of their own. What they write is
    /// read, judged and written again.
    pub fn made(&mut self, rng: &mut Rng, fill: &[u8]) -> Result<(), String> {
        let count = some_count(rng);
        let (list, known) = Netlist::some(rng, count);
        let (number, exercise) = self.write(rng, fill, &list)?;
        self.expect(count, known, number)?;
        let (placing, known) = Placing::some(rng, count);
        let (other, answer) = self.write(rng, fill, &placing)?;
        self.expect(count, known, other)?;
        let (board, known) = Settings::some(rng);
        let (third, settings) = self.write(rng, fill, &board)?;
        self.expect(0, known, third)?;
        if number == 0 {
            self.keeps(fill, &list, &exercise)?;
            self.counts.circles[0] += 1;
        }
        if other == 0 {
            self.keeps(fill, &placing, &answer)?;
            self.counts.circles[1] += 1;
        }
        if third == 0 {
            self.keeps(fill, &board, &settings)?;
            self.counts.circles[2] += 1;
        }
        if [number, other, third].iter().all(|&n| n != 0) {
            return Ok(());
        }
        // A good sheet stands in for one that was not written.
        let or = |number: u8, sheet: Vec<u8>, good: Vec<u8>| match number {
            0 => sheet,
            _ => good,
        };
        let good = beside(if count > 512 { 0 } else { count });
        let settings = or(third, settings, HOUSE.to_vec());
        let exercise = or(number, exercise, good.exercise());
        let answer = or(other, answer, good.answer());
        let n = self
            .judges
            .run(&Call::right(&settings, &exercise, &answer), fill)?;
        if n[0] >= 70 || (n[0] != 0 && n[0] < 30) {
            let sheets =
                hex("settings", &settings) + &hex("exercise", &exercise) + &hex("answer", &answer);
            let said = describe(&n);
            return Err(format!("of a sheet just written: {said}\n{sheets}"));
        }
        Ok(())
    }

    /// A single fault gives its number, and no fault 0.
    fn expect(&mut self, count: usize, known: Known, number: u8) -> Result<(), String> {
        let wanted = match known {
            Known::Nothing => return Ok(()),
            _ if count > 512 => 13,
            Known::Good => 0,
            Known::Fault(i) => {
                self.counts.faults[i] += 1;
                FAULTS[i].1
            }
        };
        same("the number of what was planted", number, wanted)
    }

    /// Counts and rooms at their limits with every company of faults; the number is
    /// by the order of M-100 and M-102. Gives how many calls there were.
    pub fn settled(&mut self, rng: &mut Rng) -> Result<usize, String> {
        // The last four are 65,535, 0, 1 and 512 in 16 bits.
        let counts = [0, 1, 511, 512, 513, 600, 65_535, 65_536, 65_537, 66_048];
        let fill: Vec<u8> = (0..24 * 66_100).map(|_| rng.byte()).collect();
        let mut calls = 0;
        for count in counts {
            for bits in 0..8 {
                let faults = [1, 2, 4].map(|b| bits & b != 0);
                if (count == 0 && bits > 1) || (count > 600 && bits > 0) {
                    continue;
                }
                let (list, number) = limit_netlist(rng, count, faults);
                calls += self.at_limits(&fill, &list, number)?;
                if bits < 4 {
                    let (placing, number) = limit_placing(rng, count, faults);
                    calls += self.at_limits(&fill, &placing, number)?;
                }
            }
        }
        for version in [0, 1, 2, 3, 255, 256, 257, 258, 513, 65_535] {
            for board in [0, 1, 256, 65_535] {
                // In one byte the last four are 255, 0, 8 and 0.
                for count in [0, 1, 7, 8, 9, 10, 255, 256, 264, 65_536] {
                    let last = usize::wrapping_sub(count, 1);
                    for bad in [
                        None,
                        Some((0, 255)),
                        Some((count / 2, 64)),
                        Some((last, 32)),
                    ] {
                        let (input, number) = limit_settings(version, board, count, bad);
                        calls += self.at_limits(&fill, &input, number)?;
                    }
                }
            }
        }
        Ok(calls)
    }

    fn at_limits<T: Input>(&mut self, fill: &[u8], input: &T, number: u8) -> Result<usize, String> {
        let need = input.need();
        let rooms = [0, need - 1, need, need + 1, need + 24];
        for room in rooms {
            let wanted = if room < need {
                T::short(number)
            } else {
                number
            };
            let (got, _) = self.call(fill, input, room)?;
            same("the number at the limits", got, wanted)
                .map_err(|w| format!("{w}buffer of {room} bytes, {}", input.describe()))?;
        }
        Ok(rooms.len())
    }
}
