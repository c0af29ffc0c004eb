//! The proved judge of an answer and of a class, readers, writers, list check and
//! minutes from a log, linked from the C static library.
#![allow(dead_code)]

use crate::class::Row;
use crate::judge::Verdict;
use crate::lent::Parts;
use crate::minutes::Credit;
use crate::plain::{CellRecord, Settings, Step};

extern "C" {
    fn nurimkkot_house_settings(settings: *mut u8);
    fn nurimkkot_judge(
        settings: *const u8,
        settings_len: usize,
        exercise: *const u8,
        exercise_len: usize,
        answer: *const u8,
        answer_len: usize,
        route: *mut u8,
        route_len: usize,
        tries: *mut u32,
        tries_count: usize,
        numbers: *mut u64,
    );
    fn nurimkkot_mark_class(
        settings: *const u8,
        settings_len: usize,
        exercise: *const u8,
        exercise_len: usize,
        class_sheet: *const u8,
        class_len: usize,
        rows: *mut Row,
        count: usize,
        filled: *mut usize,
    ) -> u8;
    fn nurimkkot_minutes(
        log: *const u8,
        log_len: usize,
        rows: *mut Credit,
        row_count: usize,
        entries: *mut u16,
        entry_count: usize,
        rows_filled: *mut usize,
        entries_filled: *mut usize,
    ) -> u8;
    fn nurimkkot_open_exercise(exercise: *const u8, exercise_len: usize) -> u8;
    fn nurimkkot_open_answer(answer: *const u8, answer_len: usize) -> u8;
    fn nurimkkot_next_cell(
        exercise: *const u8,
        exercise_len: usize,
        at: *mut u16,
        cell: *mut u16,
    ) -> u8;
    fn nurimkkot_next_place(
        answer: *const u8,
        answer_len: usize,
        at: *mut u16,
        place: *mut u16,
    ) -> u8;
    fn nurimkkot_next_record(
        exercise: *const u8,
        exercise_len: usize,
        at: *mut u16,
        cell: *mut CellRecord,
    ) -> u8;
    fn nurimkkot_check_lab(
        settings: *const u8,
        settings_len: usize,
        cells: *const CellRecord,
        count: usize,
        route: *mut u8,
    ) -> u8;
    fn nurimkkot_read_settings(
        settings: *const u8,
        settings_len: usize,
        numbers: *mut u16,
        entries: *mut u8,
    ) -> u8;
    fn nurimkkot_write_exercise(
        nets: u16,
        cells: *const CellRecord,
        count: usize,
        sheet: *mut u8,
        room: usize,
        length: *mut usize,
    ) -> u8;
    fn nurimkkot_write_answer(
        apprentice: u32,
        places: *const u16,
        count: usize,
        sheet: *mut u8,
        room: usize,
        length: *mut usize,
    ) -> u8;
    fn nurimkkot_write_settings(
        version: u16,
        board: u16,
        entries: *const u8,
        count: usize,
        sheet: *mut u8,
        room: usize,
        length: *mut usize,
    ) -> u8;
}

pub fn house_settings() -> Vec<u8> {
    // A guard byte at both ends.
    let mut b = [0xad; 14];
    unsafe { nurimkkot_house_settings(b[1..].as_mut_ptr()) };
    assert_eq!(
        [b[0], b[13]],
        [0xad; 2],
        "a byte outside the house settings"
    );
    b[1..13].to_vec()
}

/// Number, cell, LAB, apprentice, sheet, start and size as the library gives them.
pub fn judge(settings: &[u8], exercise: &[u8], answer: &[u8], (route, tries): Parts) -> [u64; 7] {
    // Filled beforehand, to see every number written.
    let mut numbers = [0xdead_beef_dead_beef; 7];
    unsafe {
        nurimkkot_judge(
            settings.as_ptr(),
            settings.len(),
            exercise.as_ptr(),
            exercise.len(),
            answer.as_ptr(),
            answer.len(),
            route.as_mut_ptr(),
            route.len(),
            tries.as_mut_ptr(),
            tries.len(),
            numbers.as_mut_ptr(),
        );
    }
    numbers
}

/// A verdict as the seven numbers of the library.
pub fn numbers(v: &Verdict) -> [u64; 7] {
    [
        v.number as u64,
        v.cell as u64,
        v.lab as u64,
        v.apprentice as u64,
        v.sheet as u64,
        v.start,
        v.size,
    ]
}

/// Number and rows filled, as the library gives them.
pub fn mark_class(
    settings: &[u8],
    exercise: &[u8],
    class_sheet: &[u8],
    rows: &mut [Row],
) -> (u8, usize) {
    // Rows filled between two guards.
    let mut filled = [0xdead_beef; 3];
    let number = unsafe {
        nurimkkot_mark_class(
            settings.as_ptr(),
            settings.len(),
            exercise.as_ptr(),
            exercise.len(),
            class_sheet.as_ptr(),
            class_sheet.len(),
            rows.as_mut_ptr(),
            rows.len(),
            filled.as_mut_ptr().add(1),
        )
    };
    let [before, filled, after] = filled;
    assert_eq!(
        [before, after],
        [0xdead_beef; 2],
        "a number beside the rows filled"
    );
    (number, filled)
}

/// Number, and rows and entry numbers filled, as the library gives them.
pub fn minutes(log: &[u8], rows: &mut [Credit], numbers: &mut [u16]) -> (u8, [usize; 2]) {
    // Both counts between guards.
    let mut filled = [0xdead_beef; 5];
    let at = filled.as_mut_ptr();
    let number = unsafe {
        nurimkkot_minutes(
            log.as_ptr(),
            log.len(),
            rows.as_mut_ptr(),
            rows.len(),
            numbers.as_mut_ptr(),
            numbers.len(),
            at.add(1),
            at.add(3),
        )
    };
    let [before, rows, between, numbers, after] = filled;
    assert_eq!(
        [before, between, after],
        [0xdead_beef; 3],
        "a number beside what is filled"
    );
    (number, [rows, numbers])
}

/// The row of one answer, by a single call.
pub fn row(settings: &[u8], exercise: &[u8], answer: &[u8], lent: Parts) -> Row {
    let [number, cell, lab, apprentice, ..] =
        judge(settings, exercise, answer, lent).map(|n| n as u32);
    Row {
        number,
        cell,
        lab,
        apprentice,
    }
}

pub fn open_exercise(exercise: &[u8]) -> u8 {
    unsafe { nurimkkot_open_exercise(exercise.as_ptr(), exercise.len()) }
}

pub fn open_answer(answer: &[u8]) -> u8 {
    unsafe { nurimkkot_open_answer(answer.as_ptr(), answer.len()) }
}

/// A step by the number that the library gives; where no record is given, zeros are.
fn step<T: PartialEq + std::fmt::Debug>(told: u8, given: T, zeros: T) -> Step<T> {
    match told {
        0 => return Step::Given(given),
        1 | 2 => assert_eq!(given, zeros, "fields of a record that was not given"),
        _ => panic!("the reader says {told}"),
    }
    if told == 1 {
        Step::Broken
    } else {
        Step::End
    }
}

pub fn next_cell(exercise: &[u8], at: u16) -> (Step<CellRecord>, u16) {
    let mut next = at;
    let mut f = [0xdead; 13];
    let told = unsafe {
        nurimkkot_next_cell(exercise.as_ptr(), exercise.len(), &mut next, f.as_mut_ptr())
    };
    assert!(f[0] < 256 && f[1] < 256, "kind or flag over a byte");
    let mut signals = [0; 11];
    signals.copy_from_slice(&f[2..]);
    let given = CellRecord {
        kind: f[0] as u8,
        flag: f[1] as u8,
        signals,
    };
    (step(told, given, NO_RECORD), next)
}

const NO_RECORD: CellRecord = CellRecord {
    kind: 0,
    flag: 0,
    signals: [0; 11],
};

/// The same by the reader that fills a record.
pub fn next_record(exercise: &[u8], at: u16) -> (Step<CellRecord>, u16) {
    let mut next = at;
    let mut given = CellRecord {
        kind: 0xad,
        flag: 0xde,
        signals: [0xdead; 11],
    };
    let told =
        unsafe { nurimkkot_next_record(exercise.as_ptr(), exercise.len(), &mut next, &mut given) };
    (step(told, given, NO_RECORD), next)
}

pub fn next_place(answer: &[u8], at: u16) -> (Step<[u16; 3]>, u16) {
    let mut next = at;
    let mut p = [0xdead; 3];
    let told =
        unsafe { nurimkkot_next_place(answer.as_ptr(), answer.len(), &mut next, p.as_mut_ptr()) };
    (step(told, p, [0; 3]), next)
}

pub fn check_lab(settings: &[u8], cells: &[CellRecord]) -> (u8, [u8; 8]) {
    let mut route = [0xad; 8];
    let number = unsafe {
        nurimkkot_check_lab(
            settings.as_ptr(),
            settings.len(),
            cells.as_ptr(),
            cells.len(),
            route.as_mut_ptr(),
        )
    };
    (number, route)
}

/// What stands on the sheet, or the number; zeros stand where nothing was read.
pub fn read_settings(settings: &[u8]) -> Result<Settings, u8> {
    let mut numbers = [0xdead; 3];
    let mut entries = [0xad; 8];
    let number = unsafe {
        nurimkkot_read_settings(
            settings.as_ptr(),
            settings.len(),
            numbers.as_mut_ptr(),
            entries.as_mut_ptr(),
        )
    };
    if number != 0 {
        assert_eq!(
            (numbers, entries),
            ([0; 3], [0; 8]),
            "numbers of a sheet that was refused"
        );
        return Err(number);
    }
    let [version, board, count] = numbers;
    assert!(count <= 8, "{count} entries were read");
    let (own, past) = entries.split_at(count as usize);
    assert!(past.iter().all(|&f| f == 0), "an entry past the last one");
    Ok(Settings {
        version,
        board,
        entries: own.to_vec(),
    })
}

/// Number and length, as the library gives them.
pub fn write_exercise(nets: u16, cells: &[CellRecord], sheet: &mut [u8]) -> (u8, usize) {
    let mut length = 0xdead_beef;
    let number = unsafe {
        nurimkkot_write_exercise(
            nets,
            cells.as_ptr(),
            cells.len(),
            sheet.as_mut_ptr(),
            sheet.len(),
            &mut length,
        )
    };
    (number, length)
}

pub fn write_answer(apprentice: u32, places: &[[u16; 3]], sheet: &mut [u8]) -> (u8, usize) {
    let mut length = 0xdead_beef;
    let number = unsafe {
        nurimkkot_write_answer(
            apprentice,
            places.as_flattened().as_ptr(),
            places.len(),
            sheet.as_mut_ptr(),
            sheet.len(),
            &mut length,
        )
    };
    (number, length)
}

pub fn write_settings(version: u16, board: u16, entries: &[u8], sheet: &mut [u8]) -> (u8, usize) {
    let mut length = 0xdead_beef;
    let number = unsafe {
        nurimkkot_write_settings(
            version,
            board,
            entries.as_ptr(),
            entries.len(),
            sheet.as_mut_ptr(),
            sheet.len(),
            &mut length,
        )
    };
    (number, length)
}
