//! Minutes from the tablet log in Rust, written for speed: the entries sorted by
//! apprentice and opening, then one sweep.

use crate::minutes::{Credit, APPRENTICES, ENTRIES, ENTRY, HEAD, LENT, WEEK};

/// Fills the lists that are lent; gives the number and how many rows and entry numbers
/// are filled, none by a refusal.
pub fn fill(log: &[u8], rows: &mut [Credit], numbers: &mut [u16]) -> (u8, [usize; 2]) {
    match found(log, rows, numbers) {
        Ok(filled) => (0, filled),
        Err(number) => (number, [0; 2]),
    }
}

fn found(log: &[u8], rows: &mut [Credit], numbers: &mut [u16]) -> Result<[usize; 2], u8> {
    if [rows.len(), numbers.len()] != LENT {
        return Err(87);
    }
    let entries = entries(log)?;
    let mut keys = [0u64; ENTRIES];
    let keys = &mut keys[..entries.len() / ENTRY];
    let mut listed = [0u16; ENTRIES];
    let mut count = 0;
    let mut bad = false;
    for (i, (e, key)) in entries.chunks_exact(ENTRY).zip(&mut *keys).enumerate() {
        let apprentice = u32::from_le_bytes([e[0], e[1], e[2], e[3]]);
        let opening = u16::from_le_bytes([e[6], e[7]]);
        let closing = u16::from_le_bytes([e[8], e[9]]);
        bad |= (apprentice == 0) | (opening > WEEK) | (closing > WEEK);
        *key = (apprentice as u64) << 32 | (opening as u64) << 16 | closing as u64;
        listed[count] = i as u16;
        count += (closing <= opening) as usize;
    }
    if bad {
        return Err(85);
    }
    keys.sort_unstable();
    let (credits, people) = credits(keys)?;
    rows[..people].copy_from_slice(&credits[..people]);
    numbers[..count].copy_from_slice(&listed[..count]);
    Ok([people, count])
}

/// The bytes of the entries.
fn entries(log: &[u8]) -> Result<&[u8], u8> {
    let Some((head, entries)) = log.split_first_chunk::<HEAD>() else {
        return Err(80);
    };
    let count = u16::from_le_bytes([head[5], head[6]]) as usize;
    match head {
        [b'L', b'X', b'L', 1, 0, ..] if count > ENTRIES => Err(83),
        [b'L', b'X', b'L', 1, 0, ..] if entries.len() != count * ENTRY => Err(84),
        [b'L', b'X', b'L', 1, 0, ..] => Ok(entries),
        [b'L', b'X', b'L', ..] => Err(82),
        _ => Err(81),
    }
}

/// The rows of sorted keys, and how many there are.
fn credits(keys: &[u64]) -> Result<([Credit; APPRENTICES], usize), u8> {
    let none = Credit {
        apprentice: 0,
        minutes: 0,
    };
    let mut rows = [none; APPRENTICES];
    let (mut people, mut last, mut covered) = (0, 0, 0);
    for &key in keys {
        let apprentice = (key >> 32) as u32;
        let [opening, closing] = [key >> 16, key].map(|n| n as u16 as u32);
        if apprentice != last {
            if people == APPRENTICES {
                return Err(86);
            }
            rows[people].apprentice = apprentice;
            people += 1;
            (last, covered) = (apprentice, 0);
        }
        // No later opening is before this one.
        rows[people - 1].minutes += closing.saturating_sub(opening.max(covered));
        covered = covered.max(closing);
    }
    Ok((rows, people))
}
