//! Compares the proved page check with a second one, written from the format's words, on random
//! and damaged pages. The seeds are fixed, so that a run can be repeated.

#[path = "../dice.rs"]
mod dice;

use dice::Dice;
use std::collections::HashSet;
use std::process::ExitCode;

#[repr(C)]
#[derive(Clone, Copy, Debug, PartialEq, Eq)]
struct Finding {
    number: u8,
    position: usize,
}

extern "C" {
    fn page_check(bytes: *const u8, bytes_length: usize, arities: *const u8, arities_length: usize) -> Finding;
}

/// What the proved check finds.
fn proved(bytes: &[u8], arities: &[u8]) -> Finding {
    unsafe { page_check(bytes.as_ptr(), bytes.len(), arities.as_ptr(), arities.len()) }
}

const RECORD: usize = 20;
const ROW: [u8; 2] = *b"IC";
const EMPTY: [u8; 2] = *b"..";

/// The arity of a relation, or nothing where it is not declared.
fn arity(arities: &[u8], relation: u16) -> Option<usize> {
    if relation > 15 {
        return None;
    }
    match arities.get(usize::from(relation)) {
        Some(&a @ 1..=4) => Some(usize::from(a)),
        _ => None,
    }
}

/// Whether a row fits, or an empty record is zero after its mark.
fn fits(record: &[u8], arities: &[u8]) -> bool {
    if record[..2] == EMPTY {
        return record[2..].iter().all(|byte| *byte == 0);
    }
    let relation = u16::from(record[2]) << 8 | u16::from(record[3]);
    match arity(arities, relation) {
        Some(columns) => record[4 + 4 * columns..].iter().all(|byte| *byte == 0),
        None => false,
    }
}

/// The check in the format's words: each question of the whole page, in order.
fn plain(bytes: &[u8], arities: &[u8]) -> Finding {
    let refusal = |number, position| Finding { number, position };
    if bytes.len() % RECORD != 0 {
        return refusal(51, 0);
    }
    if bytes.len() > 5120 {
        return refusal(52, 0);
    }
    let records: Vec<&[u8]> = bytes.chunks(RECORD).collect();
    if let Some(place) = records.iter().position(|r| r[..2] != ROW && r[..2] != EMPTY) {
        return refusal(53, place);
    }
    if let Some(place) = records.iter().position(|r| !fits(r, arities)) {
        return refusal(54, place);
    }
    let mut seen = HashSet::new();
    for (place, record) in records.iter().enumerate() {
        if record[..2] == ROW && !seen.insert(*record) {
            return refusal(55, place);
        }
    }
    refusal(0, 0)
}

/// Arities: mostly 1 to 4, some 0 or above 4, and now and then too few or too many bytes.
fn arities(dice: &mut Dice) -> Vec<u8> {
    let length = if dice.once_in(4) { dice.below(20) } else { 16 };
    (0..length)
        .map(|_| if dice.once_in(8) { dice.next() as u8 } else { 1 + dice.below(4) as u8 })
        .collect()
}

/// A column: mostly small, so that rows meet again, and now and then any number.
fn column(dice: &mut Dice, spread: usize) -> u32 {
    if dice.once_in(10) {
        dice.next() as u32
    } else {
        dice.below(spread) as u32
    }
}

/// A record: empty, or a row of a declared relation where there is one.
fn record(dice: &mut Dice, arities: &[u8], spread: usize) -> Vec<u8> {
    let mut record = vec![0; RECORD];
    let relation = dice.below(17) as u16;
    match arity(arities, relation) {
        Some(columns) if !dice.once_in(5) => {
            record[..2].copy_from_slice(&ROW);
            record[2..4].copy_from_slice(&relation.to_be_bytes());
            for at in 0..columns {
                record[4 + 4 * at..8 + 4 * at].copy_from_slice(&column(dice, spread).to_be_bytes());
            }
        }
        _ => record[..2].copy_from_slice(&EMPTY),
    }
    record
}

/// How many records: mostly a few, now and then about the most that a page may have.
fn count(dice: &mut Dice) -> usize {
    match dice.below(20) {
        0 => 250 + dice.below(10),
        1..=4 => dice.below(100),
        _ => dice.below(12),
    }
}

/// One kind of damage.
fn damage(dice: &mut Dice, bytes: &mut Vec<u8>) {
    if bytes.is_empty() {
        bytes.extend((0..dice.below(41)).map(|_| 0x2E));
        return;
    }
    let at = dice.below(bytes.len());
    let place = at / RECORD * RECORD;
    match dice.below(9) {
        0 => bytes[at] = dice.next() as u8,
        1 => bytes[at] ^= 1 << dice.below(8),
        2 => bytes[place] = [0x49, 0x2E, 0x43, 0][dice.below(4)],
        3 if place + 1 < bytes.len() => bytes[place + 1] = [0x49, 0x2E, 0x43, 0][dice.below(4)],
        4 if place + 3 < bytes.len() => bytes[place + 3] = dice.below(20) as u8,
        5 if place + 2 < bytes.len() => bytes[place + 2] = dice.below(2) as u8,
        6 if place + RECORD <= bytes.len() => {
            let copy = bytes[place..place + RECORD].to_vec();
            let to = dice.below(bytes.len() / RECORD) * RECORD;
            bytes[to..to + RECORD].copy_from_slice(&copy);
        }
        7 => {
            let length = bytes.len() - 1 - dice.below(bytes.len().min(25));
            bytes.truncate(length);
        }
        _ => bytes.extend((0..dice.below(25)).map(|_| 0)),
    }
}

/// Bytes to check: a page, a page with some damage, or noise.
fn page(dice: &mut Dice, arities: &[u8]) -> Vec<u8> {
    if dice.once_in(20) {
        let length = dice.below(130);
        return (0..length).map(|_| [0x49, 0x43, 0x2E, 0, 1, dice.next() as u8][dice.below(6)]).collect();
    }
    let spread = if dice.once_in(3) { 4 } else { 1000 };
    let mut bytes = Vec::new();
    for _ in 0..count(dice) {
        bytes.extend(record(dice, arities, spread));
    }
    if !dice.once_in(3) {
        for _ in 0..1 + dice.below(3) {
            damage(dice, &mut bytes);
        }
    }
    bytes
}

fn main() -> ExitCode {
    const SEEDS: [u64; 4] = [1, 7, 2024, 0xBADC_0FFE];
    const PAGES: usize = 100_000;
    let mut found = [0usize; 256];
    let mut differences = 0usize;
    for seed in SEEDS {
        let mut dice = Dice(seed);
        for turn in 0..PAGES {
            let arities = arities(&mut dice);
            let bytes = page(&mut dice, &arities);
            let (first, second) = (proved(&bytes, &arities), plain(&bytes, &arities));
            found[usize::from(second.number)] += 1;
            if first != second {
                differences += 1;
                if differences <= 5 {
                    println!("seed {seed}, page {turn}: proved {first:?}, plain {second:?}\n  arities {arities:?}\n  bytes {bytes:02X?}");
                }
            }
        }
    }
    println!(
        "{} pages, {differences} differences; pages {}, refusals 51: {}, 52: {}, 53: {}, 54: {}, 55: {}",
        SEEDS.len() * PAGES, found[0], found[51], found[52], found[53], found[54], found[55]
    );
    let each_met = [0, 51, 52, 53, 54, 55].iter().all(|number| found[*number] >= 1000);
    if !each_met {
        println!("some answer was met less than 1000 times");
    }
    if differences == 0 && each_met { ExitCode::SUCCESS } else { ExitCode::FAILURE }
}
