//! The list `settling`: codes settled under the largest extra static load that still leaves a
//! line, and under the next one, which takes it. There a single rounding tells.
//!
//! A record has 9 bytes, little endian: the selection (u8), the value (u16), the extra load in
//! units of 2^-24, with bit 31 for its sign (u32), the settled code (u16).

use crate::random::Random;
use crate::sid::constants::{BIT_COUNT, WAVEFORM_COUNT};
use crate::sid::waveforms::settle_under;

const SEED: u64 = 144;
const EDGES_PER_SELECTION: usize = 40;
/// From nearly -1.0, which drains no line, to nearly 1.0, which drains all.
const UNITS: i32 = 1 << 24;

pub fn list() -> Vec<u8> {
    let mut random = Random::seeded(SEED);
    let mut records = Vec::new();
    for selection in 0..WAVEFORM_COUNT as u8 {
        for _ in 0..EDGES_PER_SELECTION {
            let line = 1 << random.below(BIT_COUNT as u32);
            let value = random.word() as u16 | line;
            let edge = last_load_leaving(line, selection, value);
            record(&mut records, selection, value, edge);
            record(&mut records, selection, value, edge + 1);
        }
    }
    records
}

fn record(records: &mut Vec<u8>, selection: u8, value: u16, load: i32) {
    let sign = u32::from(load < 0) << 31;
    records.push(selection);
    records.extend(value.to_le_bytes());
    records.extend((load.unsigned_abs() | sign).to_le_bytes());
    records.extend(settled(selection, load, value).to_le_bytes());
}

fn settled(selection: u8, load: i32, value: u16) -> u16 {
    settle_under(load as f32 / UNITS as f32, selection, value)
}

fn last_load_leaving(line: u16, selection: u8, value: u16) -> i32 {
    let (mut leaves, mut takes) = (1 - UNITS, UNITS - 1);
    while takes - leaves > 1 {
        let middle = (leaves + takes) / 2;
        if settled(selection, middle, value) & line != 0 {
            leaves = middle;
        } else {
            takes = middle;
        }
    }
    leaves
}
