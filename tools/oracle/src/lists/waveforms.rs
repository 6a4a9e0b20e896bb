//! The list `waveforms`: triangles, loaded codes, and every entry of every settled table.
//!
//! A record has 6 bytes, little endian: the call's number (its place in `Call`, from 0), the
//! selection (u8), the operand (u16), the answer (u16). What a call does not have is 0.
//!
//! The records of a table follow the fill of it. An entry has one if its code is not 0, and the
//! last entry has one in any case.

use crate::random::Random;
use crate::sid::constants::COMBINED_WAVEFORM_TABLE_SIZE as TABLE_SIZE;
use crate::sid::waveforms::{triangle_from_phase, GeneratedWaveShapes};

use Call::{ApplyLineLoading, Entry, Fill, NeedsLineLoading, Triangle};

const SEED: u64 = 4096;
/// On both sides of each fold.
const PHASES: [u16; 10] = [
    0x000, 0x001, 0x400, 0x7fe, 0x7ff, 0x800, 0x801, 0xbff, 0xffe, 0xfff,
];
const RANDOM_PHASES: usize = 40;
/// Part lengths next to a table's, and none.
const LENGTHS: [usize; 4] = [0, TABLE_SIZE - 1, TABLE_SIZE, TABLE_SIZE + 1];

pub fn list() -> Vec<u8> {
    let mut recorder = Recorder::new();
    let mut random = Random::seeded(SEED);
    fold_triangles(&mut recorder, &mut random);
    load_lines_of_every_byte(&mut recorder, &mut random);
    fill_tables(&mut recorder);
    recorder.records
}

enum Call {
    /// Of a phase.
    Triangle(u16),
    NeedsLineLoading(u8),
    /// Of a waveform and a value.
    ApplyLineLoading(u8, u16),
    /// Of a selection and a part's length. The Rust lends no table: the answer is document 01's,
    /// 0 for a filled table or the number of the refusal.
    Fill(u8, usize),
    /// Of the table filled last: its selection and the entry's place.
    Entry(u8, usize),
}

struct Recorder {
    shapes: GeneratedWaveShapes,
    records: Vec<u8>,
}

impl Recorder {
    fn new() -> Self {
        Self {
            shapes: GeneratedWaveShapes::new(),
            records: Vec::new(),
        }
    }

    fn make(&mut self, call: Call) {
        let (number, selection, operand, answer) = match call {
            Triangle(phase) => (0, 0, phase, triangle_from_phase(phase)),
            NeedsLineLoading(waveform) => {
                let needs = self.shapes.needs_line_loading(waveform);
                (1, waveform, 0, needs.into())
            }
            ApplyLineLoading(waveform, value) => {
                let code = self.shapes.apply_line_loading(waveform, value);
                (2, waveform, value, code)
            }
            Fill(selection, length) => {
                (3, selection, length as u16, self.refusal(selection, length))
            }
            Entry(selection, place) => (4, selection, place as u16, self.entry(selection, place)),
        };
        self.records.extend([number, selection]);
        self.records.extend(operand.to_le_bytes());
        self.records.extend(answer.to_le_bytes());
    }

    fn refusal(&self, selection: u8, length: usize) -> u16 {
        match self.shapes.table(selection) {
            None => 1,
            Some(table) if table.len() != length => 2,
            Some(_) => 0,
        }
    }

    fn entry(&self, selection: u8, place: usize) -> u16 {
        self.shapes.table(selection).map_or(0, |table| table[place])
    }
}

/// Also with bits above the phase's twelve, which do not count.
fn fold_triangles(recorder: &mut Recorder, random: &mut Random) {
    for above in [0x0000, 0x1000, 0x8000, 0xf000] {
        for phase in PHASES {
            recorder.make(Triangle(above | phase));
        }
    }
    for _ in 0..RANDOM_PHASES {
        recorder.make(Triangle(random.word() as u16));
    }
}

/// Also for the bytes above 15, of which the low four bits count, and values above 4095.
fn load_lines_of_every_byte(recorder: &mut Recorder, random: &mut Random) {
    for waveform in 0..=u8::MAX {
        recorder.make(NeedsLineLoading(waveform));
        // Most lines are set: of other values most selections leave nothing.
        let thick = random.word() as u16 | 0x0ff0;
        for value in [0x0000, 0x0fff, 0xffff, thick] {
            recorder.make(ApplyLineLoading(waveform, value));
        }
    }
}

fn fill_tables(recorder: &mut Recorder) {
    for selection in 0..=u8::MAX {
        for length in LENGTHS {
            recorder.make(Fill(selection, length));
            if recorder.refusal(selection, length) == 0 {
                tell_entries(recorder, selection);
            }
        }
    }
}

fn tell_entries(recorder: &mut Recorder, selection: u8) {
    for place in 0..TABLE_SIZE {
        if recorder.entry(selection, place) != 0 || place + 1 == TABLE_SIZE {
            recorder.make(Entry(selection, place));
        }
    }
}
