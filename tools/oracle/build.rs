//! Finds the folder of the original and hands it to the compiler as SID_SOURCE.

#[path = "../find.rs"]
mod find;

/// The original's files that `src/sid.rs` includes.
const FILES: [&str; 9] = [
    "constants.rs",
    "bus.rs",
    "envelope.rs",
    "oscillator.rs",
    "waveforms.rs",
    "sid.rs",
    "dac.rs",
    "tables.rs",
    "integrator.rs",
];

fn main() {
    find::original(&FILES);
}
