//! Stands in for the original's filter, which needs files that its text lacks. It is silent and
//! keeps nothing; voices, registers and bus never look at it.

use super::dac::VoiceSignal;

pub struct Filter;

impl Filter {
    pub fn new() -> Self {
        Self
    }

    pub fn reset(&mut self) {}

    pub fn clock(&mut self, _voices: [VoiceSignal; 3]) -> i32 {
        0
    }

    pub fn set_external_input(&mut self, _sample: i16) {}

    pub fn write_cutoff_low(&mut self, _value: u8) {}

    pub fn write_cutoff_high(&mut self, _value: u8) {}

    pub fn write_signal_routing(&mut self, _value: u8) {}

    pub fn write_mode_and_volume(&mut self, _value: u8) {}

    pub fn mark_pure_pulse_gate_rise(&mut self) {}

    pub fn mark_pure_saw_gate_rise(&mut self, _voice: usize) {}
}
