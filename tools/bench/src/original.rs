//! The original's voices, byte for byte as they stand in its folder.
#![allow(dead_code)]

mod constants {
    include!(concat!(env!("SID_SOURCE"), "/constants.rs"));
}

mod bus {
    include!(concat!(env!("SID_SOURCE"), "/bus.rs"));
}

mod envelope {
    include!(concat!(env!("SID_SOURCE"), "/envelope.rs"));
}

mod oscillator {
    include!(concat!(env!("SID_SOURCE"), "/oscillator.rs"));
}

mod waveforms {
    include!(concat!(env!("SID_SOURCE"), "/waveforms.rs"));
}

use bus::InternalDataBus;
use envelope::Envelope;
use oscillator::Oscillator;
pub use constants::DATA_BUS_HOLD_CYCLES;
pub use waveforms::GeneratedWaveShapes;

/// What `Mos6581` of the original is without converter and filter.
pub struct Voices {
    oscillators: [Oscillator; 3],
    envelopes: [Envelope; 3],
    waveforms: GeneratedWaveShapes,
    data_bus: InternalDataBus,
}

impl Voices {
    pub fn new() -> Self {
        Self {
            oscillators: std::array::from_fn(|_| Oscillator::new()),
            envelopes: std::array::from_fn(|_| Envelope::new()),
            waveforms: GeneratedWaveShapes::new(),
            data_bus: InternalDataBus::new(),
        }
    }

    /// The original's `tick` up to the converter, line by line.
    #[inline(always)]
    pub fn tick(&mut self) -> ([u16; 3], [u8; 3]) {
        self.data_bus.clock();

        let [oscillator_0, oscillator_1, oscillator_2] = &mut self.oscillators;
        oscillator_0.clock_accumulator();
        oscillator_1.clock_accumulator();
        oscillator_2.clock_accumulator();

        let [envelope_0, envelope_1, envelope_2] = &mut self.envelopes;
        envelope_0.clock();
        envelope_1.clock();
        envelope_2.clock();

        let waveform_0 = oscillator_0.evaluate_output(oscillator_2.accumulator, &self.waveforms);
        oscillator_0.apply_combined_feedback(waveform_0);
        oscillator_0.latch_output(waveform_0);

        let waveform_1 = oscillator_1.evaluate_output(oscillator_0.accumulator, &self.waveforms);
        oscillator_1.apply_combined_feedback(waveform_1);
        oscillator_1.latch_output(waveform_1);

        let waveform_2 = oscillator_2.evaluate_output(oscillator_1.accumulator, &self.waveforms);
        oscillator_2.apply_combined_feedback(waveform_2);
        oscillator_2.latch_output(waveform_2);

        let rising_0 = oscillator_0.msb_rising;
        let rising_1 = oscillator_1.msb_rising;
        let rising_2 = oscillator_2.msb_rising;
        let sync_0 = oscillator_0.sync_enabled;
        let sync_1 = oscillator_1.sync_enabled;
        let sync_2 = oscillator_2.sync_enabled;

        if rising_0 && sync_1 && !(sync_0 && rising_2) {
            oscillator_1.synchronise();
        }
        if rising_1 && sync_2 && !(sync_1 && rising_0) {
            oscillator_2.synchronise();
        }
        if rising_2 && sync_0 && !(sync_2 && rising_1) {
            oscillator_0.synchronise();
        }
        (
            [waveform_0, waveform_1, waveform_2],
            [envelope_0.volume, envelope_1.volume, envelope_2.volume],
        )
    }

    /// The voices' arms of the original's `write`.
    pub fn write(&mut self, address: u16, value: u8) {
        self.data_bus.drive(value);
        let register = (address & 0x1f) as usize;
        let voice = register / 7;
        if voice > 2 {
            return;
        }
        match register % 7 {
            0 => self.oscillators[voice].write_frequency_lo(value),
            1 => self.oscillators[voice].write_frequency_hi(value),
            2 => self.oscillators[voice].write_pulse_width_lo(value),
            3 => self.oscillators[voice].write_pulse_width_hi(value),
            4 => {
                self.oscillators[voice].write_control(value);
                self.envelopes[voice].set_gate(value & 0x01 != 0);
            }
            5 => self.envelopes[voice].set_attack_decay(value),
            _ => self.envelopes[voice].set_sustain_release(value),
        }
    }

    pub fn codes(&self) -> [u16; 3] {
        std::array::from_fn(|i| self.oscillators[i].last_sample)
    }

    pub fn levels(&self) -> [u8; 3] {
        std::array::from_fn(|i| self.envelopes[i].volume)
    }
}

/// The clocks that a fresh envelope takes from a level to a held zero; from zero, which is not held, by way of 0xff.
pub fn fall(level: u8) -> u64 {
    let mut envelope = Envelope::new();
    envelope.volume = level;
    let mut clocks = 0;
    let mut falls = level != 0;
    while !falls || envelope.volume != 0 {
        envelope.clock();
        clocks += 1;
        falls |= envelope.volume != 0;
    }
    clocks
}
