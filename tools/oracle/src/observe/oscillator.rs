/// Beside the original oscillator: its whole state, read and built.
#[derive(Clone)]
pub struct OscillatorState {
    pub frequency: u16,
    pub pulse_width: u16,
    pub waveform: u8,
    pub sync_enabled: bool,
    pub ring_enabled: bool,
    pub test_enabled: bool,
    pub msb_rising: bool,
    pub accumulator: u32,
    pub last_sample: u16,
    pub pulse_output: u16,
    pub cycle: u64,
    pub readback: u16,
    pub noise_state: u32,
    pub noise_visible: u16,
    pub noise_captured: u32,
    pub noise_transfer_at: u64,
    pub noise_normal_transfer_at: u64,
    pub noise_next_leak: u64,
    pub noise_captured_charge: [u16; 23],
    pub noise_charge: [u16; 23],
    pub bus_value: u16,
    pub bus_hold_until: u64,
    pub bus_next_leak: u64,
    pub bus_charge: [u16; 12],
}

impl Oscillator {
    pub fn from_state(s: &OscillatorState) -> Self {
        Self {
            accumulator: s.accumulator,
            frequency: s.frequency,
            pulse_width: s.pulse_width,
            waveform: s.waveform,
            sync_enabled: s.sync_enabled,
            ring_enabled: s.ring_enabled,
            test_enabled: s.test_enabled,
            msb_rising: s.msb_rising,
            last_sample: s.last_sample,
            pulse_output: s.pulse_output,
            noise: NoiseGenerator {
                state: s.noise_state,
                visible: s.noise_visible,
                captured: s.noise_captured,
                captured_charge: s.noise_captured_charge,
                transfer_at: s.noise_transfer_at,
                normal_transfer_at: s.noise_normal_transfer_at,
                charge: s.noise_charge,
                next_leak: s.noise_next_leak,
            },
            cycle: s.cycle,
            readback: s.readback,
            bus: FloatingBus {
                value: s.bus_value,
                charge: s.bus_charge,
                hold_until: s.bus_hold_until,
                next_leak: s.bus_next_leak,
            },
        }
    }

    pub fn state(&self) -> OscillatorState {
        OscillatorState {
            frequency: self.frequency,
            pulse_width: self.pulse_width,
            waveform: self.waveform,
            sync_enabled: self.sync_enabled,
            ring_enabled: self.ring_enabled,
            test_enabled: self.test_enabled,
            msb_rising: self.msb_rising,
            accumulator: self.accumulator,
            last_sample: self.last_sample,
            pulse_output: self.pulse_output,
            cycle: self.cycle,
            readback: self.readback,
            noise_state: self.noise.state,
            noise_visible: self.noise.visible,
            noise_captured: self.noise.captured,
            noise_transfer_at: self.noise.transfer_at,
            noise_normal_transfer_at: self.noise.normal_transfer_at,
            noise_next_leak: self.noise.next_leak,
            noise_captured_charge: self.noise.captured_charge,
            noise_charge: self.noise.charge,
            bus_value: self.bus.value,
            bus_hold_until: self.bus.hold_until,
            bus_next_leak: self.bus.next_leak,
            bus_charge: self.bus.charge,
        }
    }

    /// Clocks to the next leak of noise in test, and to that of floating lines. These and the
    /// question after them are asked on every clock, for which `state` copies too much.
    pub fn noise_leaks_in(&self) -> Option<u64> {
        let leaks = self.test_enabled && self.noise.next_leak != NEVER;
        leaks.then(|| self.noise.next_leak.saturating_sub(self.cycle))
    }

    pub fn lines_leak_in(&self) -> Option<u64> {
        let leak = self.bus.value != 0 && self.bus.next_leak != NEVER;
        leak.then(|| self.bus.next_leak.saturating_sub(self.cycle))
    }

    /// Whether the next clock finds at most one leak step of each kind due. Lines that hold
    /// something are looked at on every clock, since no waveform is selected, and hold no longer
    /// than to their next leak.
    pub fn leaks_by_single_steps(&self) -> bool {
        let (noise, bus) = (&self.noise, &self.bus);
        let looked_at = self.waveform == 0 && bus.hold_until <= bus.next_leak;
        (!self.test_enabled || self.cycle < noise.next_leak)
            && (bus.value == 0 || looked_at && self.cycle < bus.next_leak)
    }

    /// The cycle and the 12-bit phase, which the original keeps to itself.
    pub fn cycle_shown(&self) -> u64 {
        self.cycle
    }

    pub fn phase_shown(&self) -> u16 {
        self.phase()
    }
}
