//! The lists `oscillator_states` and `oscillator_calls`: calls on one oscillator, in order, and
//! the states that some of them start from.
//!
//! A state has 192 bytes, little endian: frequency and pulse width (u16 each), waveform (u8),
//! flags (u8: 1 sync, 2 ring, 4 test, 8 the rising mark), accumulator (u32), last sample and
//! pulse output (u16 each), cycle (u64), readback (u16); the noise register's state (u32),
//! visible (u16), captured (u32), transfer, normal transfer and next leak (u64 each), captured
//! charges and charges (23 u16 each); the floating bus's value (u16), hold and next leak (u64
//! each) and charges (12 u16).
//!
//! A call has 15 bytes: its number (its place in `Call`, from 0), its operand (u32), what it
//! returned (u16), and the digest (u64) of the state after it. What a call does not have is 0.

use crate::random::Random;
use crate::sid::constants::NEVER;
use crate::sid::oscillator::{Oscillator, OscillatorState};
use crate::sid::waveforms::GeneratedWaveShapes;

use Call::{
    Clock, Evaluate, Feedback, Frozen, Jump, Latch, New, Phase, Read, Reset, Run, Start,
    Synchronise, Tick, WriteControl, WriteFrequencyHigh, WriteFrequencyLow, WriteWidthHigh,
    WriteWidthLow,
};

const SEED: u64 = 6581 * 23;
const RANDOM_STATES: usize = 120;

const LEAK_INTERVAL: u32 = 65_536;
const FLOAT_HOLD: u32 = 1_137_140;
const FLOAT_INTERVAL: u32 = 8_192;
const FLOAT_WHOLE: u32 = 1_260_019;

const TEST: u8 = 0x08;

pub fn states() -> Vec<u8> {
    recorded().states
}

pub fn calls() -> Vec<u8> {
    recorded().calls
}

fn recorded() -> Recorder {
    let mut recorder = Recorder::new();
    let mut random = Random::seeded(SEED);
    write_every_register(&mut recorder, &mut random);
    repeat_other_tests(&mut recorder);
    enter_and_leave_test(&mut recorder, &mut random);
    shift_and_pull_down(&mut recorder, &mut random);
    recover_in_test(&mut recorder, &mut random);
    couple_in_test(&mut recorder, &mut random);
    float_to_the_end(&mut recorder);
    float_by_jumps(&mut recorder, &mut random);
    meet_the_thresholds(&mut recorder);
    combine_and_feed_back(&mut recorder, &mut random);
    compare_late(&mut recorder, &mut random);
    wrap_the_cycle(&mut recorder, &mut random);
    start_from_random_states(&mut recorder, &mut random);
    recorder
}

#[derive(Clone)]
enum Call {
    New,
    Reset,
    WriteFrequencyLow(u8),
    WriteFrequencyHigh(u8),
    WriteWidthLow(u8),
    WriteWidthHigh(u8),
    WriteControl(u8),
    Clock,
    /// With the modulator's phase.
    Evaluate(u32),
    Feedback(u16),
    Latch(u16),
    Synchronise,
    Read,
    Phase,
    Frozen,
    /// Clock, evaluation with the modulator's phase, feedback and latch of its code.
    Tick(u32),
    /// So many ticks, with the phase before each for a modulator's.
    Run(u32),
    /// So many cycles on which nothing is called.
    Jump(u32),
    Start(OscillatorState),
}

struct Recorder {
    waves: GeneratedWaveShapes,
    oscillator: Oscillator,
    states: Vec<u8>,
    calls: Vec<u8>,
}

impl Recorder {
    fn new() -> Self {
        Self {
            waves: GeneratedWaveShapes::new(),
            oscillator: Oscillator::new(),
            states: Vec::new(),
            calls: Vec::new(),
        }
    }

    fn make(&mut self, calls: &[Call]) {
        for call in calls {
            self.make_one(call.clone());
        }
    }

    /// What the call returned is given, too.
    fn make_one(&mut self, call: Call) -> u16 {
        let (number, operand, returned) = self.call(call);
        self.calls.push(number);
        self.calls.extend(operand.to_le_bytes());
        self.calls.extend(returned.to_le_bytes());
        self.calls
            .extend(digest(&self.oscillator.state()).to_le_bytes());
        returned
    }

    fn call(&mut self, call: Call) -> (u8, u32, u16) {
        let oscillator = &mut self.oscillator;
        match call {
            New => {
                *oscillator = Oscillator::new();
                (0, 0, 0)
            }
            Reset => {
                oscillator.reset();
                (1, 0, 0)
            }
            WriteFrequencyLow(value) => {
                oscillator.write_frequency_lo(value);
                (2, value.into(), 0)
            }
            WriteFrequencyHigh(value) => {
                oscillator.write_frequency_hi(value);
                (3, value.into(), 0)
            }
            WriteWidthLow(value) => {
                oscillator.write_pulse_width_lo(value);
                (4, value.into(), 0)
            }
            WriteWidthHigh(value) => {
                oscillator.write_pulse_width_hi(value);
                (5, value.into(), 0)
            }
            WriteControl(value) => {
                oscillator.write_control(value);
                (6, value.into(), 0)
            }
            Clock => {
                oscillator.clock_accumulator();
                (7, 0, 0)
            }
            Evaluate(modulator) => (
                8,
                modulator,
                oscillator.evaluate_output(modulator, &self.waves),
            ),
            Feedback(output) => {
                oscillator.apply_combined_feedback(output);
                (9, output.into(), 0)
            }
            Latch(output) => {
                oscillator.latch_output(output);
                (10, output.into(), 0)
            }
            Synchronise => {
                oscillator.synchronise();
                (11, 0, 0)
            }
            Read => (12, 0, oscillator.read_output().into()),
            Phase => (13, 0, oscillator.phase_shown()),
            Frozen => (14, 0, oscillator.output_is_frozen().into()),
            Tick(modulator) => (15, modulator, self.tick(modulator)),
            Run(clocks) => {
                for _ in 0..clocks {
                    let modulator = self.oscillator.accumulator;
                    self.tick(modulator);
                }
                (16, clocks, self.oscillator.last_sample)
            }
            Jump(cycles) => {
                let mut state = oscillator.state();
                state.cycle = state.cycle.wrapping_add(cycles.into());
                *oscillator = Oscillator::from_state(&state);
                (17, cycles, 0)
            }
            Start(state) => {
                let number = self.states.len() / STATE_BYTES;
                *oscillator = Oscillator::from_state(&state);
                self.states.extend(bytes_of(&state));
                (18, number as u32, 0)
            }
        }
    }

    fn tick(&mut self, modulator: u32) -> u16 {
        let oscillator = &mut self.oscillator;
        oscillator.clock_accumulator();
        let code = oscillator.evaluate_output(modulator, &self.waves);
        oscillator.apply_combined_feedback(code);
        oscillator.latch_output(code);
        code
    }

    /// Goes on from a changed state.
    fn alter(&mut self, change: impl FnOnce(&mut OscillatorState)) {
        let mut state = self.oscillator.state();
        change(&mut state);
        self.make(&[Start(state)]);
    }
}

const STATE_BYTES: usize = 192;

fn flags(state: &OscillatorState) -> u8 {
    u8::from(state.sync_enabled)
        + 2 * u8::from(state.ring_enabled)
        + 4 * u8::from(state.test_enabled)
        + 8 * u8::from(state.msb_rising)
}

fn bytes_of(state: &OscillatorState) -> Vec<u8> {
    let mut bytes = Vec::with_capacity(STATE_BYTES);
    bytes.extend(state.frequency.to_le_bytes());
    bytes.extend(state.pulse_width.to_le_bytes());
    bytes.extend([state.waveform, flags(state)]);
    bytes.extend(state.accumulator.to_le_bytes());
    bytes.extend(state.last_sample.to_le_bytes());
    bytes.extend(state.pulse_output.to_le_bytes());
    bytes.extend(state.cycle.to_le_bytes());
    bytes.extend(state.readback.to_le_bytes());
    bytes.extend(state.noise_state.to_le_bytes());
    bytes.extend(state.noise_visible.to_le_bytes());
    bytes.extend(state.noise_captured.to_le_bytes());
    bytes.extend(state.noise_transfer_at.to_le_bytes());
    bytes.extend(state.noise_normal_transfer_at.to_le_bytes());
    bytes.extend(state.noise_next_leak.to_le_bytes());
    bytes.extend(
        state
            .noise_captured_charge
            .iter()
            .flat_map(|charge| charge.to_le_bytes()),
    );
    bytes.extend(
        state
            .noise_charge
            .iter()
            .flat_map(|charge| charge.to_le_bytes()),
    );
    bytes.extend(state.bus_value.to_le_bytes());
    bytes.extend(state.bus_hold_until.to_le_bytes());
    bytes.extend(state.bus_next_leak.to_le_bytes());
    bytes.extend(
        state
            .bus_charge
            .iter()
            .flat_map(|charge| charge.to_le_bytes()),
    );
    bytes
}

/// One number for the whole state: no change of a single field leaves it as it was.
fn digest(state: &OscillatorState) -> u64 {
    let mut fields: Vec<u64> = vec![
        state.frequency.into(),
        state.pulse_width.into(),
        state.waveform.into(),
        flags(state).into(),
        state.accumulator.into(),
        state.last_sample.into(),
        state.pulse_output.into(),
        state.cycle,
        state.readback.into(),
        state.noise_state.into(),
        state.noise_visible.into(),
        state.noise_captured.into(),
        state.noise_transfer_at,
        state.noise_normal_transfer_at,
        state.noise_next_leak,
    ];
    fields.extend(state.noise_captured_charge.map(u64::from));
    fields.extend(state.noise_charge.map(u64::from));
    fields.extend([
        state.bus_value.into(),
        state.bus_hold_until,
        state.bus_next_leak,
    ]);
    fields.extend(state.bus_charge.map(u64::from));
    fields.into_iter().fold(0, |digest, field| {
        (digest.rotate_left(7) ^ field).wrapping_add(0x9e37_79b9_7f4a_7c15)
    })
}

/// Registers kept from one write to the next, also where a width has more than twelve bits.
fn write_every_register(recorder: &mut Recorder, random: &mut Random) {
    recorder.make(&[New, Read, Phase, Frozen]);
    for _ in 0..6 {
        recorder.make(&[
            WriteFrequencyLow(random.byte()),
            WriteFrequencyHigh(random.byte()),
            WriteWidthLow(random.byte()),
            WriteWidthHigh(random.byte()),
        ]);
        recorder.make(&[Tick(random.word()), Read, Phase]);
    }
    let mut state = recorder.oscillator.state();
    state.pulse_width = 0xffff;
    state.accumulator = 0xfedc_ba98;
    recorder.make(&[Start(state.clone()), Phase, WriteWidthLow(0x12), Tick(0)]);
    recorder.make(&[Start(state.clone()), WriteWidthHigh(0xf5), Tick(0)]);
    recorder.make(&[Start(state), Synchronise, Tick(0), Reset]);
    recorder.make(&[
        WriteControl(0x48),
        Frozen,
        WriteControl(0x4f),
        Frozen,
        WriteControl(0xc8),
    ]);
    recorder.make(&[Frozen, WriteControl(0x40), Frozen]);
}

/// Cases from other people's tests, which the original meets.
fn repeat_other_tests(recorder: &mut Recorder) {
    recorder.make(&[New]);
    assert_eq!(recorder.oscillator.state().noise_state, 0x3f_ffff);
    start_with_noise(recorder, 0x35_555e);
    recorder.alter(|state| state.noise_transfer_at = state.cycle + 1);
    recorder.make(&[Clock]);
    assert_eq!(recorder.oscillator.state().noise_visible, 0x9e0);
    // Pulled down by no line, so that it shows its stages.
    start_with_noise(recorder, 0x35_555f);
    recorder.make(&[WriteControl(0x90), Latch(0xfff)]);
    assert_eq!(recorder.oscillator.state().noise_visible, 0xe20);
    recorder.make(&[New, WriteControl(0x90), Latch(0)]);
    assert_eq!(recorder.oscillator.state().noise_state, 0x2d_d6eb);
    start_with_noise(recorder, 0x35_555e);
    recorder.make(&[WriteControl(TEST), Tick(0), WriteControl(0), Tick(0)]);
    assert_eq!(recorder.oscillator.state().noise_visible, 0x9f0);
    recorder.make(&[
        New,
        WriteControl(0x88),
        Tick(0),
        WriteControl(0x90),
        Tick(0),
    ]);
    for top_bits in [0xfc, 0x6c, 0xd8, 0xb1, 0xd8, 0x6a, 0xb1, 0xf0] {
        recorder.make(&[WriteControl(0x88), Tick(0), WriteControl(0x80), Tick(0)]);
        assert_eq!(recorder.make_one(Read), top_bits);
    }
}

/// A fresh oscillator with these stages, charged to match.
fn start_with_noise(recorder: &mut Recorder, stages: u32) {
    let mut state = Oscillator::new().state();
    set_noise(&mut state, stages);
    recorder.make(&[Start(state)]);
}

fn set_noise(state: &mut OscillatorState, stages: u32) {
    let charge = std::array::from_fn(|stage| if stages >> stage & 1 == 1 { 65_535 } else { 0 });
    state.noise_state = stages;
    state.noise_captured = stages;
    state.noise_charge = charge;
    state.noise_captured_charge = charge;
}

/// Each selection before test against each after it, from low and from high lines.
fn enter_and_leave_test(recorder: &mut Recorder, random: &mut Random) {
    for before in 0..16u8 {
        start_with_noise(recorder, random.word() & 0x7f_ffff);
        recorder.make(&[WriteFrequencyHigh(0xf3)]);
        for after in 0..16u8 {
            recorder.make(&[WriteControl(before << 4), Tick(random.word())]);
            recorder.make(&[WriteControl(before << 4 | TEST), Tick(random.word())]);
            recorder.make(&[WriteControl(after << 4), Tick(0)]);
        }
    }
    // Pulled down by a code of one's own, and test kept or left alone.
    for (before, after) in [
        (0xb, 0x9),
        (0xd, 0xc),
        (0xe, 0xc),
        (0xc, 0xc),
        (0xd, 0x8),
        (0x9, 0xc),
    ] {
        start_with_noise(recorder, 0x7f_ffff);
        recorder.make(&[
            WriteControl(before << 4 | TEST),
            Latch(random.word() as u16),
        ]);
        recorder.make(&[
            WriteControl(before << 4 | TEST),
            WriteControl(after << 4),
            Clock,
            Clock,
        ]);
    }
}

/// Bit 19 rises often; noise is joined with others in and out of the window of its shift.
fn shift_and_pull_down(recorder: &mut Recorder, random: &mut Random) {
    for selection in [8, 9, 10, 12, 13, 15] {
        start_with_noise(recorder, random.word() & 0x7f_ffff);
        recorder.make(&[
            WriteFrequencyHigh(0x80 + (random.byte() >> 1)),
            WriteWidthHigh(0x0b),
        ]);
        recorder.make(&[WriteControl(selection << 4)]);
        for _ in 0..36 {
            recorder.make(&[Tick(random.word())]);
        }
    }
    // A transfer that is past, due, near, far or not set.
    for selection in [9, 12, 14] {
        for offset in [u64::MAX, 0, 1, 2, 3] {
            start_with_noise(recorder, 0x7f_ffff);
            recorder.make(&[WriteControl(selection << 4), Run(5)]);
            recorder.alter(|state| {
                state.noise_transfer_at = state.cycle.wrapping_add(offset);
                state.noise_normal_transfer_at = state.noise_transfer_at;
            });
            recorder.make(&[Latch(random.word() as u16), Clock, Clock]);
        }
        start_with_noise(recorder, 0xff7f_ffff);
        recorder.make(&[WriteControl(selection << 4), Latch(random.word() as u16)]);
    }
    // A rise while a shift is under way, and one on the clock on which it lands.
    for offset in [1, 2] {
        start_with_noise(recorder, 0x2a_5a5a);
        recorder.make(&[WriteFrequencyHigh(0x40)]);
        recorder.alter(|state| {
            state.accumulator = 0x07_f000;
            state.noise_transfer_at = state.cycle + offset;
        });
        recorder.make(&[Clock, Clock, Clock, Clock]);
    }
}

/// Charges that recover over many leak steps, one by one and many at once.
fn recover_in_test(recorder: &mut Recorder, random: &mut Random) {
    for fraction in [0, 5, 12] {
        start_with_noise(recorder, random.word() & 0x7f_ffff);
        recorder.make(&[WriteControl(TEST), Run(3)]);
        recorder.alter(|state| {
            for charge in &mut state.noise_charge {
                *charge = (random.word() >> fraction) as u16;
            }
        });
        for step in 0..20 {
            let state = recorder.oscillator.state();
            let wait = (state.noise_next_leak - state.cycle - 1) as u32;
            recorder.make(&[Jump(wait), Clock, Clock]);
            if step == 17 {
                recorder.make(&[Jump(LEAK_INTERVAL * 3 - 3), Clock]);
            }
        }
        recorder.make(&[WriteControl(0x80), Tick(0), Tick(0)]);
    }
    start_with_noise(recorder, 0);
    recorder.make(&[WriteControl(TEST), Jump(LEAK_INTERVAL * 16), Clock]);
    recorder.make(&[Jump(LEAK_INTERVAL * 250), Clock, WriteControl(0), Clock]);
    // With a shift under way what relaxes is not captured.
    start_with_noise(recorder, 0);
    recorder.make(&[WriteControl(TEST)]);
    recorder.alter(|state| state.noise_transfer_at = 5);
    recorder.make(&[Jump(LEAK_INTERVAL * 20), Clock, WriteControl(0), Clock]);
    // Charges that lack less than a step takes.
    start_with_noise(recorder, 0x55_5555);
    recorder.make(&[WriteControl(TEST)]);
    recorder
        .alter(|state| state.noise_charge = std::array::from_fn(|stage| 65_535 - 3 * stage as u16));
    recorder.make(&[Jump(LEAK_INTERVAL), Clock, Jump(LEAK_INTERVAL), Clock]);
    // Real clocks to the first leak.
    start_with_noise(recorder, 0x12_3456);
    recorder.make(&[WriteControl(TEST), Run(LEAK_INTERVAL - 1), Clock, Clock]);
}

/// Noise with pulse and another takes charge from its low lines, clock by clock.
fn couple_in_test(recorder: &mut Recorder, random: &mut Random) {
    for selection in [0xd, 0xe, 0xf] {
        start_with_noise(recorder, 0x7f_ffff);
        recorder.make(&[WriteControl(selection << 4 | TEST)]);
        for _ in 0..10 {
            recorder.make(&[Tick(random.word())]);
        }
        recorder.make(&[
            Latch(random.word() as u16),
            Run(60),
            WriteControl(0x80),
            Tick(0),
            Tick(0),
        ]);
    }
    // Charges below the divisor.
    recorder.make(&[New, WriteControl(0xd0 | TEST)]);
    recorder.alter(|state| state.noise_charge = std::array::from_fn(|stage| stage as u16));
    recorder.make(&[Latch(0), Latch(0x550)]);
    for selection in [0xc, 0x9, 0x7] {
        recorder.make(&[
            New,
            WriteControl(selection << 4 | TEST),
            Latch(random.word() as u16),
        ]);
    }
}

/// A code is whole for 1,260,019 clocks, real ones, and then gone.
fn float_to_the_end(recorder: &mut Recorder) {
    recorder.make(&[New, WriteFrequencyHigh(0x12), WriteControl(0x20), Run(777)]);
    recorder.make(&[
        WriteControl(0),
        Run(1),
        Run(FLOAT_HOLD - 1),
        Run(FLOAT_INTERVAL - 1),
    ]);
    recorder.make(&[
        Tick(0),
        Run(FLOAT_WHOLE - FLOAT_HOLD - FLOAT_INTERVAL),
        Tick(0),
        Tick(0),
    ]);
    assert_eq!(recorder.oscillator.last_sample, 0);
}

/// Captures of other codes, with the clocks around each leak.
fn float_by_jumps(recorder: &mut Recorder, random: &mut Random) {
    for code in [0x001, 0x800, 0xfff, 0xf123] {
        recorder.make(&[New, WriteControl(0x10), Latch(code), WriteControl(0)]);
        recorder.make(&[Jump(FLOAT_HOLD - 1), Tick(0), Tick(0)]);
        while recorder.oscillator.last_sample != 0 {
            let state = recorder.oscillator.state();
            let wait = (state.bus_next_leak - state.cycle - 2) as u32;
            recorder.make(&[Jump(wait), Tick(0), Tick(0)]);
        }
        recorder.make(&[Tick(0), Jump(FLOAT_INTERVAL * 3), Tick(0)]);
    }
    // Many leaks at once; uneven charges, so that some lines go before others.
    for steps in [1, 2, 7, 8, 100, 130] {
        recorder.make(&[
            New,
            WriteControl(0x30),
            Latch(random.word() as u16),
            WriteControl(0),
        ]);
        recorder.alter(|state| {
            for charge in &mut state.bus_charge {
                *charge = (random.word() >> (16 + random.below(5))) as u16;
            }
        });
        recorder.make(&[Jump(FLOAT_HOLD + FLOAT_INTERVAL * steps), Tick(0), Tick(0)]);
    }
    // Captured anew, dropped by another selection, kept by a write that changes nothing.
    recorder.make(&[
        New,
        WriteControl(0x10),
        Latch(0x5a5),
        WriteControl(0),
        WriteControl(0x06),
    ]);
    recorder.make(&[
        Tick(0),
        WriteControl(0x40),
        WriteControl(0),
        Tick(0),
        WriteControl(0x02),
    ]);
    recorder.make(&[Tick(0), Reset, Tick(0)]);
    recorder.alter(|state| state.waveform = 0x10);
    recorder.make(&[Tick(0), WriteControl(0x00), Tick(0)]);
}

/// Charges at a threshold and one below it by turns: sampled so, and come to it by one leak.
fn meet_the_thresholds(recorder: &mut Recorder) {
    fn by_turns<const N: usize>(charge: u16) -> [u16; N] {
        std::array::from_fn(|place| charge - place as u16 % 2)
    }
    start_with_noise(recorder, 0);
    recorder.make(&[WriteControl(TEST)]);
    recorder.alter(|state| state.noise_charge = by_turns(32_768));
    recorder.make(&[WriteControl(0), Clock]);
    start_with_noise(recorder, 0);
    recorder.make(&[WriteControl(TEST)]);
    recorder.alter(|state| state.noise_charge = by_turns(32_768 - (65_535 - 31_279) / 23));
    recorder.make(&[Jump(LEAK_INTERVAL), Clock]);
    recorder.make(&[New, WriteControl(0x10), Latch(0xfff), WriteControl(0)]);
    recorder.alter(|state| state.bus_charge = by_turns(18_000 + 19_636 / 12));
    recorder.make(&[Jump(FLOAT_HOLD + FLOAT_INTERVAL), Tick(0)]);
}

/// Joined lines, ring, and the feedback of a saw onto the phase.
fn combine_and_feed_back(recorder: &mut Recorder, random: &mut Random) {
    for selection in 1..16u8 {
        recorder.make(&[
            New,
            WriteFrequencyHigh(0xe0 + selection),
            WriteWidthHigh(0x06),
        ]);
        recorder.make(&[WriteControl(selection << 4 | 0x04)]);
        for _ in 0..5 {
            recorder.make(&[Tick(random.word()), Run(19)]);
        }
        for output in [0x7ff, 0x800, 0xf7ff] {
            recorder.alter(|state| {
                state.accumulator = random.word();
                state.msb_rising = true;
            });
            recorder.make(&[Feedback(output)]);
        }
    }
    for modulator in [0x7f_ffff, 0x80_0000] {
        for control in [0x14, 0x10, 0x34, 0x54, 0x94] {
            recorder.make(&[New, WriteControl(control), Evaluate(modulator)]);
        }
    }
}

/// The comparison is used one evaluation later.
fn compare_late(recorder: &mut Recorder, random: &mut Random) {
    recorder.make(&[New, WriteWidthHigh(0x08), WriteControl(0x40)]);
    for accumulator in [0x7f_f000, 0x80_0000, 0x7f_ffff, 0x80_0fff, 0x00_0000] {
        recorder.alter(|state| state.accumulator = accumulator);
        recorder.make(&[Evaluate(random.word()), Evaluate(random.word())]);
        recorder.make(&[
            WriteControl(0x48),
            Evaluate(random.word()),
            WriteControl(0x40),
        ]);
    }
}

/// Cycles just below 2^64. Test is entered only where its leak does not fall behind the cycle.
fn wrap_the_cycle(recorder: &mut Recorder, random: &mut Random) {
    for below in [1u64, 2, 3, 4] {
        start_with_noise(recorder, random.word() & 0x7f_ffff);
        recorder.make(&[WriteFrequencyHigh(0x80), WriteControl(0x90)]);
        recorder.alter(|state| {
            state.cycle = 0u64.wrapping_sub(below);
            state.accumulator = 0x07_c000;
        });
        for _ in 0..6 {
            recorder.make(&[Tick(random.word())]);
        }
    }
    for below in [65_538u64, 65_537, 65_536] {
        start_with_noise(recorder, 0x0f_f00f);
        recorder.alter(|state| state.cycle = 0u64.wrapping_sub(below));
        recorder.make(&[WriteControl(TEST)]);
        if below > 65_536 {
            recorder.make(&[Clock, Jump(65_535), Clock, WriteControl(0), Clock, Clock]);
        }
    }
    for below in [1_145_333u64, 1_145_332, 1_137_140, 1_000] {
        recorder.make(&[New, WriteControl(0x10), Latch(0xa5a)]);
        recorder.alter(|state| state.cycle = 0u64.wrapping_sub(below));
        recorder.make(&[
            WriteControl(0),
            Jump(FLOAT_HOLD + FLOAT_INTERVAL + 5),
            Tick(0),
        ]);
        recorder.make(&[Jump(FLOAT_INTERVAL * 14), Tick(0)]);
    }
    // A line without a time leaks on the last cycle of all.
    recorder.make(&[New]);
    recorder.alter(|state| {
        state.bus_value = 0xfff;
        state.bus_charge = [19_000; 12];
        state.cycle = NEVER - 2;
    });
    recorder.make(&[Tick(0), Tick(0), Tick(0)]);
}

/// Single calls on states of every kind, also such as no call makes.
fn start_from_random_states(recorder: &mut Recorder, random: &mut Random) {
    for _ in 0..RANDOM_STATES {
        let state = random_state(random);
        let word = random.word();
        let half = random.word() as u16;
        let calls = [
            Clock,
            Evaluate(word),
            Latch(half),
            Tick(word),
            WriteControl(random.byte()),
            Feedback(half),
            Clock,
            Evaluate(word),
        ];
        let first = random.below(calls.len() as u32) as usize;
        recorder.make(&[Start(state), calls[first].clone(), Tick(word)]);
        recorder.make(&calls[first..]);
    }
}

/// Every field is random; a leak that is due is at most some hundred steps behind.
fn random_state(random: &mut Random) -> OscillatorState {
    let cycle = (u64::from(random.word()) << 32 | u64::from(random.word())) >> random.below(40);
    let near = |random: &mut Random, reach: u64| match random.below(6) {
        0 => NEVER,
        1 => cycle,
        2 => cycle + 1,
        3 => cycle + 2,
        4 => cycle + 3 + u64::from(random.word()),
        _ => cycle.saturating_sub(u64::from(random.word()) % reach),
    };
    OscillatorState {
        frequency: random.word() as u16,
        pulse_width: random.word() as u16 >> random.below(8),
        waveform: random.byte() >> random.below(5),
        sync_enabled: random.below(2) == 0,
        ring_enabled: random.below(2) == 0,
        test_enabled: random.below(3) == 0,
        msb_rising: random.below(2) == 0,
        accumulator: random.word() >> random.below(16),
        last_sample: random.word() as u16,
        pulse_output: random.word() as u16,
        cycle,
        readback: random.word() as u16,
        noise_state: random.word() >> random.below(12),
        noise_visible: random.word() as u16,
        noise_captured: random.word() >> random.below(12),
        noise_transfer_at: near(random, 10),
        noise_normal_transfer_at: near(random, 10),
        noise_next_leak: near(random, u64::from(LEAK_INTERVAL) * 40),
        noise_captured_charge: std::array::from_fn(|_| random.word() as u16),
        noise_charge: std::array::from_fn(|_| random.word() as u16),
        bus_value: random.word() as u16 & (random.word() >> random.below(32)) as u16,
        bus_hold_until: near(random, u64::from(FLOAT_HOLD)),
        bus_next_leak: near(random, u64::from(FLOAT_INTERVAL) * 40),
        bus_charge: std::array::from_fn(|_| random.word() as u16),
    }
}
