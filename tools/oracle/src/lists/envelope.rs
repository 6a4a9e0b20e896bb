//! The list `envelope`: calls on one envelope that starts fresh, in order.
//!
//! A record has 21 bytes, little endian: the call's number (its place in `Call`, from 0), its
//! operand (u16; 0 where the call has none), and the state after it: volume, rise rate, decay
//! rate, hold level, fall rate; flags (bit 0 gate input, 1 stage a, 2 stage b, 3 matched rate,
//! 4 floor hold); motion plus four times the requested motion (0 Rising, 1 FallingToSustain,
//! 2 FallingToZero); motion delay; rate phase (u16); rate target phase (u16); amplitude delay,
//! curve delay, curve count, curve divisor, queued curve divisor, readback.

use crate::random::Random;
use crate::sid::constants::envelope_rate_period;
use crate::sid::envelope::{Envelope, State};

use Call::{AttackDecay, Clock, Gate, New, Reset, SetState, SustainRelease};

const SEED: u64 = 466;
const RANDOM_STATES: usize = 300;
const RANDOM_CALLS: usize = 150;

pub(super) const RISING: u8 = 0;
pub(super) const FALLING_TO_SUSTAIN: u8 = 1;
pub const FALLING_TO_ZERO: u8 = 2;

pub fn list() -> Vec<u8> {
    let mut recorder = Recorder::new();
    let mut random = Random::seeded(SEED);
    clock_random_states(&mut recorder, &mut random);
    call_on_random_states(&mut recorder, &mut random);
    take_every_period(&mut recorder);
    fall_from_fresh(&mut recorder);
    lose_the_gate_on(&mut recorder);
    raise_the_gate_around_a_match(&mut recorder);
    pulse_the_gate(&mut recorder);
    drop_the_gate_at_the_top(&mut recorder);
    fall_to_sustain(&mut recorder);
    leave_a_divisor_behind(&mut recorder);
    run_the_long_way_round(&mut recorder);
    write_rates_in_mid_count(&mut recorder);
    restart_hard(&mut recorder);
    reset_in_mid_flight(&mut recorder);
    call_at_random(&mut recorder, &mut random);
    recorder.records
}

#[derive(Clone, Copy)]
enum Call {
    New,
    Reset,
    AttackDecay(u8),
    SustainRelease(u8),
    Gate(bool),
    /// So many clocks.
    Clock(u16),
    /// Any state, also such as no call makes.
    SetState(State),
}

struct Recorder {
    envelope: Envelope,
    records: Vec<u8>,
}

impl Recorder {
    fn new() -> Self {
        Self {
            envelope: Envelope::new(),
            records: Vec::new(),
        }
    }

    fn make(&mut self, calls: &[Call]) {
        for &call in calls {
            self.make_one(call);
        }
    }

    fn make_one(&mut self, call: Call) {
        let envelope = &mut self.envelope;
        let (number, operand) = match call {
            New => {
                *envelope = Envelope::new();
                (0, 0)
            }
            Reset => {
                envelope.reset();
                (1, 0)
            }
            AttackDecay(byte) => {
                envelope.set_attack_decay(byte);
                (2, byte.into())
            }
            SustainRelease(byte) => {
                envelope.set_sustain_release(byte);
                (3, byte.into())
            }
            Gate(high) => {
                envelope.set_gate(high);
                (4, high.into())
            }
            Clock(clocks) => {
                for _ in 0..clocks {
                    envelope.clock();
                }
                (5, clocks)
            }
            SetState(state) => {
                *envelope = Envelope::from_state(state);
                (6, 0)
            }
        };
        self.record(number, operand);
    }

    fn record(&mut self, number: u8, operand: u16) {
        self.records.push(number);
        self.records.extend(operand.to_le_bytes());
        record_state(&mut self.records, &self.envelope.state());
    }
}

/// The last 18 bytes of a record.
pub fn record_state(records: &mut Vec<u8>, state: &State) {
    let flags = [
        state.input,
        state.stage_a,
        state.stage_b,
        state.matched_rate,
        state.floor_hold,
    ];
    let flags = (0..).zip(flags).map(|(bit, flag)| u8::from(flag) << bit);
    records.extend([
        state.volume,
        state.rise_rate,
        state.decay_rate,
        state.hold_level,
        state.fall_rate,
        flags.sum(),
        state.motion + 4 * state.requested_motion,
        state.motion_delay,
    ]);
    records.extend(state.rate_phase.to_le_bytes());
    records.extend(state.rate_target_phase.to_le_bytes());
    records.extend([
        state.amplitude_delay,
        state.curve_delay,
        state.curve_count,
        state.curve_divisor,
        state.queued_curve_divisor,
        state.readback,
    ]);
}

/// Three clocks each, recorded one by one.
fn clock_random_states(recorder: &mut Recorder, random: &mut Random) {
    for _ in 0..RANDOM_STATES {
        recorder.make(&[SetState(any_state(random)), Clock(1), Clock(1), Clock(1)]);
    }
}

fn call_on_random_states(recorder: &mut Recorder, random: &mut Random) {
    for round in 0..12 {
        let calls = [
            Reset,
            AttackDecay(random.byte()),
            SustainRelease(random.byte()),
            Gate(false),
            Gate(true),
        ];
        for call in calls {
            let mut state = any_state(random);
            // Every other reset finds a level of 0 or 1 by turns.
            if round % 2 == 0 && matches!(call, Reset) {
                state.volume = round / 2 % 2;
            }
            recorder.make(&[SetState(state), call]);
        }
    }
}

/// Near the edges more often than not, possible or not.
pub fn any_state(random: &mut Random) -> State {
    let rate_target_phase = match random.below(4) {
        0 => 32_766 + random.below(2) as u16,
        1 => random.word() as u16,
        _ => (envelope_rate_period(random.byte()) - 1) as u16,
    };
    let rate_phase = match random.below(4) {
        0 => rate_target_phase,
        1 => rate_target_phase.wrapping_sub(1),
        2 => random.pick(&[0, 32_765, 32_766, 32_767, 65_534, 65_535]),
        _ => random.word() as u16,
    };
    let curve_divisor = match random.below(4) {
        0 => random.byte(),
        _ => random.pick(&[1, 1, 2, 4, 8, 16, 30]),
    };
    let curve_count = match random.below(4) {
        0 => random.byte(),
        1 => 255,
        _ => curve_divisor.wrapping_sub(1),
    };
    let volume = match random.below(4) {
        0 => random.byte(),
        _ => random.pick(&[
            0x00, 0x01, 0x06, 0x07, 0x0e, 0x0f, 0x1a, 0x1b, 0x35, 0x37, 0x5c, 0x5e, 0xfe, 0xff,
        ]),
    };
    let hold_level = match random.below(3) {
        0 => volume,
        1 => volume.wrapping_sub(1),
        _ => random.byte(),
    };
    State {
        volume,
        rise_rate: random.byte(),
        decay_rate: random.byte(),
        hold_level,
        fall_rate: random.byte(),
        input: random.below(2) == 0,
        stage_a: random.below(2) == 0,
        stage_b: random.below(2) == 0,
        motion: random.below(3) as u8,
        requested_motion: random.below(3) as u8,
        motion_delay: any_delay(random),
        rate_phase,
        rate_target_phase,
        matched_rate: random.below(2) == 0,
        amplitude_delay: any_delay(random),
        curve_delay: any_delay(random),
        curve_count,
        curve_divisor,
        queued_curve_divisor: match random.below(3) {
            0 => random.byte(),
            _ => 0,
        },
        floor_hold: random.below(4) == 0,
        readback: random.byte(),
    }
}

fn any_delay(random: &mut Random) -> u8 {
    random.pick(&[0, 0, 1, 1, 1, 2, 2, 3, 255])
}

/// A state that calls make: nothing is under way but the rate counter, all rates are 0.
fn settled(motion: u8, volume: u8, curve_divisor: u8) -> State {
    let high = motion != FALLING_TO_ZERO;
    State {
        volume,
        readback: volume,
        input: high,
        stage_a: high,
        stage_b: high,
        motion,
        requested_motion: motion,
        curve_divisor,
        ..Envelope::new().state()
    }
}

/// The clock on which a match is set, and the next, for each rate as attack, decay and release.
fn take_every_period(recorder: &mut Recorder) {
    for rate in 0..16 {
        let before = envelope_rate_period(rate) as u16 - 1;
        let starts = [
            [SetState(settled(RISING, 0x20, 1)), AttackDecay(rate << 4)],
            [
                SetState(settled(FALLING_TO_SUSTAIN, 0x20, 1)),
                AttackDecay(rate),
            ],
            [
                SetState(settled(FALLING_TO_ZERO, 0x20, 1)),
                SustainRelease(rate),
            ],
        ];
        for start in starts {
            recorder.make(&start);
            recorder.make(&[Clock(before), Clock(1), Clock(before), Clock(1)]);
        }
    }
}

/// The first step, the five levels that queue a divisor, and zero, each with the clock before.
fn fall_from_fresh(recorder: &mut Recorder) {
    let stops = [
        11, 12, 695, 696, 1398, 1399, 2406, 2407, 3270, 3271, 4422, 4423, 6042, 6043, 7000,
    ];
    recorder.make(&[New]);
    let mut clocks = 0;
    for stop in stops {
        recorder.make(&[Clock(stop - clocks)]);
        clocks = stop;
    }
}

/// The hold that falls between the write and the rise takes the new note with it, and the same
/// write again does not bring it back.
fn lose_the_gate_on(recorder: &mut Recorder) {
    for clocks in 6037..=6046 {
        recorder.make(&[New, Clock(clocks), Gate(true), Clock(1), Clock(1), Clock(1)]);
        recorder.make(&[Clock(20), Clock(3000), Gate(true), Clock(50)]);
    }
}

fn raise_the_gate_around_a_match(recorder: &mut Recorder) {
    for clocks in 0..=14 {
        recorder.make(&[New, AttackDecay(0x12), SustainRelease(0x43)]);
        recorder.make(&[Clock(clocks), Gate(true)]);
        recorder.make(&[Clock(1), Clock(1), Clock(1), Clock(1), Clock(40)]);
        recorder.make(&[Gate(false), Clock(1), Clock(1), Clock(1), Clock(100)]);
    }
}

/// Pulses from none to one that is seen as a rise: of a level on its way, and of a held 0, which
/// even the shortest frees to fall to 0xff.
fn pulse_the_gate(recorder: &mut Recorder) {
    for clocks in [0, 4, 6, 7, 8] {
        for width in 0..=3 {
            recorder.make(&[SetState(settled(FALLING_TO_ZERO, 0x40, 2)), Clock(clocks)]);
            recorder.make(&[Gate(true), Clock(width), Gate(false), Clock(2), Clock(10)]);
            recorder.make(&[New, Clock(7000 + clocks)]);
            recorder.make(&[Gate(true), Clock(width), Gate(false), Clock(20)]);
        }
    }
}

/// The gate falls on each clock around that on which the level reaches 0xff: seen on that very
/// clock, the fall is lost, and the level stays at the sustain level with the gate low.
fn drop_the_gate_at_the_top(recorder: &mut Recorder) {
    for clocks in 0..=26 {
        recorder.make(&[SetState(settled(RISING, 0xfd, 1)), SustainRelease(0xe1)]);
        recorder.make(&[
            Clock(clocks),
            Gate(false),
            Clock(1),
            Clock(1),
            Clock(2),
            Clock(1500),
        ]);
    }
}

/// To a sustain level, also to 0; then that level is put above and below the one reached.
fn fall_to_sustain(recorder: &mut Recorder) {
    for sustain in [0x00, 0x10, 0x20] {
        recorder.make(&[
            SetState(settled(FALLING_TO_SUSTAIN, 0x23, 4)),
            SustainRelease(sustain),
        ]);
        recorder.make(&[Clock(40), Clock(1), Clock(110), Clock(5000)]);
        recorder.make(&[
            SustainRelease(0x80),
            Clock(300),
            SustainRelease(0x00),
            Clock(5000),
        ]);
    }
}

/// A rise past a curve level leaves its divisor for the fall.
fn leave_a_divisor_behind(recorder: &mut Recorder) {
    for level in [0x06, 0x0e, 0x1a, 0x36, 0x5d] {
        for past in [1, 2, 19] {
            recorder.make(&[SetState(settled(RISING, level - 2, 30))]);
            recorder.make(&[Clock(9 * (past + 2)), Gate(false)]);
            recorder.make(&[Clock(4), Clock(300), Clock(300)]);
        }
    }
}

/// A target below the phase is met only after the counter has been through 0.
fn run_the_long_way_round(recorder: &mut Recorder) {
    for phase in [8, 9, 10, 5000, 31_000] {
        recorder.make(&[
            New,
            SustainRelease(0x0f),
            Clock(phase),
            SustainRelease(0x00),
        ]);
        recorder.make(&[
            Clock(32_766 - phase),
            Clock(1),
            Clock(1),
            Clock(6),
            Clock(1),
        ]);
        recorder.make(&[Clock(1), Clock(1), Clock(1), Clock(1)]);
    }
}

fn write_rates_in_mid_count(recorder: &mut Recorder) {
    for (rate, clocks, next) in [(1, 20, 2), (2, 31, 1), (2, 33, 1), (4, 8, 0), (4, 9, 0)] {
        recorder.make(&[New, AttackDecay(rate << 4 | 5), SustainRelease(0x70 | rate)]);
        recorder.make(&[Clock(clocks), SustainRelease(0x70 | next), Clock(70)]);
        recorder.make(&[
            Gate(true),
            Clock(clocks),
            AttackDecay(next << 4 | 5),
            Clock(70),
        ]);
        recorder.make(&[Clock(2500), AttackDecay(next << 4 | rate), Clock(clocks)]);
    }
}

/// The gate low for three clocks before a match, at 0xff: the level rises to 0, unless it is late.
fn restart_hard(recorder: &mut Recorder) {
    for clocks in [300, 306, 310, 311, 312] {
        recorder.make(&[SetState(settled(FALLING_TO_SUSTAIN, 0xff, 1))]);
        recorder.make(&[AttackDecay(0x77), SustainRelease(0xf7), Clock(clocks)]);
        recorder.make(&[Gate(false), Clock(3), Gate(true), Clock(15)]);
    }
}

fn reset_in_mid_flight(recorder: &mut Recorder) {
    for clocks in [1, 2, 3, 4, 11, 12, 13, 300, 2400] {
        recorder.make(&[New, AttackDecay(0x05), SustainRelease(0x85), Gate(true)]);
        recorder.make(&[Clock(clocks), Reset, Clock(1), Clock(2), Clock(50)]);
    }
    recorder.make(&[
        New,
        Clock(6043),
        Reset,
        Clock(1),
        Gate(true),
        Clock(30),
        Reset,
        Clock(30),
    ]);
}

fn call_at_random(recorder: &mut Recorder, random: &mut Random) {
    recorder.make(&[New]);
    for _ in 0..RANDOM_CALLS {
        let call = match random.below(12) {
            0 => AttackDecay(random.byte() & 0x77),
            1 => SustainRelease(random.byte() & 0xf7),
            2 | 3 => Gate(true),
            4 | 5 => Gate(false),
            6 | 7 => Clock(1),
            8 | 9 => Clock(random.below(12) as u16),
            _ => Clock(random.below(4000) as u16),
        };
        recorder.make(&[call]);
    }
}
