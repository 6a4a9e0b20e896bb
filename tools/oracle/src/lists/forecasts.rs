//! The list `forecasts`: calls on the tail planner and on the chip that it is asked about, in order.
//! Records are described in `src/planner.rs`.

use super::envelope::{any_state, FALLING_TO_SUSTAIN, RISING};
use super::rises::{target, PHASES};
use super::sid::registers;
use crate::aim;
use crate::planner::Call::{Each, Forecast, Matches, New, Put, Reset, Run, RunToHeld, Write};
use crate::planner::{held_on, is_settled, Engine, Recorder, Release, DIVISORS};
use crate::random::Random;
use crate::sid::envelope::State;
use crate::sid::sid::Mos6581;

const SEED: u64 = 786;

pub const ENGINES: [Engine; 3] = [Engine::Plain, Engine::Filled, Engine::OneNumber];

/// Levels that queue a divisor on a fall.
const CURVE_LEVELS: [u8; 5] = [0x5d, 0x36, 0x1a, 0x0e, 0x06];

const NO_VOICES: [u8; 3] = [3, 4, 255];

/// What two voices do while the third is asked about: frequency, width, rates, control.
const OTHERS: [[(u16, u16, u16, u8); 2]; 3] = [
    // Saw with triangle, synchronised; noise.
    [(0x5432, 0x400, 0x0482, 0x33), (0xf123, 0x000, 0x2291, 0x81)],
    // Pulse with triangle, ringing and synchronised; pulse with saw, synchronised.
    [(0x9abc, 0x7ff, 0x1073, 0x57), (0x7654, 0x300, 0x0051, 0x63)],
    // Noise with pulse and saw; all four, synchronised.
    [(0xe001, 0x200, 0x00f3, 0xe1), (0x3210, 0x123, 0x0344, 0xf3)],
];

/// Ways to break one clause of document 01's 'Settled release', and no other but where the gate's
/// input and samples go together, or a divisor of 0 leaves no count below it.
pub const BREAKS: [fn(&mut State); 57] = [
    |s| s.input = true,
    |s| s.stage_a = true,
    |s| s.stage_b = true,
    |s| (s.input, s.stage_a) = (true, true),
    |s| (s.input, s.stage_b) = (true, true),
    |s| (s.stage_a, s.stage_b) = (true, true),
    |s| (s.input, s.stage_a, s.stage_b) = (true, true, true),
    |s| s.motion = RISING,
    |s| s.motion = FALLING_TO_SUSTAIN,
    |s| s.motion_delay = 1,
    |s| s.motion_delay = 2,
    |s| s.motion_delay = 3,
    |s| s.motion_delay = 255,
    |s| s.amplitude_delay = 1,
    |s| s.amplitude_delay = 2,
    |s| s.amplitude_delay = 255,
    |s| s.curve_delay = 1,
    |s| s.curve_delay = 2,
    |s| s.curve_delay = 255,
    |s| s.queued_curve_divisor = 1,
    |s| s.queued_curve_divisor = 2,
    |s| s.queued_curve_divisor = 30,
    |s| s.queued_curve_divisor = 255,
    |s| s.matched_rate = true,
    |s| s.floor_hold = true,
    |s| (s.volume, s.floor_hold) = (0, true),
    |s| s.rate_target_phase = s.rate_target_phase.wrapping_sub(1),
    |s| s.rate_target_phase = s.rate_target_phase.wrapping_add(1),
    |s| s.rate_target_phase |= 0x8000,
    |s| s.rate_target_phase = 0,
    |s| s.rate_target_phase = u16::MAX,
    |s| {
        s.decay_rate = other_rate(s);
        s.rate_target_phase = target(s.decay_rate);
    },
    |s| {
        s.rise_rate = other_rate(s);
        s.rate_target_phase = target(s.rise_rate);
    },
    |s| s.rate_phase = PHASES,
    |s| s.rate_phase = PHASES + 1,
    |s| s.rate_phase |= 0x8000,
    |s| s.rate_phase = u16::MAX,
    |s| divide_by(s, 0),
    |s| divide_by(s, 3),
    |s| divide_by(s, 5),
    |s| divide_by(s, 6),
    |s| divide_by(s, 7),
    |s| divide_by(s, 9),
    |s| divide_by(s, 10),
    |s| divide_by(s, 12),
    |s| divide_by(s, 15),
    |s| divide_by(s, 17),
    |s| divide_by(s, 29),
    |s| divide_by(s, 31),
    |s| divide_by(s, 32),
    |s| divide_by(s, 64),
    |s| divide_by(s, 128),
    |s| divide_by(s, 129),
    |s| divide_by(s, 158),
    |s| s.curve_count = s.curve_divisor,
    |s| s.curve_count = s.curve_divisor + 1,
    |s| s.curve_count = 255,
];

/// Another period's than that of the release.
fn other_rate(state: &State) -> u8 {
    state.fall_rate ^ 0x01
}

fn divide_by(state: &mut State, divisor: u8) {
    state.curve_divisor = divisor;
    state.curve_count = 0;
}

pub fn list() -> Vec<u8> {
    let mut recorder = Recorder::new();
    let mut random = Random::seeded(SEED);
    tell_the_table(&mut recorder);
    forecast_with_each_divisor(&mut recorder, &mut random);
    forecast_at_each_rate(&mut recorder, &mut random);
    forecast_long(&mut recorder, &mut random);
    count_a_rate_by_its_low_bits(&mut recorder, &mut random);
    break_each_clause(&mut recorder, &mut random);
    name_voices(&mut recorder, &mut random);
    follow_notes(&mut recorder);
    leave_a_divisor_behind(&mut recorder);
    free_a_held_zero(&mut recorder);
    run_the_long_way_round(&mut recorder);
    reset_on_the_way(&mut recorder);
    drop_the_gate_at_the_top(&mut recorder);
    stop_on_each_side(&mut recorder, &mut random);
    stop_late(&mut recorder, &mut random);
    stop_or_not(&mut recorder);
    stop_at_a_sustain_level_of_0(&mut recorder, &mut random);
    rise_before_the_last_match(&mut recorder, &mut random);
    leave_a_slow_rise(&mut recorder);
    stop_from_states_no_call_makes(&mut recorder, &mut random);
    recorder.records
}

fn release(level: u8, divisor: u8, count: u8, rate: u8, phase: u16) -> Release {
    Release {
        level,
        divisor,
        count,
        rate,
        phase,
    }
}

fn tell_the_table(recorder: &mut Recorder) {
    for level in 0..=255 {
        recorder.make(&[Matches(level)]);
    }
}

/// Every level with every divisor and every count below it: at the quickest rate from each phase, at
/// others from one of them by turns.
fn forecast_with_each_divisor(recorder: &mut Recorder, random: &mut Random) {
    for rate in [0, 1, 2] {
        for level in 0..=255 {
            let phases = phases_about(rate);
            let one = (usize::from(level) + usize::from(rate)) % phases.len();
            let phases = match rate {
                0 => &phases[..],
                _ => &phases[one..=one],
            };
            for &phase in phases {
                let state = release(level, 1, 0, rate, phase).state(random);
                recorder.make(&[Each(level % 3, state)]);
            }
        }
    }
}

/// Before the target, at it, one past it, and at either end of the orbit: from past the target the
/// phase runs round.
fn phases_about(rate: u8) -> [u16; 7] {
    let target = target(rate);
    [
        target / 2,
        target - 1,
        target,
        target + 1,
        PHASES / 2 + target / 2,
        PHASES - 1,
        0,
    ]
}

/// Few matches are left: of the last step, with each divisor, and of the steps to a level that queues
/// another and from it on.
fn forecast_at_each_rate(recorder: &mut Recorder, random: &mut Random) {
    for rate in 0..16 {
        for (turn, phase) in phases_about(rate).into_iter().enumerate() {
            let divisor = DIVISORS[(turn + usize::from(rate)) % DIVISORS.len()];
            for (level, divisor, count) in [
                (0x01, 1, 0),
                (0x01, divisor, divisor - 1),
                (0x02, 1, 0),
                (0x02, 30, 28),
                (0x06, 1, 0),
                (0x07, divisor, divisor / 2),
            ] {
                let state = release(level, divisor, count, rate, phase).state(random);
                recorder.make(&[Put((turn % 3) as u8, state)]);
            }
        }
    }
}

/// From the phase that waits longest: no release is longer than the last of these.
fn forecast_long(recorder: &mut Recorder, random: &mut Random) {
    for rate in [9, 12, 14, 15] {
        for (level, divisor) in [(0x5d, 2), (0x5e, 30), (0x00, 1), (0x00, 30), (0xff, 30)] {
            let state = release(level, divisor, 0, rate, target(rate) + 1).state(random);
            recorder.make(&[Put(2, state)]);
        }
    }
}

/// In states no call makes a rate has more bits. With the target of the slowest, for which it might be
/// taken, the release is settled only if the low bits are that rate's.
fn count_a_rate_by_its_low_bits(recorder: &mut Recorder, random: &mut Random) {
    for low in 0..16 {
        for high in [0x10, 0x70, 0x80, 0xf0] {
            let release = release(1 + low % 2, 4, low % 4, high | low, target(low) / 3);
            let state = release.state(random);
            let slowest = State {
                rate_target_phase: target(15),
                ..state
            };
            recorder.make(&[Put(low % 3, state), Put(low % 3, slowest)]);
        }
    }
}

fn break_each_clause(recorder: &mut Recorder, random: &mut Random) {
    let releases = [
        release(0x80, 1, 0, 0, 0),
        release(0x05, 30, 7, 3, 20),
        release(0x00, 1, 0, 1, 31),
        release(0x5e, 2, 1, 2, PHASES - 1),
        release(0xff, 16, 15, 0, 7),
        release(0x36, 8, 0, 15, 31_250),
    ];
    for (turn, release) in releases.into_iter().enumerate() {
        let voice = (turn % 3) as u8;
        let state = release.state(random);
        recorder.make(&[Put(voice, state)]);
        for break_it in BREAKS {
            let mut broken = state;
            break_it(&mut broken);
            assert!(!is_settled(&broken));
            recorder.make(&[Put(voice, broken)]);
        }
    }
}

/// Three voices that differ, each by its number; numbers above 2 are refused before the voices are
/// looked at, settled or not, and leave the chip as it was.
fn name_voices(recorder: &mut Recorder, random: &mut Random) {
    let mut releases = [
        release(0x09, 16, 1, 0, 5),
        release(0x03, 30, 1, 0, 5),
        release(0x40, 4, 1, 0, 5),
    ];
    for broken in [
        [false; 3],
        [true, false, true],
        [false, true, false],
        [true; 3],
    ] {
        begin(recorder, 0, 0);
        for voice in 0..3 {
            let state = State {
                stage_b: broken[voice],
                ..releases[voice].state(random)
            };
            recorder.make(&[Put(voice as u8, state)]);
        }
        for number in [0, 1, 2].into_iter().chain(NO_VOICES) {
            recorder.make(&[Forecast(number)]);
        }
        for (number, engine) in NO_VOICES.into_iter().zip(ENGINES) {
            recorder.make(&[RunToHeld(engine, number, 100), RunToHeld(engine, number, 0)]);
            recorder.make(&[Forecast(number), Run(1)]);
        }
        releases.rotate_left(1);
    }
}

/// A fresh chip whose other voices sound.
fn begin(recorder: &mut Recorder, voice: usize, set: usize) {
    recorder.make(&[New]);
    for (other, (frequency, width, rates, control)) in (1..).zip(OTHERS[set]) {
        let number = (voice + other) % 3;
        write_all(recorder, number, frequency, width, rates, control);
    }
}

fn write_all(
    recorder: &mut Recorder,
    number: usize,
    frequency: u16,
    width: u16,
    rates: u16,
    control: u8,
) {
    let writes = registers(number, frequency, width, rates, control);
    recorder.make(&writes.map(|(address, value)| Write(address, value)));
}

/// The other bits of the register stay.
fn set_gate(recorder: &mut Recorder, voice: usize, high: bool) {
    let control = aim::control(&recorder.chip, voice) & 0xfe | u8::from(high);
    recorder.make(&[Write(7 * voice as u16 + 4, control)]);
}

fn state(chip: &Mos6581, voice: usize) -> State {
    chip.envelopes[voice].state()
}

/// A forecast before each of so many clocks.
fn watch(recorder: &mut Recorder, voice: usize, clocks: u32) {
    for _ in 0..clocks {
        recorder.make(&[Forecast(voice as u8), Run(1)]);
    }
}

fn run_to_level(recorder: &mut Recorder, voice: usize, level: u8) {
    recorder.run_until(100_000, |chip| chip.envelopes[voice].volume == level);
}

/// A note from its start to its end in each voice: what can be forecast of it, and on which clocks.
fn follow_notes(recorder: &mut Recorder) {
    for (turn, rates) in [0x0080, 0x00f1, 0x1062, 0x0030, 0x0190, 0x0001]
        .into_iter()
        .enumerate()
    {
        let (voice, set) = (turn % 3, (turn + turn / 3) % 3);
        begin(recorder, voice, set);
        watch(recorder, voice, 13);
        write_all(recorder, voice, 0x2345, 0x678, rates, 0x15);
        watch(recorder, voice, 5);
        run_to_level(recorder, voice, 0xff);
        watch(recorder, voice, 5);
        let sustain = state(&recorder.chip, voice).hold_level;
        run_to_level(recorder, voice, sustain.max(0x33));
        watch(recorder, voice, 2);
        set_gate(recorder, voice, false);
        watch(recorder, voice, 12);
        for level in CURVE_LEVELS {
            if recorder.chip.envelopes[voice].volume > level {
                run_to_level(recorder, voice, level);
                watch(recorder, voice, 3);
            }
        }
        recorder.run_until(100_000, |chip| state(chip, voice).matched_rate);
        watch(recorder, voice, 10);
        let number = voice as u8;
        recorder.make(&[RunToHeld(ENGINES[set], number, 100_000), Forecast(number)]);
        recorder.make(&[Run(200), RunToHeld(ENGINES[voice], number, 100), Run(20)]);
    }
}

/// From a held zero, a rise past each level that queues a divisor: the fall begins with what it has
/// left, one step on, two, or as many as lie between 0x5d and 0x70.
fn leave_a_divisor_behind(recorder: &mut Recorder) {
    for (turn, level) in CURVE_LEVELS.into_iter().enumerate() {
        for (set, past) in [1, 2, 0x13].into_iter().enumerate() {
            let voice = (turn + set) % 3;
            begin(recorder, voice, set);
            recorder.make(&[RunToHeld(Engine::Plain, voice as u8, 7_000)]);
            write_all(recorder, voice, 0x4567, 0x200, 0x0040, 0x27);
            run_to_level(recorder, voice, level + past);
            set_gate(recorder, voice, false);
            watch(recorder, voice, 5);
            let clocks = release_clocks(recorder, voice);
            recorder.make(&[RunToHeld(ENGINES[set], voice as u8, clocks - 1)]);
            recorder.make(&[RunToHeld(ENGINES[set], voice as u8, 1)]);
        }
    }
}

/// To where the release of a voice is settled, and the clocks from there to its end.
fn release_clocks(recorder: &mut Recorder, voice: usize) -> u32 {
    recorder.run_until(1_000, |chip| is_settled(&state(chip, voice)));
    held_on(state(&recorder.chip, voice))
}

/// A pulse of the gate, even one that no sample sees, frees a held zero, and the voice falls from 0xff
/// again.
fn free_a_held_zero(recorder: &mut Recorder) {
    for width in 0..5 {
        let voice = width as usize % 3;
        begin(recorder, voice, voice);
        recorder.make(&[Run(6_050 + width), Forecast(voice as u8)]);
        set_gate(recorder, voice, true);
        watch(recorder, voice, width);
        set_gate(recorder, voice, false);
        watch(recorder, voice, 6);
        let clocks = release_clocks(recorder, voice);
        recorder.make(&[RunToHeld(ENGINES[voice], voice as u8, clocks - 1)]);
        watch(recorder, voice, 2);
        recorder.make(&[RunToHeld(ENGINES[voice], voice as u8, 9)]);
    }
}

/// The release rate is written anew: its match lies before the phase, which runs round.
fn run_the_long_way_round(recorder: &mut Recorder) {
    for (turn, (slow, clocks, quick)) in
        [(0x0f, 9, 0x00), (0x0e, 5_000, 0x01), (0x0f, 31_249, 0x80)]
            .into_iter()
            .enumerate()
    {
        let (voice, number) = (turn, turn as u8);
        let address = 7 * voice as u16 + 6;
        begin(recorder, voice, turn);
        recorder.make(&[Write(address, slow), Forecast(number), Run(clocks)]);
        watch(recorder, voice, 1);
        recorder.make(&[Write(address, quick)]);
        watch(recorder, voice, 2);
        recorder.make(&[Write(address, slow), Forecast(number)]);
        recorder.make(&[Write(address, quick)]);
        let clocks = release_clocks(recorder, voice);
        recorder.make(&[RunToHeld(ENGINES[turn], number, clocks - 1)]);
        recorder.make(&[RunToHeld(ENGINES[turn], number, 2)]);
    }
}

/// A reset leaves divisor 1 at any level, and the phase where it was; it holds a zero.
fn reset_on_the_way(recorder: &mut Recorder) {
    for (turn, level) in [0x70, 0x2f, 0x07, 0x06, 0x03, 0x01, 0x00]
        .into_iter()
        .enumerate()
    {
        let (voice, number) = (turn % 3, (turn % 3) as u8);
        begin(recorder, voice, turn / 3);
        recorder.make(&[Write(7 * voice as u16 + 6, (turn % 2) as u8)]);
        run_to_level(recorder, voice, level);
        recorder.make(&[Run(turn as u32), Forecast(number), Reset]);
        watch(recorder, voice, 2);
        recorder.make(&[
            RunToHeld(ENGINES[voice], number, u32::MAX),
            Forecast(number),
        ]);
    }
}

/// Seen on the very clock of the top, the fall is lost: the gate is low, and the voice never free.
fn drop_the_gate_at_the_top(recorder: &mut Recorder) {
    for clocks in 0..10 {
        let voice = clocks as usize % 3;
        recorder.make(&[New]);
        write_all(recorder, voice, 0x1111, 0x800, 0x0080, 0x41);
        run_to_level(recorder, voice, 0xfe);
        recorder.make(&[Run(clocks)]);
        set_gate(recorder, voice, false);
        recorder.make(&[Run(14), Forecast(voice as u8)]);
        recorder.make(&[RunToHeld(Engine::Plain, voice as u8, 7_500)]);
        watch(recorder, voice, 1);
    }
}

/// At most none, one, as many clocks as lead to the hold, one fewer or one more, and numbers that are
/// 0 in fewer bits. Then one more, which stops where the first fell one short.
fn stop_on_each_side(recorder: &mut Recorder, random: &mut Random) {
    let releases = [
        release(0x01, 1, 0, 0, 8),
        release(0x01, 30, 3, 0, 7),
        release(0x07, 2, 1, 0, 0),
        release(0x12, 4, 3, 1, 40),
        release(0x00, 2, 0, 0, 3),
        release(0x60, 8, 5, 0, PHASES - 1),
    ];
    for (turn, release) in releases.into_iter().enumerate() {
        for (set, engine) in ENGINES.into_iter().enumerate() {
            let voice = (turn + set) % 3;
            begin(recorder, voice, (set + turn / 3) % 3);
            write_all(recorder, voice, 0x3579, 0x555, 0x0f0f, 0x32);
            recorder.make(&[Run(150)]);
            let state = release.state(random);
            let clocks = held_on(state);
            let around = [clocks - 1, clocks, clocks + 1];
            for most in [0, 1, 1 << 16, 1 << 31].into_iter().chain(around) {
                let number = voice as u8;
                recorder.make(&[Put(number, state), RunToHeld(engine, number, most)]);
                recorder.make(&[RunToHeld(engine, number, 1), Run(7)]);
            }
        }
    }
    // Held above zero, as no call makes it; zero, and not held.
    for (volume, floor_hold) in [(0x40, true), (0x00, true), (0x00, false)] {
        let state = State {
            volume,
            floor_hold,
            ..state(&recorder.chip, 1)
        };
        recorder.make(&[Put(1, state), RunToHeld(Engine::Filled, 1, 30)]);
    }
}

/// More clocks than 16 bits count: to the hold, and short of it.
fn stop_late(recorder: &mut Recorder, random: &mut Random) {
    begin(recorder, 1, 1);
    let state = release(0xff, 1, 0, 3, 0).state(random);
    recorder.make(&[Put(1, state), RunToHeld(Engine::Filled, 1, u32::MAX)]);
    recorder.make(&[Put(1, state), RunToHeld(Engine::Plain, 1, 70_000)]);
    recorder.make(&[Forecast(1), Run(1)]);
}

/// Not in release, and held all the same or never; others that are held first stop nothing.
fn stop_or_not(recorder: &mut Recorder) {
    for (set, engine) in ENGINES.into_iter().enumerate() {
        let (voice, other) = (set, (set + 1) % 3);
        begin(recorder, voice, set);
        // A gate that stays high: down to a sustain level of 0, or to another.
        write_all(recorder, voice, 0x1234, 0x123, 0x0000, 0x13);
        write_all(recorder, other, 0x4321, 0x321, 0x0070, 0x25);
        recorder.make(&[Run(900), RunToHeld(engine, other as u8, 7_000)]);
        recorder.make(&[RunToHeld(engine, voice as u8, 9_000), Forecast(voice as u8)]);
        // From the write that ends a note on, before any clock has seen it.
        set_gate(recorder, other, false);
        recorder.make(&[RunToHeld(engine, other as u8, 300)]);
        recorder.make(&[RunToHeld(engine, other as u8, 9_000), Forecast(other as u8)]);
        // A gate-on frees it, and a run of it goes on.
        set_gate(recorder, voice, false);
        recorder.make(&[RunToHeld(engine, voice as u8, 5)]);
        set_gate(recorder, voice, true);
        recorder.make(&[RunToHeld(engine, voice as u8, 400), Run(100)]);
    }
}

/// Down to a sustain level of 0 a voice is held without a release; from each phase, on each side of
/// the hold.
fn stop_at_a_sustain_level_of_0(recorder: &mut Recorder, random: &mut Random) {
    for (turn, phase) in phases_about(1).into_iter().enumerate() {
        let level = 1 + turn as u8 % 3;
        let release = release(level, DIVISORS[turn % 3], 0, 1, phase).state(random);
        let high = turn % 2 == 0;
        let state = State {
            decay_rate: 1,
            hold_level: 0,
            input: high,
            stage_a: high,
            stage_b: high,
            motion: FALLING_TO_SUSTAIN,
            ..release
        };
        let clocks = held_on(state);
        let (voice, engine) = ((turn % 3) as u8, ENGINES[turn / 3 % 3]);
        for most in [clocks - 1, clocks, clocks + 1, clocks / 2] {
            recorder.make(&[Put(voice, state), RunToHeld(engine, voice, most)]);
            recorder.make(&[RunToHeld(engine, voice, 1), Run(3)]);
        }
    }
}

/// A gate-on has been written, sampled once, twice, or has its rise on the way: if that comes before
/// the last match of the release, the voice is not held.
fn rise_before_the_last_match(recorder: &mut Recorder, random: &mut Random) {
    let gates = [
        (true, false, false, 0),
        (true, true, false, 0),
        (true, true, true, 2),
        (true, true, true, 1),
    ];
    for clocks in [0, 1, 2, 3, 4, 30] {
        for (turn, (input, stage_a, stage_b, motion_delay)) in gates.into_iter().enumerate() {
            let state = State {
                rise_rate: 15,
                decay_rate: 2,
                input,
                stage_a,
                stage_b,
                requested_motion: RISING,
                motion_delay,
                ..release(1, 1, 0, 2, target(2) - clocks).state(random)
            };
            let (voice, engine) = ((turn % 3) as u8, ENGINES[turn % 3]);
            recorder.make(&[Put(voice, state), RunToHeld(engine, voice, 200)]);
        }
    }
}

/// A quick release ends a slow rise soon after a match, and a quick decay does at the top: the match
/// that comes next is not that of the attack, from each of the clocks that lead to the fall.
fn leave_a_slow_rise(recorder: &mut Recorder) {
    for clocks in 0..6 {
        let voice = clocks as usize % 3;
        begin(recorder, voice, voice);
        recorder.make(&[RunToHeld(Engine::Plain, voice as u8, 7_000)]);
        write_all(recorder, voice, 0x2222, 0x333, 0x80f0, 0x51);
        run_to_level(recorder, voice, 2);
        recorder.run_until(1_000, |chip| state(chip, voice).rate_phase == 4);
        set_gate(recorder, voice, false);
        recorder.make(&[Run(clocks), Forecast(voice as u8)]);
        recorder.make(&[RunToHeld(ENGINES[voice], voice as u8, 3_000)]);
    }
    for clocks in 0..5 {
        let voice = clocks as usize % 3;
        begin(recorder, voice, voice);
        write_all(recorder, voice, 0x2222, 0x333, 0x1000, 0x51);
        run_to_level(recorder, voice, 0xff);
        recorder.make(&[Run(clocks), RunToHeld(ENGINES[voice], voice as u8, 9_000)]);
    }
}

/// Phases that count up to 65535, targets that no phase comes to, or that come again soon; then any
/// state.
fn stop_from_states_no_call_makes(recorder: &mut Recorder, random: &mut Random) {
    begin(recorder, 2, 2);
    let mut turns = (0..3).cycle();
    let mut stop = |recorder: &mut Recorder, state: State, most: u32| {
        let turn = turns.next().expect("it has no end");
        recorder.make(&[
            Put(turn, state),
            RunToHeld(ENGINES[usize::from(turn)], turn, most),
        ]);
        recorder.make(&[Run(5)]);
    };
    for rate_target_phase in [0, 1, 7, 8, PHASES - 1, PHASES, PHASES + 1, u16::MAX] {
        let beside = rate_target_phase.wrapping_sub(3);
        for rate_phase in [0, 9, beside, rate_target_phase, PHASES - 1, PHASES, 65_530] {
            let state = State {
                rate_phase,
                rate_target_phase,
                ..release(1, 1, 0, 0, 0).state(random)
            };
            stop(recorder, state, 40_000);
        }
    }
    for most in [12, 300, 34_000] {
        for _ in 0..25 {
            stop(recorder, any_state(random), most);
        }
    }
}
