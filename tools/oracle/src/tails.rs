//! Calls on the tail planner by the seed: settled states, states that are not, and chips that calls
//! have brought to where they are.

use crate::aim;
use crate::lists::{self, BREAKS, ENGINES, PHASES};
use crate::planner::{held_on, is_settled, Call, Recorder, Release, DIVISORS};
use crate::random::Random;
use crate::sid::envelope::State;

/// Of a seed.
const SETTLED: u32 = 64;
const UNSETTLED: u32 = 16;
const NOTES: u32 = 3;

/// From here on a release that calls have made takes too long to be clocked to its end.
const FIRST_SLOW_RATE: u8 = 4;
/// Of a run to a hold.
const MOST_CLOCKS: u32 = 12_000;

/// Levels that queue a divisor, and those beside them.
const LEVELS: [u8; 20] = [
    0x00, 0x01, 0x02, 0x05, 0x06, 0x07, 0x0d, 0x0e, 0x0f, 0x19, 0x1a, 0x1b, 0x35, 0x36, 0x37, 0x5c,
    0x5d, 0x5e, 0xfe, 0xff,
];

/// Calls of a seed; about one in four plays notes.
pub fn seeded_calls(recorder: &mut Recorder, seed: u64) {
    let mut random = Random::seeded(seed);
    recorder.make(&[Call::New]);
    for _ in 0..SETTLED {
        let state = settled(&mut random);
        recorder.make(&[Call::Put(random.below(3) as u8, state)]);
    }
    run_to_held(recorder, random.below(3) as usize, &mut random);
    for _ in 0..UNSETTLED {
        let state = unsettled(&mut random);
        recorder.make(&[Call::Put(random.below(3) as u8, state)]);
        recorder.make(&[Call::Forecast(any_voice(&mut random))]);
    }
    run_unsettled(recorder, &mut random);
    if random.below(4) == 0 {
        play(recorder, &mut random);
    }
}

fn settled(random: &mut Random) -> State {
    let divisor = random.pick(&DIVISORS);
    let count = random.below(divisor.into()) as u8;
    let level = match random.below(4) {
        0 => random.pick(&LEVELS),
        _ => random.byte(),
    };
    let (level, count, rate) = match random.below(32) {
        // A slow one has few matches left.
        0 => (1, divisor - 1 - count.min(divisor / 15), random.byte()),
        1..=3 => (level, count, random.below(4) as u8),
        4..=7 => (level, count, 1),
        _ => (level, count, 0),
    };
    let release = Release {
        level,
        divisor,
        count,
        rate,
        phase: phase(rate, random),
    };
    release.state(random)
}

/// Near the target or an end three times out of four.
fn phase(rate: u8, random: &mut Random) -> u16 {
    let target = lists::target(rate);
    match random.below(8) {
        0 => random.pick(&[0, 1, PHASES - 2, PHASES - 1]),
        1..=3 => target - random.below(u32::from(target.min(300)) + 1) as u16,
        4 => target + 1 + random.below(3) as u16,
        5 => target,
        _ => random.below(PHASES.into()) as u16,
    }
}

/// With one clause broken or more; seldom, the ways mend each other.
fn unsettled(random: &mut Random) -> State {
    let mut state = settled(random);
    for _ in 0..random.pick(&[1, 1, 1, 2, 3]) {
        random.pick(&BREAKS)(&mut state);
    }
    state
}

/// A run from such a state, or from any.
fn run_unsettled(recorder: &mut Recorder, random: &mut Random) {
    let state = match random.below(2) {
        0 => unsettled(random),
        _ => lists::any_state(random),
    };
    let (voice, engine) = (random.below(3) as u8, random.pick(&ENGINES));
    let most = random.pick(&[0, 40, 2_000, 35_000]);
    recorder.make(&[
        Call::Put(voice, state),
        Call::RunToHeld(engine, voice, most),
    ]);
}

/// One in sixteen is none.
fn any_voice(random: &mut Random) -> u8 {
    match random.below(16) {
        0 => 3 + random.below(253) as u8,
        _ => random.below(3) as u8,
    }
}

/// Notes of a voice on a chip whose other voices do anything.
fn play(recorder: &mut Recorder, random: &mut Random) {
    recorder.make(&[Call::New]);
    for _ in 0..random.below(40) {
        let voice = random.below(3) as usize;
        write_any(recorder, voice, random);
    }
    for _ in 0..NOTES {
        let voice = random.below(3) as usize;
        play_note(recorder, voice, random);
    }
}

fn write_any(recorder: &mut Recorder, voice: usize, random: &mut Random) {
    let (address, value) = aim::write(&recorder.chip, voice, random);
    recorder.make(&[Call::Write(address, value)]);
}

fn play_note(recorder: &mut Recorder, voice: usize, random: &mut Random) {
    let base = 7 * voice as u16;
    let control = aim::control(&recorder.chip, voice);
    recorder.make(&[
        Call::Write(base + 5, random.pick(&[0x00, 0x00, 0x01, 0x10])),
        Call::Write(
            base + 6,
            random.byte() & 0xf0 | random.pick(&[0, 0, 0, 1, 2]),
        ),
        Call::Write(base + 4, control | 0x01),
    ]);
    meet(recorder, voice, random);
    let control = aim::control(&recorder.chip, voice);
    recorder.make(&[Call::Write(base + 4, control & 0xfe)]);
    for _ in 0..4 {
        meet(recorder, voice, random);
        match random.below(32) {
            0 => recorder.make(&[Call::Reset]),
            1..=8 => write_any(recorder, (voice + 1) % 3, random),
            _ => {}
        }
    }
    run_to_held(recorder, voice, random);
}

/// A wait for something under way, a forecast after it, and one on the next clock.
fn meet(recorder: &mut Recorder, voice: usize, random: &mut Random) {
    let most = random.pick(&[4, 40, 1_500]);
    recorder.run_until(most, aim::edge(voice, random));
    for _ in 0..2 {
        let state = recorder.chip.envelopes[voice].state();
        if !is_settled(&state) || state.fall_rate < FIRST_SLOW_RATE {
            recorder.make(&[Call::Forecast(voice as u8)]);
        }
        recorder.make(&[Call::Run(random.below(3))]);
    }
}

/// To the hold, one clock short of it or past it; no further than `MOST_CLOCKS`. Then a few more.
fn run_to_held(recorder: &mut Recorder, voice: usize, random: &mut Random) {
    let state = recorder.chip.envelopes[voice].state();
    let most = match is_settled(&state) && state.fall_rate < FIRST_SLOW_RATE {
        true => held_on(state).saturating_sub(2) + random.below(4),
        false => random.below(3_000),
    };
    let voice = voice as u8;
    let engine = random.pick(&ENGINES);
    recorder.make(&[Call::RunToHeld(engine, voice, most.min(MOST_CLOCKS))]);
    recorder.make(&[Call::RunToHeld(random.pick(&ENGINES), any_voice(random), 3)]);
    recorder.make(&[Call::Forecast(voice), Call::Run(random.below(60))]);
}
