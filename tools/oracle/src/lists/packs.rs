//! The part of the list `sid` that plays over packs: calls on the whole chip, in order.

use super::sid::{control, lose_every_bit, select_all, voice};
use super::sid::{ALL_STAGES, FLOAT_WHOLE, LEAK_INTERVAL, TEST};
use crate::aim;
use crate::calls::Call::{Code, Lengths, New, Pack, Read, Reset, Run, Tick, Watch, Write};
use crate::calls::{Pace, Recorder, Rule};
use crate::random::Random;

const SEED: u64 = 45_056;
const AIMED_TICKS: u64 = 1_200;

/// The selections that have a block in a pack.
const SELECTIONS: [u8; 11] = [3, 5, 6, 7, 9, 10, 11, 12, 13, 14, 15];

pub fn play(recorder: &mut Recorder) {
    let mut random = Random::seeded(SEED);
    // The next clock is one that loses a bit; one that is refused does not.
    recorder.make(&[New, Write(0x1d, 0xff), Run(11)]);
    recorder.make(&[Lengths(u16::MAX), Lengths(0), Tick(1)]);
    for rule in [Rule::Ones, Rule::Scatter, Rule::Fill, Rule::Turn] {
        recorder.make(&[Pack(rule)]);
        play_over_it(recorder, &mut random);
        if let Rule::Scatter | Rule::Turn = rule {
            float_and_recover(recorder);
            lose_every_bit(recorder);
        }
    }
    // As it was filled, but for a block that no voice reads.
    recorder.make(&[Pack(Rule::Turn), Pack(Rule::Spoil)]);
    play_over_it(recorder, &mut random);
    recorder.play_over_pack(false);
}

fn play_over_it(recorder: &mut Recorder, random: &mut Random) {
    combine_everywhere(recorder, random);
    change_on_the_way(recorder, random);
    aim::calls(recorder, random, AIMED_TICKS, 1_000, aim::any_pace);
}

/// Each selection in each voice, with any ring and sync: codes, what feeds back onto phases, and
/// what it leaves of noise, which shows all its stages afterwards.
fn combine_everywhere(recorder: &mut Recorder, random: &mut Random) {
    for turn in 0..SELECTIONS.len() {
        recorder.make(&[New]);
        for number in 0..3 {
            let selection = SELECTIONS[(turn + 4 * number) % SELECTIONS.len()];
            let frequency = random.pick(&[0xf100, 0x3000, 0x0800]) + random.byte() as u16;
            let width = random.word() as u16 & 0x0fff;
            let flags = random.byte() & 0x06;
            recorder.make(&voice(number, frequency, width, 0, selection << 4 | flags));
        }
        recorder.make(&[Tick(150), Watch(0x1b, 60), Run(100), Tick(20)]);
        select_all(recorder, 0x80);
        recorder.make(&[Tick(ALL_STAGES)]);
    }
}

/// A code is captured, and shown while no waveform is selected; test is entered and left; another is
/// selected. Clocks are made by either engine.
fn change_on_the_way(recorder: &mut Recorder, random: &mut Random) {
    recorder.make(&[New]);
    for number in 0..3 {
        let frequency = 0xf100 + random.byte() as u16;
        recorder.make(&voice(number, frequency, 0x300 << number, 0, 0x80));
    }
    for (turn, selection) in SELECTIONS.into_iter().enumerate() {
        let number = turn % 3;
        let other = random.pick(&SELECTIONS);
        let controls = [
            selection << 4,
            random.byte() & 0x06,
            selection << 4 | TEST,
            random.pick(&[selection, other, 0x08]) << 4,
            0x80,
        ];
        for value in controls {
            recorder.make(&[control(number, value)]);
            recorder.play_over_pack(random.below(4) != 0);
            let clocks = random.pick(&[1, 2, 9, 30]);
            recorder.make(&[random.pick(&[Tick(clocks), Watch(0x1b, clocks), Run(clocks)])]);
        }
        recorder.make(&[Reset]);
    }
    recorder.play_over_pack(true);
}

/// In long runs a captured code floats to its end, and noise recovers in test from what a selection
/// has left of it.
fn float_and_recover(recorder: &mut Recorder) {
    recorder.make(&[New]);
    recorder.make(&voice(0, 0xf123, 0x400, 0, 0x30));
    recorder.make(&voice(1, 0xf345, 0x700, 0, 0xf0));
    recorder.make(&voice(2, 0xf567, 0x100, 0, 0x58));
    recorder.make(&[Tick(100), control(1, 0xd8), Tick(20), control(1, 0x88)]);
    recorder.clock_until(Pace::Tick, 300, |chip| chip.oscillators[0].last_sample != 0);
    recorder.make(&[control(0, 0x00), control(2, 0x50)]);
    recorder.make(&[Run(16 * LEAK_INTERVAL), control(1, 0x80), Tick(ALL_STAGES)]);
    let past = 16 * LEAK_INTERVAL + ALL_STAGES;
    recorder.make(&[
        Run(FLOAT_WHOLE - past),
        Code(0),
        Read(0x1b),
        Tick(2),
        Code(0),
    ]);
}
