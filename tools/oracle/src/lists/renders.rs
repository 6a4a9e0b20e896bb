//! The part of the list `sid` that renders: calls on the whole chip, in order.

use super::sid::{control, drain_all_stages, fill_noise, select_all, voice, ALL_STAGES, TEST};
use super::sid::{run_to_leak_of_lines, run_to_leak_of_noise};
use crate::aim;
use crate::calls::Call::{
    Code, Level, New, Pack, Read, Render, RenderOver, Reset, Run, Tick, Watch, Write,
};
use crate::calls::{Call, Pace, Recorder, Rule, PACK_LENGTH};
use crate::random::Random;
use crate::sid::constants::DATA_BUS_HOLD_CYCLES as HOLDS;

const SEED: u64 = 45_056 * 6;
const AIMED_ROUNDS: u32 = 3;
const AIMED_TICKS: u64 = 1_200;

const WHOLE: u16 = PACK_LENGTH as u16;
/// Entries of a block of the pack.
const BLOCK: u16 = 4_096;
/// Lengths that `render` refuses.
const WRONG: [u16; 6] = [0, 1, BLOCK, 5 * BLOCK, WHOLE - BLOCK, WHOLE - 1];

/// A way to render so many entries.
type Way = fn(u32) -> Call;

/// Over none of the pack, over all of it, and over a part that ends within a block.
const WAYS: [Way; 4] = [
    |entries| RenderOver(0, entries),
    |entries| Render(WHOLE, entries),
    |entries| RenderOver(WHOLE, entries),
    |entries| RenderOver(BLOCK + 1_234, entries),
];

pub fn play(recorder: &mut Recorder) {
    let mut random = Random::seeded(SEED);
    for rule in [Rule::Ones, Rule::Fill, Rule::Scatter] {
        recorder.make(&[Pack(rule)]);
        leave_every_remainder(recorder);
        be_refused(recorder, &mut random);
        select_everywhere(recorder, &mut random);
        for packed in [false, true] {
            recorder.play_over_pack(packed);
            for _ in 0..AIMED_ROUNDS {
                let paces = aim::any_pace_or_render;
                aim::calls(recorder, &mut random, AIMED_TICKS, 1_000, paces);
            }
        }
    }
    turn_each_bit(recorder, &mut random);
    play_notes(recorder, &mut random);
    shift_and_drain(recorder, &mut random);
    pull_in_the_aperture(recorder, &mut random);
    compare_unheard(recorder);
    leak_within(recorder);
    fade_within(recorder);
    cut_within_each_block(recorder, &mut random);
    fill_the_longest(recorder);
    recorder.play_over_pack(false);
}

/// Three voices with codes and levels that differ, and move soon.
fn sound(recorder: &mut Recorder, selections: [u8; 3]) {
    recorder.make(&[New]);
    for (number, selection) in selections.into_iter().enumerate() {
        let frequency = 0x71b3 - 0x1234 * number as u16;
        let control = selection << 4 | 1;
        recorder.make(&voice(number, frequency, 0x654, 0x0040, control));
        recorder.make(&[Tick(250)]);
    }
}

/// Buffers of every length from none to seven clocks, one directly after the other.
fn leave_every_remainder(recorder: &mut Recorder) {
    for way in WAYS {
        sound(recorder, [2, 5, 6]);
        for entries in 0..48 {
            recorder.make(&[way(entries)]);
        }
        recorder.make(&[Read(0x1b), Read(0x1c), Tick(3)]);
    }
}

/// Refused in mid-flight, with any remainder: the buffer and the chip stay as they were.
fn be_refused(recorder: &mut Recorder, random: &mut Random) {
    sound(recorder, [3, 2, 7]);
    for lent in WRONG {
        for past in 0..6 {
            recorder.make(&[Render(lent, 6 * random.below(5) + past)]);
        }
        recorder.make(&[random.pick(&WAYS)(random.below(30)), Tick(1)]);
    }
    // On the clock of a write, of a gate and of a loss.
    recorder.make(&[Write(0x1d, 0xff), Run(11), Render(0, 12), Read(0x1d)]);
    recorder.make(&[
        Tick(1),
        Read(0x1d),
        control(1, 0x20),
        Render(1, 66),
        Tick(12),
    ]);
}

/// Each selection in each voice, rendered as soon as it is written, in every way.
fn select_everywhere(recorder: &mut Recorder, random: &mut Random) {
    for way in WAYS {
        recorder.make(&[New]);
        for number in 0..3 {
            let frequency = 0xe100 - 0x2300 * number as u16 + random.byte() as u16;
            let width = random.word() as u16 & 0x0fff;
            recorder.make(&voice(number, frequency, width, 0x0080, 0x11));
        }
        recorder.make(&[Tick(40)]);
        for turn in 0..16u8 {
            for number in 0..3usize {
                let selection = (turn * [7, 11, 5][number] + 4 * number as u8) % 16;
                let flags = random.byte() & 0x07;
                recorder.make(&[control(number, selection << 4 | flags)]);
                recorder.make(&[way(6 * random.pick(&[1, 2, 3, 20]) + random.below(6))]);
            }
            if turn % 5 == 4 {
                select_all(recorder, 0x80);
                recorder.make(&[way(6 * 60 + random.below(6))]);
            }
        }
    }
}

/// Each bit of a control register is turned and turned back just before the mark of the voice before
/// rises, and rendered at once.
fn turn_each_bit(recorder: &mut Recorder, random: &mut Random) {
    for way in [WAYS[0], WAYS[1]] {
        for number in 0..3usize {
            sound(recorder, [1, 1, 1]);
            for bit in 0..8 {
                let value = random.pick(&[0x11, 0x17, 0x31]);
                recorder.make(&[control(number, value)]);
                for turned in [value ^ (1 << bit), value] {
                    recorder.clock_until(Pace::Run, 600, |chip| {
                        aim::rises(&chip.oscillators[(number + 2) % 3], aim::BIT_23)
                    });
                    recorder.make(&[control(number, turned), way(6 * 2 + random.below(6))]);
                    recorder.make(&[way(6 * 11 + random.below(6)), Code(number as u8)]);
                }
            }
        }
    }
}

/// A gate goes up and down at each phase of a match; levels are rendered clock by clock, in short
/// buffers and in long ones.
fn play_notes(recorder: &mut Recorder, random: &mut Random) {
    for late in 0..9 {
        let number = random.below(3) as usize;
        let way = random.pick(&WAYS);
        recorder.make(&[New, Run(6_100 + late)]);
        recorder.make(&voice(number, 0x2345, 0x800, 0x0050, 0x41));
        for clocks in [1, 1, 1, 1, 2, 3, 5, 9, 10, 30] {
            recorder.make(&[way(6 * clocks + random.below(6))]);
        }
        recorder.make(&[control(number, 0x40), way(6 * 40), Level(number as u8)]);
        recorder.make(&[control(number, 0x41), way(6 * 770 + late), Read(0x1c)]);
        recorder.make(&[way(6 * 60), control(number, 0x40), way(6 * 50)]);
        // A pulse of one clock, a reset and a chip anew.
        recorder.make(&[
            control(number, 0x41),
            way(6),
            control(number, 0x40),
            way(84),
        ]);
        recorder.make(&[Reset, way(6 * 3), Read(0x1b), Watch(0x1c, 5)]);
    }
}

/// A shift is under way as a buffer begins or ends, or stages lose charge in test within one; then
/// test shows what charge they have.
fn shift_and_drain(recorder: &mut Recorder, random: &mut Random) {
    for number in 0..3 {
        for clocks in 1..4 {
            let way = WAYS[clocks as usize % 2];
            fill_noise(recorder, number, random);
            recorder.clock_until(Pace::Tick, 40, |chip| {
                aim::rises(&chip.oscillators[number], aim::BIT_19)
            });
            recorder.make(&[way(6 * clocks), Tick(3), control(number, 0x88), way(6)]);
            recorder.make(&[control(number, 0x80), way(6 * ALL_STAGES)]);
        }
        for clocks in 9..13 {
            let way = WAYS[clocks as usize % 2];
            fill_noise(recorder, number, random);
            recorder.make(&[control(number, 0xd8), way(6 * clocks)]);
            recorder.make(&[control(number, 0x80), way(6 * ALL_STAGES)]);
        }
    }
}

/// Pulse with noise pulls the stages down in the aperture of a shift alone: a buffer begins, ends or
/// lies within it; then noise shows the stages.
fn pull_in_the_aperture(recorder: &mut Recorder, random: &mut Random) {
    for number in 0..3 {
        for clocks in 1..5 {
            let way = WAYS[clocks as usize % 2];
            fill_noise(recorder, number, random);
            recorder.make(&[control(number, 0xc0)]);
            recorder.clock_until(Pace::Tick, 40, |chip| {
                aim::rises(&chip.oscillators[number], aim::BIT_19)
            });
            recorder.make(&[way(6 * clocks), way(6)]);
            recorder.make(&[control(number, 0x80), way(6 * ALL_STAGES)]);
        }
    }
}

/// A pulse is compared while nothing is selected or other waveforms are, and a code shows the
/// comparison made before it, also where the width has changed since.
fn compare_unheard(recorder: &mut Recorder) {
    for way in [WAYS[0], WAYS[1]] {
        for number in 0..3 {
            let width_high = 7 * number as u16 + 3;
            for unheard in [0x00, 0x20, 0x30] {
                sound(recorder, [4, 4, 4]);
                for width in [0x0f, 0x00] {
                    recorder.make(&[Write(width_high, 0x0f - width), way(6 * 2)]);
                    recorder.make(&[control(number, unheard), Write(width_high, width)]);
                    recorder.make(&[way(6 * 2 + 1), control(number, 0x40), way(6)]);
                }
            }
        }
    }
}

/// Noise recovers and lines leak within a buffer: on its first clock, in the middle, on its last, and
/// just after it.
fn leak_within(recorder: &mut Recorder) {
    for (clocks, steps) in [(10, 2), (12, 4)] {
        drain_all_stages(recorder, clocks);
        for step in 0..steps {
            run_to_leak_of_noise(recorder, 2);
            recorder.make(&[WAYS[step % 2](6 * 3)]);
        }
        recorder.make(&[control(0, 0x80), WAYS[0](6 * 2)]);
        select_all(recorder, 0x80);
        recorder.make(&[WAYS[1](6 * ALL_STAGES + 5)]);
    }
    for way in [WAYS[0], WAYS[1]] {
        recorder.make(&[New, Write(0x01, 0xf1), Write(0x08, 0xf3), Write(0x0f, 0xf5)]);
        select_all(recorder, 0x20);
        recorder.make(&[Tick(100)]);
        select_all(recorder, 0x00);
        for leak in 1..=15 {
            run_to_leak_of_lines(recorder, 2);
            match leak % 4 {
                0 => recorder.make(&[way(6 * 2), way(6)]),
                1 => recorder.make(&[way(5), control(1, TEST), way(6 * 2), control(1, 0x00)]),
                2 => recorder.make(&[way(6 * 3 + 5)]),
                _ => recorder.make(&[way(6), way(6)]),
            }
        }
        recorder.make(&[
            Code(0),
            Code(1),
            Code(2),
            way(6),
            control(0, 0x10),
            way(6 * 3),
        ]);
    }
}

/// A byte on the bus fades as clocks are rendered.
fn fade_within(recorder: &mut Recorder) {
    for (bit, hold) in HOLDS.into_iter().enumerate() {
        let way = WAYS[bit % 2];
        recorder.make(&[Write(0x1e, 1 << bit), Run(hold - 3), way(6 * 2), Read(0x1e)]);
        recorder.make(&[way(6 + 3), Read(0x1e), way(6), Read(0x1e)]);
    }
}

/// Parts that end before a block, within it and behind it, with that block's selection in each voice.
fn cut_within_each_block(recorder: &mut Recorder, random: &mut Random) {
    for (block, selection) in [3, 5, 6, 7, 9, 10, 11, 12, 13, 14, 15]
        .into_iter()
        .enumerate()
    {
        let start = BLOCK * block as u16;
        sound(recorder, [selection; 3]);
        for lent in [
            start,
            start + 1,
            start + 2_048,
            start + BLOCK - 1,
            start + BLOCK,
        ] {
            recorder.make(&[RenderOver(lent, 6 * 30 + random.below(6))]);
        }
        select_all(recorder, 0x81);
        recorder.make(&[WAYS[1](6 * 50)]);
    }
}

/// A whole note in one buffer, the longest that there is.
fn fill_the_longest(recorder: &mut Recorder) {
    for way in [WAYS[0], WAYS[1]] {
        recorder.make(&[New]);
        recorder.make(&voice(0, 0x3456, 0x800, 0x00a0, 0x21));
        recorder.make(&voice(1, 0x4567, 0x300, 0x1050, 0x53));
        recorder.make(&voice(2, 0xf123, 0x400, 0x0100, 0x85));
        recorder.make(&[way(6 * 4_096 + 5), control(2, 0x80), way(6 * 1_000 + 1)]);
    }
}
