//! The list `sid`: calls on the whole chip, in order. Records are described in `src/calls.rs`.

use super::packs;
use super::renders;
use crate::aim;
use crate::calls::Call::{
    Code, Held, Level, New, Read, Reset, Run, SetPotX, SetPotY, Tick, Watch, Write,
};
use crate::calls::{Call, Pace, Recorder};
use crate::random::Random;
use crate::sid::constants::DATA_BUS_HOLD_CYCLES as HOLDS;
use crate::sid::sid::Mos6581;

const SEED: u64 = 6581 * 29;
const AIMED_ROUNDS: u32 = 16;
const AIMED_TICKS: u64 = 5_000;

pub const FLOAT_WHOLE: u32 = 1_260_019;
pub const LEAK_INTERVAL: u32 = 65_536;
/// Clocks for which lines float before a test is entered whose 16th leak falls on their last.
const TEST_BEFORE_LAST_LEAK: u32 = FLOAT_WHOLE + 1 - 16 * LEAK_INTERVAL;
pub const TEST: u8 = 0x08;

/// Places at which the registers are seen, too.
const MIRRORS: [u16; 5] = [0x0000, 0x0020, 0x00e0, 0xd400, 0xffe0];

pub fn list() -> Vec<u8> {
    let mut recorder = Recorder::new();
    let mut random = Random::seeded(SEED);
    take_it_as_it_comes(&mut recorder);
    name_voices(&mut recorder);
    reach_every_address(&mut recorder, &mut random);
    write_each_register_alone(&mut recorder, &mut random);
    keep_the_pots(&mut recorder, &mut random);
    fade_past_every_hold(&mut recorder);
    lose_every_bit(&mut recorder);
    fall_from_fresh(&mut recorder);
    raise_and_drop_gates(&mut recorder);
    meet_the_sustain_level(&mut recorder);
    run_the_long_way_round(&mut recorder);
    release_while_others_play(&mut recorder, &mut random);
    synchronise_and_ring(&mut recorder, &mut random);
    combine_and_feed_back(&mut recorder, &mut random);
    shift_and_write_back(&mut recorder, &mut random);
    enter_and_leave_test(&mut recorder, &mut random);
    compare_late(&mut recorder);
    reset_in_mid_flight(&mut recorder, &mut random);
    wait_long(&mut recorder, &mut random);
    leak_on_the_clock_of_a_call(&mut recorder);
    for _ in 0..AIMED_ROUNDS {
        aim::calls(
            &mut recorder,
            &mut random,
            AIMED_TICKS,
            1_000,
            aim::any_pace,
        );
    }
    packs::play(&mut recorder);
    renders::play(&mut recorder);
    recorder.records
}

/// A voice's frequency, width, attack and decay, sustain and release, and control, in this order.
pub fn voice(number: usize, frequency: u16, width: u16, rates: u16, control: u8) -> [Call; 7] {
    let writes = registers(number, frequency, width, rates, control);
    writes.map(|(address, value)| Write(address, value))
}

/// The addresses and values of these writes.
pub fn registers(
    number: usize,
    frequency: u16,
    width: u16,
    rates: u16,
    control: u8,
) -> [(u16, u8); 7] {
    let base = 7 * number as u16;
    let [frequency_low, frequency_high] = frequency.to_le_bytes();
    let [width_low, width_high] = width.to_le_bytes();
    let [sustain_release, attack_decay] = rates.to_le_bytes();
    [
        (base, frequency_low),
        (base + 1, frequency_high),
        (base + 2, width_low),
        (base + 3, width_high),
        (base + 5, attack_decay),
        (base + 6, sustain_release),
        (base + 4, control),
    ]
}

pub fn control(number: usize, value: u8) -> Call {
    Write(7 * number as u16 + 4, value)
}

/// The chip as the original's own `new` makes it; `New` is the oracle's `renew`.
fn take_it_as_it_comes(recorder: &mut Recorder) {
    recorder.make(&[
        Read(0x1c),
        Read(0x1b),
        Read(0x1a),
        Read(0x19),
        Watch(0x1c, 20),
    ]);
}

/// Fresh, held, and after a reset; numbers above 2 are refused.
fn name_voices(recorder: &mut Recorder) {
    let numbers = [0, 1, 2, 3, 4, 128, 255];
    for before in [&[New][..], &[Run(7_000)], &[Reset]] {
        recorder.make(before);
        for number in numbers {
            recorder.make(&[Code(number), Level(number), Held(number)]);
        }
    }
}

/// Each of the 32 addresses is written and read at each mirror, with all voices sounding.
fn reach_every_address(recorder: &mut Recorder, random: &mut Random) {
    recorder.make(&[New, Tick(5)]);
    for mirror in MIRRORS {
        for register in 0..32 {
            let address = mirror + register;
            recorder.make(&[
                Write(address, random.byte()),
                Tick(7),
                Read(address),
                Tick(6),
            ]);
        }
        for register in 0..32 {
            recorder.make(&[Read(mirror + register), Tick(1)]);
        }
    }
    for register in (0..32).rev() {
        recorder.make(&[Watch(register, 15)]);
    }
}

/// From a chip in which every register has a say: one write, and what comes of it.
fn write_each_register_alone(recorder: &mut Recorder, random: &mut Random) {
    for register in 0..32 {
        for value in [random.byte(), 0xff] {
            recorder.make(&[New]);
            for number in 0..3 {
                let frequency = 0xa1b3 >> number;
                recorder.make(&voice(
                    number,
                    frequency,
                    0x555,
                    0x0183,
                    0x51 - 0x20 * (number as u8 % 2),
                ));
            }
            recorder.make(&[Tick(90), Write(register, value), Tick(150)]);
        }
    }
}

fn keep_the_pots(recorder: &mut Recorder, random: &mut Random) {
    recorder.make(&[New, Read(0x19), Read(0x1a), Read(0x00)]);
    for _ in 0..4 {
        let (x, y) = (random.byte() | 1, random.byte());
        recorder.make(&[SetPotX(x), Read(0x00), Read(0xd419), Tick(11), Read(0x1f)]);
        recorder.make(&[
            SetPotY(y),
            Tick(1),
            Read(0x1d),
            Read(0x3a),
            Tick(3),
            Read(0x05),
        ]);
        recorder.make(&[
            Reset,
            Read(0x1d),
            Read(0x19),
            Read(0x00),
            Read(0x1a),
            Read(0x00),
        ]);
    }
}

/// Driven in each way, then read on both sides of each hold; a floating read renews nothing.
fn fade_past_every_hold(recorder: &mut Recorder) {
    let mut holds = HOLDS;
    holds.sort_unstable();
    recorder.make(&[New, SetPotX(0xff), SetPotY(0xf7)]);
    let drives = [
        Write(0x1f, 0xff),
        Write(0xd418, 0x7f),
        Read(0x19),
        Read(0x3a),
    ];
    for drive in drives {
        recorder.make(&[drive]);
        let mut elapsed = 0;
        for hold in holds {
            recorder.make(&[
                Run(hold - 2 - elapsed),
                Watch(0x1d, 3),
                Read(0x00),
                Read(0x18),
            ]);
            elapsed = hold + 1;
        }
    }
    // OSC3 and ENV3 drive, too; a drive in mid-fade starts anew, and a reset ends it.
    recorder.make(&voice(2, 0x1234, 0x800, 0x00f0, 0x21));
    for address in [0x1b, 0x1c] {
        recorder.make(&[
            Tick(300),
            Read(address),
            Watch(0x00, 13),
            Read(address),
            Tick(11),
        ]);
        recorder.make(&[
            Read(0x07),
            Write(0x15, 0x81),
            Tick(11),
            Read(0x07),
            Tick(1),
            Read(0x07),
        ]);
        recorder.make(&[Reset, Read(0x07), Watch(0x07, 3)]);
    }
    for (bit, hold) in HOLDS.into_iter().enumerate() {
        recorder.make(&[Write(0x1e, 1 << bit), Run(hold - 1), Watch(0x1e, 2)]);
    }
}

/// Each bit alone and all of them, on the second of three clocks. What a call takes away on the
/// clock before is not lost, nor what it renews.
pub fn lose_every_bit(recorder: &mut Recorder) {
    for (bit, hold) in HOLDS.into_iter().enumerate() {
        recorder.make(&[Write(0x1e, 1 << bit), Run(hold - 2)]);
        recorder.make(&[Tick(1), Tick(1), Tick(1)]);
    }
    let mut holds = HOLDS;
    holds.sort_unstable();
    recorder.make(&[Write(0x1f, 0xff)]);
    let mut elapsed = 0;
    for hold in holds {
        recorder.make(&[Run(hold - 2 - elapsed), Tick(3)]);
        elapsed = hold + 1;
    }
    for between in [
        Write(0x1d, 0x00),
        Write(0x1d, 0x11),
        Read(0x1a),
        Read(0x1b),
        Read(0x1d),
        Reset,
    ] {
        for bit in [0, 4] {
            let before = Run(HOLDS[bit] - 1);
            recorder.make(&[Write(0x1e, 1 << bit), before, between, Tick(1), Tick(12)]);
        }
    }
}

/// The three levels on their way from fresh to the hold, ENV3 with them.
fn fall_from_fresh(recorder: &mut Recorder) {
    recorder.make(&[New, Watch(0x1c, 6_041)]);
    for _ in 0..4 {
        recorder.make(&[Watch(0x1c, 1), Held(0), Held(1), Held(2)]);
    }
    // A gate-on between the write and the hold is lost; one before or after is not.
    for clocks in 6_039..=6_044 {
        recorder.make(&[New, Run(clocks), control(1, 0x01), Tick(40), Held(1)]);
    }
    // A reset holds a level of 0, not one of 1.
    for clocks in [6_042, 6_043] {
        recorder.make(&[New, Run(clocks), Reset, Held(1), Tick(20), Held(1)]);
    }
}

/// Voices whose gates go up and down a clock apart, around each clock of the top and of a match.
fn raise_and_drop_gates(recorder: &mut Recorder) {
    for clocks in 752..=772 {
        recorder.make(&[New, Run(3)]);
        for number in 0..3 {
            recorder.make(&voice(number, 0, 0, 0x0052, 0x01));
            recorder.make(&[Tick(1)]);
        }
        recorder.make(&[Run(clocks)]);
        for number in 0..3 {
            recorder.make(&[control(number, 0x00), Watch(0x1c, 1)]);
        }
        recorder.make(&[Watch(0x1c, 300)]);
    }
    // Pulses of 0 to 4 clocks, from a level on its way and from a hold.
    for start in [500, 6_050] {
        for width in 0..5 {
            for phase in 0..9 {
                recorder.make(&[New, Run(start + phase), control(2, 0x01), Tick(width)]);
                recorder.make(&[control(2, 0x00), Watch(0x1c, 25)]);
            }
        }
    }
    // Written on every clock from the top on, until past the next step.
    for late in 0..4 {
        recorder.make(&[New, control(2, 0x01)]);
        recorder.clock_until(Pace::Run, 1_000, |chip| chip.envelopes[2].volume == 0xff);
        recorder.make(&[Tick(late)]);
        for _ in 0..8 {
            recorder.make(&[control(2, 0x00), Tick(1), control(2, 0x01), Tick(1)]);
        }
    }
    // High once more frees no hold; low and high again does, with no clock between.
    recorder.make(&[New, control(2, 0x01), Run(9_000), control(2, 0x01), Held(2)]);
    recorder.make(&[control(2, 0x00), control(2, 0x01), Held(2)]);
    recorder.make(&[Write(0x14, 0xf0), Watch(0x1c, 30)]);
}

/// The sustain level comes to the level just before a step down, on it, and just after; and leaves
/// it again where a step would be due.
fn meet_the_sustain_level(recorder: &mut Recorder) {
    let due = |chip: &Mos6581| chip.envelopes[1].state().curve_delay == 1;
    for late in 0..3 {
        recorder.make(&[New]);
        recorder.make(&voice(1, 0, 0, 0x0000, 0x01));
        for nibble in (0..15u8).rev() {
            recorder.clock_until(Pace::Run, 20_000, |chip| {
                chip.envelopes[1].volume == nibble << 4 | nibble && due(chip)
            });
            recorder.make(&[Tick(late), Write(0x0d, nibble << 4), Tick(5)]);
            recorder.clock_until(Pace::Tick, 600, due);
            recorder.make(&[Tick(late), Write(0x0d, 0x00), Tick(5)]);
        }
    }
}

/// A target below the rate's phase is met after the phase has been through 32766.
fn run_the_long_way_round(recorder: &mut Recorder) {
    for phase in [8, 9, 5_000] {
        recorder.make(&[New]);
        for number in 0..3 {
            recorder.make(&[Write(7 * number + 6, 0x0f)]);
        }
        recorder.make(&[
            Run(phase),
            Write(0x06, 0x00),
            Write(0x0d, 0x01),
            Write(0x14, 0x00),
        ]);
        recorder.make(&[Run(32_760 - phase), Watch(0x1c, 60)]);
    }
    // Gates that rise around 32766, and a reset on the way there.
    recorder.make(&[New, Run(7), Write(0x06, 0x0f), Write(0x0d, 0x0f)]);
    recorder.make(&[
        Write(0x14, 0x0f),
        Run(2),
        Write(0x06, 0x00),
        Write(0x0d, 0x00),
    ]);
    recorder.make(&[Write(0x14, 0x00), Run(32_763 - 9)]);
    for number in 0..3 {
        recorder.make(&[control(number, 0x01), Tick(1)]);
    }
    recorder.make(&[Tick(40)]);
    recorder.make(&[New, Write(0x14, 0x0f), Run(20_000), Reset]);
    recorder.make(&[Run(12_760), Watch(0x1c, 60)]);
}

/// A voice in release is left alone; the rest of the chip is not.
fn release_while_others_play(recorder: &mut Recorder, random: &mut Random) {
    for still in 0..3usize {
        recorder.make(&[New]);
        recorder.make(&voice(still, 0x0345, 0x400, 0x00f1, 0x41));
        recorder.make(&[Tick(900), control(still, 0x40)]);
        for _ in 0..60 {
            let register = random.below(32) as u16;
            let inert = !(4..=6).contains(&(register - (7 * still as u16).min(register)));
            if inert {
                recorder.make(&[Write(register, random.byte())]);
            }
            recorder.make(&[Tick(random.below(500)), Level(still as u8)]);
        }
        recorder.make(&[Run(30_000), Held(still as u8)]);
    }
}

/// Each pattern of sync and ring, with phases that keep step, so that marks rise together.
fn synchronise_and_ring(recorder: &mut Recorder, random: &mut Random) {
    let sets: [[u16; 3]; 5] = [
        [0xfff0, 0xfff0, 0xfff0],
        [0xe000, 0xe000, 0x7000],
        [0x7000, 0xe000, 0xe000],
        [0xe000, 0x7000, 0xe000],
        [0xd1b3, 0x9ac7, 0xf00d],
    ];
    recorder.make(&[New, Write(0x03, 0x06), Write(0x0a, 0x09), Write(0x11, 0x02)]);
    for (set, frequencies) in sets.into_iter().enumerate() {
        for pattern in 0..64u8 {
            let selection = match pattern % 3 {
                _ if set < 4 => 0x10,
                0 => 0x50,
                1 => 0x20,
                _ => 0x10,
            };
            let bits = |number: usize| {
                let sync = pattern >> number & 1;
                let ring = pattern >> (number + 3) & 1;
                selection | sync << 1 | ring << 2
            };
            for (number, frequency) in frequencies.into_iter().enumerate() {
                recorder.make(&voice(number, frequency, 0, 0, 0)[..2]);
                recorder.make(&[control(number, bits(number) | TEST)]);
            }
            recorder.make(&[Tick(1)]);
            for number in 0..3 {
                recorder.make(&[control(number, bits(number))]);
            }
            recorder.make(&[Tick(380 + random.below(100))]);
        }
    }
    // Test entered where a mark has just risen takes it back.
    for number in 0..3 {
        recorder.make(&[New]);
        recorder.make(&voice(number, 0xf000, 0, 0, 0x20));
        recorder.make(&voice((number + 1) % 3, 0xe000, 0, 0, 0x22));
        recorder.clock_until(Pace::Tick, 60, |chip| {
            aim::rises(&chip.oscillators[number], aim::BIT_23)
        });
        recorder.make(&[Tick(1), control(number, 0x28), Tick(9)]);
    }
}

/// Saw and triangle, pulse and triangle, pulse and saw, all three: with feedback onto the phase,
/// which the next voice's ring and sync see.
fn combine_and_feed_back(recorder: &mut Recorder, random: &mut Random) {
    for selections in [
        [3, 5, 6],
        [5, 6, 3],
        [6, 3, 5],
        [3, 3, 3],
        [6, 6, 6],
        [7, 3, 6],
        [5, 5, 5],
        [1, 6, 2],
    ] {
        recorder.make(&[New]);
        for round in 0..4u8 {
            for (number, selection) in selections.into_iter().enumerate() {
                let frequency = 0x2000 + (random.word() as u16 >> 1);
                let width = random.word() as u16 & 0x0fff;
                let flags = (round * 2 + random.byte() % 2 * 4) & 0x06;
                recorder.make(&voice(number, frequency, width, 0, selection << 4 | flags));
            }
            recorder.make(&[Tick(300), Watch(0x1b, 100)]);
        }
    }
    // A phase whose top bit is cleared as it rises, which the next voice rings with; the third
    // voice's code is high.
    for number in 0..3 {
        recorder.make(&[New]);
        recorder.make(&voice(number, 0xf000, 0, 0, 0x30));
        recorder.make(&voice((number + 1) % 3, 0x5000, 0, 0, 0x14));
        recorder.make(&voice((number + 2) % 3, 0, 0, 0, 0x40));
        recorder.make(&[Tick(200)]);
    }
}

/// Noise is joined with others for some clocks around a rise of bit 19 and the shift that follows;
/// then it shows all its stages.
fn shift_and_write_back(recorder: &mut Recorder, random: &mut Random) {
    recorder.make(&[New]);
    for selection in 9..16u8 {
        for late in 0..5 {
            for width in 1..=2 {
                let number = random.below(3) as usize;
                fill_noise(recorder, number, random);
                recorder.clock_until(Pace::Tick, 40, |chip| {
                    aim::rises(&chip.oscillators[number], aim::BIT_19)
                });
                recorder.make(&[Tick(late), control(number, selection << 4), Tick(width)]);
                recorder.make(&[control(number, 0x80), Tick(ALL_STAGES)]);
            }
        }
    }
    // Test entered and left while the shift is under way.
    for selection in [8, 9, 12, 13] {
        for late in 1..=2 {
            for width in 0..=1 {
                fill_noise(recorder, 0, random);
                recorder.clock_until(Pace::Tick, 40, |chip| {
                    aim::rises(&chip.oscillators[0], aim::BIT_19)
                });
                recorder.make(&[Tick(late), control(0, selection << 4 | TEST), Tick(width)]);
                recorder.make(&[control(0, selection << 4), Tick(2)]);
                recorder.make(&[control(0, 0x80), Tick(ALL_STAGES)]);
            }
        }
    }
}

/// Clocks in which 23 shifts fall, at the frequency of `fill_noise`.
pub const ALL_STAGES: u32 = 420;

/// A voice with noise alone, from a full register, some shifts on.
pub fn fill_noise(recorder: &mut Recorder, number: usize, random: &mut Random) {
    shift_noise(recorder, number, 60 + random.below(60));
}

fn shift_noise(recorder: &mut Recorder, number: usize, clocks: u32) {
    let base = 7 * number as u16;
    recorder.make(&[Reset, Write(base + 1, 0xf1), Write(base + 3, 0x03)]);
    recorder.make(&[control(number, 0x80), Tick(clocks)]);
}

/// Each selection before test against each after it.
fn enter_and_leave_test(recorder: &mut Recorder, random: &mut Random) {
    recorder.make(&[New]);
    for before in 0..16u8 {
        for after in 0..16u8 {
            let number = usize::from(after % 3);
            fill_noise(recorder, number, random);
            if random.below(2) == 0 {
                recorder.make(&[control(number, before << 4), Tick(random.below(4))]);
            }
            recorder.make(&[control(number, before << 4 | TEST), Tick(random.below(30))]);
            recorder.make(&[control(number, after << 4), Tick(random.below(4))]);
            let clocks = if before & after & 8 == 0 {
                40
            } else {
                ALL_STAGES
            };
            recorder.make(&[control(number, 0x80), Tick(clocks)]);
        }
    }
    // Stages lose charge by the clock, and are sampled as 0 from some clock on.
    for selection in 13..16u8 {
        for clocks in 8..=12 {
            fill_noise(recorder, 1, random);
            recorder.make(&[control(1, selection << 4 | TEST), Tick(clocks)]);
            recorder.make(&[control(1, 0x80), Tick(ALL_STAGES)]);
        }
    }
    // Pulse and noise stay where others leave, before all charge is lost.
    for selection in 13..16u8 {
        shift_noise(recorder, 1, 400);
        recorder.make(&[control(1, selection << 4 | TEST), Tick(2)]);
        recorder.make(&[
            control(1, 0xc0),
            Tick(1),
            control(1, 0x80),
            Tick(ALL_STAGES),
        ]);
    }
    // OSC3 as other people's tests have it.
    recorder.make(&[New, control(2, 0x88), Tick(1), control(2, 0x90), Tick(1)]);
    for _ in 0..8 {
        recorder.make(&[
            control(2, 0x88),
            Tick(1),
            control(2, 0x80),
            Tick(1),
            Read(0x1b),
        ]);
    }
}

/// A width written on each clock around the comparison, which is used one evaluation later.
fn compare_late(recorder: &mut Recorder) {
    for clocks in 0..8 {
        recorder.make(&[New]);
        for number in 0..3 {
            recorder.make(&voice(number, 0x1000 << number, 0x010 << number, 0, 0x48));
        }
        recorder.make(&[
            Tick(1),
            control(0, 0x40),
            control(1, 0x40),
            control(2, 0x40),
        ]);
        recorder.make(&[
            Tick(12 + clocks),
            Write(0x02, 0x16),
            Write(0x09, 0x0c),
            Tick(9),
        ]);
        recorder.make(&[
            Write(0x03, 0xf0),
            Write(0x10, 0x00),
            Write(0x11, 0x08),
            Tick(40),
        ]);
        recorder.make(&[control(1, 0x48), Tick(2), control(1, 0x40), Tick(20)]);
    }
}

/// Reset keeps levels, rate phases, phases and pots, and nothing else.
fn reset_in_mid_flight(recorder: &mut Recorder, random: &mut Random) {
    for clocks in [0, 1, 2, 3, 4, 9, 11, 12, 13, 765, 766, 767, 768, 769, 2_400] {
        recorder.make(&[New, SetPotY(0x5a)]);
        for number in 0..3 {
            let control = 0x10 << number | 0x07;
            recorder.make(&voice(number, random.word() as u16, 0x7ff, 0x0395, control));
        }
        recorder.make(&[Run(clocks), Reset, Read(0x1c), Read(0x1b), Read(0x1a)]);
        recorder.make(&[Watch(0x1c, 20)]);
        for number in 0..3 {
            recorder.make(&voice(number, 0x4321, 0x123, 0x0000, 0x81 >> number & 0xf1));
        }
        recorder.make(&[Tick(60)]);
    }
}

/// One long run: a code floats to its end, a register recovers in test, a slow release goes on.
fn wait_long(recorder: &mut Recorder, random: &mut Random) {
    recorder.make(&[New]);
    recorder.make(&voice(0, 0x4567, 0, 0, 0x20));
    recorder.make(&voice(1, 0xffff, 0, 0, 0x80));
    recorder.make(&voice(2, 0x0123, 0x800, 0x008b, 0x41));
    recorder.make(&[Tick(777 + random.below(100)), control(2, 0x40)]);
    // Stages pulled down by a joined triangle recover while the test lasts, and show it.
    recorder.make(&[control(1, 0x90), Tick(100), control(1, 0x98), Tick(1)]);
    recorder.make(&[control(1, 0x88), control(0, 0x00)]);
    let captured = recorder.clocks();
    recorder.make(&[Run(15 * LEAK_INTERVAL - 3), Tick(4)]);
    // The selection stays as it is, and so do the floating lines.
    recorder.make(&[control(0, 0x06), Run(LEAK_INTERVAL - 4), Tick(4)]);
    recorder.make(&[control(1, 0x80), Tick(ALL_STAGES)]);
    let past = (recorder.clocks() - captured) as u32;
    recorder.make(&[
        Run(FLOAT_WHOLE - 1 - past),
        Tick(1),
        Code(0),
        Tick(1),
        Code(0),
    ]);
    recorder.make(&[control(0, 0x10), Tick(3), control(0, 0x00), Tick(3)]);
}

/// Calls just before the tick that makes a leak's step, and just after it.
fn leak_on_the_clock_of_a_call(recorder: &mut Recorder) {
    leave_test_as_noise_recovers(recorder);
    enter_test_again_as_noise_recovers(recorder);
    drain_as_noise_recovers(recorder);
    recover_as_lines_leak(recorder);
    select_as_lines_leak(recorder);
}

/// The fewest steps that bring back a stage which has lost all charge are 16. Test is left after
/// 14, 15 and 16, just before a leak, and after 15, 16 and 17, just after one; writes go before.
fn leave_test_as_noise_recovers(recorder: &mut Recorder) {
    for late in 0..2 {
        ground_all_stages(recorder);
        select_all(recorder, 0x88);
        for leak in 1..=17 {
            run_to_leak_of_noise(recorder, 2);
            recorder.make(&[Tick(late)]);
            if leak < 15 {
                write_beside(recorder, 2 * leak - 2);
                write_beside(recorder, 2 * leak - 1);
                recorder.make(&[Tick(2)]);
            } else {
                let number = usize::from(leak) - 15;
                recorder.make(&[control(number, 0x80), Tick(ALL_STAGES)]);
            }
        }
    }
    // Charge that some clocks have taken comes back sooner. The third voice leaves test and enters
    // it again just before the leak, which is put off.
    for (clocks, steps) in [(10, 2), (11, 3), (12, 4)] {
        drain_all_stages(recorder, clocks);
        for _ in 1..steps {
            run_to_leak_of_noise(recorder, 2);
            recorder.make(&[Tick(1)]);
        }
        run_to_leak_of_noise(recorder, 2);
        recorder.make(&[
            control(0, 0x80),
            control(2, 0x80),
            control(2, 0x88),
            Tick(1),
        ]);
        recorder.make(&[control(1, 0x80), Tick(ALL_STAGES)]);
        run_to_leak_of_noise(recorder, 2);
        recorder.make(&[control(2, 0x80), Tick(ALL_STAGES)]);
    }
}

/// Test is left and entered again on one clock just before a leak, around it, and just past it: one
/// step fewer in two voices, and each voice has a clock of its own for those that follow.
fn enter_test_again_as_noise_recovers(recorder: &mut Recorder) {
    ground_all_stages(recorder);
    select_all(recorder, 0x88);
    run_to_leak_of_noise(recorder, 0);
    recorder.make(&[
        control(0, 0x80),
        control(0, 0x88),
        control(2, 0x80),
        Tick(1),
    ]);
    recorder.make(&[
        control(2, 0x88),
        Tick(1),
        control(1, 0x80),
        control(1, 0x88),
    ]);
    for _ in 0..14 {
        recorder.make(&[Run(LEAK_INTERVAL)]);
    }
    for _ in 0..2 {
        recorder.make(&[Run(LEAK_INTERVAL - 4), Watch(0x1b, 4)]);
    }
    select_all(recorder, 0x80);
    recorder.make(&[Tick(ALL_STAGES)]);
}

/// Pulse with noise and another takes charge on the clock before a leak, on the leak's own, or on
/// the next: only before it little enough that the leak after it brings back the stages.
fn drain_as_noise_recovers(recorder: &mut Recorder) {
    drain_all_stages(recorder, 11);
    for _ in 0..2 {
        run_to_leak_of_noise(recorder, 0);
        recorder.make(&[Tick(1)]);
    }
    recorder.make(&[Run(LEAK_INTERVAL - 2)]);
    for number in 0..3 {
        recorder.make(&[control(number, 0xd8), Tick(1), control(number, 0x88)]);
    }
    run_to_leak_of_noise(recorder, 0);
    recorder.make(&[Tick(1)]);
    select_all(recorder, 0x80);
    recorder.make(&[Tick(ALL_STAGES)]);
}

/// Two codes float, with test entered or left in the second's voice on each leak; the last leak
/// falls on the clock on which the third voice's stages come back.
fn recover_as_lines_leak(recorder: &mut Recorder) {
    ground_all_stages(recorder);
    recorder.make(&[control(0, 0x20), control(1, 0x20), Tick(100)]);
    recorder.make(&[control(0, 0x00), control(1, 0x00)]);
    recorder.make(&[Run(TEST_BEFORE_LAST_LEAK), control(2, 0x88)]);
    for leak in 1..=15 {
        run_to_leak_of_lines(recorder, 0);
        write_beside(recorder, 2 * leak);
        recorder.make(&[control(1, (leak as u8 % 2) << 3), Tick(1)]);
        write_beside(recorder, 2 * leak + 1);
        recorder.make(&[Tick(1)]);
    }
    recorder.make(&[control(2, 0x80), Tick(ALL_STAGES)]);
}

/// A selection just before a leak, just after it, and for the leak's clock, and then none again: the
/// lines hold anew. Two of them leak to the end as noise of the same voice recovers.
fn select_as_lines_leak(recorder: &mut Recorder) {
    ground_all_stages(recorder);
    select_all(recorder, 0x20);
    recorder.make(&[Tick(100)]);
    select_all(recorder, 0x00);
    for _ in 1..14 {
        run_to_leak_of_lines(recorder, 2);
        recorder.make(&[Tick(1)]);
    }
    run_to_leak_of_lines(recorder, 2);
    recorder.make(&[control(0, 0x10), control(0, 0x00)]);
    let captured = recorder.clocks();
    recorder.make(&[Tick(1), control(1, 0x10), Tick(1), control(1, 0x00)]);
    run_to_leak_of_lines(recorder, 2);
    recorder.make(&[control(2, 0x10), Tick(1), control(2, 0x00), Tick(1)]);
    // The first voice's leaks come two clocks before the second's now, the third's one leak later.
    let past = (recorder.clocks() - captured) as u32;
    recorder.make(&[Run(TEST_BEFORE_LAST_LEAK - past), control(0, 0x08), Tick(2)]);
    recorder.make(&[control(1, 0x08)]);
    for _ in 1..15 {
        run_to_leak_of_lines(recorder, 0);
        recorder.make(&[Tick(4)]);
    }
    run_to_leak_of_lines(recorder, 0);
    recorder.make(&[
        control(0, 0x00),
        Tick(3),
        control(1, 0x80),
        Tick(ALL_STAGES),
    ]);
    recorder.make(&[control(0, 0x80), Tick(ALL_STAGES)]);
    run_to_leak_of_lines(recorder, 2);
    recorder.make(&[Tick(1), control(2, 0x20), Tick(2)]);
}

/// A fresh chip, in which all stages are soon shown, and each voice has a frequency of its own.
fn renew_all_stages(recorder: &mut Recorder) {
    recorder.make(&[New, Write(0x01, 0xf1), Write(0x08, 0xf3), Write(0x0f, 0xf5)]);
}

/// A joined triangle pulls down stages until none is left in any voice.
fn ground_all_stages(recorder: &mut Recorder) {
    renew_all_stages(recorder);
    select_all(recorder, 0x90);
    recorder.make(&[Run(2_000)]);
}

/// In each voice, pulse with noise and a triangle takes charge in test, so many clocks long.
pub fn drain_all_stages(recorder: &mut Recorder, clocks: u32) {
    renew_all_stages(recorder);
    select_all(recorder, 0xd8);
    recorder.make(&[Tick(clocks)]);
    select_all(recorder, 0x88);
}

pub fn select_all(recorder: &mut Recorder, value: u8) {
    recorder.make(&[control(0, value), control(1, value), control(2, value)]);
}

/// A write to a register, and to a control one of what stands in it.
fn write_beside(recorder: &mut Recorder, register: u16) {
    let value = match register {
        4 | 11 | 18 => aim::control(&recorder.chip, usize::from(register / 7)),
        _ => 0xf1,
    };
    recorder.make(&[Write(register, value)]);
}

/// To just before the tick on which noise leaks.
pub fn run_to_leak_of_noise(recorder: &mut Recorder, number: usize) {
    recorder.clock_until(Pace::Run, LEAK_INTERVAL, |chip| {
        chip.oscillators[number].noise_leaks_in() == Some(1)
    });
}

/// To just before the tick on which floating lines leak.
pub fn run_to_leak_of_lines(recorder: &mut Recorder, number: usize) {
    recorder.clock_until(Pace::Run, FLOAT_WHOLE, |chip| {
        chip.oscillators[number].lines_leak_in() == Some(1)
    });
}
