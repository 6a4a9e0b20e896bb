//! Calls that fall where something inside the chip is under way: what to wait for, and what to
//! write then, both chosen by looking at the original's own state.

use crate::calls::{Call, Pace, Recorder, Rule, PACK_LENGTH};
use crate::random::Random;
use crate::sid::constants::{
    DATA_BUS_HOLD_CYCLES, NEVER, NOISE_TEST_LEAK_INTERVAL_CYCLES, NOISE_TEST_LOGIC_THRESHOLD,
    WAVEFORM_FLOAT_HOLD_CYCLES, WAVEFORM_FLOAT_LEAK_INTERVAL_CYCLES,
};
use crate::sid::oscillator::{Oscillator, OscillatorState};
use crate::sid::sid::Mos6581;

const TEST: u8 = 0x08;
pub const BIT_19: u32 = 0x08_0000;
pub const BIT_23: u32 = 0x80_0000;
const PHASE_MASK: u32 = 0xff_ffff;

const FLOAT_TO_THE_END: u32 = 1_260_030;
const LEAK_IN_TEST: u32 = 65_540;
/// Of a bit on the bus.
pub const LONGEST_HOLD: u32 = DATA_BUS_HOLD_CYCLES[7];

/// Leaks after which a code's lines hold nothing more.
const LEAKS_OF_LINES: u32 = 15;
/// Leaks after which a stage without any charge counts as 1.
const LEAKS_OF_NOISE: u32 = 16;

/// The high byte of a frequency at which noise shifts soon, and clocks in which 23 shifts fall then.
const QUICK: u8 = 0xf1;
const ALL_STAGES: u32 = 420;

/// Levels that end a motion, queue a divisor, or come just before.
const LEVELS: [u8; 14] = [
    0x00, 0x01, 0x06, 0x07, 0x0e, 0x0f, 0x1a, 0x1b, 0x36, 0x37, 0x5d, 0x5e, 0xfe, 0xff,
];

pub type Wanted = Box<dyn Fn(&Mos6581) -> bool>;

/// How clocks are made, from one wait to the next.
pub type Paces = fn(&mut Recorder, &mut Random) -> Pace;

/// The pack that a seed's calls are played over; without one, the engine is the plain one.
pub fn pack(seed: u64) -> Option<Rule> {
    match seed % 4 {
        0 => Some(Rule::Scatter),
        2 => Some(Rule::Fill),
        _ => None,
    }
}

/// The calls of a seed, some of which wait long, or come where leaks fall due.
pub fn seeded_calls(recorder: &mut Recorder, seed: u64, ticks: u64) {
    match pack(seed) {
        Some(rule) => recorder.play_over(rule),
        None => recorder.play_over_pack(false),
    }
    let mut random = Random::seeded(seed);
    let patience = match random.below(32) {
        0 => FLOAT_TO_THE_END,
        1..=4 => LEAK_IN_TEST,
        5..=12 => 12_000,
        _ => 1_500,
    };
    begin(recorder, &mut random);
    match random.below(64) {
        0..=2 => float(recorder, &mut random),
        3 | 4 => recover(recorder, &mut random, Loss::Whole),
        5..=12 => recover(recorder, &mut random, Loss::Partial),
        13 => leak_together(recorder, &mut random),
        14..=21 => fade(recorder, &mut random),
        _ => {}
    }
    go_on(recorder, &mut random, ticks, patience, any_pace_or_render);
}

/// A fresh chip, and at least so many ticks, with calls aimed at what is under way in it. No wait
/// is longer than `patience`.
pub fn calls(
    recorder: &mut Recorder,
    random: &mut Random,
    ticks: u64,
    patience: u32,
    paces: Paces,
) {
    begin(recorder, random);
    go_on(recorder, random, ticks, patience, paces);
}

fn begin(recorder: &mut Recorder, random: &mut Random) {
    recorder.make(&[Call::New]);
    set_up(recorder, random);
}

fn go_on(recorder: &mut Recorder, random: &mut Random, ticks: u64, patience: u32, paces: Paces) {
    let end = recorder.ticked + ticks;
    while recorder.ticked < end {
        let voice = random.below(3) as usize;
        let pace = paces(recorder, random);
        wait(recorder, voice, random, patience, pace);
        for _ in 0..=random.below(3) {
            act(recorder, voice, random);
        }
    }
}

fn set_up(recorder: &mut Recorder, random: &mut Random) {
    for _ in 0..random.below(30) {
        let voice = random.below(3) as usize;
        let (address, value) = write(&recorder.chip, voice, random);
        recorder.make(&[Call::Write(address, value)]);
    }
}

/// A code is left to float, and calls fall on the clocks of its leaks. On one of them a waveform may
/// be selected for a while; the code that floats then is followed to its end at times.
fn float(recorder: &mut Recorder, random: &mut Random) {
    let voice = random.below(3) as usize;
    let address = control_address(voice);
    recorder.make(&[
        Call::Write(address - 3, random.byte() | 0x10),
        Call::Write(address, random.pick(&[0x10, 0x20, 0x30, 0x40, 0x80])),
        Call::Tick(random.below(500)),
    ]);
    recorder.clock_until(Pace::Tick, 5_000, |chip| {
        chip.oscillators[voice].last_sample != 0
    });
    recorder.make(&[Call::Write(address, random.byte() & 0x0f)]);
    // The leak on which another is selected; 0 is none.
    let mut selected_at = random.pick(&[0, 0, 0, 1, 14, 15, 15, 15]);
    let mut leak = 0;
    for _ in 0..2 * LEAKS_OF_LINES {
        let Some(clocks) = recorder.chip.oscillators[voice].lines_leak_in() else {
            return;
        };
        leak += 1;
        approach(recorder, clocks, random);
        if leak == selected_at {
            turn_briefly(recorder, voice, random.pick(&SELECTIONS) << 4, random);
            if random.below(2) == 0 {
                return;
            }
            (selected_at, leak) = (0, 0);
        }
        match random.below(8) {
            0 => turn_briefly(recorder, voice, TEST, random),
            1 => {
                let turned = control(&recorder.chip, voice) ^ TEST;
                recorder.make(&[Call::Write(address, turned)]);
            }
            _ => call_beside(recorder, voice, random),
        }
        pass(recorder, random);
    }
}

/// How much of their charge stages have lost before they recover.
enum Loss {
    Whole,
    Partial,
}

/// Stages recover in test, and calls fall on the clocks of the leaks. Test is left about the step
/// that makes a stage count as 1 again, or the one before or after, so that each step tells.
fn recover(recorder: &mut Recorder, random: &mut Random, loss: Loss) {
    let voice = random.below(3) as usize;
    let address = control_address(voice);
    // A joined triangle grounds stages; pulse and others take some charge a clock, in test.
    let (selection, clocks) = match loss {
        Loss::Whole => (0x90, 100 + random.below(300)),
        Loss::Partial => (random.pick(&[0xd8, 0xe8, 0xf8]), 10 + random.below(4)),
    };
    recorder.make(&[
        Call::Write(address - 3, QUICK),
        Call::Write(address, selection),
        Call::Tick(clocks),
        Call::Write(address, 0x88 | random.byte() & 0x07),
    ]);
    let (short, more) = random.pick(&[(1, 0), (1, 0), (2, 0), (1, 1)]);
    let mut leaks_left = None;
    // Charge is taken on the way now and then, and more leaks are needed.
    for _ in 0..LEAKS_OF_NOISE + 4 {
        let oscillator = &recorder.chip.oscillators[voice];
        let Some(clocks) = oscillator.noise_leaks_in() else {
            return;
        };
        leaks_left = match leaks_left {
            None if steps_short(oscillator) == Some(short) => Some(more),
            left => left.map(|leaks: u32| leaks - 1),
        };
        approach(recorder, clocks, random);
        if leaks_left == Some(0) {
            break;
        }
        match random.below(8) {
            0 => turn_briefly(recorder, voice, TEST, random),
            1 => turn_briefly(recorder, voice, 0x50, random),
            2 => turn_briefly(recorder, voice, random.pick(&SELECTIONS) << 4, random),
            _ => call_beside(recorder, voice, random),
        }
        pass(recorder, random);
    }
    leave_test(recorder, voice, random);
}

/// Noise of a voice and lines of a voice, the same at times, leak on one clock.
fn leak_together(recorder: &mut Recorder, random: &mut Random) {
    let (recovering, floating) = (random.below(3) as usize, random.below(3) as usize);
    let (noise, lines) = (control_address(recovering), control_address(floating));
    let flags = random.byte() & 0x07;
    recorder.make(&[
        Call::Write(noise - 3, QUICK),
        Call::Write(noise, 0x90),
        Call::Tick(100 + random.below(300)),
        Call::Write(lines - 3, QUICK),
        Call::Write(lines, 0x20),
        Call::Tick(20 + random.below(200)),
        Call::Write(lines, flags),
        // No shift brings in a stage of 1 until the test.
        Call::Write(noise - 4, 0),
        Call::Write(noise - 3, 0),
    ]);
    let leak = random.pick(&[1, 7, 14, LEAKS_OF_LINES, LEAKS_OF_LINES, LEAKS_OF_LINES]);
    let steps = random.pick(&[1, 15, LEAKS_OF_NOISE, LEAKS_OF_NOISE, 17]);
    let in_test = steps * NOISE_TEST_LEAK_INTERVAL_CYCLES;
    let selection = if recovering == floating { 0 } else { 0x80 };
    recorder.make(&[
        Call::Run(clocks_to_leak_of_lines(leak) - in_test),
        Call::Write(noise, selection | TEST | flags),
    ]);
    approach(recorder, in_test.into(), random);
    match random.below(4) {
        0 => call_beside(recorder, floating, random),
        1 => turn_briefly(recorder, recovering, TEST, random),
        2 => turn_briefly(recorder, floating, random.pick(&SELECTIONS) << 4, random),
        _ => {}
    }
    if random.below(2) == 0 {
        pass(recorder, random);
    }
    leave_test(recorder, recovering, random);
    recorder.make(&[Call::Run(2 * WAVEFORM_FLOAT_LEAK_INTERVAL_CYCLES)]);
}

/// Bytes are driven and left to fade, and calls fall about the clocks on which bits are lost.
fn fade(recorder: &mut Recorder, random: &mut Random) {
    for _ in 0..4 {
        let address = mirrored(0x15 + random.below(11) as u16, random);
        recorder.make(&[match random.below(4) {
            0 => Call::Read(any_address(random)),
            _ => Call::Write(address, fading_byte(random)),
        }]);
        for _ in 0..=random.below(4) {
            recorder.clock_until(Pace::Run, LONGEST_HOLD, fades_next_or_never);
            recorder.make(&[Call::Tick(random.below(2))]);
            if random.below(2) == 0 {
                call_beside(recorder, random.below(3) as usize, random);
            }
            pass(recorder, random);
        }
    }
}

/// One bit, all or any.
pub fn fading_byte(random: &mut Random) -> u8 {
    match random.below(4) {
        0 | 1 => 1 << random.below(8),
        2 => 0xff,
        _ => random.byte(),
    }
}

/// Clocks from the selection of none to a leak of the lines, by its number from 1 on.
fn clocks_to_leak_of_lines(number: u32) -> u32 {
    WAVEFORM_FLOAT_HOLD_CYCLES + number * WAVEFORM_FLOAT_LEAK_INTERVAL_CYCLES
}

/// To a leak so many clocks away: just before its clock or just after it, or one clock off.
fn approach(recorder: &mut Recorder, clocks: u64, random: &mut Random) {
    let clocks = (clocks as u32 + random.pick(&[0, 1, 1, 2, 2, 3])).saturating_sub(2);
    let seen = match random.below(3) {
        0 => clocks.min(random.below(40)),
        _ => 0,
    };
    recorder.make(&[Call::Run(clocks - seen), Call::Tick(seen)]);
}

/// Past the leak that was approached.
fn pass(recorder: &mut Recorder, random: &mut Random) {
    let (pace, clocks) = match random.below(5) {
        0 => (Pace::Tick, 4),
        1 => (Pace::Watch(0x1b), 4),
        2 => (Pace::Run, random.pick(&[2, 4])),
        _ => (any_render(recorder, random), 4),
    };
    recorder.clock_until(pace, clocks, |_| false);
}

/// A call that hardly ever touches a voice's selection and test.
fn call_beside(recorder: &mut Recorder, voice: usize, random: &mut Random) {
    let chip = &recorder.chip;
    let address = control_address(voice);
    let other = (voice + 1 + random.below(2) as usize) % 3;
    let (address, value) = match random.below(8) {
        0 => (address, control(chip, voice)),
        1 => {
            let flags = random.pick(&[0x01, 0x02, 0x04, 0x07]);
            (address, control(chip, voice) ^ flags)
        }
        2 => {
            let register = random.pick(&[0, 1, 2, 3, 5, 6]);
            (address - 4 + register, random.byte())
        }
        3 => (control_address(other), control(chip, other) ^ TEST),
        4 | 5 => write(chip, other, random),
        6 => return recorder.make(&[Call::Read(any_address(random))]),
        _ => return,
    };
    recorder.make(&[Call::Write(address, value)]);
}

/// Some bits of a voice's control are turned, and back after a few clocks or none.
fn turn_briefly(recorder: &mut Recorder, voice: usize, bits: u8, random: &mut Random) {
    let address = control_address(voice);
    let control = control(&recorder.chip, voice);
    recorder.make(&[
        Call::Write(address, control ^ bits),
        Call::Tick(random.pick(&[0, 0, 0, 1, 1, 2, 3])),
        Call::Write(address, control),
    ]);
}

/// Test is left, to any selection for some clocks, and noise shows all its stages.
fn leave_test(recorder: &mut Recorder, voice: usize, random: &mut Random) {
    let address = control_address(voice);
    recorder.make(&[
        Call::Write(address, random.pick(&[0x80, 0x80, 0x80, 0x90, 0xc0, 0x00])),
        Call::Tick(random.below(4)),
        Call::Write(address, 0x80),
        Call::Write(address - 3, QUICK),
        Call::Tick(ALL_STAGES),
    ]);
}

/// Leak steps after which one more stage has charge enough to count as 1, as a copy shows.
fn steps_short(oscillator: &Oscillator) -> Option<u32> {
    let mut state = oscillator.state();
    let charged = |state: &OscillatorState| {
        let charges = state.noise_charge.iter();
        charges
            .filter(|&&charge| charge >= NOISE_TEST_LOGIC_THRESHOLD)
            .count()
    };
    let before = charged(&state);
    (1..=LEAKS_OF_NOISE).find(|_| {
        state.cycle = state.noise_next_leak - 1;
        let mut ahead = Oscillator::from_state(&state);
        ahead.clock_accumulator();
        state = ahead.state();
        charged(&state) > before
    })
}

pub fn any_pace(_: &mut Recorder, random: &mut Random) -> Pace {
    match random.below(8) {
        0 | 1 => Pace::Run,
        2 => Pace::Watch(0x1c),
        3 => Pace::Watch(any_address(random)),
        _ => Pace::Tick,
    }
}

pub fn any_pace_or_render(recorder: &mut Recorder, random: &mut Random) -> Pace {
    match random.below(3) {
        0 => any_render(recorder, random),
        _ => any_pace(recorder, random),
    }
}

/// A render that leaves any number of entries, after one that is refused or over a part of the pack
/// at times.
fn any_render(recorder: &mut Recorder, random: &mut Random) -> Pace {
    let past = random.below(6);
    let part = random.below(PACK_LENGTH as u32) as u16;
    let lent = random.pick(&[0, 1, PACK_LENGTH as u16 - 1, part]);
    let entries = 6 * random.below(10) + past;
    match random.below(24) {
        0 => recorder.make(&[Call::Render(lent, entries)]),
        1 => recorder.make(&[Call::RenderOver(lent, entries)]),
        _ => {}
    }
    recorder.render_leaving(past)
}

fn wait(recorder: &mut Recorder, voice: usize, random: &mut Random, patience: u32, pace: Pace) {
    // Half of the waits are short, so that calls often meet within a few clocks.
    if random.below(2) == 0 {
        return recorder.clock_until(pace, random.below(12), |_| false);
    }
    let most = match random.below(10) {
        0 => patience,
        1..=3 => patience.min(1_500),
        _ => 300,
    };
    recorder.clock_until(pace, most, edge(voice, random));
    recorder.make(&[Call::Tick(random.below(4))]);
}

fn act(recorder: &mut Recorder, voice: usize, random: &mut Random) {
    let byte = random.byte();
    match random.below(100) {
        0 => reset(recorder, random),
        1 | 2 => recorder.make(&[Call::SetPotX(byte)]),
        3 | 4 => recorder.make(&[Call::SetPotY(byte)]),
        5..=7 => {
            let number = random.below(4) as u8;
            recorder.make(&[Call::Code(number), Call::Level(number), Call::Held(number)]);
        }
        8 | 9 => align(recorder, random),
        10..=19 => select_briefly(recorder, voice, random),
        20..=34 => recorder.make(&[Call::Read(any_address(random))]),
        35..=44 if noise_is_spent(&recorder.chip) => reset(recorder, random),
        _ => {
            let (address, value) = write(&recorder.chip, voice, random);
            recorder.make(&[Call::Write(address, value)]);
        }
    }
}

/// A register whose stages have nearly all been pulled down shows little; a reset fills it.
fn noise_is_spent(chip: &Mos6581) -> bool {
    let stages = |oscillator: &Oscillator| oscillator.state().noise_state.count_ones();
    chip.oscillators
        .iter()
        .any(|oscillator| stages(oscillator) < 4)
}

fn reset(recorder: &mut Recorder, random: &mut Random) {
    recorder.make(&[Call::Reset]);
    if random.below(2) == 0 {
        recorder.make(&[Call::Read(0x1b + random.below(2) as u16)]);
    }
    set_up(recorder, random);
}

/// Another selection, or test, or both, for a few clocks, such as those of a shift under way; then
/// the one before, noise alone, or any.
fn select_briefly(recorder: &mut Recorder, voice: usize, random: &mut Random) {
    let address = control_address(voice);
    let before = control(&recorder.chip, voice);
    let flags = before & 0x07;
    let mut selected = || random.pick(&SELECTIONS) << 4 | flags;
    let (one, other) = (selected(), selected());
    let during = random.pick(&[before ^ TEST, one | TEST, one]);
    let after = random.pick(&[before, other, 0x80 | flags]);
    recorder.make(&[
        Call::Write(address, during),
        Call::Tick(random.pick(&[0, 1, 1, 2, 2, 3, 9, 10, 11])),
        Call::Write(address, after),
    ]);
}

/// All phases start from 0 on one clock, so that marks rise together.
fn align(recorder: &mut Recorder, random: &mut Random) {
    let (low, high) = (random.byte(), random.byte() | 0x40);
    for voice in 0..3 {
        let base = 7 * voice as u16;
        let control = control(&recorder.chip, voice);
        recorder.make(&[
            Call::Write(base, low),
            Call::Write(base + 1, high >> random.below(2)),
            Call::Write(base + 4, control | TEST),
        ]);
    }
    recorder.make(&[Call::Tick(random.below(3))]);
    for voice in 0..3 {
        let toggled = (random.byte() & 0x06) | TEST;
        let control = control(&recorder.chip, voice) ^ toggled;
        recorder.make(&[Call::Write(control_address(voice), control)]);
    }
}

/// Any of the 65,536, those that drive the bus more often.
fn any_address(random: &mut Random) -> u16 {
    let register = match random.below(2) {
        0 => 0x19 + random.below(4),
        _ => random.below(32),
    };
    mirrored(register as u16, random)
}

fn mirrored(register: u16, random: &mut Random) -> u16 {
    match random.below(3) {
        0 => register | (random.word() as u16 & 0xffe0),
        _ => register,
    }
}

/// A state of the chip in which a call or the next clock meets something under way in a voice.
pub fn edge(voice: usize, random: &mut Random) -> Wanted {
    let number = random.below(3) as u8 + 1;
    match random.below(21) {
        0 => envelope(voice, move |e| e.rate_phase == e.rate_target_phase),
        1 => envelope(voice, |e| e.matched_rate),
        2 => envelope(voice, move |e| e.amplitude_delay == number % 2 + 1),
        3 => envelope(voice, move |e| e.curve_delay == number % 2 + 1),
        4 => envelope(voice, move |e| e.motion_delay == number),
        5 => envelope(voice, |e| e.queued_curve_divisor != 0),
        6 => envelope(voice, |e| {
            e.curve_count + 1 == e.curve_divisor && e.matched_rate
        }),
        7 => envelope(voice, |e| e.stage_a != e.stage_b),
        8 => envelope(voice, |e| e.rate_phase >= 32_764),
        9 | 10 => {
            let level = random.pick(&LEVELS);
            envelope(voice, move |e| e.volume == level && e.amplitude_delay != 0)
        }
        11 => envelope(voice, |e| e.volume == 0 && !e.floor_hold),
        12 => Box::new(move |chip| rises(&chip.oscillators[voice], BIT_23)),
        13 => Box::new(move |chip| {
            rises(&chip.oscillators[voice], BIT_23)
                && rises(&chip.oscillators[(voice + 1) % 3], BIT_23)
        }),
        14 => Box::new(move |chip| rises(&chip.oscillators[voice], BIT_19)),
        15 => Box::new(move |chip| {
            let state = chip.oscillators[voice].state();
            state.noise_transfer_at != NEVER
                && state.noise_transfer_at == state.cycle + u64::from(number % 2) + 1
        }),
        16 => Box::new(move |chip| {
            let oscillator = &chip.oscillators[voice];
            let width = u32::from(oscillator.pulse_width);
            oscillator.accumulator >> 12 < width && next_phase(oscillator) >> 12 >= width
        }),
        17 => Box::new(move |chip| chip.oscillators[voice].noise_leaks_in() == Some(1)),
        18 => Box::new(move |chip| chip.oscillators[voice].lines_leak_in() == Some(1)),
        // The sustain level that a write can bring to it.
        19 => envelope(voice, |e| {
            e.amplitude_delay == 1 && e.volume >> 4 == e.volume & 0x0f
        }),
        _ => Box::new(fades_next),
    }
}

/// Whether the bus loses bits on the next clock.
fn fades_next(chip: &Mos6581) -> bool {
    let (value, age, next_expiry) = chip.bus().state();
    value != 0 && age + 1 == next_expiry
}

/// Whether it does, or has none left to lose.
pub fn fades_next_or_never(chip: &Mos6581) -> bool {
    fades_next(chip) || chip.bus().read_floating() == 0
}

fn envelope(
    voice: usize,
    wanted: impl Fn(crate::sid::envelope::State) -> bool + 'static,
) -> Wanted {
    Box::new(move |chip| wanted(chip.envelopes[voice].state()))
}

fn next_phase(oscillator: &Oscillator) -> u32 {
    (oscillator.accumulator + u32::from(oscillator.frequency)) & PHASE_MASK
}

/// Whether the bit rises on the next clock.
pub fn rises(oscillator: &Oscillator, bit: u32) -> bool {
    !oscillator.test_enabled && !oscillator.accumulator & next_phase(oscillator) & bit != 0
}

fn control_address(voice: usize) -> u16 {
    7 * voice as u16 + 4
}

/// What stands in a voice's control register.
pub fn control(chip: &Mos6581, voice: usize) -> u8 {
    let oscillator = &chip.oscillators[voice];
    oscillator.waveform << 4
        | u8::from(oscillator.test_enabled) << 3
        | u8::from(oscillator.ring_enabled) << 2
        | u8::from(oscillator.sync_enabled) << 1
        | u8::from(chip.envelopes[voice].state().input)
}

/// An address and a value, for a voice mostly, near to what the chip has already.
pub fn write(chip: &Mos6581, voice: usize, random: &mut Random) -> (u16, u8) {
    let voice = match random.below(4) {
        0 => random.below(3) as usize,
        _ => voice,
    };
    let oscillator = &chip.oscillators[voice];
    let control = control(chip, voice);
    let (register, value) = match random.below(24) {
        0..=6 => (4, control ^ 0x01),
        7 | 8 => (4, control ^ TEST),
        9 | 10 => (4, control & 0x0f | random.pick(&SELECTIONS) << 4),
        11 => (4, control ^ random.pick(&[0x00, 0x02, 0x04, 0x06, 0x09])),
        12 => (4, random.byte()),
        13 | 14 => (5, rate(random) << 4 | rate(random)),
        15 | 16 => {
            let sustain = match random.below(4) {
                0 | 1 => chip.envelopes[voice].volume >> 4,
                2 => random.pick(&[0x00, 0x0f]),
                _ => random.byte() & 0x0f,
            };
            (6, sustain << 4 | rate(random))
        }
        17 => (0, random.byte()),
        18 | 19 => (1, random.byte() >> random.pick(&[0, 0, 1, 4, 7])),
        // A width just at the phase, from below and from above.
        20 => {
            let width = (oscillator.accumulator >> 12) + random.below(3);
            match random.below(2) {
                0 => (2, width as u8),
                _ => (3, (width >> 8) as u8 | (random.byte() & 0xf0)),
            }
        }
        21 => (3, random.byte()),
        // Another voice's frequency, so that two keep step.
        22 => {
            let other = &chip.oscillators[(voice + 1) % 3];
            (1, (other.frequency >> 8) as u8)
        }
        _ => {
            let address = random.below(32) as u16;
            return (mirrored(address, random), random.byte());
        }
    };
    (mirrored(7 * voice as u16 + register, random), value)
}

/// Each of the sixteen, single ones and those that settle to more than 0 more often.
const SELECTIONS: [u8; 30] = [
    0, 0, 1, 1, 2, 2, 3, 3, 4, 4, 4, 5, 5, 6, 6, 7, 8, 8, 8, 9, 9, 9, 10, 11, 12, 12, 13, 14, 15,
    15,
];

fn rate(random: &mut Random) -> u8 {
    match random.below(4) {
        0 => random.byte() & 0x0f,
        1 => random.byte() & 0x03,
        _ => 0,
    }
}
