//! The list `rises`: rises clock by clock, settled ones and those that a gate-on starts late.
//!
//! A case is (numbers little endian):
//!
//!     u8        whether a gate-on is written before the first clock, 0 or 1
//!     u16       number of runs
//!     18 bytes  the state at the start, as in a record of the list `envelope`
//!     u8 u16    of each run: the level, and after how many clocks in a row it is that
//!     18 bytes  the state after the last clock
//!
//! The original is held to the clocks that are due, those of document 02 for a settled rise, as the
//! list is made; a difference stops it.

use crate::random::Random;
use crate::sid::constants::envelope_rate_period;
use crate::sid::envelope::{Envelope, State};

use super::envelope::{record_state, FALLING_TO_SUSTAIN, FALLING_TO_ZERO, RISING};

const SEED: u64 = 32_767;
/// The rate counter's phases.
pub const PHASES: u16 = 32_767;
/// From here on a whole rise takes nearly half a million clocks or more.
const FIRST_SLOW_RATE: u8 = 10;
/// From each but the last, three steps pass a level that queues a divisor.
const MIDDLES: [u8; 6] = [0x5b, 0x34, 0x19, 0x0d, 0x04, 0x97];
const NEAR_THE_TOP: u8 = 0xf8;
/// In these the fall to the sustain level begins if the decay is quick.
const CLOCKS_PAST_THE_TOP: u32 = 40;
/// Fewer than the shortest period has: the next step does not come.
const CLOCKS_PAST_A_STEP: u32 = 8;

pub fn list() -> Vec<u8> {
    let mut random = Random::seeded(SEED);
    let mut rises = Vec::new();
    for attack in 0..16 {
        rise_from_each_phase(&mut rises, attack, &mut random);
        start_late_at_each_phase(&mut rises, attack, &mut random);
        stop_on_the_way(&mut rises, attack, &mut random);
    }
    rises.iter().flat_map(Rise::record).collect()
}

#[derive(Clone, Copy)]
pub struct Rates {
    pub attack: u8,
    pub decay: u8,
    pub release: u8,
}

pub enum Start {
    /// Rising from this level, with nothing else under way.
    Settled(u8),
    /// At this level with nothing under way, held at it if it is zero, falling to zero or to the
    /// sustain level; a gate-on is written.
    Late { level: u8, sustaining: bool },
}

pub struct Rise {
    start: State,
    pub late: bool,
    pub clocks: u32,
}

impl Rise {
    /// What the clocks of its steps do not depend on is random.
    pub fn new(start: Start, rates: Rates, phase: u16, random: &mut Random) -> Self {
        let (late, volume, motion, rate) = match start {
            Start::Settled(level) => (false, level, RISING, rates.attack),
            Start::Late { level, sustaining } => match sustaining {
                true => (true, level, FALLING_TO_SUSTAIN, rates.release),
                false => (true, level, FALLING_TO_ZERO, rates.release),
            },
        };
        let start = State {
            volume,
            rise_rate: rates.attack,
            decay_rate: rates.decay,
            hold_level: 0x11 * random.below(16) as u8,
            fall_rate: rates.release,
            input: !late,
            stage_a: !late,
            stage_b: !late,
            motion,
            requested_motion: random.below(3) as u8,
            motion_delay: 0,
            rate_phase: phase,
            rate_target_phase: target(rate),
            matched_rate: false,
            amplitude_delay: 0,
            curve_delay: 0,
            curve_count: random.byte(),
            curve_divisor: random.pick(&[1, 2, 4, 8, 16, 30]),
            queued_curve_divisor: 0,
            floor_hold: late && volume == 0,
            readback: random.byte(),
        };
        Self {
            start,
            late,
            clocks: 0,
        }
    }

    /// So many steps, or as many as there are, and so many clocks after the last.
    pub fn take(self, steps: u32, clocks: u32) -> Self {
        let due = self.due();
        let step = due.clock_of(steps.min(due.steps));
        self.stop_after(step + clocks)
    }

    /// To the top.
    pub fn take_whole(self, clocks: u32) -> Self {
        let steps = self.due().steps;
        self.take(steps, clocks)
    }

    pub fn stop_after(self, clocks: u32) -> Self {
        Self { clocks, ..self }
    }

    /// The clocks between the first step and the last.
    pub fn duration(&self) -> u32 {
        let due = self.due();
        due.clock_of(due.steps) - due.first
    }

    pub fn is_whole(&self) -> bool {
        let due = self.due();
        self.clocks >= due.clock_of(due.steps)
    }

    pub fn record(&self) -> Vec<u8> {
        let (levels, end) = self.played();
        let mut runs: Vec<(u8, u16)> = Vec::new();
        for level in levels {
            match runs.last_mut() {
                Some((same, clocks)) if *same == level && *clocks < u16::MAX => *clocks += 1,
                _ => runs.push((level, 1)),
            }
        }
        let mut record = vec![self.late.into()];
        record.extend((runs.len() as u16).to_le_bytes());
        record_state(&mut record, &self.start);
        for (level, clocks) in runs {
            record.push(level);
            record.extend(clocks.to_le_bytes());
        }
        record_state(&mut record, &end);
        record
    }

    /// The level after each clock, and the state after the last.
    fn played(&self) -> (Vec<u8>, State) {
        let mut envelope = Envelope::from_state(self.start);
        if self.late {
            envelope.set_gate(true);
        }
        let due = self.due();
        let last = due.clock_of(due.steps);
        let mut levels = Vec::new();
        for clock in 1..=self.clocks {
            envelope.clock();
            let level = envelope.volume;
            assert!(
                clock > last || level == due.level_after(clock),
                "clock {clock} of a rise: the level is {level:#04x}, not {:#04x}; {:?}",
                due.level_after(clock),
                due,
            );
            levels.push(level);
        }
        (levels, envelope.state())
    }

    fn due(&self) -> Due {
        Due::of(&self.start, self.late)
    }
}

/// Which steps are due: of a settled rise by document 02, of a late one by document 01's gate and
/// rate rules, worked out by hand.
#[derive(Debug)]
struct Due {
    from: u8,
    /// The clock of the first step; the first clock is 1.
    first: u32,
    period: u32,
    steps: u32,
}

impl Due {
    fn of(start: &State, late: bool) -> Self {
        let phase = u32::from(start.rate_phase);
        let period = envelope_rate_period(start.rise_rate);
        let first = match late {
            false => around(period - 1, phase) + 4,
            // On clock 1 the decay rate, which the gate-on has put in force, finds its match.
            true if phase == envelope_rate_period(start.decay_rate) - 1 => 4,
            true => around(period - 2, phase) + 5,
        };
        let steps = match start.volume {
            0xff => 256,
            level => 255 - u32::from(level),
        };
        Self {
            from: start.volume,
            first,
            period,
            steps,
        }
    }

    fn clock_of(&self, step: u32) -> u32 {
        self.first + (step - 1) * self.period
    }

    /// Up to the clock of the last step.
    fn level_after(&self, clock: u32) -> u8 {
        let taken = match clock.checked_sub(self.first) {
            Some(clocks) => clocks / self.period + 1,
            None => 0,
        };
        self.from.wrapping_add(taken as u8)
    }
}

/// The phase at which a rate matches.
pub fn target(rate: u8) -> u16 {
    envelope_rate_period(rate) as u16 - 1
}

/// The clocks from a phase up to another, through 0 if that is lower.
fn around(to: u32, from: u32) -> u32 {
    (to + u32::from(PHASES) - from) % u32::from(PHASES)
}

/// From the bottom, the middle and the top: three steps, but from one of the phases all of them,
/// which at a slow rate are taken from near the top.
fn rise_from_each_phase(rises: &mut Vec<Rise>, attack: u8, random: &mut Random) {
    let slow = attack >= FIRST_SLOW_RATE;
    let target = target(attack);
    let before = 2 + random.below(u32::from(target) - 2) as u16;
    let phases = [
        target - before,
        target - 1,
        target,
        target + 1,
        PHASES - 1,
        0,
    ];
    let middle = MIDDLES[usize::from(attack) % MIDDLES.len()];
    for (turn, level) in [0x00, middle, 0xff].into_iter().enumerate() {
        let whole = (usize::from(attack) + 2 * turn) % phases.len();
        for (place, phase) in phases.into_iter().enumerate() {
            let rates = other_rates(attack, random);
            let rise = Rise::new(Start::Settled(level), rates, phase, random);
            rises.push(match slow || place != whole {
                true => rise.take(3, CLOCKS_PAST_A_STEP),
                false => rise.take_whole(CLOCKS_PAST_THE_TOP),
            });
        }
    }
    if slow {
        let phase = phases[usize::from(attack) % phases.len()];
        let rates = other_rates(attack, random);
        let rise = Rise::new(Start::Settled(NEAR_THE_TOP), rates, phase, random);
        rises.push(rise.take_whole(CLOCKS_PAST_THE_TOP));
    }
}

/// Phases about the match of the decay rate, in force for one clock, and about that of the attack
/// rate, in force from the second clock on; also where the two rates are one, and from other levels
/// than a held zero.
fn start_late_at_each_phase(rises: &mut Vec<Rise>, attack: u8, random: &mut Random) {
    let new = target(attack);
    for sustaining in [false, true] {
        let rates = other_rates(attack, random);
        let old = target(rates.decay);
        let phases = [old - 1, old, old + 1, new - 2, new - 1, new, PHASES - 1, 0];
        start_late(rises, 0, sustaining, rates, &phases, random);
        let level = if sustaining { random.byte() } else { 0xff };
        let phases = [old, new - 1, new];
        start_late(rises, level, sustaining, rates, &phases, random);
        let rates = Rates {
            decay: attack,
            ..rates
        };
        start_late(rises, 0, !sustaining, rates, &[new - 1, new], random);
    }
}

fn start_late(
    rises: &mut Vec<Rise>,
    level: u8,
    sustaining: bool,
    rates: Rates,
    phases: &[u16],
    random: &mut Random,
) {
    for &phase in phases {
        let rise = Rise::new(Start::Late { level, sustaining }, rates, phase, random);
        rises.push(rise.take(2, CLOCKS_PAST_A_STEP));
    }
}

/// On each of the clocks that a gate-on takes to be a rise, and that the top takes to be a fall: the
/// levels do not show them, the state does.
fn stop_on_the_way(rises: &mut Vec<Rise>, attack: u8, random: &mut Random) {
    let rates = other_rates(attack, random);
    let (level, sustaining) = (0, attack / 4 % 2 == 0);
    for phase in [target(rates.decay), target(attack) - 1] {
        let rise = Rise::new(Start::Late { level, sustaining }, rates, phase, random);
        rises.push(rise.stop_after(1 + u32::from(attack % 4)));
    }
    let rise = Rise::new(Start::Settled(0xfe), rates, target(attack), random);
    rises.push(rise.take_whole(u32::from(attack % 5)));
}

/// No rate is the attack's, so that a wrong one shows.
fn other_rates(attack: u8, random: &mut Random) -> Rates {
    let mut other = || (attack + 1 + random.below(15) as u8) % 16;
    Rates {
        attack,
        decay: other(),
        release: other(),
    }
}
