//! Calls on the tail planner (document 02, request 9) and on the chip that it is asked about, and
//! records of what they answer.
//!
//! A record has 32 bytes, little endian: the call's number (as in `number`), a value (u8: a voice, a
//! byte written or a level), a number (u32: clocks or an address), a state (18 bytes, as in a record
//! of the list `envelope`) and the answer (u64). What a call does not have is 0.
//!
//! The outputs are one word, as the port's crate `scenes` has them: codes from bit 0, 12 and 24 on,
//! levels from bit 39, 47 and 55 on. `Run` answers with the outputs after its last clock.
//!
//! A forecast is the clocks, or the refusal's number from bit 32 on and its place. `Put` gives a
//! voice a state, also such as no call makes, and answers with its forecast. `Each` answers with a
//! digest of 61 forecasts, those of its state with every divisor and every curve count below it, the
//! highest first, and leaves the chip as it was. `RunToHeld` answers with a digest of two: the clocks
//! run, with bit 40 set if the voice is held then, or the refusal; and the outputs after it. `Matches`
//! answers with a level's entry in the planner's table.
//!
//! The original plans nothing. Whether a release is settled is judged by document 01's list, and the
//! clock on which it ends is found by clocking the original until its level is held: no answer comes
//! from a formula.

use std::collections::BTreeMap;
use std::mem;

use crate::calls::{mixed, PACK_LENGTH};
use crate::lists::{record_state, target, FALLING_TO_ZERO, PHASES};
use crate::random::Random;
use crate::sid::envelope::{Envelope, State};
use crate::sid::sid::Mos6581;
use crate::sid::waveforms::GeneratedWaveShapes;

use Call::{Each, Forecast, Matches, New, Put, Reset, Run, RunToHeld, Write};

pub const RECORD_BYTES: usize = 32;

/// The divisors that document 01 lists.
pub const DIVISORS: [u8; 6] = [1, 2, 4, 8, 16, 30];

/// What the entries of the pack that is not filled are. Cut to twelve bits, its top bit is set, so
/// that no saw is fed back: the phases tell this pack from a filled one, too.
const ONE_NUMBER: u16 = 0xfa5a;

/// Document 01's number for a voice above 2, and document 02's for a forecast that is not due.
const NO_SUCH_VOICE: u64 = 3;
const UNSETTLED: u64 = 19;

#[derive(Clone, Copy)]
pub enum Call {
    New,
    Reset,
    Write(u16, u8),
    /// So many clocks.
    Run(u32),
    Forecast(u8),
    Put(u8, State),
    Each(u8, State),
    /// At most so many clocks.
    RunToHeld(Engine, u8, u32),
    Matches(u8),
}

#[derive(Clone, Copy)]
pub enum Engine {
    Plain,
    /// Over a pack of settled codes.
    Filled,
    /// Over a pack that has one number all over.
    OneNumber,
}

/// A settled release, but for what document 01 does not ask of it.
#[derive(Clone, Copy)]
pub struct Release {
    pub level: u8,
    pub divisor: u8,
    pub count: u8,
    pub rate: u8,
    pub phase: u16,
}

impl Release {
    /// What is not asked is random; a level of 0 is not held.
    pub fn state(&self, random: &mut Random) -> State {
        State {
            volume: self.level,
            rise_rate: random.byte(),
            decay_rate: random.byte(),
            hold_level: random.byte(),
            fall_rate: self.rate,
            input: false,
            stage_a: false,
            stage_b: false,
            motion: FALLING_TO_ZERO,
            requested_motion: random.below(3) as u8,
            motion_delay: 0,
            rate_phase: self.phase,
            rate_target_phase: target(self.rate),
            matched_rate: false,
            amplitude_delay: 0,
            curve_delay: 0,
            curve_count: self.count,
            curve_divisor: self.divisor,
            queued_curve_divisor: 0,
            floor_hold: false,
            readback: random.byte(),
        }
    }
}

/// What the records compare.
#[derive(Default)]
pub struct Compared {
    pub forecasts: u64,
    pub runs: u64,
    pub stopped: u64,
    /// Clocks of the runs to a hold.
    pub clocks: u64,
    /// By the refusal's number.
    pub refused: BTreeMap<u64, u64>,
}

pub struct Recorder {
    pub chip: Mos6581,
    pub records: Vec<u8>,
    pub compared: Compared,
    /// The tables that the chip does not have: those of one number, but while it runs over them.
    others: GeneratedWaveShapes,
}

impl Recorder {
    pub fn new() -> Self {
        Self {
            chip: Mos6581::new(),
            records: Vec::new(),
            compared: Compared::default(),
            others: GeneratedWaveShapes::from_pack(&[ONE_NUMBER; PACK_LENGTH]),
        }
    }

    pub fn make(&mut self, calls: &[Call]) {
        for &call in calls {
            self.make_one(call);
        }
    }

    fn make_one(&mut self, call: Call) {
        match call {
            New => {
                self.chip.renew();
                self.record(call, 0, 0, None, 0);
            }
            Reset => {
                self.chip.reset();
                self.record(call, 0, 0, None, 0);
            }
            Write(address, value) => {
                self.chip.write(address, value);
                self.record(call, value, address.into(), None, 0);
            }
            Run(clocks) => self.run_until(clocks, |_| false),
            Forecast(voice) => {
                let answer = self.forecast(voice);
                self.record(call, voice, 0, None, answer);
            }
            Put(voice, state) => {
                self.chip.envelopes[usize::from(voice)] = Envelope::from_state(state);
                let answer = self.forecast(voice);
                self.record(call, voice, 0, Some(state), answer);
            }
            Each(voice, state) => {
                let answer = self.forecast_each(state);
                self.record(call, voice, 0, Some(state), answer);
            }
            RunToHeld(engine, voice, most) => {
                let told = self.run_to_held(engine, voice, most);
                let answer = mixed(mixed(1, told), outputs(&self.chip));
                self.record(call, voice, most, None, answer);
            }
            Matches(level) => self.record(call, level, 0, None, matches_from(level)),
        }
    }

    /// Clocks until the chip is as wanted, `most` at the most, in one record.
    pub fn run_until(&mut self, most: u32, wanted: impl Fn(&Mos6581) -> bool) {
        let mut clocks = 0;
        while clocks < most && !wanted(&self.chip) {
            self.chip.tick();
            clocks += 1;
        }
        self.record(Run(clocks), 0, clocks, None, outputs(&self.chip));
    }

    fn forecast(&mut self, voice: u8) -> u64 {
        match self.chip.envelopes.get(usize::from(voice)) {
            Some(envelope) => self.forecast_of(envelope.state()),
            None => self.refuse(NO_SUCH_VOICE),
        }
    }

    fn forecast_of(&mut self, state: State) -> u64 {
        if !is_settled(&state) {
            return self.refuse(UNSETTLED);
        }
        self.compared.forecasts += 1;
        held_on(state).into()
    }

    fn forecast_each(&mut self, state: State) -> u64 {
        let mut digest = 1;
        for curve_divisor in DIVISORS {
            for curve_count in (0..curve_divisor).rev() {
                let answer = self.forecast_of(State {
                    curve_divisor,
                    curve_count,
                    ..state
                });
                digest = mixed(digest, answer);
            }
        }
        digest
    }

    fn run_to_held(&mut self, engine: Engine, voice: u8, most: u32) -> u64 {
        if voice > 2 {
            return self.refuse(NO_SUCH_VOICE);
        }
        self.change_tables(engine);
        let mut clocks = 0;
        while clocks < most && !self.is_held(voice) {
            self.chip.tick();
            clocks += 1;
        }
        self.change_tables(engine);
        let stopped = self.is_held(voice);
        self.compared.runs += 1;
        self.compared.stopped += u64::from(stopped);
        self.compared.clocks += u64::from(clocks);
        u64::from(clocks) | u64::from(stopped) << 40
    }

    /// For a run, and back after it. With a filled pack the original's own tables serve.
    fn change_tables(&mut self, engine: Engine) {
        match engine {
            Engine::Plain | Engine::Filled => {}
            Engine::OneNumber => mem::swap(self.chip.tables(), &mut self.others),
        }
    }

    fn is_held(&self, voice: u8) -> bool {
        self.chip.envelopes[usize::from(voice)].state().floor_hold
    }

    fn refuse(&mut self, number: u64) -> u64 {
        *self.compared.refused.entry(number).or_insert(0) += 1;
        number << 32
    }

    fn record(&mut self, call: Call, value: u8, number: u32, state: Option<State>, answer: u64) {
        let end = self.records.len() + RECORD_BYTES;
        self.records.extend([self::number(call), value]);
        self.records.extend(number.to_le_bytes());
        if let Some(state) = state {
            record_state(&mut self.records, &state);
        }
        self.records.resize(end - 8, 0);
        self.records.extend(answer.to_le_bytes());
    }
}

fn number(call: Call) -> u8 {
    match call {
        New => 0,
        Reset => 1,
        Write(..) => 2,
        Run(..) => 3,
        Forecast(..) => 4,
        Put(..) => 5,
        Each(..) => 6,
        RunToHeld(Engine::Plain, ..) => 7,
        RunToHeld(Engine::Filled, ..) => 8,
        RunToHeld(Engine::OneNumber, ..) => 9,
        Matches(..) => 10,
    }
}

/// Document 01's 'Settled release', clause by clause. A motion without a delay has its own rate in
/// force.
pub fn is_settled(state: &State) -> bool {
    let gate_low = !state.input && !state.stage_a && !state.stage_b;
    let falling = state.motion == FALLING_TO_ZERO;
    let no_delay = [state.motion_delay, state.amplitude_delay, state.curve_delay] == [0; 3];
    let nothing_due = state.queued_curve_divisor == 0 && !state.matched_rate;
    let of_release_rate = state.rate_target_phase == target(state.fall_rate);
    gate_low
        && falling
        && no_delay
        && nothing_due
        && !state.floor_hold
        && of_release_rate
        && state.rate_phase < PHASES
        && DIVISORS.contains(&state.curve_divisor)
        && state.curve_count < state.curve_divisor
}

/// The clock on which a release ends, the first clock being 1: that after which the level is held.
pub fn held_on(state: State) -> u32 {
    let mut envelope = Envelope::from_state(state);
    let mut clock = 0;
    while !envelope.state().floor_hold {
        envelope.clock();
        clock += 1;
    }
    clock
}

/// The matches that a fall from 0xff uses from a level on. At the quickest rate, too, a step comes
/// before the next match.
fn matches_from(level: u8) -> u64 {
    let mut envelope = Envelope::from_state(State {
        volume: 0xff,
        ..Envelope::new().state()
    });
    let mut used = 0;
    loop {
        let state = envelope.state();
        if state.floor_hold {
            return used;
        }
        used += u64::from(state.matched_rate && state.volume <= level);
        envelope.clock();
    }
}

fn outputs(chip: &Mos6581) -> u64 {
    let mut word = 0;
    for voice in 0..3 {
        word |= u64::from(chip.oscillators[voice].last_sample) << (12 * voice);
        word |= u64::from(chip.envelopes[voice].volume) << (39 + 8 * voice);
    }
    word
}
