//! Calls on the whole chip and on a pack, and records of what they answer.
//!
//! A record has 16 bytes, little endian: the call's number (its place in `Call`, from 0), a value
//! (u8), an address (u16), a number of clocks (u32) and the answer (u64). What a call does not
//! have is 0.
//!
//! The outputs are one word: codes from bit 0, 12 and 24 on, levels from bit 36, 44 and 52 on.
//! `Tick` answers with a digest of the outputs after each clock, each followed by the bits that the
//! bus lost on that clock; `Watch` reads after each clock, and its digest has that byte, too; `Run`
//! answers with the outputs after its last clock. `Code`, `Level` and `Held` answer for a voice, or
//! give the refusal's number from bit 32 on and its place.
//!
//! `Tick`, `Watch` and `Run` have a value: 0 for the plain engine, 1 for the engine over the pack. In
//! the original the pack's entries take the place of the settled codes then. `Pack` makes the pack or
//! changes it, by the rule whose number is the value (its place in `Rule`, from 0), and answers with
//! a digest of its entries, the last one first. The pack has 45,056 of them, all 0 at first.
//!
//! `Lengths` has the greatest length as its address. Of 65,536 entries, laid as by `Rule::Scatter`,
//! it lends as many to `tick_packed`, `run_packed`, `render` and `fill`, and then one fewer until there
//! is none. It answers with a digest of two fields: how many lengths not all four refused, from bit 32
//! on, and the first such one's number among the lengths lent, from 1; then a digest of the entries.
//! A tick that told bits as lost has not refused, nor a render that stored.
//!
//! `Render` and `RenderOver` have a length as their address: so many entries of the pack are lent, all
//! of them or fewer, to `render` and to `render_over`. In the place of the clocks they have the entries
//! of the buffer, 24,581 at the most, which is laid as by `Rule::Scatter` before. They answer with a
//! digest of three fields: a digest of the buffer, as of a pack; the outputs after the last clock, or
//! the refusal; the cycle. `RenderOver` with no entry of the pack is the plain engine, and where some
//! are lent, the original has those in place of its settled codes. `render` refuses all lengths but the
//! whole.
//!
//! The port has one cycle for the three voices. The original has three, and each record is made only
//! where they agree and count the clocks since the chip was made or last reset.
//!
//! The port's tick makes one leak step where one is due; the original works out how many are. Each
//! clock is made only where at most one is, in each voice and of each kind (document 02, request 12).

use crate::sid::sid::Mos6581;
use crate::sid::waveforms::GeneratedWaveShapes;

use Call::{
    Code, Held, Lengths, Level, New, Pack, Read, Render, RenderOver, Reset, Run, SetPotX, SetPotY,
    Tick, Watch, Write as WriteCall,
};

pub const RECORD_BYTES: usize = 16;

pub const PACK_LENGTH: usize = 45_056;
/// Entries of the pack that are the block of selection 9.
const BLOCK_OF_9: std::ops::Range<usize> = 16_384..20_480;
/// Entries of which parts of every length are lent.
const LENT: usize = 65_536;

/// Clocks for which the longest buffer has room; each takes six entries.
const MOST_RENDERED: u32 = 4_096;
const ENTRIES_PER_CLOCK: u32 = 6;

/// The number of a voice above 2 is refused (document 01, number 3 at place 0).
const NO_SUCH_VOICE: u64 = 3 << 32;
/// So is a pack of another length than its own (number 15 at place 0).
const WRONG_LENGTH: u64 = 15 << 32;

#[derive(Clone, Copy)]
pub enum Call {
    New,
    Reset,
    Write(u16, u8),
    Read(u16),
    SetPotX(u8),
    SetPotY(u8),
    /// So many clocks.
    Tick(u32),
    /// A read of the address after each of so many clocks.
    Watch(u16, u32),
    /// So many clocks by the port's `run`.
    Run(u32),
    Code(u8),
    Level(u8),
    Held(u8),
    /// The pack made or changed, and played over from now on.
    Pack(Rule),
    /// Parts of each length up to this one.
    Lengths(u16),
    /// So many entries of a buffer by the port's `render`, over so many of the pack.
    Render(u16, u32),
    /// So many by its `render_over`.
    RenderOver(u16, u32),
}

/// How the pack is made, or changed from what it has.
#[derive(Clone, Copy, PartialEq)]
pub enum Rule {
    /// The settled codes.
    Fill,
    /// Ones all over.
    Ones,
    /// Numbers of sixteen bits; no two blocks are alike in their low twelve.
    Scatter,
    /// The last entry comes first.
    Turn,
    /// One number all over in the block of selection 9, which no voice reads.
    Spoil,
}

/// How clocks are made until something comes up.
#[derive(Clone, Copy)]
pub enum Pace {
    Tick,
    Watch(u16),
    Run,
    /// By `render` or by `render_over`, with so many entries of the pack lent, and so many of the
    /// buffer past the last whole clock.
    Render {
        strict: bool,
        lent: u16,
        past: u32,
    },
}

pub struct Recorder {
    pub chip: Mos6581,
    pub records: Vec<u8>,
    /// Clocks whose outputs are each in a digest.
    pub ticked: u64,
    /// Those of them on which the bus lost bits.
    pub fading: u64,
    /// Clocks of runs, whose outputs are recorded after the last.
    pub run: u64,
    /// Renders that were not refused, and their clocks, whose outputs are each in a digest.
    pub renders: u64,
    pub rendered: u64,
    /// Renders that were refused.
    pub refused: u64,
    /// Clocks since the chip was made or last reset.
    since: u64,
    clock_by_clock: bool,
    settled: Vec<u16>,
    pack: Vec<u16>,
    /// The rule of the last `Pack`.
    rule: Option<Rule>,
    packed: bool,
}

impl Recorder {
    pub fn new() -> Self {
        let mut chip = Mos6581::new();
        let settled = chip.tables().pack();
        Self {
            chip,
            settled,
            pack: vec![0; PACK_LENGTH],
            rule: None,
            packed: false,
            records: Vec::new(),
            ticked: 0,
            fading: 0,
            run: 0,
            renders: 0,
            rendered: 0,
            refused: 0,
            since: 0,
            clock_by_clock: false,
        }
    }

    /// As at first; with `clock_by_clock` a record for each clock, to find one that differs.
    pub fn restart(&mut self, clock_by_clock: bool) {
        self.chip.renew();
        self.records.clear();
        self.ticked = 0;
        self.fading = 0;
        self.run = 0;
        self.renders = 0;
        self.rendered = 0;
        self.refused = 0;
        self.since = 0;
        self.clock_by_clock = clock_by_clock;
        self.pack.fill(0);
        self.rule = None;
        self.play_over_pack(false);
    }

    /// The engine of the clocks from now on: over the pack, or plain.
    pub fn play_over_pack(&mut self, packed: bool) {
        let pack = if packed { &self.pack } else { &self.settled };
        *self.chip.tables() = GeneratedWaveShapes::from_pack(pack);
        self.packed = packed;
    }

    /// Over a pack made by this rule, which is made if it is not there already.
    pub fn play_over(&mut self, rule: Rule) {
        if self.rule != Some(rule) {
            self.make(&[Pack(rule)]);
        }
        self.play_over_pack(true);
    }

    pub fn make(&mut self, calls: &[Call]) {
        for &call in calls {
            self.make_one(call);
        }
    }

    fn make_one(&mut self, call: Call) {
        let chip = &mut self.chip;
        let (value, address, answer) = match call {
            New => {
                chip.renew();
                self.since = 0;
                (0, 0, 0)
            }
            Reset => {
                chip.reset();
                self.since = 0;
                (0, 0, 0)
            }
            WriteCall(address, value) => {
                chip.write(address, value);
                (value, address, 0)
            }
            Read(address) => (0, address, chip.read(address).into()),
            SetPotX(value) => {
                chip.pot_x = value;
                (value, 0, 0)
            }
            SetPotY(value) => {
                chip.pot_y = value;
                (value, 0, 0)
            }
            Tick(clocks) => return self.clock_until(Pace::Tick, clocks, |_| false),
            Watch(address, clocks) => {
                return self.clock_until(Pace::Watch(address), clocks, |_| false)
            }
            Run(clocks) => return self.clock_until(Pace::Run, clocks, |_| false),
            Code(voice) => (
                voice,
                0,
                of_voice(voice, |v| chip.oscillators[v].last_sample.into()),
            ),
            Level(voice) => (
                voice,
                0,
                of_voice(voice, |v| chip.envelopes[v].volume.into()),
            ),
            Held(voice) => (
                voice,
                0,
                of_voice(voice, |v| chip.envelopes[v].state().floor_hold.into()),
            ),
            Pack(rule) => {
                self.change_pack(rule);
                (rule as u8, 0, digest(&self.pack))
            }
            Lengths(longest) => (0, longest, refusals_up_to(longest)),
            Render(lent, entries) => return self.render(true, lent, entries),
            RenderOver(lent, entries) => return self.render(false, lent, entries),
        };
        self.record(call, value, address, 0, answer);
    }

    fn change_pack(&mut self, rule: Rule) {
        let pack = &mut self.pack;
        match rule {
            Rule::Fill => pack.copy_from_slice(&self.settled),
            Rule::Ones => pack.fill(0xffff),
            Rule::Scatter => scatter(pack),
            Rule::Turn => pack.reverse(),
            Rule::Spoil => pack[BLOCK_OF_9].fill(0x5a5a),
        }
        self.rule = Some(rule);
        self.play_over_pack(true);
    }

    pub fn clocks(&self) -> u64 {
        self.ticked + self.run + self.rendered
    }

    /// The render that has the engine of the clocks, with so many entries left of its buffer.
    pub fn render_leaving(&self, past: u32) -> Pace {
        let lent = if self.packed { PACK_LENGTH as u16 } else { 0 };
        Pace::Render {
            strict: self.packed,
            lent,
            past,
        }
    }

    fn render(&mut self, strict: bool, lent: u16, entries: u32) {
        let length = usize::from(lent);
        if strict && length != PACK_LENGTH {
            self.refused += 1;
            let answer = self.rendered_answer(&[], entries, WRONG_LENGTH);
            return self.record(Render(0, 0), 0, lent, entries, answer);
        }
        let codes = [&self.pack[..length], &self.settled[length..]].concat();
        *self.chip.tables() = GeneratedWaveShapes::from_pack(&codes);
        let past = entries % ENTRIES_PER_CLOCK;
        let pace = Pace::Render { strict, lent, past };
        self.clock_until(pace, entries / ENTRIES_PER_CLOCK, |_| false);
        self.play_over_pack(self.packed);
    }

    /// What is answered where this was stored in a buffer of so many entries.
    fn rendered_answer(&self, stored: &[u16], entries: u32, told: u64) -> u64 {
        let mut out = vec![0; entries as usize];
        scatter(&mut out);
        out[..stored.len()].copy_from_slice(stored);
        mixed(mixed(digest(&out), told), self.since)
    }

    /// Clocks until the chip is as wanted, `most` at the most.
    pub fn clock_until(&mut self, pace: Pace, most: u32, wanted: impl Fn(&Mos6581) -> bool) {
        let step = match pace {
            _ if self.clock_by_clock => 1,
            Pace::Render { .. } => most.min(MOST_RENDERED),
            _ => most,
        };
        let mut left = most;
        loop {
            let clocks = self.clock_record(pace, left.min(step), &wanted);
            left -= clocks;
            if clocks < step || left == 0 {
                return;
            }
        }
    }

    /// One record; gives its clocks.
    fn clock_record(&mut self, pace: Pace, most: u32, wanted: impl Fn(&Mos6581) -> bool) -> u32 {
        let mut digest = 1;
        let mut clocks = 0;
        let mut fading = 0;
        let mut stored = Vec::new();
        while clocks < most && !wanted(&self.chip) {
            assert!(self.chip.leaks_by_single_steps());
            let lost = self.chip.tick_losing();
            digest = mixed(mixed(digest, outputs(&self.chip)), lost.into());
            if let Pace::Watch(address) = pace {
                digest = mixed(digest, self.chip.read(address).into());
            }
            if let Pace::Render { .. } = pace {
                stored.extend(codes_and_levels(&self.chip));
            }
            clocks += 1;
            fading += u64::from(lost != 0);
        }
        self.since += u64::from(clocks);
        match pace {
            Pace::Run => self.run += u64::from(clocks),
            Pace::Render { .. } => {
                self.renders += 1;
                self.rendered += u64::from(clocks);
            }
            Pace::Tick | Pace::Watch(_) => {
                self.ticked += u64::from(clocks);
                self.fading += fading;
            }
        }
        let engine = self.packed.into();
        match pace {
            Pace::Tick => self.record(Tick(0), engine, 0, clocks, digest),
            Pace::Watch(address) => self.record(Watch(0, 0), engine, address, clocks, digest),
            Pace::Run => self.record(Run(0), engine, 0, clocks, outputs(&self.chip)),
            Pace::Render { strict, lent, past } => {
                let entries = ENTRIES_PER_CLOCK * clocks + past;
                let answer = self.rendered_answer(&stored, entries, outputs(&self.chip));
                let call = if strict { Render } else { RenderOver };
                self.record(call(0, 0), 0, lent, entries, answer);
            }
        }
        clocks
    }

    fn record(&mut self, call: Call, value: u8, address: u16, clocks: u32, answer: u64) {
        assert_eq!(self.chip.cycles(), [self.since; 3]);
        self.records.extend([number(call), value]);
        self.records.extend(address.to_le_bytes());
        self.records.extend(clocks.to_le_bytes());
        self.records.extend(answer.to_le_bytes());
    }
}

fn number(call: Call) -> u8 {
    match call {
        New => 0,
        Reset => 1,
        WriteCall(..) => 2,
        Read(..) => 3,
        SetPotX(..) => 4,
        SetPotY(..) => 5,
        Tick(..) => 6,
        Watch(..) => 7,
        Run(..) => 8,
        Code(..) => 9,
        Level(..) => 10,
        Held(..) => 11,
        Pack(..) => 12,
        Lengths(..) => 13,
        Render(..) => 14,
        RenderOver(..) => 15,
    }
}

fn of_voice(voice: u8, answer: impl Fn(usize) -> u64) -> u64 {
    if voice > 2 {
        return NO_SUCH_VOICE;
    }
    answer(voice.into())
}

/// The answer of `Lengths`: all lengths but the pack's own are refused, and no entry changes.
fn refusals_up_to(longest: u16) -> u64 {
    let mut entries = vec![0; LENT];
    scatter(&mut entries);
    let longest = usize::from(longest);
    let found = match longest.checked_sub(PACK_LENGTH) {
        Some(longer) => 1 << 32 | (longer as u64 + 1),
        None => 0,
    };
    mixed(found, digest(&entries))
}

fn scatter(entries: &mut [u16]) {
    let mut spread = 1;
    for (place, entry) in entries.iter_mut().enumerate().rev() {
        spread = mixed(spread, place as u64);
        *entry = spread as u16;
    }
}

fn digest(entries: &[u16]) -> u64 {
    let last_first = entries.iter().rev();
    last_first.fold(1, |digest, &entry| mixed(digest, entry.into()))
}

/// What a render stores for a clock: three codes, then three levels.
fn codes_and_levels(chip: &Mos6581) -> [u16; ENTRIES_PER_CLOCK as usize] {
    let [a, b, c] = &chip.oscillators;
    let [d, e, f] = chip
        .envelopes
        .each_ref()
        .map(|envelope| envelope.volume.into());
    [a.last_sample, b.last_sample, c.last_sample, d, e, f]
}

fn outputs(chip: &Mos6581) -> u64 {
    let mut word = 0;
    for voice in 0..3 {
        word |= u64::from(chip.oscillators[voice].last_sample) << (12 * voice);
        word |= u64::from(chip.envelopes[voice].volume) << (36 + 8 * voice);
    }
    word
}

/// Two fields never give one digest the same next, nor does one field two digests.
pub fn mixed(digest: u64, field: u64) -> u64 {
    let sum = digest.wrapping_add(field);
    let spread = sum.wrapping_add(sum << 10);
    spread ^ (spread >> 6)
}
