//! The list `bus`: calls on one data bus that starts fresh, in order.
//!
//! A record has 15 bytes, little endian: the call's number (its place in `Call`, from 0), its
//! operand (u32), the byte it returned, and the state after it: value (u8), age (u32), next
//! expiry (u32). Clocks return the bits lost on the last of them. What a call does not have is 0.

use crate::random::Random;
use crate::sid::bus::InternalDataBus;
use crate::sid::constants::DATA_BUS_HOLD_CYCLES as HOLDS;

use Call::{Clock, Drive, ReadDriven, ReadFloating, Reset, SetState};

const SEED: u64 = 6581;
const RANDOM_CALLS: usize = 400;
const RANDOM_STATES: usize = 60;

pub fn list() -> Vec<u8> {
    let mut recorder = Recorder::new();
    let mut random = Random::seeded(SEED);
    stand_still_at_zero(&mut recorder);
    fade_past_every_hold(&mut recorder, &mut random);
    renew_in_mid_fade(&mut recorder, &mut random);
    lose_on_the_last_clock(&mut recorder);
    call_at_random(&mut recorder, &mut random);
    wear_out_the_age(&mut recorder);
    expire_early_or_late(&mut recorder, &mut random);
    expire_far_too_late(&mut recorder);
    leave_an_age_at_zero(&mut recorder);
    renew_crafted_states(&mut recorder);
    start_from_random_states(&mut recorder, &mut random);
    recorder.records
}

#[derive(Clone, Copy)]
enum Call {
    Reset,
    Drive(u8),
    ReadDriven(u8),
    ReadFloating,
    /// So many clocks.
    Clock(u32),
    /// Value, age and next expiry, also such as no call makes.
    SetState(u8, u32, u32),
}

struct Recorder {
    bus: InternalDataBus,
    records: Vec<u8>,
}

impl Recorder {
    fn new() -> Self {
        Self {
            bus: InternalDataBus::new(),
            records: Vec::new(),
        }
    }

    fn make(&mut self, calls: &[Call]) {
        for &call in calls {
            self.make_one(call);
        }
    }

    fn make_one(&mut self, call: Call) {
        let bus = &mut self.bus;
        let (number, operand, returned) = match call {
            Reset => {
                bus.reset();
                (0, 0, 0)
            }
            Drive(byte) => {
                bus.drive(byte);
                (1, byte.into(), 0)
            }
            ReadDriven(byte) => (2, byte.into(), bus.read_driven(byte)),
            ReadFloating => (3, 0, bus.read_floating()),
            Clock(clocks) => {
                let lost = (0..clocks).map(|_| bus.clock_losing()).last();
                (4, clocks, lost.unwrap_or(0))
            }
            SetState(value, age, next_expiry) => {
                *bus = InternalDataBus::from_state(value, age, next_expiry);
                (5, 0, 0)
            }
        };
        self.record(number, operand, returned);
    }

    fn record(&mut self, number: u8, operand: u32, returned: u8) {
        let (value, age, next_expiry) = self.bus.state();
        self.records.push(number);
        self.records.extend(operand.to_le_bytes());
        self.records.extend([returned, value]);
        self.records.extend(age.to_le_bytes());
        self.records.extend(next_expiry.to_le_bytes());
    }
}

/// A value of 0 does not age, be it fresh, reset, driven or faded.
fn stand_still_at_zero(recorder: &mut Recorder) {
    let zeros: [&[Call]; 5] = [
        &[],
        &[Reset],
        &[Drive(0)],
        &[ReadDriven(0)],
        &[Drive(0x01), Clock(12)],
    ];
    for zero in zeros {
        recorder.make(zero);
        recorder.make(&[Clock(1), Clock(50_000), ReadFloating]);
        recorder.make(&[Drive(0x81), Clock(11), ReadFloating, Clock(1), ReadFloating]);
    }
}

fn fade_past_every_hold(recorder: &mut Recorder, random: &mut Random) {
    let mut bytes: Vec<u8> = (0..8).map(|bit| 1 << bit).collect();
    bytes.extend([0xff, 0x00, 0x55, 0xaa, 0x81]);
    bytes.extend((0..5).map(|_| random.byte()));
    let mut holds = HOLDS;
    holds.sort_unstable();

    for byte in bytes {
        recorder.make(&[Drive(byte)]);
        // Counted here, since the bus's own age stands still once all is gone.
        let mut elapsed = 0;
        for hold in holds {
            // Two reads just before the hold: one that renewed would show at the hold.
            recorder.make(&[Clock(hold - 1 - elapsed), ReadFloating, ReadFloating]);
            recorder.make(&[Clock(1), ReadFloating, Clock(1), ReadFloating]);
            elapsed = hold + 1;
        }
    }
}

fn renew_in_mid_fade(recorder: &mut Recorder, random: &mut Random) {
    for (bit, hold) in HOLDS.into_iter().enumerate() {
        for stop in [hold / 2, hold - 1, hold] {
            // With this bit set the hold is one of the byte's expiries.
            let byte = random.byte() | 1 << bit;
            let renewals = [
                Drive(byte),
                Drive(0),
                Drive(random.byte()),
                ReadDriven(random.byte()),
                Reset,
            ];
            for renewal in renewals {
                recorder.make(&[Drive(byte), Clock(stop), renewal]);
                let first_expiry = match recorder.bus.state() {
                    (0, _, _) => hold,
                    (_, _, next_expiry) => next_expiry,
                };
                recorder.make(&[Clock(first_expiry - 1), Clock(1), ReadFloating]);
            }
        }
    }
}

/// With no read on the way: to the clock before a loss and over it, to the loss in one go and a
/// clock further. No clock is no loss, and what a call takes away on the clock before is not lost.
fn lose_on_the_last_clock(recorder: &mut Recorder) {
    let mut bytes: Vec<u8> = (0..8).map(|bit| 1 << bit).collect();
    bytes.extend([0xff, 0x7e, 0xa5, 0x11]);
    for byte in bytes {
        let set = (0..8).filter(|bit| byte >> bit & 1 == 1);
        for hold in set.map(|bit: usize| HOLDS[bit]) {
            recorder.make(&[Drive(byte), Clock(hold - 1), Clock(1), Clock(0), Clock(1)]);
            recorder.make(&[ReadDriven(byte), Clock(hold), Clock(0), Clock(1)]);
            recorder.make(&[Drive(byte), Clock(hold + 1), Clock(1)]);
        }
    }
    for (bit, hold) in HOLDS.into_iter().enumerate() {
        for between in [
            Drive(0),
            Drive(!(1 << bit)),
            ReadDriven(0),
            Reset,
            ReadFloating,
        ] {
            recorder.make(&[
                Drive(1 << bit),
                Clock(hold - 1),
                between,
                Clock(0),
                Clock(1),
            ]);
        }
    }
}

fn call_at_random(recorder: &mut Recorder, random: &mut Random) {
    for _ in 0..RANDOM_CALLS {
        let call = match random.below(20) {
            0 => Reset,
            1 | 2 => Drive(random.byte()),
            3 | 4 => ReadDriven(random.byte()),
            5..=8 => ReadFloating,
            _ => Clock(clocks_to_near_a_hold(recorder, random)),
        };
        recorder.make(&[call]);
    }
}

/// Clocks that end on a hold or next to it, or a few if that hold is past.
fn clocks_to_near_a_hold(recorder: &Recorder, random: &mut Random) -> u32 {
    let (_, age, _) = recorder.bus.state();
    let hold = HOLDS[random.below(8) as usize];
    let stop = hold - 1 + random.below(3);
    if stop > age {
        stop - age
    } else {
        1 + random.below(20)
    }
}

/// The age stops at the largest number.
fn wear_out_the_age(recorder: &mut Recorder) {
    for value in [0xff, 0x80, 0x01] {
        for age in [u32::MAX - 2, u32::MAX - 1, u32::MAX] {
            for next_expiry in [0, 43_008, u32::MAX - 1, u32::MAX] {
                recorder.make(&[SetState(value, age, next_expiry)]);
                recorder.make(&[Clock(1), Clock(1), ReadFloating]);
            }
        }
    }
}

/// A next expiry that is not the soonest of the bits still there.
fn expire_early_or_late(recorder: &mut Recorder, random: &mut Random) {
    for age in [0u32, 10, 11, 12, 7_679, 15_360, 43_007, 43_008, 50_000] {
        for next_expiry in [0, 1, age.saturating_sub(1), age, age + 1, age + 2, u32::MAX] {
            let value = random.byte() | 0x80;
            recorder.make(&[SetState(value, age, next_expiry)]);
            clock_a_little(recorder, random);
        }
    }
}

/// Bits past their holds stay until the late expiry, then go all at once.
fn expire_far_too_late(recorder: &mut Recorder) {
    let states = [
        (0xff, 0, 43_008),
        (0xff, 100, 26_624),
        (0xff, 20_000, 26_624),
        (0x81, 20_000, 20_002),
        (0x7f, 43_000, 43_008),
        (0xff, 50_000, 60_000),
        (0x01, 12, 1_000),
    ];
    for (value, age, next_expiry) in states {
        recorder.make(&[SetState(value, age, next_expiry)]);
        recorder.make(&[Clock(next_expiry - 1 - age), ReadFloating]);
        recorder.make(&[Clock(1), ReadFloating, Clock(1)]);
    }
}

/// A value of 0 keeps whatever age and next expiry it has.
fn leave_an_age_at_zero(recorder: &mut Recorder) {
    for age in [1, 11, 43_008, u32::MAX] {
        for next_expiry in [0, 12, age, u32::MAX] {
            recorder.make(&[SetState(0, age, next_expiry), Clock(1), Clock(2)]);
        }
        recorder.make(&[ReadFloating, Drive(0x81), Clock(12), ReadFloating]);
    }
}

/// Whatever the state was, a drive, a driven read and a reset leave nothing of it.
fn renew_crafted_states(recorder: &mut Recorder) {
    for renewal in [Drive(0x81), ReadDriven(0x81), Drive(0), Reset] {
        for (value, age, next_expiry) in [(0xff, u32::MAX, 0), (0xff, 50_000, 60_000), (0, 5, 5)] {
            recorder.make(&[SetState(value, age, next_expiry), renewal]);
            recorder.make(&[Clock(12), ReadFloating]);
        }
    }
}

fn start_from_random_states(recorder: &mut Recorder, random: &mut Random) {
    for _ in 0..RANDOM_STATES {
        // Shifted, so that small numbers are as common as large ones.
        let age = random.word() >> random.below(32);
        let next_expiry = random.word() >> random.below(32);
        recorder.make(&[SetState(random.byte(), age, next_expiry)]);
        clock_a_little(recorder, random);
    }
}

/// One to three clocks, each recorded, and a read.
fn clock_a_little(recorder: &mut Recorder, random: &mut Random) {
    for _ in 0..1 + random.below(3) {
        recorder.make(&[Clock(1)]);
    }
    recorder.make(&[ReadFloating]);
}
