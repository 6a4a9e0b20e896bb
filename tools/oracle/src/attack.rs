//! Rises of one envelope by the seed: settled ones, and those that a gate-on starts late.

use crate::lists::{self, Rates, Rise, Start, PHASES};
use crate::random::Random;

/// A rise of fewer clocks is played to the top.
const MOST_CLOCKS: u32 = 400_000;
const MOST_CLOCKS_PAST: u32 = 63;

/// The rise with this seed; every other one starts late. Some stop within the first clocks, before
/// a level shows what they have changed.
pub fn seeded(seed: u64) -> Rise {
    let mut random = Random::seeded(seed);
    let rates = Rates {
        attack: random.below(16) as u8,
        decay: random.below(16) as u8,
        release: random.below(16) as u8,
    };
    let start = match seed % 2 {
        0 => Start::Late {
            level: match random.below(2) {
                0 => 0,
                _ => level(&mut random),
            },
            sustaining: random.below(2) == 0,
        },
        _ => Start::Settled(level(&mut random)),
    };
    let phase = phase(&rates, &mut random);
    let rise = Rise::new(start, rates, phase, &mut random);
    let past = match random.below(2) {
        0 => random.below(5),
        _ => random.below(MOST_CLOCKS_PAST + 1),
    };
    if random.below(8) == 0 {
        return rise.stop_after(1 + random.below(5));
    }
    if rise.duration() < MOST_CLOCKS {
        return rise.take_whole(past);
    }
    rise.take(1 + random.below(4), past)
}

/// At either end, just below a level that queues a divisor, or any.
fn level(random: &mut Random) -> u8 {
    match random.below(4) {
        0 => random.pick(&[0x00, 0x01, 0xfd, 0xfe, 0xff]),
        1 => random.pick(&[0x05, 0x0d, 0x19, 0x35, 0x5c]),
        _ => random.byte(),
    }
}

/// Near a match or an end about half of the time.
fn phase(rates: &Rates, random: &mut Random) -> u16 {
    match random.below(8) {
        0 => random.pick(&[0, 1, PHASES - 2, PHASES - 1]),
        1..=3 => {
            let rate = random.pick(&[rates.attack, rates.attack, rates.decay, rates.release]);
            lists::target(rate) - 3 + random.below(6) as u16
        }
        _ => random.below(PHASES.into()) as u16,
    }
}
