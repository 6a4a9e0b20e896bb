//! Scores by the seed: fields that fall where something inside the chip is under way, and scores
//! that are cut, crowded or broken on purpose.

use crate::aim;
use crate::random::Random;
use crate::score::{self, end, levels, read, watch, Event, Field};
use crate::score::{HEADER_BYTES, LATEST_STAMP, MOST_BYTES, STAMP_BYTES};
use crate::sid::sid::Mos6581;

/// A broken score that is accepted all the same is not played for longer than this.
const MOST_CLOCKS: u64 = 300_000;

/// Known and unknown.
const TAGS: [u8; 11] = [
    0x01, 0x02, 0x03, 0x04, 0x7f, 0x00, 0x05, 0x7e, 0x80, 0x84, 0xff,
];

/// A chip that goes along with the score as it grows.
pub struct Composer<'a> {
    chip: &'a mut Mos6581,
    clocks: u32,
    accessed: Option<u32>,
    pub fields: Vec<Field>,
}

impl<'a> Composer<'a> {
    pub fn new(chip: &'a mut Mos6581) -> Self {
        chip.renew();
        Self {
            chip,
            clocks: 0,
            accessed: None,
            fields: Vec::new(),
        }
    }

    /// Clocks until the chip is as wanted, `most` at the most.
    fn wait_until(&mut self, most: u32, wanted: impl Fn(&Mos6581) -> bool) {
        let latest = self.clocks + most;
        while self.clocks < latest && !wanted(self.chip) {
            self.chip.tick();
            self.clocks += 1;
        }
    }

    /// A clock on if this one has an access.
    fn wait_for_the_bus(&mut self) {
        if self.accessed == Some(self.clocks) {
            self.wait_until(1, |_| false);
        }
        self.accessed = Some(self.clocks);
    }

    fn put(&mut self, event: Event) {
        match event {
            Event::Write { address, value } => self.chip.write(address.into(), value),
            Event::Read { address } => {
                self.chip.read(address.into());
            }
            Event::Levels | Event::Watch | Event::End => {}
        }
        let stamp = self.clocks;
        self.fields.push(Field { stamp, event });
    }

    fn put_aimed(&mut self, voice: usize, random: &mut Random) {
        let kind = random.below(10);
        if kind == 0 {
            return self.put(Event::Levels);
        }
        self.wait_for_the_bus();
        let event = match kind {
            1 => Event::Read {
                address: random.byte(),
            },
            2 => Event::Read {
                address: 0x1b + (random.byte() & 0xe1),
            },
            _ => {
                let (address, value) = aim::write(self.chip, voice, random);
                let address = address as u8;
                Event::Write { address, value }
            }
        };
        self.put(event);
    }

    /// So many waits, each with some fields after it; the last fields are stamped as the end.
    pub fn aimed(mut self, waits: u32, patience: u32, random: &mut Random) -> Vec<Field> {
        for _ in 0..random.below(12) {
            self.put_aimed(random.below(3) as usize, random);
        }
        for _ in 0..waits {
            let voice = random.below(3) as usize;
            if random.below(2) == 0 {
                self.wait_until(random.below(12), |_| false);
            } else {
                self.wait_until(patience, aim::edge(voice, random));
                self.wait_until(random.below(4), |_| false);
            }
            for _ in 0..=random.below(3) {
                self.put_aimed(voice, random);
            }
            self.put(Event::Levels);
        }
        if random.below(2) == 0 {
            self.wait_until(random.below(5_000), |_| false);
        }
        self.put(Event::End);
        self.fields
    }

    /// So many bytes that fade, with fields and an end about the clocks on which bits are lost.
    pub fn fading(mut self, drives: u32, patience: u32, random: &mut Random) -> Vec<Field> {
        for _ in 0..random.below(4) {
            self.put_aimed(random.below(3) as usize, random);
        }
        for _ in 0..drives {
            let value = aim::fading_byte(random);
            self.put_drive(value, random);
            for _ in 0..=random.below(4) {
                self.wait_for_a_loss(patience, random);
                for _ in 0..random.below(3) {
                    self.put_beside(random);
                }
            }
        }
        self.wait_for_a_loss(patience, random);
        self.put(Event::End);
        self.fields
    }

    /// To the clock on which bits are lost, the one before or the one after.
    fn wait_for_a_loss(&mut self, patience: u32, random: &mut Random) {
        self.wait_until(patience, aim::fades_next_or_never);
        self.wait_until(random.pick(&[0, 1, 1, 1, 2]), |_| false);
    }

    /// By a write of this value mostly, or by a read that drives what it returns.
    fn put_drive(&mut self, value: u8, random: &mut Random) {
        self.wait_for_the_bus();
        let address = random.byte();
        self.put(match random.below(4) {
            0 => Event::Read {
                address: address & 0xe0 | (0x19 + random.below(4) as u8),
            },
            _ => Event::Write { address, value },
        });
    }

    /// Levels, a read, which seldom drives, or a drive of the byte that is there or another.
    fn put_beside(&mut self, random: &mut Random) {
        let there = self.chip.bus().read_floating();
        match random.below(8) {
            0..=2 => self.put(Event::Levels),
            3..=5 => {
                self.wait_for_the_bus();
                let address = random.byte();
                self.put(Event::Read { address });
            }
            6 => self.put_drive(there, random),
            _ => self.put_drive(random.byte(), random),
        }
    }
}

/// One watch or two more, each between two fields, on the clock of either or on the way; the first
/// fields are chosen more often.
pub fn with_watches(mut fields: Vec<Field>, random: &mut Random) -> Vec<Field> {
    for _ in 0..=random.below(2) {
        let places = random.pick(&[3, usize::MAX]).min(fields.len());
        let place = random.below(places as u32) as usize;
        let earliest = place
            .checked_sub(1)
            .map_or(0, |before| fields[before].stamp);
        let latest = fields[place].stamp;
        let between = earliest + random.below(latest - earliest + 1);
        fields.insert(place, watch(random.pick(&[earliest, latest, between])));
    }
    fields
}

fn is_watch(field: &Field) -> bool {
    matches!(field.event, Event::Watch)
}

/// The place of some field, of a watch more often than of others.
fn some_place(fields: &[Field], random: &mut Random) -> usize {
    match fields.iter().position(is_watch) {
        Some(place) if random.below(4) == 0 => place,
        _ => random.below(fields.len() as u32) as usize,
    }
}

/// Whether the score with this seed is cut, as by a mail gateway: a third are, seed 1 the first.
pub fn is_cut(seed: u64) -> bool {
    seed % 3 == 1
}

/// Whether it has accesses that share a clock: a sixth do, seed 2 the first.
fn is_crowded(seed: u64) -> bool {
    seed % 6 == 2
}

/// Whether it has a watch: half do, of each kind, seed 6 the first.
pub fn is_watched(seed: u64) -> bool {
    seed % 12 >= 6
}

/// The score with this seed.
pub fn generated(seed: u64, chip: &mut Mos6581) -> Vec<u8> {
    let mut random = Random::seeded(seed);
    let whole = !is_cut(seed) && !is_crowded(seed) && random.below(4) != 0;
    let (patience, waits) = match whole {
        false => (100, random.below(8)),
        true => match random.below(10) {
            0 => (45_000, random.below(20)),
            1 | 2 => (3_000, random.below(60)),
            _ => (random.pick(&[100, 300, 1_000]), random.below(60)),
        },
    };
    let composer = Composer::new(chip);
    let fields = if !is_watched(seed) {
        composer.aimed(waits, patience, &mut random)
    } else if random.below(2) == 0 {
        with_watches(composer.aimed(waits, patience, &mut random), &mut random)
    } else {
        let longest = if whole { aim::LONGEST_HOLD } else { patience };
        let patience = random.pick(&[patience, longest, longest]);
        let fields = composer.fading(1 + waits % 5, patience, &mut random);
        with_watches(fields, &mut random)
    };
    if whole {
        return score::bytes_of(&fields);
    }
    if is_cut(seed) {
        return cut_fields(fields, &mut random);
    }
    if is_crowded(seed) {
        return crowd_fields(fields, &mut random);
    }
    let mut broken = break_fields(&fields, &mut random);
    if score::clocks(&broken) > MOST_CLOCKS {
        // Refused before the first clock.
        broken.push(0);
    }
    broken
}

/// Cut before any byte of any field. The field may have another fault, too, and the score be as long
/// as one may be, a byte shorter or a byte longer.
fn cut_fields(mut fields: Vec<Field>, random: &mut Random) -> Vec<u8> {
    let mut chosen = some_place(&fields, random);
    let kept = random.below(fields[chosen].bytes().len() as u32) as usize;
    if random.below(8) == 0 {
        let length = MOST_BYTES - 1 + random.below(3) as usize;
        let filler = filler(length - score::bytes_of(&fields[..chosen]).len() - kept);
        let later = filler.last().map_or(0, |last| last.stamp);
        fields.iter_mut().for_each(|field| field.stamp += later);
        chosen += filler.len();
        fields.splice(0..0, filler);
    }
    let place = score::bytes_of(&fields[..chosen]).len();
    let mut score = score::bytes_of(&fields);
    if random.below(2) == 0 {
        spoil(&mut score[place..], fields[chosen].stamp, random);
    }
    score.truncate(place + kept);
    score
}

/// Fields of so many bytes in all. Reads, a byte longer than levels, make up the length; the levels
/// after them stand on a clock that is free.
pub fn filler(bytes: usize) -> Vec<Field> {
    let reads = bytes % levels(0).bytes().len();
    let rest = bytes - reads * read(0, 0).bytes().len();
    let stamp = reads as u32;
    let mut fields: Vec<Field> = (0..stamp).map(|stamp| read(stamp, 0)).collect();
    fields.extend(vec![levels(stamp); rest / levels(0).bytes().len()]);
    fields
}

/// Two accesses or three more before some field and on its clock, levels among them, and watches
/// where the score has one. What is amiss with the second of them may be something else, too.
fn crowd_fields(mut fields: Vec<Field>, random: &mut Random) -> Vec<u8> {
    let watched = fields.iter().any(is_watch);
    let chosen = random.below(fields.len() as u32) as usize;
    let stamp = fields[chosen].stamp;
    let mut crowd = Vec::new();
    let mut second = 0;
    for number in 0..2 + random.below(2) {
        for _ in 0..random.pick(&[0, 0, 1, 2]) {
            crowd.push(match watched && random.below(2) == 0 {
                true => Event::Watch,
                false => Event::Levels,
            });
        }
        if number == 1 {
            second = chosen + crowd.len();
        }
        crowd.push(match random.below(2) {
            0 => Event::Read {
                address: random.byte(),
            },
            _ => Event::Write {
                address: random.byte(),
                value: random.byte(),
            },
        });
    }
    let crowd = crowd.into_iter().map(|event| Field { stamp, event });
    fields.splice(chosen..chosen, crowd);
    let place = score::bytes_of(&fields[..second]).len();
    let mut score = score::bytes_of(&fields);
    if random.below(6) == 0 {
        spoil(&mut score[place..], stamp, random);
    }
    score
}

/// A fault in the field that stands first.
fn spoil(field: &mut [u8], stamp: u32, random: &mut Random) {
    let stamp = match random.below(6) {
        0 | 1 => return field[0] = random.pick(&TAGS),
        2 => return field[1] = random.below(8) as u8,
        3 => return field[2] = random.byte(),
        4 => random.pick(&[LATEST_STAMP, LATEST_STAMP + 1, u32::MAX]),
        _ => stamp.saturating_sub(1 + random.below(40)),
    };
    field[HEADER_BYTES..][..STAMP_BYTES].copy_from_slice(&stamp.to_le_bytes());
}

fn break_fields(fields: &[Field], random: &mut Random) -> Vec<u8> {
    let chosen = some_place(fields, random);
    let place = score::bytes_of(&fields[..chosen]).len();
    let after = place + fields[chosen].bytes().len();
    let stamp = fields[chosen].stamp;
    let mut score = score::bytes_of(fields);
    match random.below(9) {
        0..=5 => spoil(&mut score[place..], stamp, random),
        // An end too early, and after it what looks like a field that is cut.
        6 => {
            score.truncate(after - random.below((after - place) as u32) as usize);
            score.splice(place..place, end(stamp).bytes());
        }
        7 => {
            let length = MOST_BYTES - 1 + random.below(3) as usize;
            score.splice(0..0, [0x03, 4, 0, 0, 0, 0, 0].repeat(MOST_BYTES / 7 - 40));
            score.resize(length, random.byte());
        }
        _ => {
            for _ in 0..=random.below(3) {
                let at = random.below(score.len() as u32) as usize;
                match random.below(3) {
                    0 => score[at] ^= 1 << random.below(8),
                    1 => score.insert(at, random.byte()),
                    _ => score.push(random.byte()),
                }
            }
        }
    }
    score
}
