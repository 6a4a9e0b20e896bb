//! The lists `writer_lists` and `writer_answers`: calls on the writer, and what the program that
//! makes them must print.
//!
//! A list of calls is (numbers little endian):
//!
//!     u32      length of the lent buffer, at most 66,000; its byte i is (7 i + 13) mod 256
//!     u64      place reached
//!     u32 u32  stamp of the field before, first stamp that is free for a write or read
//!     u8       whether the score has ended, 0 or 1
//!     u8       whether it is played after the calls, 0 or 1
//!     u16      number of calls, each of them 7 bytes:
//!     u8 u32   tag and stamp of the field
//!     u8 u8    address and value, 0 where the field has none
//!
//! In the answers each list has a line `list` and its number, from 0, and a line for each call:
//! `next` and the place reached, or `refused`, the number, `at` and the place; then `sum` and a sum
//! over the whole buffer. What is played are the bytes before the place reached, as far as the
//! buffer has them; the lines are those of `replay`.

use std::array;
use std::fmt::Write as _;

use crate::compose::{self, Composer};
use crate::random::Random;
use crate::score::{self, end, levels, read, watch, write};
use crate::score::{Field, LATEST_STAMP, MOST_BYTES};
use crate::sid::sid::Mos6581;
use crate::writer::Writer;

const SEED: u64 = 6581 * 37;
const COMPOSED_SCORES: u32 = 16;

/// The greatest length of a buffer.
pub const MOST_ROOM: usize = 66_000;

/// The two that are accesses first, the end last.
const KINDS: [fn(u32) -> Field; 5] = [
    |stamp| write(stamp, 0x04, 0x11),
    |stamp| read(stamp, 0x1b),
    levels,
    watch,
    end,
];

pub struct Calls {
    pub room: usize,
    pub before: Writer,
    pub played: bool,
    pub fields: Vec<Field>,
}

pub struct Answers {
    /// For each call nothing, or the number of its refusal.
    pub told: Vec<Result<(), u8>>,
    pub lines: String,
}

impl Calls {
    /// Of a new score, which is then played.
    fn played(room: usize, fields: Vec<Field>) -> Self {
        let played = true;
        Self {
            played,
            ..Self::from(Writer::NEW, room, fields)
        }
    }

    fn from(before: Writer, room: usize, fields: Vec<Field>) -> Self {
        Self {
            room,
            before,
            played: false,
            fields,
        }
    }

    pub fn record(&self) -> Vec<u8> {
        assert!(self.room <= MOST_ROOM);
        let mut record = (self.room as u32).to_le_bytes().to_vec();
        record.extend(self.before.at.to_le_bytes());
        record.extend(self.before.last.to_le_bytes());
        record.extend(self.before.free.to_le_bytes());
        record.extend([self.before.ended, self.played].map(u8::from));
        record.extend((self.fields.len() as u16).to_le_bytes());
        for Field { stamp, event } in &self.fields {
            record.push(event.tag());
            record.extend(stamp.to_le_bytes());
            let mut operands = event.operands();
            operands.resize(2, 0);
            record.extend(operands);
        }
        record
    }

    /// The chip is used as `score::listing` does.
    pub fn answers(&self, number: usize, chip: &mut Mos6581) -> Answers {
        let mut buffer: Vec<u8> = (0..self.room).map(|i| (7 * i + 13) as u8).collect();
        let mut writer = self.before;
        let mut told = Vec::new();
        let mut lines = format!("list {number}\n");
        for &field in &self.fields {
            let answer = writer.append(field, &mut buffer);
            let (at, sum) = (writer.at, sum(&buffer));
            let line = match answer {
                Ok(()) => writeln!(lines, "next {at} sum {sum}"),
                Err(number) => writeln!(lines, "refused {number} at {at} sum {sum}"),
            };
            line.expect("a string takes any text");
            told.push(answer);
        }
        if self.played {
            let reached = writer.at.min(self.room as u64);
            lines += &score::listing(&buffer[..reached as usize], chip);
        }
        Answers { told, lines }
    }
}

fn sum(buffer: &[u8]) -> u64 {
    let add = |sum, &byte| (sum * 16_777_619 + u64::from(byte) + 1) % 4_294_967_291;
    buffer.iter().fold(0, add)
}

pub fn lists() -> Vec<u8> {
    all().iter().flat_map(Calls::record).collect()
}

pub fn answers() -> Vec<u8> {
    let mut chip = Mos6581::new();
    let mut text = String::new();
    for (number, calls) in all().iter().enumerate() {
        text += &calls.answers(number, &mut chip).lines;
    }
    text.into_bytes()
}

fn all() -> Vec<Calls> {
    let mut lists = vec![worked_example()];
    lists.extend(every_set_of_causes());
    lists.extend(stamps_from_below());
    lists.extend(two_fields());
    lists.extend(every_room());
    lists.extend(earlier_after_later());
    lists.extend(after_the_end());
    lists.extend(about_the_room());
    lists.extend(about_the_greatest_length());
    lists.extend(far_beyond());
    lists.extend(every_byte());
    lists.extend(composed());
    lists
}

/// Document 01's own.
fn worked_example() -> Calls {
    let fields = [
        levels(0),
        write(0, 0x00, 0x81),
        read(11, 0x00),
        read(12, 0x00),
        end(12),
    ];
    Calls::played(score::bytes_of(&fields).len(), fields.to_vec())
}

/// Each kind of field with each set of causes to refuse it, none more than needed: the first in the
/// order is told.
fn every_set_of_causes() -> Vec<Calls> {
    let mut lists = Vec::new();
    for kind in KINDS {
        for causes in 0..1 << 6 {
            let [ended, late, below, used, long, short] =
                array::from_fn(|cause| causes >> cause & 1 == 1);
            let stamp = if late { LATEST_STAMP + 1 } else { 700 };
            let field = kind(stamp);
            let length = field.bytes().len();
            let at = if long { MOST_BYTES + 1 - length } else { 20 };
            let room = match (long, short) {
                // Seldom as long as the score, for every answer sums it up.
                (true, true) => 20,
                _ => at + length - usize::from(short),
            };
            let before = Writer {
                at: at as u64,
                last: stamp + u32::from(below),
                free: stamp + u32::from(used),
                ended,
            };
            lists.push(Calls::from(before, room, vec![field]));
        }
    }
    lists
}

/// Stamps around those that a state has and the latest, from the lowest on: some are refused before
/// the first is taken.
fn stamps_from_below() -> Vec<Calls> {
    const LIMITS: [u32; 3] = [LATEST_STAMP - 1, LATEST_STAMP, LATEST_STAMP + 1];
    let mut lists = Vec::new();
    for last in [0, 1, 7, LIMITS[0], LIMITS[1], LIMITS[2], u32::MAX] {
        for free in [0, 1, 2, 7, 8, LIMITS[1], LIMITS[2], u32::MAX] {
            let about = |stamp: u32| stamp.saturating_sub(1)..=stamp.saturating_add(1);
            let mut stamps: Vec<u32> = about(last).chain(about(free)).chain(LIMITS).collect();
            stamps.extend([0, u32::MAX]);
            stamps.sort_unstable();
            stamps.dedup();
            let mut fields = vec![end(LIMITS[2]), end(u32::MAX)];
            fields.extend((last > 0).then(|| end(last - 1)));
            for (number, stamp) in stamps.into_iter().enumerate() {
                let mut kinds = KINDS[..4].to_vec();
                kinds.rotate_left(number % 4);
                fields.extend(kinds.iter().map(|kind| kind(stamp)));
            }
            fields.extend([end(LIMITS[0]), end(LIMITS[1])]);
            fields.extend([levels(LIMITS[1]), watch(LIMITS[1])]);
            let before = Writer {
                last,
                free,
                ..Writer::NEW
            };
            lists.push(Calls::from(before, 200, fields));
        }
    }
    lists
}

/// Each kind after each, on the clock before, the same clock and the one after, with levels or a
/// watch between or without.
fn two_fields() -> Vec<Calls> {
    let mut lists = Vec::new();
    for first in KINDS {
        for second in KINDS {
            let between: [&[fn(u32) -> Field]; 4] =
                [&[], &[levels], &[watch], &[levels, |at| levels(at + 1)]];
            for between in between {
                for stamp in [0, 1, LATEST_STAMP] {
                    let mut fields = vec![first(stamp)];
                    fields.extend(between.iter().map(|other| other(stamp)));
                    let again = stamp.saturating_sub(1)..=stamp + 1;
                    fields.extend(again.map(second));
                    fields.push(end(stamp + 1));
                    let room = score::bytes_of(&fields).len();
                    lists.push(match stamp {
                        LATEST_STAMP => Calls::from(Writer::NEW, room, fields),
                        _ => Calls::played(room, fields),
                    });
                }
            }
        }
    }
    lists
}

/// Every room for more fields, first in a score and after others: one of them is refused, and a
/// shorter one is taken after it.
fn every_room() -> Vec<Calls> {
    let scores = [
        vec![],
        vec![read(0, 0x1b)],
        vec![levels(0), write(1, 0x04, 0x11), levels(3)],
    ];
    let mut lists = Vec::new();
    for score in scores {
        let taken = score::bytes_of(&score).len();
        for first in 0..KINDS.len() {
            let mut kinds = KINDS;
            kinds.rotate_left(first);
            let more = kinds.iter().zip(10..).map(|(kind, stamp)| kind(stamp));
            let fields: Vec<Field> = score.iter().copied().chain(more).collect();
            let whole = score::bytes_of(&fields).len();
            let most = if first == 0 { whole + 1 } else { taken + 10 };
            for room in taken..=most {
                lists.push(Calls::played(room, fields.clone()));
            }
        }
    }
    lists
}

/// A field that is refused, and one with an earlier stamp that is taken after it: the first has
/// left no trace.
fn earlier_after_later() -> Vec<Calls> {
    let mut lists = Vec::new();
    for (refused, taken, left) in [
        (write(9, 0x04, 0x11), levels(3), 9),
        (write(9, 0x04, 0x11), watch(3), 9),
        (read(9, 0x1b), end(4), 9),
        (write(20, 0x04, 0x11), read(10, 0x1b), 8),
        (write(20, 0x04, 0x11), end(3), 8),
        (read(20, 0x1b), levels(4), 7),
        (read(20, 0x1b), watch(4), 7),
        (read(20, 0x1b), end(3), 7),
    ] {
        for room in [40, MOST_BYTES] {
            let before = Writer {
                at: (room - left) as u64,
                last: 3,
                free: 10,
                ended: false,
            };
            lists.push(Calls::from(before, room, vec![refused, taken]));
        }
    }
    lists
}

/// Nothing is taken, whatever else it may be refused for.
fn after_the_end() -> Vec<Calls> {
    let mut lists = Vec::new();
    for score in [vec![], vec![levels(3)], vec![write(5, 0x04, 0x11)]] {
        let mut fields = score;
        fields.push(end(5));
        let whole = score::bytes_of(&fields).len();
        for stamp in [5, 6, 4, 0, LATEST_STAMP, LATEST_STAMP + 1] {
            fields.extend(KINDS.map(|kind| kind(stamp)));
        }
        for left in [0, 1, 6, 9, 60] {
            lists.push(Calls::played(whole + left, fields.clone()));
        }
    }
    lists
}

/// Places below the end of a buffer, at it and beyond, the longest field first.
fn about_the_room() -> Vec<Calls> {
    let mut lists = Vec::new();
    for room in [0, 1, 6, 7, 8, 9, 40] {
        let near = room.max(10) - 10..=room + 2;
        for at in near.chain([room + 7, room + 256, 65_000, 65_520]) {
            let fields = KINDS.map(|kind| kind(LATEST_STAMP)).to_vec();
            let before = Writer {
                at: at as u64,
                ..Writer::NEW
            };
            lists.push(Calls {
                played: true,
                ..Calls::from(before, room, fields)
            });
        }
    }
    lists
}

/// A byte below the greatest length of a score, at it and a byte beyond, in buffers that have room
/// for more, for this, for less.
fn about_the_greatest_length() -> Vec<Calls> {
    let mut lists = Vec::new();
    let mut push = |at, room, kinds: &[fn(u32) -> Field]| {
        let fields = kinds.iter().zip(1..).map(|(kind, stamp)| kind(stamp));
        let before = Writer {
            at: at as u64,
            ..Writer::NEW
        };
        lists.push(Calls::from(before, room, fields.collect()));
    };
    for kind in KINDS {
        let length = kind(0).bytes().len();
        for after in MOST_BYTES - 1..=MOST_BYTES + 1 {
            for room in [MOST_ROOM, MOST_BYTES, 300] {
                push(after - length, room, &[kind]);
            }
        }
        push(MOST_BYTES - length, MOST_BYTES - 1, &[kind]);
    }
    // What is shorter is taken after a refusal.
    for room in [MOST_ROOM, MOST_BYTES] {
        for left in [16, 8, 7, 0] {
            push(MOST_BYTES - left, room, &KINDS);
        }
    }
    for left in 0..=20 {
        push(MOST_BYTES - left, 300, &KINDS);
    }
    lists
}

/// Places where a sum overflows, or is small when cut to fewer bits.
fn far_beyond() -> Vec<Calls> {
    let mut places = Vec::new();
    for bits in [16, 31, 32, 33, 48, 63] {
        let power = 1u64 << bits;
        places.extend([power - 9, power - 7, power - 1]);
        places.extend([power, power + 1, power + 5]);
    }
    places.extend(u64::MAX - 10..=u64::MAX);
    let mut lists = Vec::new();
    for at in places {
        for room in [0, 40] {
            let fields = KINDS.map(|kind| kind(9)).to_vec();
            let before = Writer { at, ..Writer::NEW };
            lists.push(Calls {
                played: true,
                ..Calls::from(before, room, fields)
            });
        }
    }
    lists
}

/// Each byte as an address and as a value, and stamps with bytes of their own.
fn every_byte() -> Vec<Calls> {
    let mut writes = Vec::new();
    let mut reads = Vec::new();
    for byte in 0..=255u8 {
        let stamp = 3 * u32::from(byte);
        // No test bit, so that all phases go on.
        let value = (byte.rotate_left(3) ^ 0x5a) & 0xf7;
        writes.push(write(stamp, byte, value));
        reads.push(read(stamp, byte));
    }
    writes.push(end(800));
    reads.push(end(800));
    let stamped = [0x0102_0304, 0x0403_0201, 0x05f5_e0ff, 0x05f5_e100];
    let stamped = stamped.iter().flat_map(|&stamp| {
        let value = !(stamp as u8);
        let access = write(stamp, 0xa5, value);
        [levels(stamp), access, watch(stamp), end(stamp)]
    });
    let stamped: Vec<Field> = stamped.collect();
    let mut lists = Vec::new();
    for fields in [writes, reads] {
        lists.push(Calls::played(score::bytes_of(&fields).len(), fields));
    }
    for number in 0..4 {
        let before = Writer::NEW;
        lists.push(Calls::from(before, 60, stamped[4 * number..].to_vec()));
    }
    lists
}

/// Scores, every second one watched, with refused calls before every field and after the last:
/// played as without them, or not to their end in a buffer that is too short.
fn composed() -> Vec<Calls> {
    let mut chip = Mos6581::new();
    let mut random = Random::seeded(SEED);
    let mut lists = Vec::new();
    for number in 0..COMPOSED_SCORES {
        let composer = Composer::new(&mut chip);
        let score = match number % 2 {
            0 => composer.aimed(6, 1_000, &mut random),
            _ => compose::with_watches(composer.fading(6, 1_000, &mut random), &mut random),
        };
        let whole = score::bytes_of(&score).len();
        let mut fields = Vec::new();
        let mut last = 0;
        let mut used = None;
        for field in score {
            let kind = random.pick(&KINDS);
            fields.push(kind(match random.below(3) {
                0 if last > 0 => last - 1 - random.below(last),
                _ => LATEST_STAMP + 1 + random.below(1 << 20),
            }));
            fields.extend(used.map(|stamp| random.pick(&KINDS[..2])(stamp)));
            last = field.stamp;
            if field.event.is_access() {
                used = Some(last);
            }
            fields.push(field);
        }
        fields.push(random.pick(&KINDS)(last));
        for room in [whole, whole - 1, whole - 1 - random.below(30) as usize] {
            lists.push(Calls::played(room, fields.clone()));
        }
    }
    lists
}
