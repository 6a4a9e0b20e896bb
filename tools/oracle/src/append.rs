//! Calls on the writer by the seed: from a new score or from any state, into buffers that end with
//! a field, within one or later.

use crate::lists::{WriterCalls, MOST_ROOM};
use crate::random::Random;
use crate::score::{self, Event, Field, LATEST_STAMP, MOST_BYTES};
use crate::writer::Writer;

/// One stamp in so many is chosen to be refused.
const BAD_STAMPS: u32 = 4;

/// The calls with this seed; every fourth score is played.
pub fn seeded(seed: u64) -> WriterCalls {
    let mut random = Random::seeded(seed);
    let played = seed % 4 == 0;
    let before = match random.below(5) {
        0 | 1 => some_state(played, &mut random),
        _ => Writer::NEW,
    };
    // Each answer sums up the buffer.
    let calls = if before.at > 1_000 { 6 } else { 24 };
    let mut fields = Vec::new();
    let mut ample = vec![0; MOST_ROOM];
    let mut writer = before;
    for _ in 0..=random.below(calls) {
        let field = match random.below(64) {
            0 if !played => {
                let kind = random.pick(&[score::levels, score::watch]);
                kind(LATEST_STAMP - random.below(8))
            }
            _ => field(&writer, BAD_STAMPS, &mut random),
        };
        // A refusal leaves the state as it is.
        let _ = writer.append(field, &mut ample);
        fields.push(field);
    }
    if random.below(4) > 0 {
        fields.push(score::end(writer.last.saturating_add(random.below(3))));
    }
    let room = room(writer.at, &mut random);
    WriterCalls {
        room,
        before,
        played,
        fields,
    }
}

/// With low stamps where the score may be played.
fn some_state(played: bool, random: &mut Random) -> Writer {
    let low = random.below(8);
    let last = match random.below(4) {
        0 if !played => LATEST_STAMP - 2 + random.below(4),
        1 if !played => u32::MAX,
        _ => low,
    };
    let free = match random.below(4) {
        0 => last.saturating_add(random.below(3)),
        1 => random.pick(&[u32::MAX, LATEST_STAMP + 1]),
        _ => low,
    };
    let at = match random.below(9) {
        0..=3 => random.below(60).into(),
        4 | 5 => MOST_BYTES as u64 + 2 - u64::from(random.below(26)),
        6 => u64::from(u32::MAX) - 9 + u64::from(random.below(40)),
        7 => (1 << 63) - 9 + u64::from(random.below(40)),
        _ => u64::MAX - u64::from(random.below(20)),
    };
    let ended = random.below(8) == 0;
    Writer {
        at,
        last,
        free,
        ended,
    }
}

/// For a writer that is, with room enough, at this place in the end.
fn room(at: u64, random: &mut Random) -> usize {
    if at > MOST_ROOM as u64 {
        return random.below(60) as usize;
    }
    let at = at as u32;
    let room = match random.below(9) {
        0..=2 => at,
        3 | 4 => at.saturating_sub(1),
        5 => at.saturating_sub(random.below(20)),
        6 => random.below(at + 1),
        7 => random.below(60),
        _ => at + random.below(40),
    };
    room as usize
}

/// A field that follows in this state; one stamp in so many is chosen to be refused.
pub fn field(writer: &Writer, bad_stamps: u32, random: &mut Random) -> Field {
    let Writer { last, free, .. } = *writer;
    let event = match random.below(32) {
        0 => Event::End,
        1..=4 => Event::Levels,
        5..=8 => Event::Watch,
        9..=16 => Event::Read {
            address: random.byte(),
        },
        _ => Event::Write {
            address: random.byte(),
            value: random.byte(),
        },
    };
    let due = match event.is_access() {
        true => last.max(free),
        false => last,
    };
    let stamp = if random.below(bad_stamps) > 0 {
        due.saturating_add(random.pick(&[0, 0, 0, 1, 1, 2, 5, 12]))
    } else {
        match random.below(8) {
            0 | 1 => last.saturating_sub(1),
            2..=4 => free.saturating_sub(1),
            5 => LATEST_STAMP + 1,
            6 => u32::MAX,
            _ => last / 2,
        }
    };
    Field { stamp, event }
}
