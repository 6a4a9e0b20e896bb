//! Scores as document 01 has them ('Score and program', 'Numbers a caller can get back'), as
//! document 02 amends it: fields, the check before the first clock, and the listing, played on the
//! original.

use std::fmt::Write as _;

use crate::sid::sid::Mos6581;

pub const MOST_BYTES: usize = 65_536;
pub const LATEST_STAMP: u32 = 100_000_000;

pub const HEADER_BYTES: usize = 3;
pub const STAMP_BYTES: usize = 4;

/// From a `Watch` on, the bits that the bus loses are told.
#[derive(Clone, Copy)]
pub enum Event {
    Write { address: u8, value: u8 },
    Read { address: u8 },
    Levels,
    Watch,
    End,
}

#[derive(Clone, Copy)]
pub struct Field {
    pub stamp: u32,
    pub event: Event,
}

pub struct Refused {
    pub number: u8,
    place: usize,
}

impl Refused {
    pub fn line(&self) -> String {
        format!("refused {} at {}\n", self.number, self.place)
    }
}

impl Event {
    pub fn tag(self) -> u8 {
        match self {
            Event::Write { .. } => 0x01,
            Event::Read { .. } => 0x02,
            Event::Levels => 0x03,
            Event::Watch => 0x04,
            Event::End => 0x7f,
        }
    }

    /// A processor makes one of these in a clock.
    pub fn is_access(self) -> bool {
        matches!(self, Event::Write { .. } | Event::Read { .. })
    }

    /// What follows the stamp.
    pub fn operands(self) -> Vec<u8> {
        match self {
            Event::Write { address, value } => vec![address, value],
            Event::Read { address } => vec![address],
            Event::Levels | Event::Watch | Event::End => vec![],
        }
    }
}

impl Field {
    pub fn bytes(self) -> Vec<u8> {
        let operands = self.event.operands();
        let length = (STAMP_BYTES + operands.len()) as u16;
        let mut bytes = vec![self.event.tag()];
        bytes.extend(length.to_le_bytes());
        bytes.extend(self.stamp.to_le_bytes());
        bytes.extend(operands);
        bytes
    }
}

pub fn write(stamp: u32, address: u8, value: u8) -> Field {
    let event = Event::Write { address, value };
    Field { stamp, event }
}

pub fn read(stamp: u32, address: u8) -> Field {
    let event = Event::Read { address };
    Field { stamp, event }
}

pub fn levels(stamp: u32) -> Field {
    let event = Event::Levels;
    Field { stamp, event }
}

pub fn watch(stamp: u32) -> Field {
    let event = Event::Watch;
    Field { stamp, event }
}

pub fn end(stamp: u32) -> Field {
    let event = Event::End;
    Field { stamp, event }
}

pub fn bytes_of(fields: &[Field]) -> Vec<u8> {
    fields.iter().flat_map(|field| field.bytes()).collect()
}

/// The fields of a score, or why it is refused.
pub fn check(score: &[u8]) -> Result<Vec<Field>, Refused> {
    if score.len() > MOST_BYTES {
        return Err(Refused {
            number: 4,
            place: 0,
        });
    }
    let mut fields: Vec<Field> = Vec::new();
    let mut accessed = None;
    let mut place = 0;
    while place < score.len() {
        let refused = |number| Err(Refused { number, place });
        // At the first missing byte.
        let cut = |number| {
            let place = score.len();
            Err(Refused { number, place })
        };
        let &[tag, length_low, length_high, ref rest @ ..] = &score[place..] else {
            return cut(5);
        };
        let due = match tag {
            0x01 => 6,
            0x02 => 5,
            0x03 | 0x04 | 0x7f => 4,
            _ => return refused(6),
        };
        let length = usize::from(u16::from_le_bytes([length_low, length_high]));
        if length != due {
            return refused(7);
        }
        let Some(value) = rest.get(..length) else {
            return cut(12);
        };
        let stamp = u32::from_le_bytes([value[0], value[1], value[2], value[3]]);
        if stamp > LATEST_STAMP {
            return refused(8);
        }
        if fields.last().is_some_and(|before| stamp < before.stamp) {
            return refused(9);
        }
        if matches!(tag, 0x01 | 0x02) {
            if accessed.is_some_and(|before| stamp <= before) {
                return refused(14);
            }
            accessed = Some(stamp);
        }
        let event = match tag {
            0x01 => Event::Write {
                address: value[4],
                value: value[5],
            },
            0x02 => Event::Read { address: value[4] },
            0x03 => Event::Levels,
            0x04 => Event::Watch,
            _ => Event::End,
        };
        fields.push(Field { stamp, event });
        place += HEADER_BYTES + length;
        if tag == 0x7f {
            if place < score.len() {
                return Err(Refused { number: 10, place });
            }
            return Ok(fields);
        }
    }
    Err(Refused {
        number: 11,
        place: score.len(),
    })
}

/// The clocks of a score that is played; 0 for one that is refused.
pub fn clocks(score: &[u8]) -> u64 {
    let fields = check(score).unwrap_or_default();
    fields.last().map_or(0, |end| end.stamp.into())
}

/// What `replay` must print. The chip is used, whatever state it is in, and left in some other.
pub fn listing(score: &[u8], chip: &mut Mos6581) -> String {
    match check(score) {
        Ok(fields) => play(&fields, chip),
        Err(refused) => refused.line(),
    }
}

fn play(fields: &[Field], chip: &mut Mos6581) -> String {
    let mut lines = String::new();
    let mut clocks = 0;
    let mut watched = false;
    chip.renew();
    for &Field { stamp, event } in fields {
        while clocks < stamp {
            let lost = chip.tick_losing();
            clocks += 1;
            if watched && lost != 0 {
                put(&mut lines, format_args!("F {clocks} {lost:02x}\n"));
            }
        }
        match event {
            Event::Write { address, value } => chip.write(address.into(), value),
            Event::Read { address } => {
                let read = chip.read(address.into());
                put(
                    &mut lines,
                    format_args!("R {stamp} {address:02x} {read:02x}\n"),
                );
            }
            Event::Levels => {
                put(&mut lines, format_args!("L {stamp}"));
                for voice in 0..3 {
                    let code = chip.oscillators[voice].last_sample;
                    let level = chip.envelopes[voice].volume;
                    put(&mut lines, format_args!(" {code:03x} {level:02x}"));
                }
                lines.push('\n');
            }
            Event::Watch => watched = true,
            Event::End => put(&mut lines, format_args!("E {clocks}\n")),
        }
    }
    lines
}

fn put(lines: &mut String, text: std::fmt::Arguments) {
    lines.write_fmt(text).expect("a string takes any text");
}
