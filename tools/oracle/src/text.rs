//! Scores as text, as `fields` prints it and `write` takes it: a field a line, its name, stamp,
//! address and value, one space between, decimal without sign or leading zero. Also what `forecast`
//! prints.

use crate::planner;
use crate::score::{self, end, levels, read, watch, write, Event, Field, MOST_BYTES};
use crate::sid::sid::Mos6581;
use crate::writer::Writer;

/// Why a text gives no score.
pub enum Fault {
    Refused {
        number: u8,
        place: u64,
    },
    /// The line, from 1.
    NoField(usize),
}

/// What `fields` must print for a score.
pub fn of_score(score: &[u8]) -> String {
    match score::check(score) {
        Ok(fields) => fields.iter().map(|field| line(field) + "\n").collect(),
        Err(refused) => refused.line(),
    }
}

/// What `forecast` must print for a score. The chip is used, as by `score::listing`.
pub fn forecasts(score: &[u8], chip: &mut Mos6581) -> String {
    let listing = score::listing(score, chip);
    if score::check(score).is_err() {
        return listing;
    }
    let mut lines = String::new();
    for (voice, envelope) in chip.envelopes.iter().enumerate() {
        let state = envelope.state();
        let told = match (state.floor_hold, planner::is_settled(&state)) {
            (true, _) => "held".to_string(),
            (false, true) => planner::held_on(state).to_string(),
            (false, false) => "unsettled".to_string(),
        };
        lines += &format!("{voice} {told}\n");
    }
    lines
}

/// Without its line feed.
pub fn line(field: &Field) -> String {
    let stamp = field.stamp;
    match field.event {
        Event::Write { address, value } => format!("write {stamp} {address} {value}"),
        Event::Read { address } => format!("read {stamp} {address}"),
        Event::Levels => format!("levels {stamp}"),
        Event::Watch => format!("watch {stamp}"),
        Event::End => format!("end {stamp}"),
    }
}

/// What `write` must make of a text in a buffer of so many bytes.
pub fn written(text: &[u8], size: Option<u64>) -> Result<Vec<u8>, Fault> {
    let most = MOST_BYTES as u64;
    let mut buffer = vec![0; size.unwrap_or(most).min(most) as usize];
    let mut writer = Writer::NEW;
    for (number, line) in text.split_inclusive(|&byte| byte == b'\n').enumerate() {
        let line = line.strip_suffix(b"\n").unwrap_or(line);
        let field = field(line).ok_or(Fault::NoField(number + 1))?;
        let place = writer.at;
        let refused = |number| Fault::Refused { number, place };
        writer.append(field, &mut buffer).map_err(refused)?;
    }
    buffer.truncate(writer.at as usize);
    Ok(buffer)
}

/// What `write` must give out for that.
pub fn output(written: &Result<Vec<u8>, Fault>) -> Vec<u8> {
    match written {
        Ok(score) => score.clone(),
        Err(Fault::Refused { number, place }) => {
            format!("refused {number} at {place}\n").into_bytes()
        }
        Err(Fault::NoField(line)) => format!("line {line} is no field\n").into_bytes(),
    }
}

fn field(line: &[u8]) -> Option<Field> {
    let words: Vec<&[u8]> = line.split(|&byte| byte == b' ').collect();
    let byte = |word| number(word, u8::MAX.into()).map(|number| number as u8);
    let stamp = number(words.get(1)?, u32::MAX)?;
    Some(match words[..] {
        [b"write", _, address, value] => write(stamp, byte(address)?, byte(value)?),
        [b"read", _, address] => read(stamp, byte(address)?),
        [b"levels", _] => levels(stamp),
        [b"watch", _] => watch(stamp),
        [b"end", _] => end(stamp),
        _ => return None,
    })
}

fn number(word: &[u8], most: u32) -> Option<u32> {
    let digits = word.iter().all(u8::is_ascii_digit);
    if !digits || word.len() > 1 && word[0] == b'0' {
        return None;
    }
    let number = std::str::from_utf8(word).ok()?.parse().ok()?;
    (number <= most).then_some(number)
}
