//! Texts by the seed, for `write`: fields that are good or refused, and lines that are no field.

use crate::append;
use crate::compose;
use crate::random::Random;
use crate::score::{self, Field, LATEST_STAMP, MOST_BYTES};
use crate::text;
use crate::writer::Writer;

const MOST_FIELDS: u32 = 40;
/// One stamp in so many is chosen to be refused, in some texts.
const BAD_STAMPS: u32 = 20;

/// The text with this seed, and the size of the buffer if one is given.
pub fn seeded(seed: u64) -> (Vec<u8>, Option<u64>) {
    let mut random = Random::seeded(seed);
    let fields = fields(&mut random);
    let whole = score::bytes_of(&fields).len() as u64;
    let lines = fields.iter().map(|field| text::line(field).into_bytes());
    let mut lines: Vec<Vec<u8>> = lines.collect();
    for _ in 0..random.pick(&[0, 0, 1, 1, 2]) {
        let at = random.below(lines.len() as u32 + 1) as usize;
        let field = append::field(&Writer::NEW, BAD_STAMPS, &mut random);
        lines.insert(at, bad_line(&field, &mut random));
    }
    let mut text = lines.join(&b'\n');
    if random.below(4) > 0 && !lines.is_empty() {
        text.push(b'\n');
    }
    (text, size(whole, &mut random))
}

/// About a text in twelve has all the fields a score can have, or one more.
fn fields(random: &mut Random) -> Vec<Field> {
    let bad_stamps = random.pick(&[BAD_STAMPS, u32::MAX]);
    let mut fields = match random.below(12) {
        0 => compose::filler(MOST_BYTES - 30 - random.below(30) as usize),
        1 => {
            let kind = random.pick(&[score::levels, score::watch]);
            vec![kind(LATEST_STAMP - random.below(8))]
        }
        _ => vec![],
    };
    let mut buffer = vec![0; MOST_BYTES];
    let mut writer = Writer::NEW;
    for &field in &fields {
        // What is refused leaves the state as it is, here and below.
        let _ = writer.append(field, &mut buffer);
    }
    for _ in 0..random.below(MOST_FIELDS) {
        let field = append::field(&writer, bad_stamps, random);
        let _ = writer.append(field, &mut buffer);
        fields.push(field);
        if writer.ended && random.below(8) > 0 {
            return fields;
        }
    }
    if random.below(2) == 0 {
        fields.push(score::end(writer.last));
    }
    fields
}

/// About as many bytes as the fields have.
fn size(whole: u64, random: &mut Random) -> Option<u64> {
    match random.below(8) {
        0..=2 => None,
        3 => Some(whole),
        4 => Some(whole.saturating_sub(1)),
        5 => Some(random.below(whole as u32 + 10).into()),
        6 => Some(random.below(9).into()),
        _ => Some(random.pick(&[65_536, 65_537, 100_000, u32::MAX.into()])),
    }
}

/// A field's line with one thing amiss; by chance it may be a field still.
fn bad_line(field: &Field, random: &mut Random) -> Vec<u8> {
    let good = text::line(field);
    let words: Vec<&str> = good.split(' ').collect();
    let chosen = 1 + random.below(words.len() as u32 - 1) as usize;
    let number: u64 = words[chosen].parse().expect("it is a number");
    let beyond: u64 = if chosen == 1 { 1 << 32 } else { 1 << 8 };
    // In place of the number.
    let with = |word: String| {
        let mut words = words.clone();
        words[chosen] = &word;
        words.join(" ")
    };
    let line = match random.below(24) {
        0 => String::new(),
        1 => with(format!("0{number}")),
        2 => with(random.pick(&["00", "0x0", "1e1", "1.0", "1_0"]).into()),
        3 => with(format!("{}{number}", random.pick(&["+", "-"]))),
        4 => with(format!("{beyond}")),
        // Small when cut to fewer bits.
        5 => with(format!("{}", beyond + number)),
        6 => with(format!("{}", (1 << 64) + u128::from(number))),
        7 => with(format!("{number}").repeat(1 << random.below(15))),
        8 => with(format!("{number} 0")),
        9 => with(format!(" {number}")),
        10 => with(format!("\t{number}")),
        11 => with(format!("{number},")),
        12 => format!("{good} "),
        13 => format!("{good}\r"),
        14 => format!("{good}{}", random.pick(&['\0', '\t', '\x0b', '\x0c'])),
        15 => format!(" {good}"),
        16 => good.replacen(' ', "\t", 1),
        17 => good.to_uppercase(),
        18 => good[..1].to_uppercase() + &good[1..],
        19 => words[..words.len() - 1].join(" "),
        // A name cut short or too long.
        20 => good[1 + random.below(3) as usize..].to_owned(),
        21 => good.replacen(' ', "s ", 1),
        _ => return with_other_bytes(good.into_bytes(), random),
    };
    line.into_bytes()
}

/// Some byte changed, taken out or put in.
fn with_other_bytes(mut line: Vec<u8>, random: &mut Random) -> Vec<u8> {
    let at = random.below(line.len() as u32) as usize;
    match random.below(4) {
        0 => line[at] |= 0x80,
        1 => line[at] = random.byte(),
        2 => drop(line.remove(at)),
        _ => line.insert(at, random.byte()),
    }
    line
}
