//! The lists `replay_scores` and `replay_listings`: scores, and what the program that replays them
//! must print.
//!
//! A score has its length (u32, little endian) before its bytes. In the listings each score has a
//! line `score` and its number, from 0, before its own lines.

use super::watches;
use crate::compose::Composer;
use crate::random::Random;
use crate::score::{self, end, levels, read, watch, write};
use crate::score::{Field, HEADER_BYTES, LATEST_STAMP, MOST_BYTES};
use crate::sid::constants::DATA_BUS_HOLD_CYCLES as HOLDS;
use crate::sid::sid::Mos6581;

const SEED: u64 = 6581 * 31;
const AIMED_SCORES: u32 = 24;

const FLOAT_WHOLE: u32 = 1_260_019;

pub fn scores() -> Vec<u8> {
    scores_in_one(&all())
}

pub fn scores_in_one(scores: &[Vec<u8>]) -> Vec<u8> {
    let mut bytes = Vec::new();
    for score in scores {
        bytes.extend((score.len() as u32).to_le_bytes());
        bytes.extend(score);
    }
    bytes
}

pub fn listings() -> Vec<u8> {
    let mut chip = Mos6581::new();
    let mut text = String::new();
    for (number, score) in all().iter().enumerate() {
        text += &listing_in_one(number, &score::listing(score, &mut chip));
    }
    text.into_bytes()
}

pub fn listing_in_one(number: usize, listing: &str) -> String {
    format!("score {number}\n{listing}")
}

fn all() -> Vec<Vec<u8>> {
    let mut scores = vec![worked_example(), Vec::new()];
    scores.extend(all_accepted(&accepted()));
    scores.extend(all_accepted(&watches::scores()));
    scores.extend(aimed());
    scores.extend(refused_at_each_place());
    scores.extend(cut_before_each_byte());
    scores.extend(two_accesses());
    scores.extend(refused_for_the_first_reason());
    scores.extend(at_the_latest_stamp());
    scores.extend(at_the_greatest_length());
    scores
}

/// Document 01's own.
fn worked_example() -> Vec<u8> {
    score::bytes_of(&[
        levels(0),
        write(0, 0x00, 0x81),
        read(11, 0x00),
        read(12, 0x00),
        end(12),
    ])
}

fn all_accepted(scores: &[Vec<Field>]) -> Vec<Vec<u8>> {
    let scores = scores.iter().map(|fields| score::bytes_of(fields));
    let scores: Vec<Vec<u8>> = scores.collect();
    assert!(scores.iter().all(|score| score::check(score).is_ok()));
    scores
}

fn accepted() -> Vec<Vec<Field>> {
    let mut scores = vec![vec![end(0)], vec![end(1)], vec![end(6_043)]];
    scores.push(vec![
        levels(6_042),
        levels(6_043),
        read(6_043, 0x1c),
        levels(6_044),
        end(6_044),
    ]);
    // All that is stamped as the end runs, in file order.
    scores.push(vec![
        write(5, 0x0e, 0x34),
        write(6, 0x0f, 0x12),
        write(7, 0x12, 0x21),
        levels(7),
        read(897, 0x1b),
        read(898, 0x00),
        write(899, 0x1f, 0x5a),
        levels(900),
        read(900, 0x00),
        levels(900),
        end(900),
    ]);
    // Levels and ends are no accesses, and the first access may stand on 0.
    scores.push(vec![
        levels(0),
        write(0, 0x06, 0xf0),
        levels(0),
        write(1, 0x04, 0x11),
        levels(1),
        levels(40),
        read(40, 0x1c),
        end(40),
    ]);
    scores.push(every_address());
    scores.push(every_fade());
    scores.push(three_voices());
    scores.push(floating_code());
    scores
}

/// Each byte is an address; its low five bits are what the chip decodes.
fn every_address() -> Vec<Field> {
    let mut fields = Vec::new();
    for address in 0..=255u8 {
        let stamp = 3 * u32::from(address);
        let value = address.rotate_left(3) ^ 0x5a;
        // No test bit, so that all phases go on.
        fields.push(write(stamp, address, value & 0xf7));
        fields.push(read(stamp + 2, address));
    }
    fields.extend([levels(800), end(900)]);
    fields
}

pub fn every_fade() -> Vec<Field> {
    let mut holds = HOLDS;
    holds.sort_unstable();
    let mut fields = vec![write(0, 0x1d, 0xff)];
    for hold in holds {
        fields.extend([read(hold - 1, 0x18), read(hold, 0x00)]);
    }
    fields.push(end(50_000));
    fields
}

/// Notes with ring, sync and noise, gates that fall on the last clocks.
fn three_voices() -> Vec<Field> {
    let mut fields = Vec::new();
    for voice in 0..3u8 {
        let base = 7 * voice;
        let at = 40 * u32::from(voice);
        fields.extend([
            write(at, base + 1, 0x1c << voice),
            write(at + 1, base + 3, 0x07),
            write(at + 2, base + 5, 0x10 + voice),
            write(at + 3, base + 6, 0xa4 - voice),
            write(at + 4, base + 4, [0x15, 0x43, 0x81][usize::from(voice)]),
        ]);
    }
    for bar in 1..120 {
        let stamp = 250 * bar;
        fields.extend([levels(stamp), read(stamp, 0x1b), read(stamp + 1, 0x1c)]);
        if bar % 20 == 0 {
            let voice = (bar / 20 % 3) as u8;
            fields.push(write(stamp + 2, 7 * voice + 4, 0x10));
            fields.push(write(stamp + 3, 7 * voice + 4, 0x51));
        }
    }
    for voice in 0..3u8 {
        fields.push(write(29_998 + u32::from(voice), 7 * voice + 4, 0x40));
    }
    fields.extend([levels(30_000), end(30_000)]);
    fields
}

/// Whole for so many clocks after its capture, and then gone.
fn floating_code() -> Vec<Field> {
    let captured = 500;
    vec![
        write(0, 0x08, 0x1f),
        write(1, 0x0b, 0x21),
        levels(captured),
        write(captured, 0x0b, 0x01),
        levels(captured + FLOAT_WHOLE),
        levels(captured + FLOAT_WHOLE + 1),
        end(captured + FLOAT_WHOLE + 1),
    ]
}

fn aimed() -> Vec<Vec<u8>> {
    let mut chip = Mos6581::new();
    let mut random = Random::seeded(SEED);
    let mut scores = Vec::new();
    for number in 0..AIMED_SCORES {
        let patience = if number % 8 == 0 { 33_000 } else { 1_000 };
        let fields = Composer::new(&mut chip).aimed(25, patience, &mut random);
        scores.push(score::bytes_of(&fields));
    }
    scores
}

/// Each refusal from 5 to 14 at each field of a score.
fn refused_at_each_place() -> Vec<Vec<u8>> {
    let fields = [
        write(3, 0x01, 0x40),
        read(5, 0x1b),
        levels(5),
        watch(6),
        write(9, 0x04, 0x21),
        end(12),
    ];
    let whole = score::bytes_of(&fields);
    let mut scores = Vec::new();
    let mut place = 0;
    for (number, field) in fields.iter().enumerate() {
        let after = place + field.bytes().len();
        // Every cut within the field: header, value, one byte short.
        for cut in place..after {
            scores.push(whole[..cut].to_vec());
        }
        let changed = |offset: usize, bytes: &[u8]| {
            let mut score = whole.clone();
            score[place + offset..][..bytes.len()].copy_from_slice(bytes);
            score
        };
        // Levels and watches are of one length.
        for tag in [0x00, 0x03, 0x04, 0x05, 0x7e, 0x80, 0x84, 0xff] {
            if tag != whole[place] {
                scores.push(changed(0, &[tag]));
            }
        }
        let length = whole[place + 1];
        for wrong in [
            [0, 0],
            [length - 1, 0],
            [length + 1, 0],
            [length, 1],
            [length, 0xff],
        ] {
            scores.push(changed(1, &wrong));
        }
        for stamp in [LATEST_STAMP + 1, u32::MAX] {
            scores.push(changed(HEADER_BYTES, &stamp.to_le_bytes()));
        }
        if number > 0 {
            for stamp in [0, fields[number - 1].stamp - 1] {
                scores.push(changed(HEADER_BYTES, &stamp.to_le_bytes()));
            }
        }
        let is_access = |field: &&Field| field.event.is_access();
        let before = fields[..number].iter().rfind(is_access);
        if let (true, Some(before)) = (is_access(&field), before) {
            scores.push(changed(HEADER_BYTES, &before.stamp.to_le_bytes()));
        }
        // An end too early, and nothing but a byte after it.
        let mut early = whole[..place].to_vec();
        early.extend(end(field.stamp).bytes());
        scores.push([&early[..], &whole[place..]].concat());
        scores.push([&early[..], &[0x7f]].concat());
        place = after;
    }
    scores
}

/// Each kind of field, cut before each of its bytes: alone, after another field, with a second
/// reason to be refused, on a clock that has an access, and after an end, where it is that which is
/// told.
fn cut_before_each_byte() -> Vec<Vec<u8>> {
    let nothing = Vec::new();
    let before = levels(7).bytes();
    let mut scores = Vec::new();
    let kinds = [
        write(7, 0x04, 0x11),
        read(7, 0x1b),
        levels(7),
        watch(7),
        end(7),
    ];
    for field in kinds {
        let whole = field.bytes();
        let changed = |offset: usize, bytes: &[u8]| {
            let mut field = whole.clone();
            field[offset..][..bytes.len()].copy_from_slice(bytes);
            field
        };
        let length = whole[1];
        let cases = [
            (&nothing, whole.clone()),
            (&before, whole.clone()),
            (&before, changed(0, &[0x55])),
            (&before, changed(1, &[length + 1])),
            (&before, changed(1, &[length - 1])),
            (&before, changed(HEADER_BYTES, &u32::MAX.to_le_bytes())),
            (&before, changed(HEADER_BYTES, &6u32.to_le_bytes())),
            (&write(7, 0x04, 0x11).bytes(), whole.clone()),
            (&watch(7).bytes(), whole.clone()),
            (&end(7).bytes(), whole.clone()),
        ];
        for (before, field) in cases {
            for cut in 1..field.len() {
                scores.push([before, &field[..cut]].concat());
            }
        }
    }
    scores
}

/// Each kind of access after each, on the clock before, the same clock and the one after, with
/// levels or watches between or without. An access that is below the field before, too, is refused
/// for that.
fn two_accesses() -> Vec<Vec<u8>> {
    let kinds: [fn(u32) -> Field; 2] = [|at| write(at, 0x04, 0x11), |at| read(at, 0x1b)];
    let mut scores = Vec::new();
    for first in kinds {
        for second in kinds {
            let between: [&[fn(u32) -> Field]; 5] = [
                &[],
                &[levels],
                &[watch],
                &[levels, |at| levels(at + 1)],
                &[watch, |at| watch(at + 1)],
            ];
            for between in between {
                for stamp in [0, 1, 700, LATEST_STAMP] {
                    let before = first(stamp).bytes();
                    let others = between.iter().map(|other| other(stamp));
                    let before = [before, others.flat_map(Field::bytes).collect()].concat();
                    for again in stamp.saturating_sub(1)..=stamp + 1 {
                        let mut score = [&before[..], &second(again).bytes()].concat();
                        // Without an end where it would have to be played for long.
                        if stamp < LATEST_STAMP {
                            score.extend(end(again).bytes());
                        }
                        scores.push(score);
                    }
                }
            }
        }
    }
    scores
}

/// Two reasons at one place: the first in document 01's order is told.
fn refused_for_the_first_reason() -> Vec<Vec<u8>> {
    let good = levels(7).bytes();
    let twice: [&[u8]; 14] = [
        // Header cut, tag unknown.
        &[0x55],
        &[0x55, 0x04],
        // Tag unknown, value cut.
        &[0x55, 0x04, 0x00],
        // Length wrong, value cut.
        &[0x01, 0x07, 0x00],
        &[0x03, 0xff, 0xff, 0x09],
        &[0x04, 0x05, 0x00],
        &[0x04, 0x00, 0x00],
        // Value cut, stamp too late or below the one before.
        &[0x01, 0x06, 0x00, 0xff, 0xff, 0xff, 0xff, 0x00],
        &[0x02, 0x05, 0x00, 0x00, 0x00, 0x00, 0x00],
        &[0x04, 0x04, 0x00, 0xff, 0xff, 0xff],
        // Length wrong, stamp too late or below the one before.
        &[0x04, 0x05, 0x00, 0xff, 0xff, 0xff, 0xff, 0x00],
        &[0x04, 0x06, 0x00, 0x00, 0x00, 0x00, 0x00, 0x00, 0x00],
        // Stamp too late or below the one before, bytes after the end.
        &[0x7f, 0x04, 0x00, 0xff, 0xff, 0xff, 0xff, 0x00],
        &[0x7f, 0x04, 0x00, 0x00, 0x00, 0x00, 0x00, 0x00],
    ];
    twice
        .iter()
        .map(|bytes| [&good[..], bytes].concat())
        .collect()
}

/// Allowed, and one more is not; a byte after the end saves the clocks.
fn at_the_latest_stamp() -> Vec<Vec<u8>> {
    let mut scores = Vec::new();
    for stamp in [LATEST_STAMP, LATEST_STAMP + 1] {
        let kinds = [
            write(stamp, 0x04, 0x11),
            read(stamp, 0x1b),
            levels(stamp),
            watch(stamp),
        ];
        for field in kinds {
            scores.push(field.bytes());
            let mut ended = score::bytes_of(&[levels(0), field, end(stamp)]);
            ended.push(0x7f);
            scores.push(ended);
        }
        scores.push([end(stamp).bytes(), vec![0x03]].concat());
        scores.push([end(stamp).bytes(), watch(stamp).bytes()].concat());
        scores.push([end(LATEST_STAMP).bytes(), end(stamp).bytes()].concat());
    }
    scores
}

/// The greatest length that is allowed, accepted, without an end and with an end that is cut; and
/// one byte more.
fn at_the_greatest_length() -> Vec<Vec<u8>> {
    let accepted = of_length(MOST_BYTES);
    let mut without_end = of_length(MOST_BYTES - 1);
    without_end.truncate(MOST_BYTES - 1 - end(0).bytes().len());
    without_end.extend(read(60_000, 0x00).bytes());
    assert_eq!(without_end.len(), MOST_BYTES);
    let too_long = of_length(MOST_BYTES + 1);
    let value_cut = too_long[..MOST_BYTES].to_vec();
    let header_cut = of_length(MOST_BYTES + 5)[..MOST_BYTES].to_vec();
    vec![
        accepted,
        without_end,
        too_long,
        vec![0x00; MOST_BYTES + 1],
        value_cut,
        header_cut,
    ]
}

/// Writes one after another, what they led to, and an end: so many bytes in all.
fn of_length(bytes: usize) -> Vec<u8> {
    let mut random = Random::seeded(bytes as u64);
    let last = score::bytes_of(&[levels(50_000), read(50_000, 0x1b), end(50_000)]);
    let mut score = Vec::new();
    let mut stamp = 0;
    // Reads, which have one byte less than writes, make up the length.
    let left = |score: &Vec<u8>| bytes - score.len() - last.len();
    while left(&score) % write(0, 0, 0).bytes().len() > 0 {
        score.extend(read(stamp, random.byte()).bytes());
        stamp += 5;
    }
    while left(&score) > 0 {
        stamp += 1 + random.below(12);
        score.extend(write(stamp, random.byte(), random.byte()).bytes());
    }
    score.extend(last);
    score
}
