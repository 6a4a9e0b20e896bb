//! The part of the lists `replay_scores` and `replay_listings` in which the bus is watched: scores
//! that are all accepted.

use super::replay;
use crate::compose::{self, Composer};
use crate::random::Random;
use crate::score::{end, levels, read, watch, write, Field};
use crate::sid::constants::DATA_BUS_HOLD_CYCLES as HOLDS;
use crate::sid::sid::Mos6581;

const SEED: u64 = 6581 * 41;
const FADING_SCORES: u32 = 6;

pub fn scores() -> Vec<Vec<Field>> {
    let mut scores = fade_each_bit();
    scores.extend(drive_about_a_loss());
    scores.extend(read_each_address());
    scores.extend(fade_what_is_read());
    scores.extend(watch_about_a_loss());
    scores.extend(share_a_stamp());
    scores.extend(watch_again());
    scores.extend(end_about_a_loss());
    scores.extend(crowd_the_clock_of_a_loss());
    scores.extend(composed());
    scores
}

/// A write that no voice heeds.
fn drive(stamp: u32, byte: u8) -> Field {
    write(stamp, 0x1d, byte)
}

/// Each bit alone, some and all of them, with nothing else; and all of them with reads about each
/// loss.
fn fade_each_bit() -> Vec<Vec<Field>> {
    let mut bytes: Vec<u8> = (0..8).map(|bit| 1 << bit).collect();
    bytes.extend([0xff, 0x55, 0xaa, 0x00]);
    let mut scores = Vec::new();
    for byte in bytes {
        let set = (0..8).filter(|bit| byte >> bit & 1 == 1);
        let last = set.map(|bit: usize| HOLDS[bit]).max().unwrap_or(12);
        scores.push(vec![watch(0), drive(0, byte), end(last + 2)]);
    }
    scores.push([vec![watch(0)], replay::every_fade()].concat());
    scores
}

/// On the way to a loss, on the clock before it, on its own and on the next: the byte that was
/// there, which renews it, another or none. What a drive takes away is not lost.
fn drive_about_a_loss() -> Vec<Vec<Field>> {
    let mut scores = Vec::new();
    for first in [0x01, 0x81, 0xff] {
        for second in [0x00, 0x01, 0x80, 0x81, 0xfe, 0xff] {
            for at in [5, 11, 12, 13] {
                let drives = [drive(0, first), drive(at, second)];
                scores.push([&[watch(0)], &drives[..], &[end(at + 13)]].concat());
            }
        }
    }
    // Renewed on the clock before the loss, and next on the loss's own.
    for bit in [1, 4, 5, 6, 7] {
        let (byte, hold) = (1 << bit, HOLDS[bit]);
        scores.push(vec![
            drive(0, byte),
            watch(1),
            drive(hold - 1, byte),
            drive(2 * hold - 1, byte),
            end(3 * hold - 1),
        ]);
    }
    scores
}

/// Within a hold: four of them drive what they return, and the rest renew nothing.
fn read_each_address() -> Vec<Vec<Field>> {
    let mut scores = Vec::new();
    for register in 0..32u8 {
        let mirror = register << 5;
        for at in [5, 11, 12] {
            scores.push(vec![
                watch(0),
                drive(0, 0xff),
                read(at, mirror | register),
                levels(at + 11),
                levels(at + 12),
                end(at + 13),
            ]);
        }
    }
    // The later bits are lost so many clocks after the read that drives, not after the write.
    scores.push(vec![
        drive(0, 0xff),
        watch(3),
        read(9, 0x19),
        read(20, 0x1d),
        read(21, 0x00),
        read(22, 0x18),
        read(7_688, 0x05),
        read(7_689, 0x1f),
        end(11_274),
    ]);
    scores
}

/// Read again a clock before the loss of bit 0, on its clock and a clock later: the pots, and a saw
/// and a level on their way.
fn fade_what_is_read() -> Vec<Vec<Field>> {
    let mut scores = Vec::new();
    for address in [0x19, 0x1a, 0x1b, 0x1c, 0xfb, 0x3c] {
        for apart in 11..=13 {
            let mut fields = vec![watch(0), write(0, 0x0f, 0xfd), write(1, 0x12, 0x20)];
            fields.extend((1..=16).map(|number| read(apart * number, address)));
            fields.push(end(apart * 17));
            scores.push(fields);
        }
    }
    scores
}

/// What is lost up to the clock of the watch itself is not told.
fn watch_about_a_loss() -> Vec<Vec<Field>> {
    let mut scores = Vec::new();
    for at in [0, 1, 10, 11, 12, 13] {
        scores.push(vec![drive(0, 0x81), watch(at), end(20)]);
        scores.push(vec![drive(0, 0x81), watch(at), drive(20, 0x01), end(33)]);
    }
    for at in [7_679, 7_680, 7_681] {
        scores.push(vec![drive(0, 0x30), watch(at), levels(at), end(11_264)]);
    }
    scores
}

/// With each kind of field, before it and after it, about the clock of a loss; the next is told.
fn share_a_stamp() -> Vec<Vec<Field>> {
    let mut scores = Vec::new();
    for at in 11..=13 {
        let others = [
            drive(at, 0x01),
            drive(at, 0x00),
            read(at, 0x19),
            read(at, 0x00),
            levels(at),
        ];
        for other in others {
            for both in [[watch(at), other], [other, watch(at)]] {
                scores.push([&[drive(0, 0xff)], &both[..], &[end(at + 13)]].concat());
            }
        }
        scores.push(vec![drive(0, 0xff), watch(at), end(at)]);
    }
    // On clock 0, which is before the first.
    for other in [drive(0, 0x01), read(0, 0x19), levels(0)] {
        for both in [[watch(0), other], [other, watch(0)]] {
            scores.push([&both[..], &[end(13)]].concat());
        }
    }
    scores.push(vec![
        levels(0),
        watch(0),
        drive(0, 0x01),
        levels(0),
        end(13),
    ]);
    scores.push(vec![watch(0), end(0)]);
    scores.push(vec![watch(0), end(6_043)]);
    scores
}

/// Nothing comes of it, be it before a loss, on its clock or later.
fn watch_again() -> Vec<Vec<Field>> {
    let mut scores = Vec::new();
    for first in [0, 11, 12, 13] {
        for again in [0, 1, 11, 12, 13, 20, 31, 32] {
            if first <= again {
                let watches = [watch(first), watch(again)];
                let mut fields = [&[drive(0, 0x11)], &watches[..], &[drive(20, 0x01)]].concat();
                // In order by the stamp; those that share one stay as they are.
                fields.sort_by_key(|field| field.stamp);
                fields.push(end(33));
                scores.push(fields);
            }
        }
    }
    scores
}

/// On the clock before it, on its own, where the loss is told before the end, and on the next; the
/// watch may stand there, too.
fn end_about_a_loss() -> Vec<Vec<Field>> {
    let mut scores = Vec::new();
    for last in 11..=13 {
        for at in 10..=last {
            scores.push(vec![drive(0, 0xff), watch(at), end(last)]);
        }
        scores.push(vec![watch(0), drive(0, 0xff), levels(last), end(last)]);
        scores.push(vec![watch(0), read(0, 0x1a), read(last, 0x1d), end(last)]);
        scores.push(vec![watch(0), drive(0, 0x01), drive(last, 0x80), end(last)]);
    }
    for last in 15_359..=15_361 {
        scores.push(vec![drive(0, 0x40), watch(15_300), end(last)]);
    }
    scores
}

/// The loss is told once, before the first of the fields.
fn crowd_the_clock_of_a_loss() -> Vec<Vec<Field>> {
    let mut scores = Vec::new();
    for access in [
        read(12, 0x00),
        read(12, 0x1c),
        read(12, 0x1a),
        drive(12, 0xff),
    ] {
        scores.push(vec![
            watch(0),
            drive(0, 0xff),
            levels(11),
            levels(12),
            watch(12),
            access,
            levels(12),
            levels(24),
            read(24, 0x18),
            watch(24),
            levels(24),
            end(24),
        ]);
    }
    // A loss between fields, and one without any field after it but the end.
    scores.push(vec![
        watch(0),
        drive(0, 0x11),
        levels(5),
        levels(7_000),
        drive(7_001, 0x21),
        levels(7_020),
        end(20_000),
    ]);
    scores
}

/// Aimed at losses by looking at the original's bus, with watches in some places.
fn composed() -> Vec<Vec<Field>> {
    let mut chip = Mos6581::new();
    let mut random = Random::seeded(SEED);
    let mut scores = Vec::new();
    for _ in 0..FADING_SCORES {
        let fields = Composer::new(&mut chip).fading(4, 16_000, &mut random);
        scores.push(compose::with_watches(fields, &mut random));
    }
    scores
}
