//! Plays the same scenes on this repository's chip and on the original's voices, in one process,
//! and prints how long a clock takes on each and the ratio. The two take turns, and the least
//! processor time of several rounds counts. A difference in what is heard or stored ends the run with 1.

mod original;

use original::{fall, GeneratedWaveShapes, Voices, DATA_BUS_HOLD_CYCLES};
use std::hint::black_box;
use std::process::ExitCode;

// Crates `bench`, `bench_pack`, `bench_render`, `bench_score` and `bench_tail`; and of C, the processor time of this
// process in microseconds.
extern "C" {
    fn bench_idle(clocks: u64) -> u64;
    fn bench_run(control: u8, clocks: u64) -> u64;
    fn bench_floats(control: u8, clocks: u64) -> u64;
    fn bench_ticks(control: u8, clocks: u64) -> u64;
    fn bench_writes(seed: u16, writes: u64, apart: u64) -> u64;
    fn bench_pack_fill(pack: *mut u16, length: usize);
    fn bench_pack_run(control: u8, clocks: u64, pack: *const u16, length: usize) -> u64;
    fn bench_pack_ticks(control: u8, clocks: u64, pack: *const u16, length: usize) -> u64;
    fn bench_both_ticks(control: u8, clocks: u64) -> u64;
    fn bench_pack_writes(seed: u16, writes: u64, apart: u64, pack: *const u16, length: usize) -> u64;
    fn bench_render(
        control_0: u8,
        control_1: u8,
        control_2: u8,
        calls: u64,
        pack: *const u16,
        length: usize,
        out: *mut u16,
        room: usize,
    ) -> u64;
    fn bench_render_idle(calls: u64, pack: *const u16, length: usize, out: *mut u16, room: usize) -> u64;
    fn bench_score(score: *const u8, bytes: usize, pack: *const u16, length: usize) -> u64;
    fn bench_forecasts(calls: u64) -> u64;
    fn bench_to_held(control: u8, clocks: u32) -> u64;
    fn clock() -> i64;
}

#[derive(Clone, Copy)]
enum Scene {
    Idle,
    Run(u8),
    Floats(u8),
    Ticks(u8),
    Writes(u64),
    // over a filled pack; the last with any byte to any register of a voice
    PackRun(u8),
    PackTicks(u8),
    PackWrites(u64),
    // the plain tick, where two places call its body
    BothTicks(u8),
    // over a filled pack, each clock stored: three control bytes, or a fresh chip
    Render(Option<[u8; 3]>),
}
use Scene::*;

/// Name, scene and the ratio that is aimed at, if any.
const SCENES: [(&str, Scene, Option<f64>); 46] = [
    ("run, fresh chip", Idle, Some(0.85)),
    ("run, three pulses", Run(0x41), Some(1.0)),
    ("run, three noises", Run(0x81), Some(1.0)),
    ("run, a write every 100 clocks", Writes(100), Some(1.0)),
    ("run, a write every 1000 clocks", Writes(1000), Some(1.0)),
    ("run, triangle with noise", Run(0x91), Some(1.3)),
    ("run, triangles", Run(0x11), None),
    ("run, triangles, ring and sync", Run(0x17), None),
    ("run, saws", Run(0x21), None),
    ("run, pulses in test", Run(0x49), None),
    ("run, floating lines", Floats(0x21), None),
    ("run, selection 3", Run(0x31), None),
    ("run, selection 5", Run(0x51), None),
    ("run, selection 6", Run(0x61), None),
    ("run, selection 7", Run(0x71), None),
    ("tick, nothing selected", Ticks(0x01), Some(1.8)),
    ("tick, three pulses", Ticks(0x41), Some(1.8)),
    ("tick, three noises", Ticks(0x81), Some(1.8)),
    ("tick, triangles", Ticks(0x11), Some(1.8)),
    ("tick, triangle with noise", Ticks(0x91), Some(1.8)),
    ("pack run, three pulses", PackRun(0x41), None),
    ("pack run, selection 3", PackRun(0x31), Some(0.8)),
    ("pack run, selection 5", PackRun(0x51), Some(0.8)),
    ("pack run, selection 6", PackRun(0x61), Some(0.8)),
    ("pack run, selection 7", PackRun(0x71), Some(0.8)),
    ("pack run, selection 10", PackRun(0xa1), Some(0.8)),
    ("pack run, selection 11", PackRun(0xb1), Some(0.8)),
    ("pack run, selection 12", PackRun(0xc1), Some(0.8)),
    ("pack run, selection 13", PackRun(0xd1), Some(0.8)),
    ("pack run, selection 14", PackRun(0xe1), Some(0.8)),
    ("pack run, selection 15", PackRun(0xf1), Some(0.8)),
    ("pack run, any write every 100", PackWrites(100), None),
    ("pack run, any write every 1000", PackWrites(1000), None),
    ("tick called from two places, nothing selected", BothTicks(0x01), None),
    ("tick called from two places, three pulses", BothTicks(0x41), None),
    ("tick called from two places, three noises", BothTicks(0x81), None),
    ("pack tick, three pulses", PackTicks(0x41), None),
    ("pack tick, selection 3", PackTicks(0x31), None),
    ("render, fresh chip", Render(None), Some(0.85)),
    ("render, three pulses", Render(Some([0x41; 3])), Some(0.6)),
    ("render, three noises", Render(Some([0x81; 3])), Some(0.6)),
    ("render, selection 3", Render(Some([0x31; 3])), Some(0.85)),
    ("render, selection 5", Render(Some([0x51; 3])), Some(0.85)),
    ("render, selection 6", Render(Some([0x61; 3])), Some(0.85)),
    ("render, selections 3, 5 and 6", Render(Some([0x31, 0x51, 0x61])), Some(0.85)),
    ("render, selections 4, 5 and 8", Render(Some([0x41, 0x51, 0x81])), Some(0.85)),
];

/// Entries of a pack.
const PACK: usize = 45_056;

/// Clocks that a call of render stores, and the entries of its buffer.
const CHUNK: u64 = 1000;
const ROOM: usize = 6 * CHUNK as usize;

const SEED: u16 = 5;

/// Crate `bench`'s `scene`.
fn scene(control: u8) -> Voices {
    let mut voices = Voices::new();
    for (base, frequency) in [(0, 0x1d45u16), (7, 0x2b11), (14, 0x0f37)] {
        let [low, high] = frequency.to_le_bytes();
        for (register, value) in [(0, low), (1, high), (2, 0), (3, 8), (5, 0x29), (6, 0xa9), (4, control)] {
            voices.write(base + register, value);
        }
    }
    voices
}

/// Crate `bench`'s `afloat`.
fn afloat(control: u8) -> Voices {
    let mut voices = scene(control);
    run(&mut voices, 100);
    for address in [0x04, 0x0b, 0x12] {
        voices.write(address, 0x01);
    }
    voices
}

/// Crate `bench_render`'s `mixed`.
fn mixed([first, second, third]: [u8; 3]) -> Voices {
    let mut voices = scene(first);
    voices.write(0x0b, second);
    voices.write(0x12, third);
    voices
}

/// Crate `bench`'s `digest`.
fn digest(codes: [u16; 3], levels: [u8; 3]) -> u64 {
    let [c0, c1, c2] = codes.map(u64::from);
    let [l0, l1, l2] = levels.map(u64::from);
    c0 + (c1 << 12) + (c2 << 24) + ((l0 + (l1 << 8) + (l2 << 16)) << 39)
}

#[inline(never)]
fn run(voices: &mut Voices, clocks: u64) -> u64 {
    for _ in 0..clocks {
        voices.tick();
    }
    digest(voices.codes(), voices.levels())
}

#[inline(never)]
fn ticks(voices: &mut Voices, clocks: u64) -> u64 {
    let mut sum = 0u64;
    for _ in 0..clocks {
        let (codes, levels) = voices.tick();
        sum = sum.wrapping_add(digest(codes, levels));
    }
    sum
}

/// As many clocks as there is room for: three codes and three levels each.
#[inline(never)]
fn render(voices: &mut Voices, out: &mut [u16]) {
    for clock in out.chunks_exact_mut(6) {
        let (codes, levels) = voices.tick();
        clock[..3].copy_from_slice(&codes);
        clock[3..].copy_from_slice(&levels.map(u16::from));
    }
}

#[inline(never)]
fn stir(voices: &mut Voices, writes: u64, apart: u64, any: bool) -> u64 {
    let mut seed = SEED;
    for _ in 0..writes {
        seed = seed.wrapping_mul(25173).wrapping_add(13849);
        let register = seed % 21;
        let byte = (seed / 256) as u8;
        let value = if register % 7 == 4 && !any {
            byte % 16 + (seed % 3 * 32) as u8
        } else {
            byte
        };
        voices.write(register, value);
        run(voices, apart);
    }
    digest(voices.codes(), voices.levels())
}

fn timed(play: impl FnOnce() -> u64) -> (u64, i64) {
    let start = unsafe { clock() };
    let digest = black_box(play());
    (digest, unsafe { clock() } - start)
}

fn original(scene_of: Scene, clocks: u64, out: &mut [u16]) -> (u64, i64) {
    match scene_of {
        Idle => {
            let mut voices = Voices::new();
            timed(|| run(&mut voices, clocks))
        }
        Run(control) | PackRun(control) => {
            let mut voices = scene(control);
            timed(|| run(&mut voices, clocks))
        }
        Floats(control) => {
            let mut voices = afloat(control);
            timed(|| run(&mut voices, clocks))
        }
        Ticks(control) | PackTicks(control) | BothTicks(control) => {
            let mut voices = scene(control);
            timed(|| ticks(&mut voices, clocks))
        }
        Writes(apart) => {
            let mut voices = Voices::new();
            timed(|| stir(&mut voices, clocks / apart, apart, false))
        }
        PackWrites(apart) => {
            let mut voices = Voices::new();
            timed(|| stir(&mut voices, clocks / apart, apart, true))
        }
        Render(controls) => {
            let mut voices = controls.map_or_else(Voices::new, mixed);
            timed(|| {
                for _ in 0..clocks / CHUNK {
                    render(&mut voices, black_box(&mut *out));
                }
                digest(voices.codes(), voices.levels())
            })
        }
    }
}

fn ours(scene_of: Scene, clocks: u64, pack: &[u16], out: &mut [u16]) -> (u64, i64) {
    let (start, length) = (pack.as_ptr(), pack.len());
    let (to, room) = (out.as_mut_ptr(), out.len());
    timed(|| unsafe {
        match scene_of {
            Idle => bench_idle(clocks),
            Run(control) => bench_run(control, clocks),
            Floats(control) => bench_floats(control, clocks),
            Ticks(control) => bench_ticks(control, clocks),
            Writes(apart) => bench_writes(SEED, clocks / apart, apart),
            PackRun(control) => bench_pack_run(control, clocks, start, length),
            PackTicks(control) => bench_pack_ticks(control, clocks, start, length),
            BothTicks(control) => bench_both_ticks(control, clocks),
            PackWrites(apart) => bench_pack_writes(SEED, clocks / apart, apart, start, length),
            Render(None) => bench_render_idle(clocks / CHUNK, start, length, to, room),
            Render(Some([first, second, third])) => {
                bench_render(first, second, third, clocks / CHUNK, start, length, to, room)
            }
        }
    })
}

/// The pack filled, beside the original's tables made: the least milliseconds of each.
fn filling(rounds: u64, pack: &mut [u16]) -> [f64; 2] {
    let mut least = [i64::MAX; 2];
    for _ in 0..rounds {
        let (_, time) = timed(|| {
            black_box(GeneratedWaveShapes::new());
            0
        });
        least[0] = least[0].min(time);
        let (_, time) = timed(|| {
            unsafe { bench_pack_fill(pack.as_mut_ptr(), pack.len()) };
            0
        });
        least[1] = least[1].min(time);
    }
    least.map(|time| time as f64 / 1000.0)
}

/// A score that drives a byte of eight bits every so many clocks, watched or not.
fn score(drives: u32, apart: u32, watched: bool) -> Vec<u8> {
    let mut bytes = Vec::new();
    let mut field = |tag: u8, stamp: u32, operands: &[u8]| {
        bytes.extend([tag, 4 + operands.len() as u8, 0]);
        bytes.extend(stamp.to_le_bytes());
        bytes.extend(operands);
    };
    if watched {
        field(0x04, 0, &[]);
    }
    for drive in 0..drives {
        field(0x01, drive * apart, &[0x18, 0xff]);
    }
    field(0x7f, drives * apart, &[]);
    bytes
}

/// How long the listing of such a score is: the end's line, and one for each bit of each byte.
fn listed(drives: u32, apart: u32, watched: bool) -> u64 {
    let end = format!("E {}\n", drives * apart).len();
    let fades = (0..drives).flat_map(|drive| DATA_BUS_HOLD_CYCLES.map(|hold| drive * apart + hold));
    let lines = fades.map(|clock| format!("F {clock} 80\n").len()).sum::<usize>();
    (end + if watched { lines } else { 0 }) as u64
}

/// The same score unwatched and watched: the least ns a clock of each, and whether each has the listing that is due.
fn watching(rounds: u64, pack: &[u16]) -> ([f64; 2], bool) {
    const DRIVES: u32 = 100;
    const APART: u32 = 1_000_000;
    let mut least = [i64::MAX; 2];
    let mut due = true;
    for _ in 0..rounds {
        for (watched, least) in [false, true].into_iter().zip(&mut least) {
            let score = score(DRIVES, APART, watched);
            let (length, time) = timed(|| unsafe {
                bench_score(score.as_ptr(), score.len(), pack.as_ptr(), pack.len())
            });
            *least = time.min(*least);
            due &= length == listed(DRIVES, APART, watched);
        }
    }
    (least.map(|time| time as f64 * 1000.0 / f64::from(DRIVES * APART)), due)
}

/// Forecasts of one level after another: the least ns of one, and whether they are the clocks that the original's
/// envelope takes.
fn forecasting(rounds: u64) -> (f64, bool) {
    const TIMES: u64 = 10_000;
    let due = TIMES * (0..=255).map(fall).sum::<u64>();
    let calls = TIMES * 256;
    let mut least = i64::MAX;
    let mut right = true;
    for _ in 0..rounds {
        let (sum, time) = timed(|| unsafe { bench_forecasts(calls) });
        least = time.min(least);
        right &= sum == due;
    }
    (least as f64 * 1000.0 / calls as f64, right)
}

/// The same scene run, and run until a voice is held that never is: the least ns a clock of each, and whether the same
/// is heard.
fn waiting(rounds: u64, clocks: u32) -> ([f64; 2], bool) {
    const PULSES: u8 = 0x41;
    let mut least = [i64::MAX; 2];
    let mut same = true;
    for _ in 0..rounds {
        let (run, time) = timed(|| unsafe { bench_run(PULSES, clocks.into()) });
        least[0] = time.min(least[0]);
        let (waited, time) = timed(|| unsafe { bench_to_held(PULSES, clocks) });
        least[1] = time.min(least[1]);
        same &= run == waited;
    }
    (least.map(|time| time as f64 * 1000.0 / f64::from(clocks)), same)
}

/// The names of a table's columns.
fn heads(first: &str, second: &str) {
    println!("{:<46}{first:>10}{second:>8}{:>8}{:>8}", "", "ratio", "aim");
}

/// A line of a table: two times, their ratio, and the ratio that is aimed at, if any.
fn row(name: &str, [first, second]: [f64; 2], aim: Option<f64>) {
    let aim = aim.map_or(String::new(), |aim| format!("{aim:.2}"));
    println!("{name:<46}{first:>10.1}{second:>8.1}{:>8.2}{aim:>8}", second / first);
}

fn main() -> ExitCode {
    let mut words = std::env::args().skip(1).map(|word| word.parse::<u64>());
    let rounds = words.next().map_or(9, |word| word.expect("rounds: a number"));
    let clocks = words.next().map_or(2_000_000, |word| word.expect("clocks: a number"));
    println!("{rounds} rounds of {clocks} clocks; ns a clock");
    heads("original", "here");
    let mut pack = vec![0; PACK];
    let filled = filling(rounds, &mut pack);
    let mut differ = false;
    let mut tick = 0.0;
    for (name, scene_of, aim) in SCENES {
        let mut least = [i64::MAX; 2];
        for _ in 0..rounds {
            // no code and no level: what is not stored shows
            let mut stored = [[u16::MAX; ROOM]; 2];
            let (theirs, time) = original(scene_of, clocks, &mut stored[0]);
            least[0] = least[0].min(time);
            let (here, time) = ours(scene_of, clocks, &pack, &mut stored[1]);
            least[1] = least[1].min(time);
            differ |= theirs != here || stored[0] != stored[1];
        }
        let times = least.map(|time| time as f64 * 1000.0 / clocks as f64);
        if let Idle = scene_of {
            tick = times[0];
        }
        row(name, times, aim);
    }
    row("pack filled, ms", filled, Some(1.0));
    let (times, due) = watching(rounds, &pack);
    heads("unwatched", "watched");
    row("score of 100,000,000 clocks", times, Some(1.05));
    let (forecast, right) = forecasting(rounds);
    heads("a tick", "here");
    row("forecast", [tick, forecast], Some(1.0));
    let (times, same) = waiting(rounds, clocks.try_into().expect("clocks: 32 bits"));
    heads("run", "to held");
    row("run, three pulses", times, Some(1.1));
    if differ || !due || !right || !same {
        println!("what is heard, stored, listed or forecast DIFFERS");
        return ExitCode::FAILURE;
    }
    println!("what is heard and stored is equal in every scene, and what is listed and forecast is due");
    ExitCode::SUCCESS
}
