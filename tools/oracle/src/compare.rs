//! Long comparisons of the port's programs with the original, by the seed.

use std::collections::BTreeMap;
use std::env;
use std::ffi::OsStr;
use std::fs;
use std::io::{self, Write};
use std::ops::Range;
use std::path::Path;
use std::process::{self, Command, Stdio};
use std::thread;

use crate::aim;
use crate::append;
use crate::attack;
use crate::calls::{Recorder, Rule, RECORD_BYTES};
use crate::compose;
use crate::lines;
use crate::lists::{self, Rise, WriterCalls};
use crate::planner;
use crate::score;
use crate::sid::sid::Mos6581;
use crate::tails;
use crate::text::{self, Fault};

/// A run of `sid_cases` has the calls of so many seeds, so that its pack is seldom filled.
const SEEDS_AT_ONCE: u64 = 40;
/// A run of `replay_cases` has so many scores; it takes 65,536 at the most.
const SCORES_AT_ONCE: u64 = 5_000;
/// A run of `writer_cases` has the calls of so many seeds; it takes 65,536 at the most.
const LISTS_AT_ONCE: u64 = 500;
/// A run of `envelope_cases` has so many rises; it takes the bytes below at the most.
const RISES_AT_ONCE: u64 = 75;
const MOST_BYTES_OF_RISES: usize = 65_536;
/// A run of `forecast_cases` has the calls of so many seeds, so that its pack is seldom filled.
const TAILS_AT_ONCE: u64 = 1_000;

/// Feeds `sid_cases` the aimed calls of so many seeds, each of so many ticks or more.
pub fn calls(program: &[&OsStr], seeds: u64, ticks: u64, first: u64) -> io::Result<bool> {
    let mut recorder = Recorder::new();
    let mut records = 0;
    let mut ticked = 0;
    let mut fading = 0;
    let mut run = 0;
    let mut renders = 0;
    let mut rendered = 0;
    let mut refused = 0;
    for batch in batches(first..first + seeds, SEEDS_AT_ONCE) {
        recorder.restart(false);
        // Those that share a pack follow each other.
        for pack in [None, Some(Rule::Fill), Some(Rule::Scatter)] {
            for seed in batch.clone().filter(|&seed| aim::pack(seed) == pack) {
                aim::seeded_calls(&mut recorder, seed, ticks);
            }
        }
        if let Some(said) = difference(program, &recorder.records)? {
            println!("seeds {} to {}: {said}", batch.start, batch.end - 1);
            find_difference(program, &mut recorder, batch, ticks)?;
            return Ok(false);
        }
        records += recorder.records.len() / RECORD_BYTES;
        ticked += recorder.ticked;
        fading += recorder.fading;
        run += recorder.run;
        renders += recorder.renders;
        rendered += recorder.rendered;
        refused += recorder.refused;
    }
    println!("{seeds} seeds, {records} calls: no difference");
    println!("{ticked} clocks compared one by one, {run} in runs compared at their ends");
    println!("{fading} of those compared one by one lose bits");
    println!("{renders} renders, {rendered} clocks, each of them compared; {refused} more refused");
    Ok(true)
}

/// Tells the first seed whose calls differ, and the first record that does, clock by clock.
fn find_difference(
    program: &[&OsStr],
    recorder: &mut Recorder,
    batch: Range<u64>,
    ticks: u64,
) -> io::Result<()> {
    for seed in batch {
        recorder.restart(false);
        aim::seeded_calls(recorder, seed, ticks);
        if let Some(said) = difference(program, &recorder.records)? {
            println!("seed {seed}: {said}");
            recorder.restart(true);
            aim::seeded_calls(recorder, seed, ticks);
            let said = difference(program, &recorder.records)?;
            println!("clock by clock: {}", said.as_deref().unwrap_or("alike"));
            return Ok(());
        }
    }
    println!("none of them differs by itself");
    Ok(())
}

/// What `sid_cases` says of calls, unless it finds all alike.
fn difference(program: &[&OsStr], records: &[u8]) -> io::Result<Option<String>> {
    let count = records.len() / RECORD_BYTES;
    let due = format!("sid: {count} answers compared, 0 differ\n");
    Ok(unless_due(&answer(program, records)?, &due))
}

/// Feeds `replay` so many scores, of seeds from the first on, one at a time.
pub fn replay(program: &[&OsStr], count: u64, first: u64) -> io::Result<bool> {
    let mut chip = Mos6581::new();
    for seed in first..first + count {
        let score = compose::generated(seed, &mut chip);
        let due = score::listing(&score, &mut chip);
        if answer(program, &score)? != due.as_bytes() {
            println!("seed {seed}: the listing differs");
            return Ok(false);
        }
    }
    println!("{count} scores one at a time: no difference");
    Ok(true)
}

/// Feeds `replay_cases` so many scores, of seeds from the first on.
pub fn scores(program: &[&OsStr], count: u64, first: u64) -> io::Result<bool> {
    in_own_folder(|folder| scores_in(folder, program, count, first))
}

fn scores_in(folder: &Path, program: &[&OsStr], count: u64, first: u64) -> io::Result<bool> {
    let mut chip = Mos6581::new();
    let mut cut = 0;
    let mut refused = BTreeMap::new();
    let mut clocks = 0;
    let mut watched = 0;
    let mut telling = 0;
    let mut told = 0;
    for batch in batches(first..first + count, SCORES_AT_ONCE) {
        let composed = batch
            .clone()
            .map(|seed| compose::generated(seed, &mut chip));
        let scores: Vec<Vec<u8>> = composed.collect();
        fs::write(folder.join("scores"), lists::scores_in_one(&scores))?;
        let said = answer_in(folder, program, &[])?;
        let mut rest = &said[..];
        for (number, (seed, score)) in batch.zip(&scores).enumerate() {
            let listing = score::listing(score, &mut chip);
            let due = lists::listing_in_one(number, &listing);
            let Some(after) = rest.strip_prefix(due.as_bytes()) else {
                println!("seed {seed}: the listing differs");
                return Ok(false);
            };
            rest = after;
            cut += u64::from(compose::is_cut(seed));
            if let Err(why) = score::check(score) {
                *refused.entry(why.number).or_insert(0) += 1;
            }
            clocks += score::clocks(score);
            let losses = listing.lines().filter(|line| line.starts_with('F'));
            let losses = losses.count();
            watched += u64::from(compose::is_watched(seed));
            telling += u64::from(losses > 0);
            told += losses;
        }
        if !rest.is_empty() {
            println!("more than {} scores are listed", scores.len());
            return Ok(false);
        }
    }
    println!("{count} scores, {cut} of them cut, {clocks} clocks: no difference");
    println!("{watched} scores with a watch; {telling} listings tell {told} losses");
    for (number, scores) in refused {
        println!("refused {number}: {scores}");
    }
    Ok(true)
}

/// Feeds `writer_cases` the calls of so many seeds.
pub fn writer(program: &[&OsStr], count: u64, first: u64) -> io::Result<bool> {
    let mut chip = Mos6581::new();
    let mut calls = 0;
    let mut played = 0;
    let mut refused = BTreeMap::new();
    for batch in batches(first..first + count, LISTS_AT_ONCE) {
        let lists: Vec<WriterCalls> = batch.clone().map(append::seeded).collect();
        let records: Vec<u8> = lists.iter().flat_map(WriterCalls::record).collect();
        let said = answer(program, &records)?;
        let mut rest = &said[..];
        for (number, (seed, list)) in batch.zip(&lists).enumerate() {
            let due = list.answers(number, &mut chip);
            let Some(after) = rest.strip_prefix(due.lines.as_bytes()) else {
                println!("seed {seed}: the answers differ");
                return Ok(false);
            };
            rest = after;
            calls += due.told.len();
            played += u64::from(list.played);
            for told in due.told.into_iter().filter_map(Result::err) {
                *refused.entry(told).or_insert(0) += 1;
            }
        }
        if !rest.is_empty() {
            println!("more than {} lists are answered", lists.len());
            return Ok(false);
        }
    }
    let taken = calls - refused.values().sum::<usize>();
    println!("{count} lists, {played} of them played: no difference");
    println!("{calls} calls, {taken} of them taken");
    for (number, calls) in refused {
        println!("refused {number}: {calls}");
    }
    Ok(true)
}

/// Feeds `fields` and `forecast` the scores of so many seeds, and `write` what `fields` must print
/// and texts of its own. The programs are in the folder.
pub fn texts(runner: &[&OsStr], folder: &OsStr, count: u64, first: u64) -> io::Result<bool> {
    let fields = Path::new(folder).join("fields");
    let fields = [runner, &[fields.as_os_str()]].concat();
    let write = Path::new(folder).join("write");
    let write = [runner, &[write.as_os_str()]].concat();
    let forecast = Path::new(folder).join("forecast");
    let forecast = [runner, &[forecast.as_os_str()]].concat();
    let mut chip = Mos6581::new();
    let mut accepted = 0;
    let mut voices = BTreeMap::new();
    let mut no_field = 0;
    let mut refused = BTreeMap::new();
    for seed in first..first + count {
        let score = compose::generated(seed, &mut chip);
        let text = text::of_score(&score).into_bytes();
        if answer(&fields, &score)? != text {
            println!("seed {seed}: the fields differ");
            return Ok(false);
        }
        let forecasts = text::forecasts(&score, &mut chip);
        if answer(&forecast, &score)? != forecasts.as_bytes() {
            println!("seed {seed}: the forecasts differ");
            return Ok(false);
        }
        if score::check(&score).is_ok() {
            accepted += 1;
            for line in forecasts.lines() {
                let kind = match line.split_once(' ') {
                    Some((_, kind @ ("held" | "unsettled"))) => kind,
                    _ => "forecast",
                };
                *voices.entry(kind.to_string()).or_insert(0) += 1;
            }
            if answer(&write, &text)? != score {
                println!("seed {seed}: the score written again differs");
                return Ok(false);
            }
        }
        let (text, size) = lines::seeded(seed);
        let written = text::written(&text, size);
        let words: Vec<String> = size.iter().map(u64::to_string).collect();
        let words: Vec<&OsStr> = words.iter().map(OsStr::new).collect();
        if answer(&[&write[..], &words].concat(), &text)? != text::output(&written) {
            println!("seed {seed}: what is written differs, the size given is {size:?}");
            return Ok(false);
        }
        match written {
            Ok(_) => {}
            Err(Fault::NoField(_)) => no_field += 1,
            Err(Fault::Refused { number, .. }) => *refused.entry(number).or_insert(0) += 1,
        }
    }
    println!("{count} scores as text, {accepted} of them written again: no difference");
    for (kind, voices) in voices {
        println!("voices {kind} at the end: {voices}");
    }
    println!("{count} texts, {no_field} of them told a line that is no field: no difference");
    for (number, texts) in refused {
        println!("refused {number}: {texts}");
    }
    Ok(true)
}

/// Feeds `envelope_cases` the rises of so many seeds, and an empty list of calls.
pub fn rises(program: &[&OsStr], count: u64, first: u64) -> io::Result<bool> {
    in_own_folder(|folder| rises_in(folder, program, count, first))
}

fn rises_in(folder: &Path, program: &[&OsStr], count: u64, first: u64) -> io::Result<bool> {
    let mut clocks = 0;
    let mut whole = 0;
    let mut late = 0;
    fs::write(folder.join("envelope"), [])?;
    for batch in batches(first..first + count, RISES_AT_ONCE) {
        let rises: Vec<Rise> = batch.clone().map(attack::seeded).collect();
        if let Some(said) = difference_of_rises(folder, program, &rises)? {
            println!("seeds {} to {}: {said}", batch.start, batch.end - 1);
            for (seed, rise) in batch.zip(rises) {
                if let Some(said) = difference_of_rises(folder, program, &[rise])? {
                    println!("seed {seed}: {said}");
                    return Ok(false);
                }
            }
            println!("none of them differs by itself");
            return Ok(false);
        }
        for rise in rises {
            clocks += u64::from(rise.clocks);
            whole += u64::from(rise.is_whole());
            late += u64::from(rise.late);
        }
    }
    println!("{count} rises, {late} of them late, {clocks} clocks one by one: no difference");
    println!("{whole} of these rises go to the top");
    Ok(true)
}

/// What `envelope_cases` says of rises, unless it finds all alike.
fn difference_of_rises(
    folder: &Path,
    program: &[&OsStr],
    rises: &[Rise],
) -> io::Result<Option<String>> {
    let list: Vec<u8> = rises.iter().flat_map(Rise::record).collect();
    assert!(list.len() <= MOST_BYTES_OF_RISES);
    fs::write(folder.join("rises"), list)?;
    let answers: u64 = rises.iter().map(|rise| u64::from(rise.clocks) + 1).sum();
    let none = "envelope: 0 answers compared, 0 differ";
    let due = format!("{none}\nrises: {answers} answers compared, 0 differ\n");
    Ok(unless_due(&answer_in(folder, program, &[])?, &due))
}

/// Feeds `forecast_cases` the calls of so many seeds.
pub fn forecasts(program: &[&OsStr], seeds: u64, first: u64) -> io::Result<bool> {
    let mut recorder = planner::Recorder::new();
    let mut calls = 0;
    for batch in batches(first..first + seeds, TAILS_AT_ONCE) {
        recorder.records.clear();
        for seed in batch.clone() {
            tails::seeded_calls(&mut recorder, seed);
        }
        if let Some(said) = difference_of_tails(program, &recorder.records)? {
            println!("seeds {} to {}: {said}", batch.start, batch.end - 1);
            find_difference_of_tails(program, &mut recorder, batch)?;
            return Ok(false);
        }
        calls += recorder.records.len() / planner::RECORD_BYTES;
    }
    let compared = recorder.compared;
    println!("{seeds} seeds, {calls} calls: no difference");
    println!("{} settled releases forecast", compared.forecasts);
    println!(
        "{} runs to a hold, {} of them stopped, {} clocks",
        compared.runs, compared.stopped, compared.clocks
    );
    for (number, calls) in compared.refused {
        println!("refused {number}: {calls}");
    }
    Ok(true)
}

/// Tells the first seed whose calls differ.
fn find_difference_of_tails(
    program: &[&OsStr],
    recorder: &mut planner::Recorder,
    batch: Range<u64>,
) -> io::Result<()> {
    for seed in batch {
        recorder.records.clear();
        tails::seeded_calls(recorder, seed);
        if let Some(said) = difference_of_tails(program, &recorder.records)? {
            println!("seed {seed}: {said}");
            return Ok(());
        }
    }
    println!("none of them differs by itself");
    Ok(())
}

/// What `forecast_cases` says of calls, unless it finds all alike.
fn difference_of_tails(program: &[&OsStr], records: &[u8]) -> io::Result<Option<String>> {
    let count = records.len() / planner::RECORD_BYTES;
    let due = format!("forecasts: {count} answers compared, 0 differ\n");
    Ok(unless_due(&answer(program, records)?, &due))
}

/// A program started there finds the files that are written there.
fn in_own_folder(compare: impl FnOnce(&Path) -> io::Result<bool>) -> io::Result<bool> {
    let folder = env::temp_dir().join(format!("oracle-{}", process::id()));
    fs::create_dir(&folder)?;
    let alike = compare(&folder);
    fs::remove_dir_all(&folder)?;
    alike
}

/// What a program said, in one line, unless that was due.
fn unless_due(said: &[u8], due: &str) -> Option<String> {
    let lines = || String::from_utf8_lossy(said).trim_end().replace('\n', "; ");
    (said != due.as_bytes()).then(lines)
}

fn batches(seeds: Range<u64>, most: u64) -> impl Iterator<Item = Range<u64>> {
    let starts = seeds.clone().step_by(most as usize);
    starts.map(move |start| start..seeds.end.min(start + most))
}

/// What a program, with its arguments, writes for an input.
fn answer(program: &[&OsStr], input: &[u8]) -> io::Result<Vec<u8>> {
    answer_in(Path::new("."), program, input)
}

fn answer_in(folder: &Path, program: &[&OsStr], input: &[u8]) -> io::Result<Vec<u8>> {
    let mut child = Command::new(program[0])
        .args(&program[1..])
        .current_dir(folder)
        .stdin(Stdio::piped())
        .stdout(Stdio::piped())
        .spawn()?;
    let mut stdin = child.stdin.take().expect("it is piped");
    thread::scope(|scope| {
        // A program may stop reading before the end, as `replay` does past 65,537 bytes.
        scope.spawn(move || stdin.write_all(input));
        Ok(child.wait_with_output()?.stdout)
    })
}
