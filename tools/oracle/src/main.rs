//! Writes fixed lists of the original's answers, for the proved programs to replay, and compares
//! those programs with the original at length.

mod aim;
mod append;
mod attack;
mod calls;
mod compare;
mod compose;
mod lines;
mod lists;
mod planner;
mod random;
mod score;
// The lists call only parts of the original.
#[allow(dead_code)]
mod sid;
mod tails;
mod text;
mod writer;

use std::env;
use std::ffi::{OsStr, OsString};
use std::io::{self, Read, Write};
use std::process::ExitCode;

use calls::Recorder;
use sid::sid::Mos6581;

fn main() -> ExitCode {
    let arguments: Vec<OsString> = env::args_os().skip(1).collect();
    let arguments: Vec<&OsStr> = arguments.iter().map(OsString::as_os_str).collect();
    let Some(done) = obey(&arguments) else {
        eprintln!("usage: oracle list NAME, where NAME is {}", lists::names());
        eprintln!("       oracle compare-calls SEEDS TICKS FIRST_SEED SID_CASES...");
        eprintln!("       oracle compare-scores SCORES FIRST_SEED REPLAY_CASES...");
        eprintln!("       oracle compare-replay SCORES FIRST_SEED REPLAY...");
        eprintln!("       oracle compare-writer LISTS FIRST_SEED WRITER_CASES...");
        eprintln!("       oracle compare-texts TEXTS FIRST_SEED RUNNER... FOLDER");
        eprintln!("       oracle compare-rises RISES FIRST_SEED ENVELOPE_CASES...");
        eprintln!("       oracle compare-forecasts SEEDS FIRST_SEED FORECAST_CASES...");
        eprintln!("       oracle calls SEED TICKS");
        eprintln!("       oracle score SEED");
        eprintln!("       oracle listing < SCORE");
        eprintln!("       oracle appends SEED");
        eprintln!("       oracle appended SEED");
        eprintln!("       oracle text SEED");
        eprintln!("       oracle rise SEED");
        eprintln!("       oracle tails SEED");
        return ExitCode::from(2);
    };
    match done {
        Ok(true) => ExitCode::SUCCESS,
        Ok(false) => ExitCode::FAILURE,
        Err(error) => {
            eprintln!("oracle: {error}");
            ExitCode::FAILURE
        }
    }
}

/// Whether all was alike and could be read and written; `None` for words that are no command.
fn obey(arguments: &[&OsStr]) -> Option<io::Result<bool>> {
    let (command, operands) = arguments.split_first()?;
    Some(match (command.to_str()?, operands) {
        ("list", &[name]) => write(&lists::named(name)?()),
        ("compare-calls", [seeds, ticks, first, program @ ..]) if !program.is_empty() => {
            compare::calls(program, number(seeds)?, number(ticks)?, number(first)?)
        }
        ("compare-scores", [count, first, program @ ..]) if !program.is_empty() => {
            compare::scores(program, number(count)?, number(first)?)
        }
        ("compare-replay", [count, first, program @ ..]) if !program.is_empty() => {
            compare::replay(program, number(count)?, number(first)?)
        }
        ("compare-writer", [count, first, program @ ..]) if !program.is_empty() => {
            compare::writer(program, number(count)?, number(first)?)
        }
        ("compare-texts", [count, first, runner @ .., folder]) => {
            compare::texts(runner, folder, number(count)?, number(first)?)
        }
        ("compare-rises", [count, first, program @ ..]) if !program.is_empty() => {
            compare::rises(program, number(count)?, number(first)?)
        }
        ("compare-forecasts", [seeds, first, program @ ..]) if !program.is_empty() => {
            compare::forecasts(program, number(seeds)?, number(first)?)
        }
        ("calls", &[seed, ticks]) => {
            let mut recorder = Recorder::new();
            aim::seeded_calls(&mut recorder, number(seed)?, number(ticks)?);
            write(&recorder.records)
        }
        ("score", &[seed]) => write(&compose::generated(number(seed)?, &mut Mos6581::new())),
        ("listing", &[]) => print_listing(),
        ("appends", &[seed]) => write(&append::seeded(number(seed)?).record()),
        ("appended", &[seed]) => {
            let calls = append::seeded(number(seed)?);
            let answers = calls.answers(0, &mut Mos6581::new());
            write(answers.lines.as_bytes())
        }
        ("text", &[seed]) => write(&lines::seeded(number(seed)?).0),
        ("rise", &[seed]) => write(&attack::seeded(number(seed)?).record()),
        ("tails", &[seed]) => {
            let mut recorder = planner::Recorder::new();
            tails::seeded_calls(&mut recorder, number(seed)?);
            write(&recorder.records)
        }
        _ => return None,
    })
}

fn number(word: &OsStr) -> Option<u64> {
    word.to_str()?.parse().ok()
}

fn print_listing() -> io::Result<bool> {
    let mut score = Vec::new();
    io::stdin().read_to_end(&mut score)?;
    write(score::listing(&score, &mut Mos6581::new()).as_bytes())
}

fn write(bytes: &[u8]) -> io::Result<bool> {
    let mut output = io::stdout();
    output.write_all(bytes)?;
    output.flush()?;
    Ok(true)
}
