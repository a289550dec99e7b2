//! Makes cases for the bench of document 01, damages them, and counts what they cover.
//! See README.md.

mod coverage;
mod damage;
mod draft;
mod faults;
mod image;
mod library;
mod limits;
mod make;
mod names;
mod outside;
mod plan;
mod pool;
mod prng;
mod script;
mod tree;
mod ty;

use std::{
    io::{Read, Write},
    process::ExitCode,
};

use oracle::{case, check};

const USAGE: &str = "usage:
  cases generate --seed S --count N [--outside] > BATCH
  cases damage --seed S --count N < BATCH > BATCH
  cases coverage BATCH
  cases split BATCH FOLDER";

fn main() -> ExitCode {
    oracle::on_large_stack(run)
}

fn run() -> ExitCode {
    check::note_panics();
    match command() {
        Ok(code) => code,
        Err(why) => {
            eprintln!("cases: {why}");
            ExitCode::from(2)
        }
    }
}

#[derive(Default)]
struct Options {
    seed: Option<u64>,
    count: Option<u64>,
    outside: bool,
    files: Vec<String>,
}

fn options(args: impl Iterator<Item = String>) -> Result<Options, String> {
    let mut options = Options::default();
    let mut args = args.peekable();
    let number = |value: Option<String>| {
        let value = value.ok_or(USAGE)?;
        value.parse().map_err(|_| format!("not a number: {value}"))
    };
    while let Some(arg) = args.next() {
        match arg.as_str() {
            "--seed" => options.seed = Some(number(args.next())?),
            "--count" => options.count = Some(number(args.next())?),
            "--outside" => options.outside = true,
            flag if flag.starts_with("--") => return Err(USAGE.to_owned()),
            _ => options.files.push(arg),
        }
    }
    Ok(options)
}

fn command() -> Result<ExitCode, String> {
    let mut args = std::env::args().skip(1);
    let name = args.next().ok_or(USAGE)?;
    let options = options(args)?;
    match name.as_str() {
        "generate" => generate(&options),
        "damage" => damage(&options),
        "coverage" => coverage(&options),
        "split" => split(&options),
        _ => Err(USAGE.to_owned()),
    }
}

fn generate(options: &Options) -> Result<ExitCode, String> {
    let (Some(seed), Some(count)) = (options.seed, options.count) else {
        return Err(USAGE.to_owned());
    };
    let (mut batch, mut drafts) = (Vec::new(), 0);
    for number in 0..count {
        let (case, put_away) = plan::case(seed, number, options.outside)?;
        case::add_to_batch(&case, &mut batch);
        drafts += put_away;
    }
    eprintln!("{count} cases; {drafts} drafts put away");
    write_out(&batch)
}

fn write_out(batch: &[u8]) -> Result<ExitCode, String> {
    let mut stdout = std::io::stdout().lock();
    let written = stdout.write_all(batch).and_then(|()| stdout.flush());
    written.map_err(|err| err.to_string())?;
    Ok(ExitCode::SUCCESS)
}

fn damage(options: &Options) -> Result<ExitCode, String> {
    let (Some(seed), Some(count)) = (options.seed, options.count) else {
        return Err(USAGE.to_owned());
    };
    let mut bytes = Vec::new();
    let read = std::io::stdin().read_to_end(&mut bytes);
    read.map_err(|err| err.to_string())?;
    let damaged = damage::damage(&case::batch(&bytes)?, seed, count)?;
    eprint!("{}", damaged.report());
    write_out(&damaged.batch)
}

fn coverage(options: &Options) -> Result<ExitCode, String> {
    let [file] = &options.files[..] else {
        return Err(USAGE.to_owned());
    };
    let bytes = std::fs::read(file).map_err(|err| format!("{file}: {err}"))?;
    let coverage = coverage::Coverage::of(&case::batch(&bytes)?);
    print!("{}", coverage.report());
    Ok(ExitCode::from(u8::from(!coverage.shortfalls().is_empty())))
}

/// Each case of a batch as a file of its own, 0000.bin and so on.
fn split(options: &Options) -> Result<ExitCode, String> {
    let [file, folder] = &options.files[..] else {
        return Err(USAGE.to_owned());
    };
    let bytes = std::fs::read(file).map_err(|err| format!("{file}: {err}"))?;
    for (number, case) in case::batch(&bytes)?.iter().enumerate() {
        let file = format!("{folder}/{number:04}.bin");
        std::fs::write(&file, case).map_err(|err| format!("{file}: {err}"))?;
    }
    Ok(ExitCode::SUCCESS)
}
