//! Runs the original type checker on word images of document 01 and prints its bench rows.
//! See README.md.

use std::{
    ffi::OsString,
    io::{Read, Write},
    process::ExitCode,
};

use oracle::{
    case, check,
    rows::{self, Flags},
};

const USAGE: &str = "usage: oracle [--full] [--counts] [--domain] [--batch FILE]";

fn main() -> ExitCode {
    oracle::on_large_stack(run)
}

fn run() -> ExitCode {
    match answer() {
        Ok(()) => ExitCode::SUCCESS,
        Err(why) => {
            eprintln!("{why}");
            ExitCode::from(2)
        }
    }
}

fn arguments() -> Result<(Flags, Option<OsString>), String> {
    let (mut flags, mut batch) = (Flags::default(), None);
    let mut args = std::env::args_os().skip(1);
    while let Some(arg) = args.next() {
        match arg.to_str() {
            Some("--full") => flags.full = true,
            Some("--counts") => flags.counts = true,
            Some("--domain") => flags.domain = true,
            Some("--batch") if batch.is_none() => {
                batch = Some(args.next().ok_or(USAGE)?);
            }
            _ => return Err(USAGE.to_owned()),
        }
    }
    Ok((flags, batch))
}

fn answer() -> Result<(), String> {
    let failed = |err: std::io::Error| format!("oracle: {err}");
    let (flags, batch) = arguments()?;
    let mut input = Vec::new();
    match &batch {
        Some(file) => std::fs::File::open(file).and_then(|mut f| f.read_to_end(&mut input)),
        None => std::io::stdin().read_to_end(&mut input),
    }
    .map_err(failed)?;
    let cases = match batch {
        Some(_) => case::batch(&input).map_err(|why| format!("oracle: {why}"))?,
        None => vec![input.as_slice()],
    };

    check::note_panics();
    let mut stdout = std::io::stdout().lock();
    let mut out = Vec::new();
    for (i, case) in cases.iter().enumerate() {
        if i > 0 {
            out.extend_from_slice(b"--\n");
        }
        rows::print(&check::check(case), flags, &mut out);
        stdout.write_all(&out).map_err(failed)?;
        out.clear();
    }
    stdout.flush().map_err(failed)
}
