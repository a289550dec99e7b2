//! Times the proved check (libshelfstork.a) and the Rust's on the cases of a batch.
//!
//!     speed RUNS BATCH
//!
//! A line for each case: its bytes, its nodes, then nanoseconds, each the median of RUNS runs: the check; the Rust's check of values decoded
//! beforehand; decoding them. Buffers are cleared and arenas made before each run, outside of what is timed.

use std::{
    error::Error,
    hint::black_box,
    process::ExitCode,
    time::{Duration, Instant},
};

use oracle::{
    case::{self, Parts},
    timed,
};
use shelfstork::{Buffers, Inputs, bench::Case, check};

fn main() -> ExitCode {
    oracle::on_large_stack(|| match run() {
        Ok(()) => ExitCode::SUCCESS,
        Err(why) => {
            eprintln!("speed: {why}");
            ExitCode::from(2)
        }
    })
}

fn run() -> Result<(), Box<dyn Error>> {
    let args: Vec<String> = std::env::args().skip(1).collect();
    let [runs, batch] = args.as_slice() else {
        return Err("usage: speed RUNS BATCH".into());
    };
    let runs: usize = runs.parse()?;
    let batch = std::fs::read(batch)?;
    let mut buffers = Buffers::new();
    for (k, input) in case::batch(&batch)?.into_iter().enumerate() {
        let times = of_case(input, runs, &mut buffers).map_err(|why| format!("case {k}: {why}"))?;
        println!("{times}");
    }
    Ok(())
}

fn of_case(input: &[u8], runs: usize, buffers: &mut Buffers) -> Result<String, Box<dyn Error>> {
    let case = Case::split(input).ok_or("lengths that do not fit")?;
    let parts = Parts::split(input).ok_or("lengths that do not fit")?;
    let prepared = timed::prepare(input).ok_or("refused by the Rust's reader")?;
    // Each side's runs by themselves, so that neither finds the other's data in the caches.
    let (mut own, mut rust, mut decoding) = (Vec::new(), Vec::new(), Vec::new());
    let (mut mine, mut its) = ((0, 0), (0, 0));
    for _ in 0..runs {
        let (took, diagnostics, typed_slots) = once(case.inputs(), buffers)?;
        mine = (diagnostics, typed_slots);
        own.push(took);
    }
    for _ in 0..runs {
        let run = prepared.run();
        its = (run.diagnostics, run.typed_slots);
        rust.push(run.took);
    }
    if mine != its {
        return Err("the two answers differ".into());
    }
    for _ in 0..runs {
        decoding.push(timed::decoding(&parts));
    }
    let nodes = case.image[0];
    Ok(format!(
        "{} {nodes} {} {} {}",
        input.len(),
        median(own),
        median(rust),
        median(decoding)
    ))
}

/// Time, diagnostics and slots that have a type, of one run with cleared buffers.
fn once(
    inputs: Inputs<'_>,
    buffers: &mut Buffers,
) -> Result<(Duration, usize, usize), Box<dyn Error>> {
    for words in [
        &mut buffers.slots,
        &mut buffers.functions,
        &mut buffers.types,
        &mut buffers.diagnostics,
        &mut buffers.scratch,
    ] {
        words.fill(0);
    }
    buffers.messages.fill(0);
    let inputs = black_box(inputs);
    let start = Instant::now();
    let answer = check(inputs, buffers);
    let took = start.elapsed();
    let answer = answer?;
    Ok((took, answer.counts().diagnostics, answer.slots().count()))
}

fn median(mut times: Vec<Duration>) -> u128 {
    times.sort();
    times[times.len() / 2].as_nanos()
}
