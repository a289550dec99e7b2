//! Times one side, the proved check or the Rust, on the cases of a batch, each within a limit of processor time: see ../../hostile/.
//!
//!     one_side own|rust MILLISECONDS RUNS FIRST BATCH
//!
//! Begins at case FIRST. A line for each case as soon as it is done: least nanoseconds of processor time, then
//!
//!     own:  nanoseconds, number and place of the answer, diagnostics, slots that have a type
//!     rust: nanoseconds, those of decoding, `answered`, diagnostics, slots that have a type; or 0, those of decoding, `bad-input` or `panic`.
//!           Before it, as soon as the case is decoded: `decoded` and nanoseconds
//!
//! A case that takes longer than MILLISECONDS ends the program by SIGPROF; decoding is no part of that, and has ten times as long. Inputs may be longer than
//! the bench takes.

use std::{error::Error, hint::black_box, io::Write, process::ExitCode};

use oracle::{
    case::{self, Parts},
    timed,
};
use shelfstork::{Buffers, Inputs, check};

#[repr(C)]
struct Time {
    seconds: i64,
    rest: i64,
}

#[repr(C)]
struct Timer {
    interval: Time,
    value: Time,
}

unsafe extern "C" {
    fn clock_gettime(clock: i32, time: *mut Time) -> i32;
    fn setitimer(which: i32, new: *const Timer, old: *mut Timer) -> i32;
}

/// Processor time of this thread, in nanoseconds.
fn now() -> i64 {
    const THREAD: i32 = 3;
    let mut t = Time {
        seconds: 0,
        rest: 0,
    };
    // SAFETY: `t` is a timespec of x86-64 Linux, lent for the call.
    unsafe { clock_gettime(THREAD, &mut t) };
    t.seconds * 1_000_000_000 + t.rest
}

/// From now on this many milliseconds of processor time, then SIGPROF.
fn limit(milliseconds: i64) {
    const PROF: i32 = 2;
    let none = Time {
        seconds: 0,
        rest: 0,
    };
    let value = Time {
        seconds: milliseconds / 1000,
        rest: milliseconds % 1000 * 1000,
    };
    let timer = Timer {
        interval: none,
        value,
    };
    // SAFETY: `timer` is an itimerval of x86-64 Linux; no old one is asked for.
    unsafe { setitimer(PROF, &timer, std::ptr::null_mut()) };
}

fn main() -> ExitCode {
    oracle::on_large_stack(|| match run() {
        Ok(()) => ExitCode::SUCCESS,
        Err(why) => {
            eprintln!("one_side: {why}");
            ExitCode::from(2)
        }
    })
}

fn run() -> Result<(), Box<dyn Error>> {
    let args: Vec<String> = std::env::args().skip(1).collect();
    let [side, milliseconds, runs, first, batch] = args.as_slice() else {
        return Err("usage: one_side own|rust MILLISECONDS RUNS FIRST BATCH".into());
    };
    let (milliseconds, runs) = (milliseconds.parse()?, runs.parse()?);
    let batch = std::fs::read(batch)?;
    std::panic::set_hook(Box::new(|_| ()));
    let mut buffers = Buffers::new();
    for input in case::batch(&batch)?.into_iter().skip(first.parse()?) {
        let parts = Parts::of_any_length(input).ok_or("lengths that do not fit")?;
        let line = match side.as_str() {
            "own" => {
                limit(milliseconds);
                own(&parts, runs, &mut buffers)
            }
            _ => rust(input, &parts, runs, milliseconds),
        };
        limit(0);
        tell(&line);
    }
    Ok(())
}

fn tell(line: &str) {
    let mut out = std::io::stdout().lock();
    let _ = writeln!(out, "{line}").and_then(|()| out.flush());
}

/// Runs go on while they are few and short: the least of several is wanted, but a slow case is slow at once.
fn goes_on(done: usize, runs: usize, spent: i64) -> bool {
    done == 0 || done < runs && spent < 100_000_000
}

fn own(parts: &Parts<'_>, runs: usize, buffers: &mut Buffers) -> String {
    let inputs = Inputs {
        script: parts.script,
        image: &parts.image,
        library_text: parts.lib_text,
        library: &parts.lib,
    };
    let (mut least, mut spent, mut done) = (i64::MAX, 0, 0);
    let mut told = String::new();
    while goes_on(done, runs, spent) {
        let inputs = black_box(inputs);
        let start = now();
        let answer = check(inputs, buffers);
        let took = now() - start;
        told = match answer {
            Ok(a) => format!("0 0 {} {}", a.counts().diagnostics, a.slots().count()),
            Err(r) => format!("{} {} 0 0", r.number(), r.place),
        };
        (least, spent, done) = (least.min(took), spent + took, done + 1);
    }
    format!("{least} {told}")
}

fn rust(input: &[u8], parts: &Parts<'_>, runs: usize, milliseconds: i64) -> String {
    limit(10 * milliseconds);
    let start = now();
    timed::decoding(parts);
    let decoding = now() - start;
    let Some(prepared) = timed::prepare(input) else {
        return format!("0 {decoding} bad-input 0 0");
    };
    tell(&format!("decoded {decoding}"));
    limit(milliseconds);
    let (mut least, mut spent, mut done) = (i64::MAX, 0, 0);
    let mut told = String::new();
    while goes_on(done, runs, spent) {
        let start = now();
        let Ok(run) = std::panic::catch_unwind(std::panic::AssertUnwindSafe(|| prepared.run()))
        else {
            return format!("0 {decoding} panic 0 0");
        };
        let took = now() - start;
        told = format!("answered {} {}", run.diagnostics, run.typed_slots);
        (least, spent, done) = (least.min(took), spent + took, done + 1);
    }
    format!("{least} {decoding} {told}")
}
