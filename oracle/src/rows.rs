//! Prints an outcome as the bench rows of document 01.

use std::io::Write;

use crate::check::{Answer, Outcome};

#[derive(Debug, Clone, Copy, Default)]
pub struct Flags {
    /// `primary` lines, and `why` after a `panic`
    pub full: bool,
    /// a `counts` line
    pub counts: bool,
    /// an `outside` line before the rows of a case outside the domain of equality
    pub domain: bool,
}

pub fn print(outcome: &Outcome, flags: Flags, out: &mut Vec<u8>) {
    if let Some(reason) = outcome.outside()
        && flags.domain
    {
        let _ = writeln!(out, "outside {reason}");
    }
    match outcome {
        Outcome::Input => out.extend_from_slice(b"input\n"),
        Outcome::BadInput => out.extend_from_slice(b"bad-input\n"),
        Outcome::Panic { why, .. } => {
            out.extend_from_slice(b"panic\n");
            if flags.full {
                let _ = writeln!(out, "why {why}");
            }
        }
        Outcome::Answered(answer) => rows(answer, flags, out),
    }
}

fn rows(answer: &Answer, flags: Flags, out: &mut Vec<u8>) {
    for (slot, ty) in &answer.slots {
        let _ = writeln!(out, "slot {slot} {ty}");
    }
    for f in &answer.fns {
        let _ = writeln!(out, "fn {f}");
    }
    for d in &answer.diags {
        let _ = writeln!(out, "diag {} {} {} {}", d.code, d.start, d.len, d.message);
        if let Some(primary) = &d.primary
            && flags.full
        {
            let _ = writeln!(out, "primary {primary}");
        }
    }
    if flags.counts {
        let c = &answer.counts;
        let _ = writeln!(
            out,
            "counts {} {} {} {}",
            c.fn_words, c.type_words, c.diags, c.message_bytes
        );
    }
    let _ = writeln!(out, "end {}", answer.diags.len());
}
