//! The bench's input and rows (docs/01-scope.md, "Bench rows").

use std::fmt::Write;

use crate::{Answer, Inputs, Refusal};

/// The four parts of a bench input, taken out of its bytes.
#[derive(Debug, Clone, PartialEq, Eq)]
pub struct Case {
    pub script: Vec<u8>,
    pub image: Vec<u32>,
    pub library_text: Vec<u8>,
    pub library: Vec<u32>,
}

impl Case {
    /// `None` where the lengths do not fit the input.
    #[must_use]
    pub fn split(input: &[u8]) -> Option<Self> {
        if input.len() > 65536 {
            return None;
        }
        let (head, mut rest) = input.split_at_checked(16)?;
        let lengths = words(head);
        let mut part = |size: u32, width: usize| {
            let (part, tail) = rest.split_at_checked((size as usize).checked_mul(width)?)?;
            rest = tail;
            Some(part)
        };
        let case = Self {
            script: part(lengths[0], 1)?.to_vec(),
            image: words(part(lengths[1], 4)?),
            library_text: part(lengths[2], 1)?.to_vec(),
            library: words(part(lengths[3], 4)?),
        };
        rest.is_empty().then_some(case)
    }

    #[must_use]
    pub fn inputs(&self) -> Inputs<'_> {
        Inputs {
            script: &self.script,
            image: &self.image,
            library_text: &self.library_text,
            library: &self.library,
        }
    }
}

fn words(bytes: &[u8]) -> Vec<u32> {
    let word = |w: &[u8]| u32::from_le_bytes([w[0], w[1], w[2], w[3]]);
    bytes.chunks_exact(4).map(word).collect()
}

/// The rows of an answer or a refusal; if `full`, with `primary` and `counts` lines as the oracle prints them.
#[must_use]
pub fn rows(answer: &Result<Answer<'_>, Refusal>, full: bool) -> String {
    let mut out = String::new();
    let _ = match answer {
        Ok(answer) => answer_rows(answer, full, &mut out),
        Err(refusal) => writeln!(out, "{refusal}"),
    };
    out
}

fn answer_rows(answer: &Answer<'_>, full: bool, out: &mut String) -> std::fmt::Result {
    for (slot, ty) in answer.slots() {
        writeln!(out, "slot {slot} {ty}")?;
    }
    for f in answer.functions() {
        writeln!(out, "fn {f}")?;
    }
    for d in answer.diagnostics() {
        writeln!(
            out,
            "diag {} {} {} {}",
            d.code, d.start, d.length, d.message
        )?;
        if let (Some(primary), true) = (d.primary, full) {
            writeln!(out, "primary {primary}")?;
        }
    }
    let c = answer.counts();
    if full {
        writeln!(
            out,
            "counts {} {} {} {}",
            c.function_words, c.type_words, c.diagnostics, c.message_bytes
        )?;
    }
    writeln!(out, "end {}", c.diagnostics)
}
