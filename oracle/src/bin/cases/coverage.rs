//! Counts what a batch covers, by the Rust's own answers.

use std::fmt::Write;

use oracle::check::{self, Answer, NODE_KINDS, Outcome, TYPE_KINDS, USES};

/// Of 3,000 cases in the domain each code must be in at least 50, and 40 % must be clean.
const CASES: usize = 3000;
const CASES_PER_CODE: usize = 50;
const CLEAN_PERCENT: usize = 40;
const CODES: usize = 26;

#[derive(Default)]
pub struct Coverage {
    cases: usize,
    input: usize,
    bad_input: usize,
    panics: usize,
    outside: Vec<(&'static str, usize)>,
    in_domain: usize,
    clean: usize,
    cases_with: [usize; CODES + 1],
    diags_with: [usize; CODES + 1],
    /// code, place in the sources, diagnostics made there
    sites: Vec<(u32, (&'static str, u32), usize)>,
    present: [usize; 14],
    visited: [usize; 14],
    slot_kinds: [usize; 11],
    uses: [usize; 12],
    sizes: Vec<usize>,
}

impl Coverage {
    pub fn of(cases: &[&[u8]]) -> Self {
        let mut coverage = Self::default();
        for case in cases {
            coverage.add(&check::check(case));
        }
        coverage.sites.sort_unstable();
        coverage.sizes.sort_unstable();
        coverage
    }

    fn add(&mut self, outcome: &Outcome) {
        self.cases += 1;
        if let Some(reason) = outcome.outside() {
            match self.outside.iter_mut().find(|(have, _)| *have == reason) {
                Some((_, count)) => *count += 1,
                None => self.outside.push((reason, 1)),
            }
        }
        match outcome {
            Outcome::Input => self.input += 1,
            Outcome::BadInput => self.bad_input += 1,
            Outcome::Panic { .. } => self.panics += 1,
            Outcome::Answered(answer) if answer.outside.is_none() => self.add_answer(answer),
            Outcome::Answered(_) => {}
        }
    }

    fn add_answer(&mut self, answer: &Answer) {
        self.in_domain += 1;
        self.clean += usize::from(answer.diags.is_empty());
        self.sizes.push(answer.present.iter().sum());
        for diag in &answer.diags {
            self.diags_with[diag.code as usize] += 1;
            match self
                .sites
                .iter_mut()
                .find(|(_, site, _)| *site == diag.site)
            {
                Some((.., count)) => *count += 1,
                None => self.sites.push((diag.code, diag.site, 1)),
            }
        }
        for code in 1..=CODES {
            let has = answer.diags.iter().any(|d| d.code as usize == code);
            self.cases_with[code] += usize::from(has);
        }
        add_each(&mut self.present, &answer.present);
        add_each(&mut self.visited, &answer.visited);
        add_each(&mut self.slot_kinds, &answer.slot_kinds);
        add_each(&mut self.uses, &answer.uses);
    }

    /// What keeps the quotas from being held.
    pub fn shortfalls(&self) -> Vec<String> {
        let mut short = Vec::new();
        if self.cases == 0 {
            short.push("there are no cases".to_owned());
        }
        let others = self.cases - self.in_domain;
        if others > 0 {
            short.push(format!(
                "{others} of {} cases are not in the domain",
                self.cases
            ));
        }
        if self.clean * 100 < self.in_domain * CLEAN_PERCENT {
            short.push(format!("{} clean cases of {}", self.clean, self.in_domain));
        }
        let wanted = (self.in_domain * CASES_PER_CODE).div_ceil(CASES);
        for code in 1..=CODES {
            if self.cases_with[code] < wanted {
                let have = self.cases_with[code];
                short.push(format!("code {code} in {have} cases, {wanted} are wanted"));
            }
        }
        short
    }

    pub fn report(&self) -> String {
        let mut out = String::new();
        let _ = writeln!(out, "cases {}", self.cases);
        let _ = writeln!(
            out,
            "input {}  bad-input {}  panic {}",
            self.input, self.bad_input, self.panics
        );
        let _ = writeln!(out, "in the domain of equality {}", self.in_domain);
        for (reason, count) in &self.outside {
            let _ = writeln!(out, "outside {reason} {count}");
        }
        let percent = 100.0 * self.clean as f64 / self.in_domain.max(1) as f64;
        let _ = writeln!(out, "clean {} ({percent:.1} %)", self.clean);
        if let (Some(least), Some(most)) = (self.sizes.first(), self.sizes.last()) {
            let middle = self.sizes[self.sizes.len() / 2];
            let _ = writeln!(out, "nodes per case: {least} to {most}, median {middle}");
        }
        self.report_codes(&mut out);
        let _ = writeln!(out, "\nnode kind   present   visited");
        for ((kind, present), visited) in NODE_KINDS.iter().zip(self.present).zip(self.visited) {
            let _ = writeln!(out, "{kind:9} {present:9} {visited:9}");
        }
        let _ = writeln!(out, "\ntype kind     slots");
        for (kind, slots) in TYPE_KINDS.iter().zip(self.slot_kinds) {
            let _ = writeln!(out, "{kind:9} {slots:9}");
        }
        let _ = writeln!(out, "\nvisited");
        for (what, count) in USES.iter().zip(self.uses) {
            let _ = writeln!(out, "{what:44} {count:7}");
        }
        let _ = writeln!(out);
        let short = self.shortfalls();
        for why in &short {
            let _ = writeln!(out, "short: {why}");
        }
        let held = if short.is_empty() { "held" } else { "NOT held" };
        let _ = writeln!(out, "quotas {held}");
        out
    }

    fn report_codes(&self, out: &mut String) {
        let _ = writeln!(out, "\ncode  cases  diagnostics  made at");
        for code in 1..=CODES {
            let (cases, diags) = (self.cases_with[code], self.diags_with[code]);
            let _ = write!(out, "{code:4} {cases:6} {diags:12} ");
            for (_, (file, line), count) in self.sites.iter().filter(|s| s.0 as usize == code) {
                let _ = write!(out, " {file}:{line} {count}");
            }
            let _ = writeln!(out);
        }
    }
}

fn add_each<const N: usize>(sums: &mut [usize; N], counts: &[usize; N]) {
    for (sum, count) in sums.iter_mut().zip(counts) {
        *sum += count;
    }
}
