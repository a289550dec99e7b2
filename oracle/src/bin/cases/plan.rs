//! What each case of a batch is to show, and making it so.

use oracle::check::{self, Outcome};

use crate::{
    draft::Draft, image::Numbering, library::Library, limits, make::Maker, names::Names, prng::Rng,
    script::Style,
};

#[derive(Clone, Copy, Debug, PartialEq, Eq)]
pub enum Want {
    /// no diagnostic
    Clean,
    /// this code, among others perhaps
    Code(u32),
    /// outside the domain of equality, for this reason of the oracle's `--domain`
    Outside(&'static str),
}

const REASONS: [&str; 6] = [
    "slot",
    "token",
    "string-start",
    "types",
    "depth",
    "messages",
];
const REASON_WEIGHTS: [u32; 6] = [70, 6, 6, 6, 6, 6];

/// Every second case is clean; the others go through the codes.
fn want(rng: &mut Rng, number: u64, outside: bool) -> Want {
    if outside {
        Want::Outside(REASONS[rng.weighted(&REASON_WEIGHTS)])
    } else if number.is_multiple_of(2) {
        Want::Clean
    } else {
        Want::Code(1 + (number / 2 % 26) as u32)
    }
}

/// Whether the Rust's outcome shows what was wanted.
fn shows(want: Want, outcome: &Outcome) -> bool {
    match (want, outcome) {
        (Want::Outside(reason), _) => outcome.outside() == Some(reason),
        (_, Outcome::Answered(a)) if a.outside.is_none() => match want {
            Want::Code(code) => a.diags.iter().any(|d| d.code == code),
            _ => a.diags.is_empty(),
        },
        _ => false,
    }
}

/// Case `number` of a seed, and how many drafts were put away for it. A draft is put away if it
/// passes a limit, or doesn't show what it should: a fault may stand where no visit comes.
pub fn case(seed: u64, number: u64, outside: bool) -> Result<(Vec<u8>, u64), String> {
    const MOST_DRAFTS: u64 = 400;
    let want = want(&mut Rng::new(seed, number * MOST_DRAFTS), number, outside);
    for try_number in 0..MOST_DRAFTS {
        let mut rng = Rng::new(seed, number * MOST_DRAFTS + try_number);
        let Some(case) = draft(&mut rng, want).and_then(|d| d.bytes()) else {
            continue;
        };
        match check::check(&case) {
            Outcome::Input | Outcome::BadInput => {
                return Err(format!(
                    "seed {seed} case {number} breaks the rules of document 01"
                ));
            }
            outcome if shows(want, &outcome) => return Ok((case, try_number)),
            _ => {}
        }
    }
    Err(format!(
        "seed {seed} case {number}: no draft shows {want:?}"
    ))
}

fn size(rng: &mut Rng) -> usize {
    match rng.weighted(&[12, 38, 38, 10, 2]) {
        0 => rng.below(4),
        1 => rng.between(4, 16),
        2 => rng.between(16, 50),
        3 => rng.between(50, 250),
        _ => rng.between(250, 700),
    }
}

fn style(rng: &mut Rng) -> Style {
    Style {
        numbering: Numbering {
            shuffled: rng.chance(35),
            loose_slots: rng.chance(35),
            least_slots: 0,
        },
        shared_names: *rng.pick(&[0, 0, 0, 40]),
        shared_types: *rng.pick(&[0, 0, 60, 100]),
        margin: rng.chance(25),
        junk: rng.chance(25),
        ..Style::default()
    }
}

fn draft(rng: &mut Rng, want: Want) -> Option<Draft> {
    let names = Names::new(rng);
    let rich = want != Want::Clean || rng.chance(60);
    let lib = Library::random(rng, &names, rich);
    let mut draft = Draft {
        style: style(rng),
        seed: rng.word(),
        ..Draft::default()
    };
    let size = size(rng);
    let mut maker = Maker::new(rng, &names, &lib);
    if maker.rng.chance(60) {
        draft.roots.push(maker.import());
    }
    aim(&mut maker, want, size, &mut draft)?;
    draft.roots.extend(maker.roots(size));
    add_deep(&mut maker, want, &mut draft);
    if maker.rng.chance(25) {
        add_unused(&mut maker, &mut draft);
    }
    let unused = std::mem::take(&mut draft.lib.unused);
    draft.lib = lib;
    draft.lib.unused.extend(unused);
    at_limits(rng, want, &mut draft);
    Some(draft)
}

/// What the case is to show.
fn aim(maker: &mut Maker, want: Want, size: usize, draft: &mut Draft) -> Option<()> {
    match want {
        Want::Code(code) => {
            maker.faults = vec![code];
            for _ in 0..maker.rng.weighted(&[50, 20, 10, 10, 5, 5]) {
                let more = maker.rng.between(1, 26) as u32;
                maker.faults.push(more);
            }
            if maker.rng.chance(30) {
                maker.noise = maker.rng.between(2, 20) as u32;
            }
        }
        Want::Outside("slot") => {
            draft.roots.extend(maker.statements(size / 2));
            draft.roots.extend(maker.leftover()?);
        }
        Want::Outside("token") => draft.style.wrong_tokens = 40,
        Want::Outside("string-start") => draft.style.strings_at_zero = 60,
        Want::Outside("depth") => limits::deep_type(maker, draft, 33),
        _ => {}
    }
    Some(())
}

/// Now and then a deep nest of nodes or types.
fn add_deep(maker: &mut Maker, want: Want, draft: &mut Draft) {
    if maker.rng.chance(3) {
        let levels = maker.rng.between(60, 64);
        draft.roots.push(maker.deep(levels));
    }
    if maker.rng.chance(3) && !matches!(want, Want::Outside(_)) {
        let levels = maker.rng.between(28, 32);
        limits::deep_type(maker, draft, levels);
    }
}

/// Nodes that no root leads to, right or wrong.
fn add_unused(maker: &mut Maker, draft: &mut Draft) {
    maker.noise = 30;
    for _ in 0..maker.rng.between(1, 3) {
        let ty = maker.any_type();
        let node = maker.unvisited(|m| m.expr(&ty, 5));
        draft.unused.push(node);
    }
}

/// Now and then a limit is reached; for some reasons one must be passed.
fn at_limits(rng: &mut Rng, want: Want, draft: &mut Draft) {
    match want {
        Want::Clean if rng.chance(4) => limits::reach_one(rng, draft),
        Want::Clean if rng.chance(2) => {
            let roots = std::mem::take(&mut draft.roots);
            draft.unused.extend(roots);
        }
        Want::Code(1) if rng.chance(10) => limits::many_diags(draft, 0),
        Want::Code(15) if rng.chance(10) => limits::long_messages(draft, 0),
        Want::Outside("types") => limits::fill_types(draft, 1),
        Want::Outside("messages") if rng.chance(50) => limits::many_diags(draft, 1),
        Want::Outside("messages") => limits::long_messages(draft, 1),
        _ => {}
    }
}
