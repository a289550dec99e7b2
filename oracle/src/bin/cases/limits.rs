//! Cases that go up to a limit of document 01 exactly, or one past it.

use oracle::{
    case::MOST_BYTES,
    check::{self, Outcome},
};

use crate::{
    draft::Draft,
    image::{MOST_NODES, MOST_ROOTS, MOST_SLOTS, MOST_TYPES, MOST_WORDS},
    make::Maker,
    prng::Rng,
    tree::Node,
};

const MOST_TYPE_WORDS: usize = 8192;
const MOST_DIAGS: usize = 256;
const MOST_MESSAGE_BYTES: usize = 65536;

/// A clean script filled up to one limit, by parts that nothing uses where there is no other way.
pub fn reach_one(rng: &mut Rng, draft: &mut Draft) {
    match rng.below(8) {
        0 => draft.fill.nodes = MOST_NODES,
        1 => draft.fill.types = MOST_TYPES,
        2 => draft.style.numbering.least_slots = MOST_SLOTS,
        3 => draft.fill.words = MOST_WORDS,
        4 => {
            let more = MOST_ROOTS.saturating_sub(draft.roots.len());
            draft.roots.extend((0..more).map(|_| Node::int()));
        }
        5 => fill_library(draft),
        6 => draft.bytes = MOST_BYTES,
        _ => fill_types(draft, 0),
    }
}

/// A library of as many words as it may have.
fn fill_library(draft: &mut Draft) {
    let mut rng = Rng::new(draft.seed, 0);
    if let Some((_, words)) = crate::pool::encode(&mut rng, &draft.lib) {
        draft.lib.fill = MOST_WORDS - words.len();
    }
}

/// Makes the types buffer full by unused words of the pool, and `over` more.
pub fn fill_types(draft: &mut Draft, over: usize) {
    let case = draft.bytes().unwrap_or_default();
    if let Outcome::Answered(answer) = check::check(&case) {
        draft.lib.fill = (MOST_TYPE_WORDS + over).saturating_sub(answer.counts.type_words);
    }
}

/// As many diagnostics as there is room for, and `over` more.
pub fn many_diags(draft: &mut Draft, over: usize) {
    draft.roots = (0..MOST_DIAGS + over)
        .map(|_| Node::Array(Vec::new()))
        .collect();
}

/// As many message bytes as there is room for, and `over` more.
pub fn long_messages(draft: &mut Draft, over: usize) {
    // "Can't find package `..`" and the primary message "package used here"
    const AROUND: usize = 38;
    let call = |len: usize| Node::pkg_call(&"p".repeat(len), "f", Vec::new());
    let whole = MOST_MESSAGE_BYTES / (AROUND + 255);
    let rest = MOST_MESSAGE_BYTES + over - whole * (AROUND + 255);
    draft.roots = (0..whole).map(|_| call(255)).collect();
    draft.roots.push(call(rest - AROUND));
    draft.style.shared_names = 100;
}

/// Adds a type `levels` deep, to the script or to the library's pool.
pub fn deep_type(maker: &mut Maker, draft: &mut Draft, levels: usize) {
    if maker.rng.chance(20) {
        draft.lib.unused.push(maker.deep_type(levels));
    } else {
        draft.roots.push(maker.deep_type_statement(levels));
    }
}
