//! Damage to words by what they stand for.

use super::{
    Broken,
    roles::{Role, Words},
};
use crate::prng::Rng;

const NAME: u32 = 12;

/// Sets a word whose role passes `test`.
fn set(
    rng: &mut Rng,
    broken: &mut Broken,
    test: impl Fn(Role) -> bool,
    to: impl FnOnce(&mut Rng, u32, Role) -> u32,
) -> bool {
    let Some((word, role)) = broken.word_where(rng, |_, role| test(role)) else {
        return false;
    };
    *word = to(rng, *word, *role);
    true
}

fn one_more_or_less(rng: &mut Rng, word: u32) -> u32 {
    if rng.chance(50) {
        word.wrapping_add(1)
    } else {
        word.wrapping_sub(1)
    }
}

pub fn header_off_by_one(rng: &mut Rng, broken: &mut Broken) -> bool {
    let header = |role| matches!(role, Role::Header(_));
    set(rng, broken, header, |rng, w, _| one_more_or_less(rng, w))
}

pub fn header_far_off(rng: &mut Rng, broken: &mut Broken) -> bool {
    let header = |role| matches!(role, Role::Header(_));
    set(rng, broken, header, |rng, _, role| {
        let Role::Header(limit) = role else { return 0 };
        *rng.pick(&[0, limit, limit + 1, 1 << 28, u32::MAX])
    })
}

pub fn count_off_by_one(rng: &mut Rng, broken: &mut Broken) -> bool {
    set(
        rng,
        broken,
        |role| role == Role::Count,
        |rng, w, _| one_more_or_less(rng, w),
    )
}

pub fn count_far_off(rng: &mut Rng, broken: &mut Broken) -> bool {
    set(
        rng,
        broken,
        |role| role == Role::Count,
        |rng, _, _| *rng.pick(&[0, 100, 8192, 8193, 1 << 28, 1 << 31, u32::MAX]),
    )
}

fn first(role: Role) -> bool {
    matches!(role, Role::NodeFirst | Role::TypeFirst)
}

pub fn record_length(rng: &mut Rng, broken: &mut Broken) -> bool {
    set(rng, broken, first, |rng, w, _| match rng.below(3) {
        0 => w & 0xf000_0000 | *rng.pick(&[0, 1, 2, 3, 8192, 0x0fff_ffff]),
        _ => one_more_or_less(rng, w),
    })
}

pub fn record_kind(rng: &mut Rng, broken: &mut Broken) -> bool {
    set(rng, broken, first, |rng, w, _| {
        w & 0x0fff_ffff | (rng.below(16) as u32) << 28
    })
}

pub fn root_number(rng: &mut Rng, broken: &mut Broken) -> bool {
    let nodes = broken.image.first().map_or(0, |(n, _)| *n);
    set(
        rng,
        broken,
        |role| role == Role::Root,
        |rng, _, _| *rng.pick(&[0, nodes.wrapping_sub(1), nodes, nodes + 1, u32::MAX]),
    )
}

pub fn part_order(rng: &mut Rng, broken: &mut Broken) -> bool {
    let nodes = broken.image.first().map_or(0, |(n, _)| *n);
    let part = |role| matches!(role, Role::Part(_) | Role::Target(_));
    set(rng, broken, part, |rng, _, role| {
        let (Role::Part(owner) | Role::Target(owner)) = role else {
            return 0;
        };
        *rng.pick(&[owner, owner + 1, nodes.wrapping_sub(1), nodes, u32::MAX])
    })
}

/// A part or root takes the number of another.
pub fn claimed_twice(rng: &mut Rng, broken: &mut Broken) -> bool {
    let claim = |role| matches!(role, Role::Part(_) | Role::Target(_) | Role::Root);
    let Some(other) = broken
        .word_where(rng, |_, role| claim(role))
        .map(|(w, _)| *w)
    else {
        return false;
    };
    set(rng, broken, claim, |_, _, _| other)
}

/// A call's target changes places with another part or a root, whatever that is.
pub fn call_target(rng: &mut Rng, broken: &mut Broken) -> bool {
    let words = &mut broken.image;
    let places = |test: fn(Role) -> bool| -> Vec<usize> {
        (0..words.len()).filter(|&at| test(words[at].1)).collect()
    };
    let targets = places(|role| matches!(role, Role::Target(_)));
    let parts = places(|role| matches!(role, Role::Part(_) | Role::Root));
    if targets.is_empty() || parts.is_empty() {
        return false;
    }
    let (at, to) = (*rng.pick(&targets), *rng.pick(&parts));
    let target = words[at].0;
    words[at].0 = std::mem::replace(&mut words[to].0, target);
    true
}

pub fn slot_twice(rng: &mut Rng, broken: &mut Broken) -> bool {
    let slot = |role| role == Role::Slot;
    let Some(other) = broken
        .word_where(rng, |_, role| slot(role))
        .map(|(w, _)| *w)
    else {
        return false;
    };
    // An Fn owns the slots after its own too.
    let near = rng.below(3) as u32;
    set(rng, broken, slot, |_, _, _| other + near)
}

pub fn slot_range(rng: &mut Rng, broken: &mut Broken) -> bool {
    let slots = broken.image.get(3).map_or(0, |(v, _)| *v);
    set(
        rng,
        broken,
        |role| role == Role::Slot,
        |rng, _, _| *rng.pick(&[slots.wrapping_sub(1), slots, slots + 1, 1 << 28, u32::MAX]),
    )
}

pub fn type_number(rng: &mut Rng, broken: &mut Broken) -> bool {
    let types = broken.image.get(1).map_or(0, |(t, _)| *t);
    let number = |role| matches!(role, Role::NodeType | Role::TypePart(_));
    set(rng, broken, number, |rng, _, role| match role {
        Role::TypePart(owner) => *rng.pick(&[owner, owner + 1, types, u32::MAX]),
        _ => *rng.pick(&[types.wrapping_sub(1), types, types + 1, u32::MAX]),
    })
}

pub fn number_out_of_range(rng: &mut Rng, broken: &mut Broken) -> bool {
    let number = |role| matches!(role, Role::Operator | Role::AtomKind);
    set(rng, broken, number, |rng, _, role| match role {
        Role::Operator => *rng.pick(&[8, 9, 10, 1 << 28, u32::MAX]),
        _ => *rng.pick(&[0, 1, 2, 5, 6, 11, 12, 3 << 28, u32::MAX]),
    })
}

/// Names and tokens, and the type words that carry a name.
fn named(word: u32, role: Role) -> bool {
    match role {
        Role::Token | Role::Group => true,
        Role::PoolType(_) | Role::SigType => matches!(word >> 28, 9 | 10),
        _ => false,
    }
}

fn set_named(rng: &mut Rng, broken: &mut Broken, to: impl FnOnce(&mut Rng, u32) -> u32) -> bool {
    let Some((word, _)) = broken.word_where(rng, named) else {
        return false;
    };
    *word = to(rng, *word);
    true
}

fn with(word: u32, start: u32, len: u32) -> u32 {
    word & 0xff00_0000 | (start & 0xffff) << 8 | len & 0xff
}

/// A token that ends at the end of its text, or past it.
pub fn token_past_text(rng: &mut Rng, broken: &mut Broken) -> bool {
    let texts = [broken.script.len() as u32, broken.lib_text.len() as u32];
    set_named(rng, broken, |rng, w| {
        let text = texts[(w >> 24 & 1) as usize];
        let len = w & 0xff;
        match rng.below(4) {
            0 => with(w, text.saturating_sub(len), len),
            1 => with(w, text.saturating_sub(len) + 1, len),
            2 => with(w, text + 1, 0),
            _ => with(w, *rng.pick(&[text, 0xffff]), 255),
        }
    })
}

/// Start or length one more or less: it may cut a character in two.
pub fn token_moved(rng: &mut Rng, broken: &mut Broken) -> bool {
    set_named(rng, broken, |rng, w| {
        let (start, len) = (w >> 8 & 0xffff, w & 0xff);
        match rng.chance(50) {
            true => with(w, one_more_or_less(rng, start), len),
            false => with(w, start, one_more_or_less(rng, len)),
        }
    })
}

pub fn bit_24(rng: &mut Rng, broken: &mut Broken) -> bool {
    set_named(rng, broken, |_, w| w ^ 1 << 24)
}

pub fn bits_25_to_27(rng: &mut Rng, broken: &mut Broken) -> bool {
    set_named(rng, broken, |rng, w| w | 1 << rng.between(25, 27))
}

pub fn flag(rng: &mut Rng, broken: &mut Broken) -> bool {
    set(
        rng,
        broken,
        |role| role == Role::Flag,
        |rng, w, _| *rng.pick(&[1 - w, 2, 1 << 28]),
    )
}

/// A type of the library refers to its own index, a later one, or a word that is no type word.
pub fn pool_reference(rng: &mut Rng, broken: &mut Broken) -> bool {
    let pool = broken.lib.first().map_or(0, |(p, _)| *p);
    let types = |w: u32, role| {
        matches!(role, Role::PoolType(_) | Role::SigType) && matches!(w >> 28, 6..=8)
    };
    let Some((word, role)) = broken.word_where(rng, types) else {
        return false;
    };
    let own = if let Role::PoolType(at) = role {
        *at
    } else {
        pool
    };
    let to = match rng.below(3) {
        0 => own,
        1 => own + 1,
        _ => rng.below(pool as usize + 2) as u32,
    };
    *word = *word & 0xf000_0000 | to;
    true
}

pub fn library_type(rng: &mut Rng, broken: &mut Broken) -> bool {
    let types = |role| matches!(role, Role::PoolType(_) | Role::SigType);
    set(rng, broken, types, |rng, w, _| match rng.below(5) {
        // Unknown
        0 => 11 << 28,
        // a payload where there is none
        1 => (rng.between(1, 5) as u32) << 28 | 1,
        // a slot, named by the first bytes of the text or by none
        2 => 10 << 28 | 1 << 24 | rng.below(2) as u32,
        3 => (rng.between(1, 5) as u32) << 28,
        _ => w & 0x0fff_ffff | (rng.below(16) as u32) << 28,
    })
}

pub fn same_group(rng: &mut Rng, broken: &mut Broken) -> bool {
    let group = |role| role == Role::Group;
    let Some(other) = broken
        .word_where(rng, |_, role| group(role))
        .map(|(w, _)| *w)
    else {
        return false;
    };
    set(rng, broken, group, |_, _, _| other)
}

/// Adds a nest of 64 to 66 nodes that no root leads to.
pub fn depth(rng: &mut Rng, broken: &mut Broken) -> bool {
    let levels = rng.between(64, 66) as u32;
    let words = &mut broken.image;
    let is_type = |word: &(u32, Role)| word.1 == Role::TypeFirst;
    let at = words.iter().position(is_type).unwrap_or(words.len());
    let Some([(nodes, _), _, _, (slots, _)]) = words.first_chunk::<4>().copied() else {
        return false;
    };
    let token = NAME << 28;
    let mut nest: Words = vec![
        (10 << 28 | 3, Role::NodeFirst),
        (slots, Role::Slot),
        (token, Role::Token),
    ];
    for level in 1..levels {
        nest.extend([
            (3 << 28 | 5, Role::NodeFirst),
            (slots + level, Role::Slot),
            (token, Role::Token),
            (0, Role::Operator),
            (nodes + level - 1, Role::Part(nodes + level)),
        ]);
    }
    if nodes + levels > 2048 || slots + levels > 4096 || words.len() + nest.len() > 8192 {
        return false;
    }
    words.splice(at..at, nest);
    words[0].0 += levels;
    words[3].0 += levels;
    true
}
