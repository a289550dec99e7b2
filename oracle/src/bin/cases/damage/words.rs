//! Damage to words whatever they stand for.

use super::{
    Broken,
    roles::{Role, Words},
};
use crate::prng::Rng;

fn any<'b>(rng: &mut Rng, broken: &'b mut Broken) -> Option<&'b mut u32> {
    let words = broken.side(rng);
    if words.is_empty() {
        return None;
    }
    let at = rng.below(words.len());
    Some(&mut words[at].0)
}

fn change(rng: &mut Rng, broken: &mut Broken, to: impl FnOnce(&mut Rng, u32) -> u32) -> bool {
    let Some(word) = any(rng, broken) else {
        return false;
    };
    *word = to(rng, *word);
    true
}

pub fn any_value(rng: &mut Rng, broken: &mut Broken) -> bool {
    change(rng, broken, |rng, _| rng.word() as u32 >> rng.below(32))
}

pub fn off_by_one(rng: &mut Rng, broken: &mut Broken) -> bool {
    change(rng, broken, |rng, w| match rng.chance(50) {
        true => w.wrapping_add(1),
        false => w.wrapping_sub(1),
    })
}

pub fn one_bit(rng: &mut Rng, broken: &mut Broken) -> bool {
    change(rng, broken, |rng, w| w ^ 1 << rng.below(32))
}

pub fn other_kind(rng: &mut Rng, broken: &mut Broken) -> bool {
    change(rng, broken, |rng, w| {
        w & 0x0fff_ffff | (rng.below(16) as u32) << 28
    })
}

pub fn other_payload(rng: &mut Rng, broken: &mut Broken) -> bool {
    change(rng, broken, |rng, w| {
        w & 0xf000_0000 | (rng.word() as u32 & 0x0fff_ffff) >> rng.below(28)
    })
}

/// One word, a few, or any number.
pub fn cut(rng: &mut Rng, broken: &mut Broken) -> bool {
    let words = broken.side(rng);
    let most = match rng.below(3) {
        0 => 1,
        1 => 4,
        _ => words.len(),
    };
    if words.is_empty() {
        return false;
    }
    let less = rng.between(1, most.min(words.len()));
    words.truncate(words.len() - less);
    true
}

pub fn grow(rng: &mut Rng, broken: &mut Broken) -> bool {
    let words = broken.side(rng);
    for _ in 0..rng.between(1, 3) {
        let word = some_word(rng, words);
        words.push(word);
    }
    true
}

/// 0, a random word, or a copy of one already there.
fn some_word(rng: &mut Rng, words: &Words) -> (u32, Role) {
    match rng.below(3) {
        0 => (0, Role::Count),
        1 => (rng.word() as u32, Role::Count),
        _ if words.is_empty() => (0, Role::Count),
        _ => *rng.pick(words),
    }
}

pub fn swap(rng: &mut Rng, broken: &mut Broken) -> bool {
    let words = broken.side(rng);
    if words.len() < 2 {
        return false;
    }
    let at = rng.below(words.len() - 1);
    let to = if rng.chance(50) {
        at + 1
    } else {
        rng.below(words.len())
    };
    words.swap(at, to);
    true
}

pub fn take_out(rng: &mut Rng, broken: &mut Broken) -> bool {
    let words = broken.side(rng);
    if words.is_empty() {
        return false;
    }
    words.remove(rng.below(words.len()));
    true
}

pub fn put_in(rng: &mut Rng, broken: &mut Broken) -> bool {
    let words = broken.side(rng);
    let word = some_word(rng, words);
    words.insert(rng.below(words.len() + 1), word);
    true
}

pub fn too_many(rng: &mut Rng, broken: &mut Broken) -> bool {
    let words = broken.side(rng);
    let more = rng.between(8193, 8195);
    let word = some_word(rng, words);
    words.resize(more, word);
    true
}
