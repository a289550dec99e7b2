//! Damage to the texts and to the lengths of a case.

use oracle::case::MOST_BYTES;

use super::{Broken, roles::Role};
use crate::prng::Rng;

pub fn cut(rng: &mut Rng, broken: &mut Broken) -> bool {
    let text = if rng.chance(60) {
        &mut broken.script
    } else {
        &mut broken.lib_text
    };
    if text.is_empty() {
        return false;
    }
    let most = if rng.chance(50) { 2 } else { text.len() };
    let less = rng.between(1, most.min(text.len()));
    text.truncate(text.len() - less);
    true
}

/// What RFC 3629 forbids: stray and missing later bytes, overlong forms, surrogates, too large.
const BAD: [&[u8]; 17] = [
    b"\x80",
    b"\xbf",
    b"\xc0\x80",
    b"\xc1\xbf",
    b"\xc2",
    b"\xc3\x28",
    b"\xe0\x80\x80",
    b"\xe0\x9f\xbf",
    b"\xe2\x82",
    b"\xed\xa0\x80",
    b"\xed\xbf\xbf",
    b"\xf0\x80\x80\x80",
    b"\xf0\x8f\xbf\xbf",
    b"\xf0\x9f\x98",
    b"\xf4\x90\x80\x80",
    b"\xf5\x80\x80\x80",
    b"\xff",
];

/// Writes bad bytes over a token, as many as it has room for.
pub fn bad_utf8(rng: &mut Rng, broken: &mut Broken) -> bool {
    let filled = |w: u32, role| matches!(role, Role::Token | Role::Group) && w & 0xff > 0;
    let Some((word, _)) = broken.word_where(rng, filled) else {
        return false;
    };
    let (start, len, library) = (*word >> 8 & 0xffff, *word & 0xff, *word >> 24 & 1 == 1);
    let text = if library {
        &mut broken.lib_text
    } else {
        &mut broken.script
    };
    let Some(bytes) = text.get_mut(start as usize..(start + len) as usize) else {
        return false;
    };
    let bad = *rng.pick(&BAD);
    let at = rng.below(bytes.len().saturating_sub(bad.len()) + 1);
    for (byte, bad) in bytes[at..].iter_mut().zip(bad) {
        *byte = *bad;
    }
    true
}

pub fn lengths(_: &mut Rng, broken: &mut Broken) -> bool {
    broken.lengths = Some(break_lengths);
    true
}

fn break_lengths(rng: &mut Rng, bytes: &mut Vec<u8>) {
    let at = 4 * rng.below(4);
    let field = bytes.get(at..at + 4).and_then(|b| b.try_into().ok());
    let length = u32::from_le_bytes(field.unwrap_or_default());
    let length = match rng.below(8) {
        0 => length.wrapping_add(1),
        1 => length.wrapping_sub(1),
        2 => *rng.pick(&[0, 1 << 14, 1 << 16, 1 << 30, 1 << 31, u32::MAX]),
        3 => rng.word() as u32,
        4 => return bytes.truncate(rng.below(17)),
        5 => return bytes.truncate(rng.below(bytes.len())),
        6 => return bytes.extend((0..rng.between(1, 5)).map(|_| 0)),
        _ => return too_long(bytes),
    };
    if let Some(field) = bytes.get_mut(at..at + 4) {
        field.copy_from_slice(&length.to_le_bytes());
    }
}

/// Lengths that fit each other and 65,537 bytes in all: the script's text is longer.
fn too_long(bytes: &mut Vec<u8>) {
    let more = (MOST_BYTES + 1).saturating_sub(bytes.len());
    let Some(script) = bytes.first_chunk::<4>().map(|b| u32::from_le_bytes(*b)) else {
        return;
    };
    let end = (16 + script as usize).min(bytes.len());
    bytes.splice(end..end, std::iter::repeat_n(b'#', more));
    bytes[..4].copy_from_slice(&(script + more as u32).to_le_bytes());
}
