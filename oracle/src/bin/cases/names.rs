//! The names of a case. It has only a few, so that names meet: shadowed bindings, functions and
//! packages of one name, fields and arguments named alike.

use crate::prng::Rng;

const ORDINARY: [&str; 28] = [
    "a", "b", "c", "x", "y", "z", "ab", "abc", "abd", "foo", "bar", "count", "value", "items",
    "io", "str", "opt", "get", "set", "map", "push", "T", "U", "key", "val", "name", "self", "f",
];

/// Boundaries of the UTF-8 lengths, wording that messages use, words of the language.
const ODD: [&str; 30] = [
    "",
    " ",
    "a b",
    "`",
    "\"",
    "\\",
    "<>",
    ": ",
    "a: Int",
    "Int",
    "as",
    "true",
    "Record<a: Int>",
    "unknown",
    "\0",
    "\t",
    "\u{7f}",
    "\u{80}",
    "\u{7ff}",
    "\u{800}",
    "\u{d7ff}",
    "\u{e000}",
    "\u{ffff}",
    "\u{10000}",
    "\u{10ffff}",
    "é",
    "grün",
    "日本語",
    "€",
    "😀x",
];

/// A name as long as a name can be, of characters of 1 to 4 bytes.
fn long(rng: &mut Rng) -> String {
    let mut name = rng.pick(&["q", "é", "€", "😀"]).repeat(255);
    let mut len = if rng.chance(70) {
        255
    } else {
        rng.between(200, 254)
    };
    while !name.is_char_boundary(len) {
        len -= 1;
    }
    name.truncate(len);
    while name.len() < 255 && rng.chance(80) {
        name.push('z');
    }
    name
}

pub struct Names {
    pool: Vec<String>,
}

impl Names {
    pub fn new(rng: &mut Rng) -> Self {
        let mut pool = Vec::new();
        for _ in 0..rng.between(6, 20) {
            pool.push((*rng.pick(&ORDINARY)).to_owned());
        }
        let odd = if rng.chance(60) {
            rng.below(3)
        } else {
            rng.between(3, 12)
        };
        for _ in 0..odd {
            pool.push((*rng.pick(&ODD)).to_owned());
        }
        if rng.chance(12) {
            pool.push(long(rng));
        }
        Self { pool }
    }

    pub fn any(&self, rng: &mut Rng) -> String {
        rng.pick(&self.pool).clone()
    }

    /// A name that is not `taken`, from the pool if there is one.
    pub fn other_than(&self, rng: &mut Rng, taken: impl Fn(&str) -> bool) -> String {
        for _ in 0..8 {
            let name = rng.pick(&self.pool);
            if !taken(name) {
                return name.clone();
            }
        }
        let mut number = rng.below(1000);
        loop {
            let name = format!("n{number}");
            if !taken(&name) {
                return name;
            }
            number += 1;
        }
    }
}
