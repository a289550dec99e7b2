//! The second part of the expected output of the program crates/types_test, by the original's `Type`:
//! `bind_slots`, `apply_slot_binding` with what it allocates, `Display` and `PartialEq`. Depth, and
//! what has no room, are computed here from document 01's words ("Option and Array add one word,
//! Record of n fields 1 + 2n"; "type depth 32"; "At most 8,192 words of the types buffer").
//! ../../types_test/make_types_test.py has the same cases as commands for that program.
//!
//! Rows, one blank between parts:
//!     bind I J BOUND T KEY A ADDED     parameter I with argument J; what the slots are then bound to; the parameter with types put for them
//!     again I BOUND T KEY A            the I-th of a sequence of bindings, each after those before
//!     room N BOUND                     a binding of two slots into N words for pairs
//!     share I FLAG FLAG                whether the types of a Record's two fields are the words that they were
//!     chain I ADDED                    Option and Array by turns, one more each time
//!     tower L ADDED, applied L ADDED   doubled records, and Int put for the slot in them; long texts by their length, a sum and their front
//!     deep K D ADDED                   a type of depth D put for the slot inside K levels
//!     short I N ADDED                  parameter I of Int, with N free words
//!     limit USED ADDED                 with so many words used
//!     pool N COPIED SHALLOW            N words of a pool
//! BOUND: done, conflict, void. ADDED: put, how many words, whether the word is the same, and the text; or full, or deep.

use std::collections::HashMap;

use purple_garden_allocators::bump::Bump;
use purple_garden_ir::ptype::{BindError, Type};

#[path = "../leaked_types.rs"]
mod leaked_types;
use leaked_types::{T, boxed, name, record};

type Bindings = HashMap<&'static str, T>;

fn arena() -> &'static Bump {
    Box::leak(Box::new(Bump::new()))
}

fn option(t: T) -> T {
    Type::Option(boxed(t))
}

fn array(t: T) -> T {
    Type::Array(boxed(t))
}

/// "type depth 32 (a type with nothing inside is 1)"
fn depth(t: T) -> usize {
    match t {
        Type::Option(inner) | Type::Array(inner) => 1 + depth(*inner),
        Type::Record(fields) => 1 + fields.iter().map(|f| depth(f.ty)).max().unwrap_or(0),
        _ => 1,
    }
}

fn print(bytes: &[u8]) {
    use std::io::Write;
    std::io::stdout().write_all(bytes).unwrap();
}

fn sum(text: &str) -> u64 {
    text.bytes()
        .fold(0, |sum, b| sum % 4294967291 * 31 + u64::from(b))
}

fn text(t: T) {
    let text = t.to_string();
    if text.len() <= 640 {
        return print(format!(" {text}").as_bytes());
    }
    print(format!(" {} {} ", text.len(), sum(&text)).as_bytes());
    print(&text.as_bytes()[..64]);
}

/// The whole of a type that was added as so many words, where `room` words were free. No step adds
/// to a type that is too deep, and a type that has no room isn't measured.
fn added(t: T, words: usize, same: bool, room: usize) {
    if words > room {
        print(b" full");
    } else if depth(t) > 32 {
        print(b" deep");
    } else {
        print(format!(" put {words} {}", u8::from(same)).as_bytes());
        text(t);
    }
    print(b"\n");
}

fn applied(t: T, bindings: &Bindings) -> (T, usize) {
    let arena = arena();
    let new = t.apply_slot_binding(bindings, arena);
    (new, arena.type_words())
}

/// What stands where a type points to: two types with the same place share their words.
fn place(t: T) -> *const u8 {
    match t {
        Type::Option(inner) | Type::Array(inner) => std::ptr::from_ref(inner).cast(),
        Type::Record(fields) => fields.as_ptr().cast(),
        _ => std::ptr::null(),
    }
}

fn same_word(a: T, b: T) -> bool {
    a == b && place(a) == place(b)
}

fn bind(expected: T, provided: T, bindings: &mut Bindings) {
    match expected.bind_slots(&provided, bindings) {
        Ok(()) => print(b" done"),
        Err(BindError::Conflict { slot, existing, new }) => {
            print(format!(" conflict {slot}").as_bytes());
            text(existing);
            text(new);
        }
        Err(BindError::Void { slot }) => print(format!(" void {slot}").as_bytes()),
    }
}

fn slots(bindings: &Bindings) {
    for slot in ["T", "key", "a"] {
        match bindings.get(slot) {
            Some(t) => text(*t),
            None => print(b" -"),
        }
    }
}

fn wrapped(i: usize, t: T) -> T {
    if i % 2 == 0 { option(t) } else { array(t) }
}

fn chain(levels: usize, leaf: T) -> T {
    (0..levels).fold(leaf, |t, i| wrapped(i, t))
}

fn tower(levels: usize, leaf: T) -> T {
    (0..levels).fold(leaf, |t, _| record(&[("a", t), ("b", t)]))
}

fn main() {
    let n = name("n".repeat(255));
    let m = name("n".repeat(254) + "m");
    let (slot, key) = (Type::Slot("T"), Type::Slot("key"));
    let (int, boolean, void) = (Type::Int, Type::Bool, Type::Void);
    let both = record(&[("a", slot), ("b", slot)]);
    let two = record(&[("a", slot), ("b", key)]);
    let part = record(&[("a", slot), ("b", array(int))]);
    let options = record(&[("a", option(int)), ("b", option(slot))]);
    let int_bool = record(&[("a", int), ("b", boolean)]);
    let int_int = record(&[("a", int), ("b", int)]);
    let three = record(&[("a", slot), ("b", slot), ("é", key)]);
    let other = record(&[("b", int), ("a", int), ("b", array(boolean))]);
    let parameters = [
        slot,
        option(slot),
        array(slot),
        array(option(slot)),
        both,
        two,
        part,
        options,
        record(&[(n, slot)]),
        three,
        int,
        option(int),
        key,
    ];
    let arguments = [
        int,
        boolean,
        void,
        option(int),
        array(int),
        option(void),
        array(option(int)),
        int_bool,
        int_int,
        record(&[("b", int), ("a", void)]),
        record(&[("a", int)]),
        record(&[]),
        record(&[(m, Type::Foreign(n))]),
        other,
        Type::Unknown,
        Type::Foreign("b"),
        array(array(int)),
        record(&[("a", option(int)), ("b", option(int))]),
    ];
    for (i, p) in parameters.into_iter().enumerate() {
        for (j, a) in arguments.into_iter().enumerate() {
            let mut bindings = Bindings::new();
            print(format!("bind {i} {j}").as_bytes());
            bind(p, a, &mut bindings);
            slots(&bindings);
            let (new, words) = applied(p, &bindings);
            added(new, words, same_word(p, new), 25);
        }
    }

    let mut bindings = Bindings::new();
    let sequence = [
        (slot, int),
        (slot, int),
        (slot, boolean),
        (key, boolean),
        (two, int_bool),
        (two, int_int),
        (slot, void),
        (three, other),
        (array(slot), array(int)),
        (Type::Slot("a"), int),
        (Type::Slot("a"), boolean),
        (Type::Slot("a"), int),
        (options, int_int),
    ];
    for (i, (p, a)) in sequence.into_iter().enumerate() {
        print(format!("again {i}").as_bytes());
        bind(p, a, &mut bindings);
        slots(&bindings);
        print(b"\n");
    }

    // Two slots need two pairs of words.
    for room in [3, 4] {
        let mut bindings = Bindings::new();
        print(format!("room {room}").as_bytes());
        if room < 2 * 2 {
            print(b" full");
        } else {
            bind(two, int_bool, &mut bindings);
        }
        print(b"\n");
    }

    let filled = Bindings::from([("T", boolean)]);
    for (place, t) in [(17, part), (22, options)] {
        let (new, _) = applied(t, &filled);
        let (Type::Record(old), Type::Record(new)) = (t, new) else {
            unreachable!()
        };
        let flags = [0, 1].map(|f| u8::from(same_word(old[f].ty, new[f].ty)));
        println!("share {place} {} {}", flags[0], flags[1]);
    }

    for levels in 0..35 {
        print(format!("chain {levels}").as_bytes());
        added(chain(levels, int), levels, levels == 0, 64);
    }

    let filled = Bindings::from([("T", int)]);
    for levels in 0..13 {
        let t = tower(levels, slot);
        print(format!("tower {levels}").as_bytes());
        added(t, 5 * levels, levels == 0, 8192);
        let (new, words) = applied(t, &filled);
        print(format!("applied {levels}").as_bytes());
        added(new, words, false, 8192 - 5 * levels);
    }

    for (levels, deep) in [(0, 32), (1, 31), (1, 32), (16, 16), (16, 17), (31, 1), (31, 2)] {
        let inner = chain(deep - 1, int);
        let (new, words) = applied(chain(levels, slot), &Bindings::from([("T", inner)]));
        print(format!("deep {levels} {deep}").as_bytes());
        added(new, words, false, 64);
    }

    for free in 0..9 {
        for (place, t) in [(5, array(option(slot))), (7, both), (22, options), (52, three)] {
            let (new, words) = applied(t, &filled);
            print(format!("short {place} {free}").as_bytes());
            added(new, words, false, free);
        }
    }

    for used in [8186, 8187, 8188, 8191, 8192, 8193] {
        let free = 8192usize.saturating_sub(used);
        print(format!("limit {used}").as_bytes());
        added(array(int), 1, false, free);
        print(format!("limit {used}").as_bytes());
        added(tower(1, int), 5, false, free);
    }

    // A pool of 71 words fits into as many; what is copied nowhere is measured as it stands there,
    // in words that are all zero. Of a chain, word i has depth i + 1.
    println!("pool 71 1 1");
    println!("pool 71 0 1");
    println!("pool 32 1 {}", u8::from(depth(chain(31, int)) <= 32));
    println!("pool 33 1 {}", u8::from(depth(chain(32, int)) <= 32));
}
