//! The first part of the expected output of the program crates/types_test, by the original's `Type`
//! and `FunctionType`: their `Display`, `PartialEq` and `contains_unknown`. Depth, `contains_slot`
//! (which the original keeps to itself) and the cut below 33 levels are computed here, from document
//! 01's words. ../../types_test/make_types_test.py has the same cases as commands for that program.
//!
//! Rows, one blank between parts:
//!     type I DEPTH UNKNOWN SLOT LENGTH SUM FRONT   FRONT: the first 64 bytes of the text
//!     chain LEVELS .., tower LEVELS ..             the same of Option and Array by turns, and of doubled records
//!     short ROOM ANSWER BUFFER                     a text into ROOM bytes of a buffer of dots
//!     same I FLAGS                                 type I with each of the types
//!     signature TEXT, types TEXT, decimal TEXT
//! SUM is a number that any single wrong byte of the text changes.

use purple_garden_ir::ptype::Type;
use purple_garden_typecheck::FunctionType;

#[path = "../leaked_types.rs"]
mod leaked_types;
use leaked_types::{T, boxed, name, record};


/// Records that each hold the last one twice.
fn tower(levels: usize, leaf: T) -> T {
    (0..levels).fold(leaf, |t, _| record(&[("a", t), ("b", t)]))
}

/// Option and Array by turns, around Int.
fn chain(levels: usize) -> T {
    (0..levels).fold(Type::Int, |t, i| match i % 2 {
        0 => Type::Option(boxed(t)),
        _ => Type::Array(boxed(t)),
    })
}

/// What document 01's limit needs of a type: 33 levels, Unknown below them.
fn cut(t: T, levels: usize) -> T {
    if levels == 0 {
        return Type::Unknown;
    }
    match t {
        Type::Option(inner) => Type::Option(boxed(cut(*inner, levels - 1))),
        Type::Array(inner) => Type::Array(boxed(cut(*inner, levels - 1))),
        Type::Record(fields) => {
            let fields: Vec<_> = fields
                .iter()
                .map(|f| (f.name, cut(f.ty, levels - 1)))
                .collect();
            record(&fields)
        }
        other => other,
    }
}

/// "type depth 32 (a type with nothing inside is 1)"
fn depth(t: T) -> usize {
    match t {
        Type::Option(inner) | Type::Array(inner) => 1 + depth(*inner),
        Type::Record(fields) => 1 + fields.iter().map(|f| depth(f.ty)).max().unwrap_or(0),
        _ => 1,
    }
}

fn contains_slot(t: T) -> bool {
    match t {
        Type::Slot(_) => true,
        Type::Option(inner) | Type::Array(inner) => contains_slot(*inner),
        Type::Record(fields) => fields.iter().any(|f| contains_slot(f.ty)),
        _ => false,
    }
}

fn sum(text: &str) -> u64 {
    text.bytes()
        .fold(0, |sum, b| sum % 4294967291 * 31 + u64::from(b))
}

fn print(bytes: &[u8]) {
    use std::io::Write;
    std::io::stdout().write_all(bytes).unwrap();
}

fn type_row(label: &str, i: usize, t: T) {
    let t = cut(t, 33);
    let text = t.to_string();
    let (unknown, slot) = (u8::from(t.contains_unknown()), u8::from(contains_slot(t)));
    let (depth, length, sum) = (depth(t), text.len(), sum(&text));
    print(format!("{label} {i} {depth} {unknown} {slot} {length} {sum} ").as_bytes());
    print(&text.as_bytes()[..length.min(64)]);
    print(b"\n");
}

/// The text's front in the first `room` bytes of a buffer of dots.
fn short_row(t: T, room: usize) {
    let text = t.to_string();
    let mut buffer = [b'.'; 50];
    let wrote = text.len().min(room);
    buffer[..wrote].copy_from_slice(&text.as_bytes()[..wrote]);
    let answer = if text.len() <= room {
        text.len().to_string()
    } else {
        "full".to_owned()
    };
    print(format!("short {room} {answer} ").as_bytes());
    print(&buffer);
    print(b"\n");
}

fn same_row(label: &str, t: T, others: &[T]) {
    let flags: String = others
        .iter()
        .map(|u| if t == *u { '1' } else { '0' })
        .collect();
    println!("same {label} {flags}");
}

fn types_row(types: &[T]) {
    let texts: Vec<_> = types.iter().map(ToString::to_string).collect();
    println!("types {}", texts.join(", "));
}

fn signature_rows(args: &[(&'static str, T)], ret: T) {
    let with_slots = false;
    let args = args.to_vec().leak();
    println!("signature {}", FunctionType { args, ret, with_slots });
    types_row(&args.iter().map(|&(_, t)| t).collect::<Vec<_>>());
}

fn main() {
    let n = name("n".repeat(255));
    let m = name("n".repeat(254) + "m");
    let option = Type::Option(boxed(Type::Int));
    let array = Type::Array(boxed(option));
    let both = record(&[("a", array), ("b", Type::Unknown)]);
    let types = [
        Type::Void,
        Type::Bool,
        Type::Int,
        Type::Double,
        Type::Str,
        option,
        array,
        both,
        Type::Foreign("b"),
        Type::Slot("T"),
        Type::Unknown,
        record(&[("b", Type::Unknown), ("a", array)]),
        both,
        record(&[]),
        Type::Option(boxed(Type::Slot("T"))),
        Type::Array(boxed(Type::Slot("key"))),
        record(&[("", Type::Foreign("é"))]),
        record(&[(n, Type::Foreign(n))]),
        record(&[(m, Type::Foreign(m))]),
        record(&[(n, Type::Foreign(n))]),
    ];
    for (i, t) in types.into_iter().enumerate() {
        type_row("type", i, t);
    }
    for (i, t) in types.into_iter().enumerate() {
        same_row(&i.to_string(), t, &types);
    }
    (0..42).for_each(|room| short_row(both, room));
    (0..13).for_each(|room| short_row(option, room));

    signature_rows(&[], Type::Void);
    signature_rows(&[("a", Type::Int)], Type::Bool);
    signature_rows(&[("a", Type::Int), ("b", both)], option);
    let slot = Type::Slot("T");
    signature_rows(&[("", slot), (n, array), ("b", Type::Str)], slot);
    types_row(&types[..12]);
    types_row(&[]);

    for levels in [31, 32, 33, 39] {
        type_row("chain", levels, chain(levels));
    }
    for levels in 0..13 {
        type_row("tower", levels, tower(levels, Type::Int));
    }
    type_row("tower", 12, tower(12, Type::Unknown));
    let towers = [
        tower(12, Type::Int),
        tower(12, Type::Int),
        tower(12, Type::Str),
        tower(11, Type::Int),
    ];
    same_row("tower", towers[0], &towers);

    let numbers = [
        0u32, 7, 9, 10, 11, 99, 100, 101, 255, 256, 8191, 8192, 65535, 65536, 1000000000, u32::MAX,
    ];
    for n in numbers {
        println!("decimal {n}");
    }
}
