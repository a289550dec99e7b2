use std::{fs, path::PathBuf};

use shelfstork::{
    bench::{rows, Case},
    check, Buffers, Cause, Inputs, Refusal, Shape,
};

const IMAGE: [u32; 13] = [
    2,
    0,
    1,
    2,
    1,
    0x0000_0004,
    0,
    0xC000_0801,
    3,
    0x4000_0004,
    1,
    0xC000_0401,
    0,
];

fn script<'a>(script: &'a [u8], image: &'a [u32]) -> Inputs<'a> {
    Inputs {
        script,
        image,
        library_text: b"",
        library: &[0, 0],
    }
}

fn refused(inputs: Inputs<'_>, buffers: &mut Buffers) -> Refusal {
    check(inputs, buffers).map(|_| ()).expect_err("a refusal")
}

/// Buffers full of something.
fn spoilt() -> Buffers {
    let mut b = Buffers::new();
    for words in [
        &mut b.slots,
        &mut b.functions,
        &mut b.types,
        &mut b.diagnostics,
        &mut b.scratch,
    ] {
        words.fill(0x5A5A_5A5A);
    }
    b.messages.fill(0x5A);
    b
}

#[test]
fn document_01() {
    let mut buffers = spoilt();
    let answer = check(script(b"let a = 1", &IMAGE), &mut buffers);
    assert_eq!(
        rows(&answer, false),
        "slot 0 Int\nslot 1 Void\nslot 2 Void\nend 0\n"
    );
    // what lies past the used part stays, and scratch is zero
    assert!(buffers.slots[3..].iter().all(|&w| w == 0x5A5A_5A5A));
    assert!(buffers.types.iter().all(|&w| w == 0x5A5A_5A5A));
    assert!(buffers.scratch.iter().all(|&w| w == 0));
}

/// Rows (a) to (k), as oracle/rows has them.
#[test]
fn rows_a_to_k() {
    let dir = PathBuf::from(env!("CARGO_MANIFEST_DIR")).join("../../oracle/rows");
    let mut buffers = Buffers::new();
    for name in 'a'..='k' {
        let case = Case::split(&fs::read(dir.join(format!("{name}.bin"))).unwrap()).unwrap();
        let expect = fs::read_to_string(dir.join(format!("{name}.expect"))).unwrap();
        let got = rows(&check(case.inputs(), &mut buffers), false);
        assert_eq!(got, expect, "row ({name})");
    }
}

#[test]
fn a_diagnostic() {
    let image = [1, 0, 1, 1, 0, 0x1000_0003, 0, 0xC000_0001];
    let mut buffers = Buffers::new();
    let answer = check(script(b"x", &image), &mut buffers).unwrap();
    let told: Vec<_> = answer.diagnostics().collect();
    assert_eq!(told.len(), 1);
    assert_eq!((told[0].code, told[0].start, told[0].length), (3, 0, 1));
    assert_eq!(told[0].message, "binding `x` not found");
    assert_eq!(told[0].primary, None);
    assert_eq!(answer.slot(0), None);
    assert_eq!(answer.slot(9), None);
}

/// `{ a: 1 b: [true] }`: a type with parts.
#[test]
fn a_record() {
    let image = [
        4,
        0,
        1,
        4,
        3, // N T R V, root
        0x0000_0004,
        0,
        0xC000_0501,
        3, // 1
        0x0000_0004,
        1,
        0xC000_0B04,
        2, // true
        0xD000_0004,
        2,
        0xC000_0A01,
        1, // [true]
        0xC000_0007,
        3,
        0xC000_0001,
        0xC000_0201,
        0,
        0xC000_0701,
        2,
    ];
    let mut buffers = Buffers::new();
    let answer = check(script(b"{ a: 1 b: [true] }", &image), &mut buffers).unwrap();
    let record = answer.slot(3).unwrap();
    assert_eq!(record.to_string(), "Record<a: Int b: Array<Bool>>");
    let Shape::Record(mut fields) = record.shape() else {
        panic!("a record");
    };
    assert_eq!(fields.next().unwrap().0, "a");
    assert_eq!(fields.next().unwrap().1, answer.slot(2).unwrap());
    assert_eq!(answer.counts().type_words, 6);
    // one word short
    buffers = spoilt();
    buffers.types.truncate(5);
    let got = refused(script(b"{ a: 1 b: [true] }", &image), &mut buffers);
    assert_eq!((got.cause, got.place, got.number()), (Cause::Types, 3, 7));
    for words in [
        &buffers.slots,
        &buffers.functions,
        &buffers.types,
        &buffers.diagnostics,
        &buffers.scratch,
    ] {
        assert!(words.iter().all(|&w| w == 0));
    }
    assert!(buffers.messages.iter().all(|&b| b == 0));
}

/// Refusals 1 to 6 leave every buffer as it was.
#[test]
fn refusals() {
    let sound = script(b"let a = 1", &IMAGE);
    let mut short_scratch = spoilt();
    short_scratch.scratch.truncate(16383);
    let mut short_slots = spoilt();
    short_slots.slots.truncate(2);
    let mut none = spoilt();
    none.slots.clear();
    none.scratch.clear();
    let twice = [
        2,
        0,
        0,
        2,
        0x1000_0003,
        0,
        0xC000_0000,
        0x1000_0003,
        0,
        0xC000_0000,
    ];
    let library = Inputs {
        library: &[0],
        ..sound
    };
    for (inputs, mut buffers, cause, place) in [
        (sound, short_scratch, Cause::Scratch, 0),
        (sound, none, Cause::Scratch, 0),
        (library, spoilt(), Cause::Library, 1),
        (script(b"let a = 1", &[]), spoilt(), Cause::Image, 0),
        (script(b"let a", &IMAGE), spoilt(), Cause::Image, 7),
        (script(b"", &twice), spoilt(), Cause::Claims, 1),
        (sound, short_slots, Cause::Room, 0),
    ] {
        let before = buffers.clone();
        assert_eq!(refused(inputs, &mut buffers), Refusal { cause, place });
        assert_eq!(buffers, before);
    }
}

#[test]
fn an_input_whose_lengths_do_not_fit() {
    assert_eq!(Case::split(&[0; 15]), None);
    assert_eq!(Case::split(&[0; 17]), None);
    assert_eq!(Case::split(&[255; 16]), None);
    assert!(Case::split(&[0; 16]).is_some());
}

#[test]
fn from_several_threads() {
    let work = || {
        let mut buffers = Buffers::new();
        for _ in 0..3 {
            let answer = check(script(b"let a = 1", &IMAGE), &mut buffers);
            assert!(answer.is_ok());
        }
    };
    std::thread::scope(|s| {
        for _ in 0..3 {
            s.spawn(work);
        }
    });
}
