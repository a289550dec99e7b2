//! The expected output of the program crates/utf8_vectors, by `std::str::from_utf8`.
//!
//! A row is NAME AA COUNT SUM:
//!     two AA       the strings of two bytes that begin with AA, all of them
//!     three AA     strings of three bytes: AA, and two bytes of EDGES
//!     four AA      strings of four bytes: AA, and three bytes of EDGES
//!     NAME AA      the parts of a string of several characters that begin at AA, one for each end
//! COUNT is how many of the row's strings are well formed, and SUM a number that any single wrong answer changes.

/// The ends of the ranges of RFC 3629's ABNF, and their neighbours.
const EDGES: [u8; 25] = [
    0x00, 0x41, 0x7F, 0x80, 0x8F, 0x90, 0x9F, 0xA0, 0xBF, 0xC0, 0xC1, 0xC2, 0xDF, 0xE0, 0xE1, 0xEC,
    0xED, 0xEE, 0xEF, 0xF0, 0xF1, 0xF3, 0xF4, 0xF5, 0xFF,
];

/// The examples of RFC 3629, section 7, and the first and the last character of each length.
const TEXTS: [(&str, &str); 5] = [
    ("not-identical", "\u{41}\u{2262}\u{391}\u{2E}"),
    ("hangugeo", "\u{D55C}\u{AD6D}\u{C5B4}"),
    ("nihongo", "\u{65E5}\u{672C}\u{8A9E}"),
    ("stump", "\u{FEFF}\u{233B4}"),
    (
        "ends",
        "\u{0}\u{7F}\u{80}\u{7FF}\u{800}\u{FFFF}\u{10000}\u{10FFFF}",
    ),
];

fn row(name: &str, at: usize, strings: impl Iterator<Item = Vec<u8>>) {
    let (mut count, mut sum) = (0u64, 0u64);
    for s in strings {
        let well_formed = std::str::from_utf8(&s).is_ok() as u64;
        count += well_formed;
        sum = sum % 4294967291 * 31 + well_formed;
    }
    println!("{name} {at:02x} {count} {sum}");
}

fn main() {
    for a in 0..=255u8 {
        row("two", a.into(), (0..=255).map(|b| vec![a, b]));
    }
    for a in 0..=255u8 {
        let ends = EDGES.iter().flat_map(|&b| EDGES.map(|c| [b, c]));
        row("three", a.into(), ends.map(|[b, c]| vec![a, b, c]));
    }
    for a in 0..=255u8 {
        let ends = EDGES
            .iter()
            .flat_map(|&b| EDGES.iter().flat_map(move |&c| EDGES.map(|d| [b, c, d])));
        row("four", a.into(), ends.map(|[b, c, d]| vec![a, b, c, d]));
    }
    for (name, text) in TEXTS {
        let text = text.as_bytes();
        for i in 0..text.len() {
            row(name, i, (i..=text.len()).map(|j| text[i..j].to_vec()));
        }
    }
}
