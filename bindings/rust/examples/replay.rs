//! Reads cases from standard input, as oracle/replay/README.md has them, and prints the rows of each, a line `--` between two: the program that
//! oracle/at_scale.py runs. With `--full`, `primary` and `counts` lines too.

use std::io::{Read, Write};

use shelfstork::{
    bench::{rows, Case},
    check, Buffers,
};

fn word(bytes: &[u8]) -> usize {
    u32::from_le_bytes([bytes[0], bytes[1], bytes[2], bytes[3]]) as usize
}

fn main() -> std::io::Result<()> {
    let full = std::env::args().any(|a| a == "--full");
    let mut input = Vec::new();
    std::io::stdin().read_to_end(&mut input)?;
    let mut out = std::io::stdout().lock();
    let (count, mut rest) = (word(&input), &input[4..]);
    let mut buffers = Buffers::new();
    for i in 0..count {
        let (case, tail) = rest[4..].split_at(word(rest));
        rest = tail;
        if i > 0 {
            out.write_all(b"--\n")?;
        }
        match Case::split(case) {
            Some(case) => {
                out.write_all(rows(&check(case.inputs(), &mut buffers), full).as_bytes())?
            }
            None => out.write_all(b"input\n")?,
        }
    }
    Ok(())
}
