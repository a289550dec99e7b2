//! Word images and libraries of document 01 as the Rust's own values.
//!
//! What can't be decoded or breaks a rule or limit of document 01 (its refusals 2 to 5) is [`Bad`].
//! Where the fault lies is not found out.

mod image;
mod library;
mod tokens;

pub use image::{Image, image};
pub use library::{Library, library};

pub struct Bad;

type Got<T> = Result<T, Bad>;

fn need(ok: bool) -> Got<()> {
    if ok { Ok(()) } else { Err(Bad) }
}

const MOST_WORDS: usize = 8192;
const MOST_TEXT: usize = 65536;

/// Words read forward.
struct Words<'w> {
    words: &'w [u32],
    at: usize,
}

impl<'w> Words<'w> {
    fn new(words: &'w [u32]) -> Self {
        Self { words, at: 0 }
    }

    fn word(&mut self) -> Got<u32> {
        let w = *self.words.get(self.at).ok_or(Bad)?;
        self.at += 1;
        Ok(w)
    }

    fn num(&mut self) -> Got<usize> {
        Ok(self.word()? as usize)
    }

    /// The next `len` words on their own.
    fn take(&mut self, len: usize) -> Got<Words<'w>> {
        let words = self
            .words
            .get(self.at..)
            .and_then(|w| w.get(..len))
            .ok_or(Bad)?;
        self.at += len;
        Ok(Words::new(words))
    }

    fn left(&self) -> usize {
        self.words.len() - self.at
    }
}

const NAME: u32 = 12;

fn kind(w: u32) -> u32 {
    w >> 28
}

fn payload(w: u32) -> u32 {
    w & 0x0fff_ffff
}

/// Bytes of a name or token: start, and text.
fn part(text: &'static [u8], library: bool, payload: u32) -> Got<(usize, &'static str)> {
    need(payload >> 25 == 0 && (payload >> 24 & 1 == 1) == library)?;
    let len = (payload & 0xff) as usize;
    let start = (payload >> 8 & 0xffff) as usize;
    let bytes = text.get(start..).and_then(|t| t.get(..len)).ok_or(Bad)?;
    Ok((start, std::str::from_utf8(bytes).map_err(|_| Bad)?))
}
