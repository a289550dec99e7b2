//! The proved type checker for Rust: a safe function over the one that `libshelfstork.a` exports, and views of its answer.
//!
//! Inputs and answers are the words of docs/01-scope.md. [`check`] takes any inputs and any buffers to an [`Answer`] or a [`Refusal`].
//!
//! ```
//! use shelfstork::{check, Buffers, Inputs};
//!
//! // docs/01-scope.md, "Bench rows"
//! let image = [2, 0, 1, 2, 1, 0x00000004, 0, 0xC0000801, 3, 0x40000004, 1, 0xC0000401, 0];
//! let inputs = Inputs { script: b"let a = 1", image: &image, library_text: b"", library: &[0, 0] };
//! let mut buffers = Buffers::new();
//! let answer = check(inputs, &mut buffers).unwrap();
//! assert_eq!(answer.slot(0).unwrap().to_string(), "Int");
//! assert_eq!(answer.diagnostics().count(), 0);
//! ```

mod answer;
pub mod bench;
mod types;

pub use answer::{Answer, Counts, Diagnostic, Function};
pub use types::{Fields, Shape, Type};

use std::fmt;

/// A script with its texts and its library.
#[derive(Debug, Clone, Copy)]
pub struct Inputs<'a> {
    pub script: &'a [u8],
    pub image: &'a [u32],
    pub library_text: &'a [u8],
    pub library: &'a [u32],
}

/// The six lent buffers. They may have any lengths: where one is too short for a script, that is a refusal.
#[derive(Debug, Clone, PartialEq, Eq)]
pub struct Buffers {
    pub slots: Vec<u32>,
    pub functions: Vec<u32>,
    pub types: Vec<u32>,
    pub diagnostics: Vec<u32>,
    pub messages: Vec<u8>,
    pub scratch: Vec<u32>,
}

impl Buffers {
    /// As long as can be used.
    #[must_use]
    pub fn new() -> Self {
        Self {
            slots: vec![0; 4097],
            functions: vec![0; 8192],
            types: vec![0; 8192],
            diagnostics: vec![0; 1536],
            messages: vec![0; 65536],
            scratch: vec![0; 16384],
        }
    }
}

impl Default for Buffers {
    fn default() -> Self {
        Self::new()
    }
}

/// Document 01, "Answers that end the check".
#[derive(Debug, Clone, Copy, PartialEq, Eq)]
pub enum Cause {
    /// 1: scratch below 16,384 words
    Scratch,
    /// 2: the library breaks its rules or limits
    Library,
    /// 3: the image or the script text does
    Image,
    /// 4: a node claimed twice, or a slot owned twice
    Claims,
    /// 5: node depth 65
    Depth,
    /// 6: slots or functions too short
    Room,
    /// 7: types buffer full
    Types,
    /// 8: type depth 33
    TypeDepth,
    /// 9: diagnostics or messages full
    Diagnostics,
}

/// A check that was refused. After causes 1 to 6 every buffer is as it was, after the others all are zero.
#[derive(Debug, Clone, Copy, PartialEq, Eq)]
pub struct Refusal {
    pub cause: Cause,
    /// the offending word of causes 2 and 3, the node of 4, 5, 7, 8 and 9, else 0
    pub place: u64,
}

impl Refusal {
    /// Document 01's number.
    #[must_use]
    pub fn number(self) -> u32 {
        self.cause as u32 + 1
    }
}

impl fmt::Display for Refusal {
    fn fmt(&self, f: &mut fmt::Formatter<'_>) -> fmt::Result {
        write!(f, "refused {} {}", self.number(), self.place)
    }
}

impl std::error::Error for Refusal {}

fn cause(number: u64) -> Cause {
    use Cause::*;
    const CAUSES: [Cause; 9] = [
        Scratch,
        Library,
        Image,
        Claims,
        Depth,
        Room,
        Types,
        TypeDepth,
        Diagnostics,
    ];
    // The function's contract: a number is 0 to 9.
    CAUSES[number as usize - 1]
}

extern "C" {
    fn shelfstork_check(
        script: *const u8,
        script_length: usize,
        image: *const u32,
        image_length: usize,
        library_text: *const u8,
        library_text_length: usize,
        library: *const u32,
        library_length: usize,
        slots: *mut u32,
        slots_length: usize,
        functions: *mut u32,
        functions_length: usize,
        types: *mut u32,
        types_length: usize,
        diagnostics: *mut u32,
        diagnostics_length: usize,
        messages: *mut u8,
        messages_length: usize,
        scratch: *mut u32,
        scratch_length: usize,
        answer: *mut [u64; 6],
    );
}

/// Checks a script.
pub fn check<'a>(inputs: Inputs<'a>, buffers: &'a mut Buffers) -> Result<Answer<'a>, Refusal> {
    let mut told = [0; 6];
    let b = &mut *buffers;
    // SAFETY: each pointer and length is a slice's, and no two overlap, since the buffers are vectors lent for this call alone. The function asks
    // for nothing else.
    unsafe {
        shelfstork_check(
            inputs.script.as_ptr(),
            inputs.script.len(),
            inputs.image.as_ptr(),
            inputs.image.len(),
            inputs.library_text.as_ptr(),
            inputs.library_text.len(),
            inputs.library.as_ptr(),
            inputs.library.len(),
            b.slots.as_mut_ptr(),
            b.slots.len(),
            b.functions.as_mut_ptr(),
            b.functions.len(),
            b.types.as_mut_ptr(),
            b.types.len(),
            b.diagnostics.as_mut_ptr(),
            b.diagnostics.len(),
            b.messages.as_mut_ptr(),
            b.messages.len(),
            b.scratch.as_mut_ptr(),
            b.scratch.len(),
            &mut told,
        );
    }
    let [number, place, function_words, type_words, diagnostics, message_bytes] = told;
    if number != 0 {
        return Err(Refusal {
            cause: cause(number),
            place,
        });
    }
    let counts = Counts {
        function_words: function_words as usize,
        type_words: type_words as usize,
        diagnostics: diagnostics as usize,
        message_bytes: message_bytes as usize,
    };
    Ok(Answer::new(inputs, buffers, counts))
}
