//! An answer: slots, functions and diagnostics, read from the lent buffers.

use std::fmt;

use crate::{
    types::{pairs, payload, utf8, World},
    Buffers, Fields, Inputs, Type,
};

/// How much of the buffers is used.
#[derive(Debug, Clone, Copy, PartialEq, Eq)]
pub struct Counts {
    pub function_words: usize,
    pub type_words: usize,
    pub diagnostics: usize,
    pub message_bytes: usize,
}

#[derive(Clone, Copy)]
pub struct Answer<'a> {
    world: World<'a>,
    slots: &'a [u32],
    functions: &'a [u32],
    diagnostics: &'a [u32],
    messages: &'a [u8],
    counts: Counts,
}

/// A function that the script defines.
#[derive(Clone, Copy)]
pub struct Function<'a> {
    pub name: &'a str,
    pub arguments: Fields<'a>,
    pub returns: Type<'a>,
}

#[derive(Debug, Clone, Copy, PartialEq, Eq)]
pub struct Diagnostic<'a> {
    /// document 01, "Codes"
    pub code: u32,
    /// bytes of the script text
    pub start: usize,
    pub length: usize,
    pub message: &'a str,
    /// what stands at the span itself
    pub primary: Option<&'a str>,
}

impl<'a> Answer<'a> {
    pub(crate) fn new(inputs: Inputs<'a>, buffers: &'a Buffers, counts: Counts) -> Self {
        // The image is accepted: its fourth word is V, and the slots are used to V.
        let slot_count = inputs.image[3] as usize;
        Self {
            world: World {
                script: inputs.script,
                library_text: inputs.library_text,
                types: &buffers.types[..counts.type_words],
            },
            slots: &buffers.slots[..=slot_count],
            functions: &buffers.functions[..counts.function_words],
            diagnostics: &buffers.diagnostics[..6 * counts.diagnostics],
            messages: &buffers.messages[..counts.message_bytes],
            counts,
        }
    }

    #[must_use]
    pub fn counts(&self) -> Counts {
        self.counts
    }

    /// The type recorded in a slot. The last slot, V, is Void.
    #[must_use]
    pub fn slot(&self, slot: usize) -> Option<Type<'a>> {
        let word = *self.slots.get(slot)?;
        (word != 0).then(|| Type::new(self.world, word))
    }

    /// Number and type of each slot that has one.
    pub fn slots(&self) -> impl Iterator<Item = (usize, Type<'a>)> + use<'a> {
        let this = *self;
        (0..self.slots.len()).filter_map(move |i| Some((i, this.slot(i)?)))
    }

    /// In the order of the walk.
    pub fn functions(&self) -> impl Iterator<Item = Function<'a>> + use<'a> {
        let (world, mut rest) = (self.world, self.functions);
        std::iter::from_fn(move || {
            let (head, tail) = rest.split_at_checked(2)?;
            let (args, tail) = tail.split_at(2 * head[1] as usize);
            let (&returns, tail) = tail.split_first()?;
            rest = tail;
            Some(Function {
                name: world.name(head[0]),
                arguments: Fields::new(world, args),
                returns: Type::new(world, returns),
            })
        })
    }

    /// In order.
    pub fn diagnostics(&self) -> impl Iterator<Item = Diagnostic<'a>> + use<'a> {
        let messages = self.messages;
        self.diagnostics.chunks_exact(6).map(move |d| {
            let (start, length, primary) = (d[3] as usize, d[4] as usize, d[5] as usize);
            let at = start + length;
            Diagnostic {
                code: payload(d[0]),
                start: d[1] as usize,
                length: d[2] as usize,
                message: utf8(&messages[start..at]),
                primary: (primary != 0).then(|| utf8(&messages[at..at + primary])),
            }
        })
    }
}

/// As the Rust's `Display` of a signature, after the name.
impl fmt::Display for Function<'_> {
    fn fmt(&self, f: &mut fmt::Formatter<'_>) -> fmt::Result {
        write!(f, "{} (", self.name)?;
        pairs(f, self.arguments)?;
        write!(f, ") -> {}", self.returns)
    }
}
