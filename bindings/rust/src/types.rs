//! Names and types as an answer has them: words, read through the texts and the types buffer.

use std::fmt;

/// The lists that words refer to.
#[derive(Clone, Copy)]
pub(crate) struct World<'a> {
    pub script: &'a [u8],
    pub library_text: &'a [u8],
    pub types: &'a [u32],
}

pub(crate) fn payload(word: u32) -> u32 {
    word & 0xFFF_FFFF
}

impl<'a> World<'a> {
    /// The bytes of a name: well-formed UTF-8, since the check accepted it.
    pub fn name(&self, word: u32) -> &'a str {
        let (start, length) = ((word >> 8 & 0xFFFF) as usize, (word & 0xFF) as usize);
        let text = if word >> 24 & 1 == 1 {
            self.library_text
        } else {
            self.script
        };
        utf8(&text[start..start + length])
    }
}

/// Names are read, and messages written, only as well-formed UTF-8: that is proved.
pub(crate) fn utf8(bytes: &[u8]) -> &str {
    std::str::from_utf8(bytes).expect("well-formed UTF-8")
}

/// A type of an answer. Two are equal if they are the same unfolded: names by bytes, fields in order.
#[derive(Clone, Copy)]
pub struct Type<'a> {
    world: World<'a>,
    word: u32,
}

/// What a type is, and what it holds.
#[derive(Debug, Clone, Copy)]
pub enum Shape<'a> {
    Void,
    Bool,
    Int,
    Double,
    Str,
    Option(Type<'a>),
    Array(Type<'a>),
    Record(Fields<'a>),
    Foreign(&'a str),
    Slot(&'a str),
    Unknown,
}

impl<'a> Type<'a> {
    pub(crate) fn new(world: World<'a>, word: u32) -> Self {
        Self { world, word }
    }

    /// The word itself (docs/01-scope.md, "Words").
    #[must_use]
    pub fn word(self) -> u32 {
        self.word
    }

    #[must_use]
    pub fn shape(self) -> Shape<'a> {
        let (world, payload) = (self.world, payload(self.word));
        let inner = || Type::new(world, world.types[payload as usize]);
        match self.word >> 28 {
            1 => Shape::Void,
            2 => Shape::Bool,
            3 => Shape::Int,
            4 => Shape::Double,
            5 => Shape::Str,
            6 => Shape::Option(inner()),
            7 => Shape::Array(inner()),
            8 => {
                let count = world.types[payload as usize] as usize;
                let at = payload as usize + 1;
                Shape::Record(Fields {
                    world,
                    pairs: &world.types[at..at + 2 * count],
                })
            }
            9 => Shape::Foreign(world.name(payload)),
            10 => Shape::Slot(world.name(payload)),
            _ => Shape::Unknown,
        }
    }
}

/// The fields of a record: names and types, in order.
#[derive(Clone, Copy)]
pub struct Fields<'a> {
    world: World<'a>,
    pairs: &'a [u32],
}

impl<'a> Fields<'a> {
    pub(crate) fn new(world: World<'a>, pairs: &'a [u32]) -> Self {
        Self { world, pairs }
    }
}

impl<'a> Iterator for Fields<'a> {
    type Item = (&'a str, Type<'a>);

    fn next(&mut self) -> Option<Self::Item> {
        let (pair, rest) = self.pairs.split_at_checked(2)?;
        self.pairs = rest;
        Some((self.world.name(pair[0]), Type::new(self.world, pair[1])))
    }
}

impl fmt::Debug for Fields<'_> {
    fn fmt(&self, f: &mut fmt::Formatter<'_>) -> fmt::Result {
        f.debug_map().entries(*self).finish()
    }
}

impl PartialEq for Type<'_> {
    fn eq(&self, other: &Self) -> bool {
        use Shape::*;
        match (self.shape(), other.shape()) {
            (Option(a), Option(b)) | (Array(a), Array(b)) => a == b,
            (Record(a), Record(b)) => a.eq(b),
            (Foreign(a), Foreign(b)) | (Slot(a), Slot(b)) => a == b,
            (a, b) => std::mem::discriminant(&a) == std::mem::discriminant(&b),
        }
    }
}

impl Eq for Type<'_> {}

/// As the Rust's `Display`.
impl fmt::Display for Type<'_> {
    fn fmt(&self, f: &mut fmt::Formatter<'_>) -> fmt::Result {
        match self.shape() {
            Shape::Void => f.write_str("Void"),
            Shape::Bool => f.write_str("Bool"),
            Shape::Int => f.write_str("Int"),
            Shape::Double => f.write_str("Double"),
            Shape::Str => f.write_str("Str"),
            Shape::Option(inner) => write!(f, "Option<{inner}>"),
            Shape::Array(inner) => write!(f, "Array<{inner}>"),
            Shape::Record(fields) => {
                f.write_str("Record<")?;
                pairs(f, fields)?;
                f.write_str(">")
            }
            Shape::Foreign(name) => write!(f, "Foreign<{name}>"),
            Shape::Slot(name) => f.write_str(name),
            Shape::Unknown => f.write_str("unknown"),
        }
    }
}

/// `a: Int b: Str`
pub(crate) fn pairs(f: &mut fmt::Formatter<'_>, fields: Fields<'_>) -> fmt::Result {
    for (i, (name, ty)) in fields.enumerate() {
        let blank = if i == 0 { "" } else { " " };
        write!(f, "{blank}{name}: {ty}")?;
    }
    Ok(())
}

impl fmt::Debug for Type<'_> {
    fn fmt(&self, f: &mut fmt::Formatter<'_>) -> fmt::Result {
        fmt::Display::fmt(self, f)
    }
}
