//! Names and tokens of an image as the Rust's tokens.

use purple_garden_allocators::bump::Bump;
use purple_garden_frontend::lex::{self, Token};

use super::{Bad, Got, NAME, kind, need, part, payload};

pub struct Reader {
    pub text: &'static [u8],
    pub arena: &'static Bump,
    /// Why the image is outside the domain of equality, as far as its tokens say.
    pub outside: Option<&'static str>,
}

const OPERATORS: [lex::Type<'static>; 9] = [
    lex::Type::Plus,
    lex::Type::Minus,
    lex::Type::Asteriks,
    lex::Type::Slash,
    lex::Type::Percent,
    lex::Type::DoubleEqual,
    lex::Type::NotEqual,
    lex::Type::LessThan,
    lex::Type::GreaterThan,
];

const MARKS: [lex::Type<'static>; 12] = [
    lex::Type::BraceLeft,
    lex::Type::BraceRight,
    lex::Type::Equal,
    lex::Type::Exclaim,
    lex::Type::Question,
    lex::Type::Dot,
    lex::Type::Colon,
    lex::Type::BraketLeft,
    lex::Type::BraketRight,
    lex::Type::CurlyLeft,
    lex::Type::CurlyRight,
    lex::Type::Eof,
];

impl Reader {
    fn bytes(&self, w: u32) -> Got<(usize, &'static str)> {
        need(kind(w) == NAME)?;
        part(self.text, false, payload(w))
    }

    fn outside(&mut self, why: &'static str) {
        self.outside.get_or_insert(why);
    }

    pub fn ident(&self, w: u32) -> Got<Token<'static>> {
        let (start, text) = self.bytes(w)?;
        Ok(Token {
            start,
            t: lex::Type::Ident(text),
        })
    }

    /// A string token starts at its quote in the Rust, behind it in the image.
    pub fn string(&mut self, w: u32) -> Got<Token<'static>> {
        let (start, text) = self.bytes(w)?;
        if start == 0 {
            self.outside("string-start");
        }
        Ok(Token {
            start: start.saturating_sub(1),
            t: lex::Type::S(text),
        })
    }

    /// A token whose kind the Rust fixes.
    fn fixed(&mut self, w: u32, t: lex::Type<'static>) -> Got<Token<'static>> {
        let (start, text) = self.bytes(w)?;
        if text != t.as_str() {
            self.outside("token");
        }
        Ok(Token { start, t })
    }

    /// A token of which the checker only reads start and `as_str().len()`.
    pub fn mark(&self, w: u32) -> Got<Token<'static>> {
        let (start, text) = self.bytes(w)?;
        let t = lex::Type::from_keyword(text)
            .or_else(|| {
                OPERATORS
                    .iter()
                    .chain(&MARKS)
                    .copied()
                    .find(|t| t.as_str() == text)
            })
            .unwrap_or(lex::Type::Ident(text));
        Ok(Token { start, t })
    }

    /// A keyword or bracket the Rust's parser would have put there. Another token than that is
    /// outside the domain of equality, yet only its start and length can matter.
    pub fn mark_of(&mut self, w: u32, t: lex::Type<'static>) -> Got<Token<'static>> {
        let token = self.mark(w)?;
        if token.t != t {
            self.outside("token");
        }
        Ok(token)
    }

    pub fn operator(&mut self, token: u32, number: u32) -> Got<Token<'static>> {
        let t = *OPERATORS.get(number as usize).ok_or(Bad)?;
        self.fixed(token, t)
    }

    pub fn atom(&mut self, token: u32, kind: u32) -> Got<Token<'static>> {
        let (start, text) = self.bytes(token)?;
        Ok(match kind {
            2 if text == "false" => self.fixed(token, lex::Type::False)?,
            2 => self.fixed(token, lex::Type::True)?,
            3 => Token {
                start,
                t: lex::Type::I(text),
            },
            4 => Token {
                start,
                t: lex::Type::D(text),
            },
            5 => self.string(token)?,
            _ => return Err(Bad),
        })
    }

    pub fn type_atom(&mut self, token: u32, kind: u32) -> Got<Token<'static>> {
        let t = match kind {
            1 => lex::Type::Void,
            2 => lex::Type::Bool,
            3 => lex::Type::Int,
            4 => lex::Type::Double,
            5 => lex::Type::Str,
            _ => return Err(Bad),
        };
        self.fixed(token, t)
    }
}
