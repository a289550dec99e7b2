//! The script's text and image: a tree laid out as document 01's words. Every token is the part of
//! the text where it stands.

use crate::{
    image::{Image, Numbering, Word},
    prng::Rng,
    tree::{BOOL, Node, OPERATORS, STR, Sig},
    ty::Ty,
};

/// How the same tree may be written.
#[derive(Clone, Debug, Default)]
pub struct Style {
    pub numbering: Numbering,
    /// percent of names that point at an earlier place of the same bytes
    pub shared_names: u32,
    /// percent of type expressions that take an earlier record of an equal type
    pub shared_types: u32,
    /// half of the operators, keywords, brackets and type names stand in a line at the start
    pub margin: bool,
    /// between statements stand bytes that belong to no token, well-formed UTF-8 or not
    pub junk: bool,
    /// percent of operators, keywords, brackets and type names that are other bytes in the text
    pub wrong_tokens: u32,
    /// percent of strings whose token starts at 0
    pub strings_at_zero: u32,
}

/// How many nodes, types and words there are to be at least; what is short is filled up with parts
/// that nothing uses.
#[derive(Clone, Debug, Default)]
pub struct Fill {
    pub nodes: usize,
    pub types: usize,
    pub words: usize,
}

/// What the margin holds besides the operators.
const MARGIN: [&str; 13] = [
    "true", "false", "as", "import", "extern", "{", "[", "Void", "Bool", "Int", "Double", "Str",
    "Record",
];

pub struct Script<'r> {
    rng: &'r mut Rng,
    style: Style,
    text: Vec<u8>,
    /// every token so far, in the order of the text
    tokens: Vec<u32>,
    margin: Vec<(&'static str, u32)>,
    placed: Vec<(String, u32)>,
    shared: Vec<(Ty, usize)>,
    image: Image,
    fits: bool,
}

impl<'r> Script<'r> {
    pub fn new(rng: &'r mut Rng, style: Style) -> Self {
        let mut script = Self {
            rng,
            style,
            text: Vec::new(),
            tokens: Vec::new(),
            margin: Vec::new(),
            placed: Vec::new(),
            shared: Vec::new(),
            image: Image::default(),
            fits: true,
        };
        if script.style.margin {
            for bytes in MARGIN.into_iter().chain(OPERATORS) {
                let word = script.token(bytes);
                script.margin.push((bytes, word));
            }
            script.plain("\n");
        }
        script
    }

    pub fn root(&mut self, node: &Node) {
        let number = self.statement(node);
        self.image.roots.push(number);
    }

    /// A node that no root leads to.
    pub fn unused(&mut self, node: &Node) {
        self.statement(node);
    }

    fn statement(&mut self, node: &Node) -> usize {
        if self.style.junk && self.rng.chance(30) {
            let junk: [&[u8]; 5] = [
                b"# \xff\xc0\xaf",
                b"\xed\xa0\x80",
                "# ümlaut".as_bytes(),
                b"\0",
                b"\t;",
            ];
            let junk = *self.rng.pick(&junk);
            self.text.extend_from_slice(junk);
        }
        let number = self.node(node);
        self.text.push(b'\n');
        number
    }

    fn plain(&mut self, text: &str) {
        self.text.extend_from_slice(text.as_bytes());
    }

    fn token(&mut self, bytes: &str) -> u32 {
        let (start, len) = (self.text.len(), bytes.len());
        self.fits &= start <= 0xffff && len <= 0xff;
        self.plain(bytes);
        let word = 12 << 28 | (start as u32 & 0xffff) << 8 | (len as u32 & 0xff);
        self.tokens.push(word);
        word
    }

    /// An operator, keyword, bracket or type name.
    fn fixed(&mut self, bytes: &str) -> u32 {
        if self.rng.chance(self.style.wrong_tokens) {
            return self.token("oops");
        }
        let margin = self.margin.iter().find(|(have, _)| *have == bytes);
        match margin {
            Some(&(_, word)) if self.rng.chance(50) => {
                self.tokens.push(word);
                word
            }
            _ => self.token(bytes),
        }
    }

    /// A token whose bytes may stand at an earlier place as well.
    fn name(&mut self, bytes: &str) -> Word {
        if self.rng.chance(self.style.shared_names)
            && let Some((_, word)) = self.placed.iter().rev().find(|(have, _)| have == bytes)
        {
            let word = *word;
            self.tokens.push(word);
            return Word::Is(word);
        }
        let word = self.token(bytes);
        self.placed.push((bytes.to_owned(), word));
        Word::Is(word)
    }

    /// A string's token leaves out its quotes.
    fn quoted(&mut self, bytes: &str) -> Word {
        self.plain("\"");
        let mut word = self.token(bytes);
        self.plain("\"");
        if self.rng.chance(self.style.strings_at_zero) {
            word = 12 << 28;
        }
        Word::Is(word)
    }

    fn node(&mut self, node: &Node) -> usize {
        match node {
            Node::Atom(bytes, kind) => {
                let token = match *kind {
                    STR => self.quoted(bytes),
                    BOOL => Word::Is(self.fixed(bytes)),
                    _ => Word::Is(self.token(bytes)),
                };
                self.image.node(0, 1, vec![token, Word::Is(*kind)])
            }
            Node::Ident(name) => {
                let name = self.name(name);
                self.image.node(1, 1, vec![name])
            }
            Node::Bin(op, left, right) => {
                self.plain("(");
                let left = self.node(left);
                self.plain(" ");
                let token = self.fixed(OPERATORS[*op as usize]);
                self.plain(" ");
                let right = self.node(right);
                self.plain(")");
                let words = vec![
                    Word::Is(token),
                    Word::Is(*op),
                    Word::Node(left),
                    Word::Node(right),
                ];
                self.image.node(2, 1, words)
            }
            Node::Unary(op, right) => {
                let token = self.fixed(OPERATORS[*op as usize]);
                let right = self.node(right);
                self.image.node(
                    3,
                    1,
                    vec![Word::Is(token), Word::Is(*op), Word::Node(right)],
                )
            }
            Node::Let(name, right) => {
                self.plain("let ");
                let name = self.name(name);
                self.plain(" = ");
                let right = self.node(right);
                self.image.node(4, 1, vec![name, Word::Node(right)])
            }
            Node::Fn(sig, body) => {
                let mut words = self.signature(sig);
                words.extend(self.body(body));
                self.image.node(5, 1 + sig.args.len(), words)
            }
            Node::Match(cases, default) => self.matching(cases, default),
            Node::Call(target, args) => {
                let mut words = vec![Word::Node(self.node(target))];
                self.plain("(");
                words.extend(self.all(args));
                self.plain(")");
                self.image.node(7, 1, words)
            }
            Node::Field(target, name) => {
                let target = self.node(target);
                self.plain(".");
                let name = self.name(name);
                self.image.node(8, 1, vec![Word::Node(target), name])
            }
            Node::Cast(left, ty) => {
                let left = self.node(left);
                self.plain(" ");
                let token = self.fixed("as");
                self.plain(" ");
                let ty = self.ty(ty);
                self.image.node(
                    9,
                    1,
                    vec![Word::Is(token), Word::Node(left), Word::Type(ty)],
                )
            }
            Node::Import(paths) => {
                let mut words = vec![Word::Is(self.fixed("import"))];
                for path in paths {
                    self.plain(" ");
                    words.push(self.quoted(path));
                }
                self.image.node(10, 1, words)
            }
            Node::Extern(name, fns) => {
                let mut words = vec![Word::Is(self.fixed("extern"))];
                self.plain(" ");
                words.push(self.quoted(name));
                words.push(Word::Is(fns.len() as u32));
                self.plain(" {");
                for sig in fns {
                    self.plain("\n    ");
                    words.extend(self.signature(sig));
                }
                self.plain(" }");
                self.image.node(11, 1, words)
            }
            Node::Record(fields) => {
                let mut words = vec![Word::Is(self.fixed("{"))];
                for (name, value) in fields {
                    self.plain(" ");
                    words.push(self.name(name));
                    self.plain(": ");
                    words.push(Word::Node(self.node(value)));
                }
                self.plain(" }");
                self.image.node(12, 1, words)
            }
            Node::Array(members) => {
                let mut words = vec![Word::Is(self.fixed("["))];
                words.extend(self.all(members));
                self.plain("]");
                self.image.node(13, 1, words)
            }
        }
    }

    fn all(&mut self, nodes: &[Node]) -> Vec<Word> {
        let mut words = Vec::new();
        for (i, node) in nodes.iter().enumerate() {
            self.plain(if i > 0 { " " } else { "" });
            words.push(Word::Node(self.node(node)));
        }
        words
    }

    fn body(&mut self, nodes: &[Node]) -> Vec<Word> {
        self.plain(" { ");
        let words = self.all(nodes);
        self.plain(" }");
        words
    }

    /// Name, return type, argument count, pairs: alike in an Fn and an Extern.
    fn signature(&mut self, sig: &Sig) -> Vec<Word> {
        self.plain("fn ");
        let name = self.name(&sig.name);
        self.plain("(");
        let mut args = Vec::new();
        for (i, (name, ty)) in sig.args.iter().enumerate() {
            self.plain(if i > 0 { " " } else { "" });
            args.push(self.name(name));
            self.plain(": ");
            args.push(Word::Type(self.ty(ty)));
        }
        self.plain(") ");
        let ret = Word::Type(self.ty(&sig.ret));
        let mut words = vec![name, ret, Word::Is(sig.args.len() as u32)];
        words.extend(args);
        words
    }

    /// A case's token is the first of its condition, the bracket of its body, or any before.
    fn matching(&mut self, cases: &[(Node, Vec<Node>)], default: &[Node]) -> usize {
        let mut words = vec![Word::Is(cases.len() as u32)];
        self.plain("match {");
        for (condition, body) in cases {
            self.plain("\n    ");
            let first = self.tokens.len();
            let condition = self.node(condition);
            self.plain(" ");
            let bracket = self.fixed("{");
            let token = match self.rng.below(10) {
                0..5 => self.tokens[first],
                5..8 => bracket,
                _ => *self.rng.pick(&self.tokens),
            };
            words.extend([
                Word::Is(token),
                Word::Node(condition),
                Word::Is(body.len() as u32),
            ]);
            words.extend(self.all(body));
            self.plain("}");
        }
        self.plain(" ");
        words.push(Word::Is(self.fixed("{")));
        words.extend(self.all(default));
        self.plain("} }");
        self.image.node(6, 1, words)
    }

    fn ty(&mut self, ty: &Ty) -> usize {
        if self.rng.chance(self.style.shared_types)
            && let Some((_, number)) = self.shared.iter().rev().find(|(have, _)| have == ty)
        {
            return *number;
        }
        let (kind, words) = match ty {
            Ty::Void => (0, vec![Word::Is(self.fixed("Void")), Word::Is(1)]),
            Ty::Bool => (0, vec![Word::Is(self.fixed("Bool")), Word::Is(2)]),
            Ty::Int => (0, vec![Word::Is(self.fixed("Int")), Word::Is(3)]),
            Ty::Double => (0, vec![Word::Is(self.fixed("Double")), Word::Is(4)]),
            Ty::Str => (0, vec![Word::Is(self.fixed("Str")), Word::Is(5)]),
            Ty::Foreign(name) => {
                self.plain("Foreign<");
                let name = self.name(name);
                self.plain(">");
                (1, vec![name])
            }
            Ty::Option(inner) => {
                self.plain("Option<");
                let inner = self.ty(inner);
                self.plain(">");
                (2, vec![Word::Type(inner)])
            }
            Ty::Array(inner) => {
                self.plain("Array<");
                let inner = self.ty(inner);
                self.plain(">");
                (3, vec![Word::Type(inner)])
            }
            Ty::Record(fields) => {
                let mut words = vec![Word::Is(self.fixed("Record"))];
                self.plain("<");
                for (name, ty) in fields {
                    words.push(self.name(name));
                    self.plain(": ");
                    words.push(Word::Type(self.ty(ty)));
                    self.plain(" ");
                }
                self.plain(">");
                (4, words)
            }
            Ty::Slot(_) => unreachable!("a script writes no slots"),
        };
        let number = self.image.ty(kind, words);
        self.shared.push((ty.clone(), number));
        number
    }

    fn fill(&mut self, fill: &Fill) {
        if self.image.types.len() < fill.types {
            let token = self.fixed("Int");
            while self.image.types.len() < fill.types {
                self.image.ty(0, vec![Word::Is(token), Word::Is(3)]);
            }
        }
        if self.image.nodes.len() < fill.nodes {
            let token = self.token("unused");
            while self.image.nodes.len() < fill.nodes {
                self.image.node(1, 1, vec![Word::Is(token)]);
            }
        }
        let short = fill.words.saturating_sub(self.image.len());
        if short >= 3 {
            let keyword = self.fixed("import");
            let path = self.quoted("unused");
            let mut words = vec![Word::Is(keyword), path];
            let Word::Is(path) = words[1] else { return };
            words.resize_with(short - 2, || Word::Is(path));
            self.image.node(10, 1, words);
        }
    }

    /// Text and image; `None` where they pass a limit.
    pub fn finish(mut self, fill: &Fill) -> Option<(Vec<u8>, Vec<u32>)> {
        self.fill(fill);
        let words = self.image.words(self.rng, self.style.numbering)?;
        self.fits.then_some((self.text, words))
    }
}
