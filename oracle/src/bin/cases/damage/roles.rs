//! What each word of a good image or library stands for, so that damage can aim.

#[derive(Clone, Copy, Debug, PartialEq, Eq)]
pub enum Role {
    /// one of the counts that an image or a library begins with, and its limit
    Header(u32),
    Root,
    /// the first word of a node's or type's record
    NodeFirst,
    TypeFirst,
    Slot,
    /// name or token
    Token,
    Operator,
    /// type kind of an Atom, in a node or a type expression
    AtomKind,
    /// a part of the node of this number
    Part(u32),
    /// the part of the Call of this number that says what is called
    Target(u32),
    /// a type of a node
    NodeType,
    /// a part of the type of this number
    TypePart(u32),
    /// a count inside a record, a package or a pool
    Count,
    /// the type word at this index of the pool
    PoolType(u32),
    /// a type word of a signature
    SigType,
    Group,
    Flag,
}

/// A word and its role, which stays with it wherever it is moved.
pub type Words = Vec<(u32, Role)>;

struct Reader<'w> {
    words: &'w [u32],
    out: Words,
}

impl Reader<'_> {
    fn next(&mut self, role: Role) -> u32 {
        let word = self.words[self.out.len()];
        self.out.push((word, role));
        word
    }

    fn times(&mut self, count: u32, roles: &[Role]) {
        for _ in 0..count {
            for &role in roles {
                self.next(role);
            }
        }
    }
}

/// The roles of a good image.
pub fn image(words: &[u32]) -> Words {
    let mut r = Reader {
        words,
        out: Vec::new(),
    };
    let nodes = r.next(Role::Header(2048));
    let types = r.next(Role::Header(512));
    let roots = r.next(Role::Header(512));
    r.next(Role::Header(4096));
    r.times(roots, &[Role::Root]);
    for number in 0..nodes {
        let end = r.out.len();
        let first = r.next(Role::NodeFirst);
        r.next(Role::Slot);
        node(
            &mut r,
            first >> 28,
            number,
            end + (first & 0x0fff_ffff) as usize,
        );
    }
    for number in 0..types {
        let at = r.out.len();
        let first = r.next(Role::TypeFirst);
        let end = at + (first & 0x0fff_ffff) as usize;
        match first >> 28 {
            0 => r.times(1, &[Role::Token, Role::AtomKind]),
            1 => r.times(1, &[Role::Token]),
            2 | 3 => r.times(1, &[Role::TypePart(number)]),
            _ => {
                r.next(Role::Token);
                rest(&mut r, end, &[Role::Token, Role::TypePart(number)]);
            }
        }
    }
    r.out
}

fn rest(r: &mut Reader<'_>, end: usize, roles: &[Role]) {
    while r.out.len() < end {
        r.times(1, roles);
    }
}

fn node(r: &mut Reader<'_>, kind: u32, number: u32, end: usize) {
    let part = Role::Part(number);
    match kind {
        0 => r.times(1, &[Role::Token, Role::AtomKind]),
        1 => r.times(1, &[Role::Token]),
        2 => r.times(1, &[Role::Token, Role::Operator, part, part]),
        3 => r.times(1, &[Role::Token, Role::Operator, part]),
        4 => r.times(1, &[Role::Token, part]),
        5 => signature(r),
        6 => {
            for _ in 0..r.next(Role::Count) {
                r.times(1, &[Role::Token, part]);
                let body = r.next(Role::Count);
                r.times(body, &[part]);
            }
            r.next(Role::Token);
        }
        7 => r.times(1, &[Role::Target(number)]),
        8 => r.times(1, &[part, Role::Token]),
        9 => r.times(1, &[Role::Token, part, Role::NodeType]),
        11 => {
            r.times(1, &[Role::Token, Role::Token]);
            for _ in 0..r.next(Role::Count) {
                signature(r);
            }
        }
        12 | 13 => r.times(1, &[Role::Token]),
        _ => {}
    }
    match kind {
        10 => rest(r, end, &[Role::Token]),
        12 => rest(r, end, &[Role::Token, part]),
        _ => rest(r, end, &[part]),
    }
}

fn signature(r: &mut Reader<'_>) {
    r.times(1, &[Role::Token, Role::NodeType]);
    let args = r.next(Role::Count);
    r.times(args, &[Role::Token, Role::NodeType]);
}

/// The roles of a good library.
pub fn library(words: &[u32]) -> Words {
    let mut r = Reader {
        words,
        out: Vec::new(),
    };
    let pool = r.next(Role::Header(8190)) as usize;
    let packages = r.next(Role::Header(4095));
    while r.out.len() < 2 + pool {
        let at = r.out.len();
        if words[at] >> 28 != 0 {
            r.next(Role::PoolType(at as u32 - 2));
            continue;
        }
        for _ in 0..r.next(Role::Count) {
            r.next(Role::Token);
            r.next(Role::PoolType(r.out.len() as u32 - 2));
        }
    }
    for _ in 0..packages {
        r.next(Role::Token);
        for _ in 0..r.next(Role::Count) {
            r.times(1, &[Role::Group, Role::Flag]);
            let args = r.next(Role::Count);
            r.times(args, &[Role::Token, Role::SigType]);
            r.next(Role::SigType);
        }
    }
    r.out
}
