//! The library's text and words: packages laid out by document 01, their types in the pool.

use crate::{library::Library, prng::Rng, ty::Ty};

const MOST_WORDS: usize = 8192;

struct Pool<'r> {
    rng: &'r mut Rng,
    /// percent of types and names that take an equal one already there
    shared: u32,
    text: Vec<u8>,
    placed: Vec<(String, u32)>,
    words: Vec<u32>,
    /// the index of each type word so far, those of field lists too
    types: Vec<(Ty, usize)>,
    /// the index of each field count so far
    records: Vec<(Ty, usize)>,
    fits: bool,
}

/// Text and words; `None` where they pass a limit.
pub fn encode(rng: &mut Rng, lib: &Library) -> Option<(Vec<u8>, Vec<u32>)> {
    let shared = *rng.pick(&[0, 50, 90]);
    let mut pool = Pool {
        rng,
        shared,
        text: Vec::new(),
        placed: Vec::new(),
        words: Vec::new(),
        types: Vec::new(),
        records: Vec::new(),
        fits: true,
    };
    let mut packages = Vec::new();
    let mut unused = lib.unused.iter();
    for pkg in &lib.packages {
        if let Some(ty) = unused.next() {
            pool.place(ty);
        }
        packages.extend([pool.name(&pkg.name), pkg.fns.len() as u32]);
        for f in &pkg.fns {
            packages.extend([
                pool.name(&f.name),
                u32::from(f.slotted),
                f.args.len() as u32,
            ]);
            for (name, ty) in &f.args {
                packages.extend([pool.name(name), pool.ty(ty)]);
            }
            packages.push(pool.ty(&f.ret));
        }
    }
    for ty in unused {
        pool.place(ty);
    }
    pool.words.extend((0..lib.fill).map(|_| 3 << 28));

    let mut words = vec![pool.words.len() as u32, lib.packages.len() as u32];
    words.append(&mut pool.words);
    words.append(&mut packages);
    (pool.fits && words.len() <= MOST_WORDS).then_some((pool.text, words))
}

impl Pool<'_> {
    fn name(&mut self, bytes: &str) -> u32 {
        12 << 28 | self.payload(bytes)
    }

    /// Length, start, and bit 24 for the library's text.
    fn payload(&mut self, bytes: &str) -> u32 {
        if self.rng.chance(self.shared)
            && let Some((_, payload)) = self.placed.iter().find(|(have, _)| have == bytes)
        {
            return *payload;
        }
        if self.rng.chance(5) {
            // bytes that belong to no name
            self.text.extend_from_slice(b" \xff\xc3");
        }
        let (start, len) = (self.text.len(), bytes.len());
        self.fits &= start <= 0xffff && len <= 0xff;
        self.text.extend_from_slice(bytes.as_bytes());
        let payload = 1 << 24 | (start as u32 & 0xffff) << 8 | (len as u32 & 0xff);
        self.placed.push((bytes.to_owned(), payload));
        payload
    }

    /// The word of a type, after what it refers to was put in the pool.
    fn ty(&mut self, ty: &Ty) -> u32 {
        match ty {
            Ty::Void => 1 << 28,
            Ty::Bool => 2 << 28,
            Ty::Int => 3 << 28,
            Ty::Double => 4 << 28,
            Ty::Str => 5 << 28,
            Ty::Option(inner) => 6 << 28 | self.place(inner) as u32,
            Ty::Array(inner) => 7 << 28 | self.place(inner) as u32,
            Ty::Record(fields) => 8 << 28 | self.record(ty, fields) as u32,
            Ty::Foreign(name) => 9 << 28 | self.payload(name),
            Ty::Slot(name) => 10 << 28 | self.payload(name),
        }
    }

    /// The index of a word of this type.
    fn place(&mut self, ty: &Ty) -> usize {
        if self.rng.chance(self.shared)
            && let Some((_, at)) = self.types.iter().rev().find(|(have, _)| have == ty)
        {
            return *at;
        }
        let word = self.ty(ty);
        self.words.push(word);
        let at = self.words.len() - 1;
        self.types.push((ty.clone(), at));
        at
    }

    /// The index of a field count with these fields behind it.
    fn record(&mut self, ty: &Ty, fields: &[(String, Ty)]) -> usize {
        if self.rng.chance(self.shared)
            && let Some((_, at)) = self.records.iter().find(|(have, _)| have == ty)
        {
            return *at;
        }
        let mut words = Vec::new();
        for (i, (name, ty)) in fields.iter().enumerate() {
            let name = self.name(name);
            // A field's type may refer to the type word of a field before it in the same list.
            let inner = match ty {
                Ty::Option(inner) | Ty::Array(inner) => Some(inner),
                _ => None,
            };
            let before = fields[..i]
                .iter()
                .position(|(_, t)| Some(t) == inner.map(|b| &**b));
            match before {
                Some(field) if self.rng.chance(self.shared) => words.push((name, None, field)),
                _ => words.push((name, Some(self.ty(ty)), 0)),
            }
        }
        let at = self.words.len();
        self.words.push(fields.len() as u32);
        for ((name, word, field), (_, ty)) in words.into_iter().zip(fields) {
            let kind = if matches!(ty, Ty::Option(_)) { 6 } else { 7 };
            let word = word.unwrap_or(kind << 28 | (at + 2 + 2 * field) as u32);
            self.words.extend([name, word]);
            self.types.push((ty.clone(), self.words.len() - 1));
        }
        self.records.push((ty.clone(), at));
        at
    }
}
