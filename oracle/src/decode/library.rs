//! The library of document 01 as the packages of the Rust.

use std::collections::HashSet;

use purple_garden_allocators::bump::{Arena, Bump};
use purple_garden_ir::{
    Fn,
    ptype::{Field, Type},
};
use purple_garden_runtime::Pkg;

use super::{Bad, Got, MOST_TEXT, MOST_WORDS, NAME, Words, kind, need, part, payload};

pub struct Library {
    pub pool_len: usize,
    pub pkgs: &'static [Pkg],
    /// Depth of the deepest type, whether something uses it or not.
    pub type_depth: usize,
}

/// What stands at each pool index: the type of a type word, the fields of a field count. Each with
/// its depth, which is worked out as the words are read, so that shared parts are looked at once.
struct Pool {
    text: &'static [u8],
    arena: &'static Bump,
    types: Vec<Option<(&'static Type<'static>, usize)>>,
    records: Vec<Option<(&'static [Field<'static>], usize)>>,
    deepest: usize,
}

impl Pool {
    fn ty(&mut self, w: u32) -> Got<(Type<'static>, usize)> {
        let p = payload(w);
        let inner = || self.types.get(p as usize).copied().flatten().ok_or(Bad);
        let plain = |t| need(p == 0).map(|()| (t, 1));
        let (ty, depth) = match kind(w) {
            1 => plain(Type::Void)?,
            2 => plain(Type::Bool)?,
            3 => plain(Type::Int)?,
            4 => plain(Type::Double)?,
            5 => plain(Type::Str)?,
            6 => inner().map(|(t, d)| (Type::Option(t), d + 1))?,
            7 => inner().map(|(t, d)| (Type::Array(t), d + 1))?,
            8 => {
                let fields = self.records.get(p as usize).copied().flatten();
                fields.map(|(f, d)| (Type::Record(f), d)).ok_or(Bad)?
            }
            9 => (Type::Foreign(part(self.text, true, p)?.1), 1),
            10 => (Type::Slot(part(self.text, true, p)?.1), 1),
            _ => return Err(Bad),
        };
        self.deepest = self.deepest.max(depth);
        Ok((ty, depth))
    }

    fn name(&self, w: u32) -> Got<&'static str> {
        need(kind(w) == NAME)?;
        Ok(part(self.text, true, payload(w))?.1)
    }

    /// A type word of the pool, which later words may refer to.
    fn place(&mut self, at: usize, w: u32) -> Got<(Type<'static>, usize)> {
        let (ty, depth) = self.ty(w)?;
        self.types[at] = Some((self.arena.alloc(ty), depth));
        Ok((ty, depth))
    }

    fn read(&mut self, r: &mut Words<'_>) -> Got<()> {
        while r.left() > 0 {
            let at = r.at;
            let w = r.word()?;
            if kind(w) != 0 {
                self.place(at, w)?;
                continue;
            }
            let (mut fields, mut deepest) = (Vec::new(), 0);
            for _ in 0..w {
                let name = self.name(r.word()?)?;
                let (ty, depth) = self.place(r.at, r.word()?)?;
                deepest = deepest.max(depth);
                fields.push(Field { name, ty });
            }
            self.records[at] = Some((self.arena.alloc_slice(fields), deepest + 1));
        }
        Ok(())
    }
}

/// The slots of some types. Shared parts are looked at once.
fn slots_of<'s>(types: &[Type<'s>]) -> Vec<&'s str> {
    fn go<'s>(ty: &Type<'s>, seen: &mut HashSet<*const Type<'s>>, out: &mut Vec<&'s str>) {
        match ty {
            Type::Slot(slot) => out.push(slot),
            Type::Option(inner) | Type::Array(inner) => {
                if seen.insert(*inner) {
                    go(inner, seen, out);
                }
            }
            Type::Record(fields) => {
                for f in *fields {
                    if seen.insert(&f.ty) {
                        go(&f.ty, seen, out);
                    }
                }
            }
            _ => {}
        }
    }
    let (mut seen, mut out) = (HashSet::new(), Vec::new());
    types.iter().for_each(|t| go(t, &mut seen, &mut out));
    out
}

/// A function as the library gives it.
struct Raw {
    group: &'static str,
    with_slots: bool,
    arg_names: Vec<&'static str>,
    args: Vec<Type<'static>>,
    ret: Type<'static>,
}

fn function(pool: &mut Pool, r: &mut Words<'_>) -> Got<Raw> {
    let group = pool.name(r.word()?)?;
    let flag = r.word()?;
    need(flag < 2)?;
    let (mut arg_names, mut args) = (Vec::new(), Vec::new());
    for _ in 0..r.num()? {
        arg_names.push(pool.name(r.word()?)?);
        args.push(pool.ty(r.word()?)?.0);
    }
    let ret = pool.ty(r.word()?)?.0;
    let (have, want) = (slots_of(&args), slots_of(&[ret]));
    need(flag == 1 || have.is_empty())?;
    need(want.iter().all(|s| have.contains(s)))?;
    Ok(Raw {
        group,
        with_slots: flag == 1,
        arg_names,
        args,
        ret,
    })
}

fn never() {}

/// As in the original's packages: the members of a group of several have names of their own and
/// specialise the group.
fn original(raws: &[Raw], arena: &'static Bump) -> Got<Vec<Fn<'static>>> {
    let mut fns = Vec::new();
    for (i, raw) in raws.iter().enumerate() {
        let several = raws.iter().filter(|other| other.group == raw.group).count() > 1;
        need(!(several && raw.with_slots))?;
        let name: &'static str = if several {
            let own = format!("{}_{i}", raw.group);
            let bytes = arena.alloc_slice(own.into_bytes());
            std::str::from_utf8(bytes).map_err(|_| Bad)?
        } else {
            raw.group
        };
        fns.push(Fn {
            name,
            doc: "",
            ptr: never,
            pure: false,
            eval: None,
            arg_names: arena.alloc_slice(raw.arg_names.iter().copied()),
            args: arena.alloc_slice(raw.args.iter().copied()),
            ret: raw.ret,
            specialises: several.then_some(raw.group),
            with_slots: raw.with_slots,
            intrinsic: None,
            native: None,
        });
    }
    Ok(fns)
}

pub fn library(words: &[u32], text: &'static [u8], arena: &'static Bump) -> Got<Library> {
    need(words.len() <= MOST_WORDS && text.len() <= MOST_TEXT)?;
    let mut r = Words::new(words);
    let pool_len = r.num()?;
    let pkg_count = r.num()?;
    let mut pool_words = r.take(pool_len)?;
    let mut pool = Pool {
        text,
        arena,
        types: vec![None; pool_len],
        records: vec![None; pool_len],
        deepest: 0,
    };
    pool.read(&mut pool_words)?;

    let mut pkgs = Vec::new();
    for _ in 0..pkg_count {
        let name = pool.name(r.word()?)?;
        let mut raws = Vec::new();
        for _ in 0..r.num()? {
            raws.push(function(&mut pool, &mut r)?);
        }
        pkgs.push(Pkg {
            name,
            fns: arena.alloc_slice(original(&raws, arena)?),
        });
    }
    need(r.left() == 0)?;
    Ok(Library {
        pool_len,
        pkgs: arena.alloc_slice(pkgs),
        type_depth: pool.deepest,
    })
}
