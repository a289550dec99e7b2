//! Whether a case is in document 01's domain of equality, apart from its tokens (see `decode`).

use std::{alloc::Allocator, collections::HashMap};

use purple_garden_allocators::bump::Bump;
use purple_garden_frontend::{
    ast::{Ast, Node, NodeId, TypeExpr, TypeExprId},
    typemap::TypeMap,
};
use purple_garden_ir::{Fn, ptype::Type};

use crate::{
    check::Counts,
    decode::Library,
    packages::{Event, Found},
};

const MOST_TYPE_WORDS: usize = 8192;
const MOST_DIAGS: usize = 256;
const MOST_MESSAGE_BYTES: usize = 65536;
const MOST_TYPE_DEPTH: usize = 32;

/// A finished run.
pub struct Run<'r, A: Allocator> {
    pub ast: &'r Ast<'static, 'static>,
    pub lib: &'r Library,
    pub types: &'r TypeMap<'static, A>,
    pub visited: &'r [NodeId],
    pub events: &'r [Event<'r>],
    pub counts: &'r Counts,
}

/// A slotted function, and the type of each argument that it is given if that has one.
type Slotted<'r> = (&'static Fn<'static>, Vec<Option<&'r Type<'static>>>);

impl<'r, A: Allocator> Run<'r, A> {
    /// Why the run is outside: a Slot in an argument of a slotted function, or a run that isn't
    /// answered, since a limit is passed (refusals 7 to 9).
    pub fn outside(&self) -> Option<&'static str> {
        let calls = self.slotted_calls();
        if calls
            .iter()
            .any(|(_, args)| args.iter().flatten().any(|ty| has_slot(ty)))
        {
            return Some("slot");
        }
        if self.counts.type_words > MOST_TYPE_WORDS {
            return Some("types");
        }
        if self.type_depth(&calls) > MOST_TYPE_DEPTH {
            return Some("depth");
        }
        if self.counts.diags > MOST_DIAGS || self.counts.message_bytes > MOST_MESSAGE_BYTES {
            return Some("messages");
        }
        None
    }

    /// The visited calls of slotted functions with the right count.
    fn slotted_calls(&self) -> Vec<Slotted<'r>> {
        let mut calls = Vec::new();
        for event in self.events {
            if let Event::Call {
                finds: Found::Slotted(f),
                args,
            } = event
                && f.args.len() == args.len()
            {
                let ty = |&arg| self.types.get(self.ast.value_id(arg));
                calls.push((*f, args.iter().map(ty).collect()));
            }
        }
        calls
    }

    /// The depth of the deepest type that the library holds or the walk added.
    fn type_depth(&self, calls: &[Slotted<'r>]) -> usize {
        let slots = (0..self.types.slots()).filter_map(|slot| self.types.get(slot));
        let slots = slots.map(depth).max().unwrap_or(0);
        let calls = calls
            .iter()
            .map(|(f, args)| filled_depth(f, args))
            .max()
            .unwrap_or(0);
        self.lib
            .type_depth
            .max(slots)
            .max(calls)
            .max(self.written_depth())
    }

    /// The depth of the deepest type expression that a visited rule builds.
    fn written_depth(&self) -> usize {
        let mut depths = Vec::new();
        for ty in self.ast.types {
            let of = |id: &TypeExprId| depths[id.0] + 1;
            let depth: usize = match ty {
                TypeExpr::Atom(_) | TypeExpr::Foreign(_) => 1,
                TypeExpr::Option(inner) | TypeExpr::Array(inner) => of(inner),
                TypeExpr::Record { fields, .. } => {
                    fields.iter().map(|(_, ty)| of(ty)).max().unwrap_or(1)
                }
            };
            depths.push(depth);
        }
        let mut built = Vec::new();
        for &number in self.visited {
            match self.ast.node(number) {
                Node::Cast { rhs, .. } => built.push(*rhs),
                Node::Fn {
                    id,
                    args,
                    return_type,
                    ..
                } if self.types.get(*id).is_some() => {
                    built.push(*return_type);
                    built.extend(args.iter().map(|(_, ty)| *ty));
                }
                Node::Extern { fns, .. } => {
                    for f in *fns {
                        built.push(f.return_type);
                        built.extend(f.args.iter().map(|(_, ty)| *ty));
                    }
                }
                _ => {}
            }
        }
        built.iter().map(|ty| depths[ty.0]).max().unwrap_or(0)
    }
}

/// The depth of the deepest argument type of `f` once its slots are filled, by the Rust's own
/// `bind_slots` and `apply_slot_binding`.
fn filled_depth(f: &'static Fn<'static>, args: &[Option<&Type<'static>>]) -> usize {
    let mut bindings: HashMap<&'static str, Type<'static>> = HashMap::new();
    let arena = Bump::new();
    // SAFETY: what is placed in the arena is only measured below, while it lives
    let lasting = unsafe { std::mem::transmute::<&Bump, &'static Bump>(&arena) };
    let mut deepest = 0;
    for (expected, provided) in f.args.iter().zip(args) {
        if let Some(provided) = provided.filter(|ty| !ty.contains_unknown())
            && expected.bind_slots(provided, &mut bindings).is_ok()
        {
            deepest = deepest.max(depth(&expected.apply_slot_binding(&bindings, lasting)));
        }
    }
    deepest
}

/// Whether a type contains a Slot at any depth.
fn has_slot(ty: &Type<'_>) -> bool {
    match ty {
        Type::Slot(_) => true,
        Type::Option(inner) | Type::Array(inner) => has_slot(inner),
        Type::Record(fields) => fields.iter().any(|f| has_slot(&f.ty)),
        _ => false,
    }
}

/// The depth of a type: 1 with nothing inside.
fn depth(ty: &Type<'_>) -> usize {
    match ty {
        Type::Option(inner) | Type::Array(inner) => 1 + depth(inner),
        Type::Record(fields) => 1 + fields.iter().map(|f| depth(&f.ty)).max().unwrap_or(0),
        _ => 1,
    }
}
